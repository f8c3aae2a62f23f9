#!/usr/bin/env bash
# Looks up what the documents name: each file and folder, each crate of crates.txt in README.md and docs/ARCHITECTURE.md and
# the other way round, and each definition of the tables of docs/PROOF.md in its crate. It prints what is not there.
set -u
cd "$(dirname "$0")/.." || exit 1
missing=0

tell() {
  echo "$1"
  missing=$((missing + 1))
}

documents="README.md docs/*.md docs/zr.8 bench/README.md examples/README.md"

# Paths that are written out from the top, in text, in code and in links.
for document in $documents; do
  for path in $(grep -oE '(docs|bench|examples|crates)/[A-Za-z0-9_./-]*' "$document" | sed 's/[.]*$//' | sort -u); do
    [ -e "$path" ] || tell "$document names $path"
  done
  for target in $(grep -oE '\]\([^)#]+' "$document" | sed 's/^](//' | sort -u); do
    [ -e "$(dirname "$document")/$target" ] || tell "$document links to $target"
  done
done

# Scripts of the table of examples.
for name in $(sed -n 's/^| `\([a-z]*\)` |.*/\1/p' examples/README.md); do
  [ -e "examples/$name.zr" ] && [ -e "examples/$name.out" ] || tell "examples/README.md names the script $name"
done
for script in examples/*.zr; do
  grep -q "^| \`$(basename "$script" .zr)\` |" examples/README.md || tell "examples/README.md does not name $script"
done

# The README's day: its lines are lines of the example, and its answers are answers of it.
while IFS= read -r row; do
  line=$(echo "${row:4:42}" | sed 's/ *$//')
  answer=${row:46}
  [ -z "$line" ] || grep -qxF -- "$line" examples/day.zr || tell "README.md has a day with the line $line"
  grep -qxF -- "$answer" examples/day.out || tell "README.md has a day with the answer $answer"
done < <(sed -n '/^## A day/,/^## What/p' README.md | grep '^    ')

# Crates.
crates=$(sed -n 's/^\([a-z_0-9]*\)[ :].*/\1/p' crates.txt | sort -u)
for crate in $crates; do
  for document in README.md docs/ARCHITECTURE.md; do
    grep -qw "$crate" "$document" || tell "$document does not name $crate"
  done
done
for crate in $(cat $documents | grep -oE '\bzr_[a-z_0-9]+' | sort -u); do
  [ -d "crates/$crate" ] || tell "the documents name $crate"
done

# Definitions: each word of the first column of a row stands in the crate, or, where the row names none, in any.
while IFS='|' read -r _ words place _; do
  crate=$(echo "$place" | grep -oE 'zr_[a-z_]+' | head -n 1)
  for word in $(echo "$words" | grep -oE '`[A-Za-z_]+`' | tr -d '`'); do
    grep -rqw -- "$word" crates/${crate:-*}/specs crates/${crate:-*}/src || tell "docs/PROOF.md has $word ($place)"
  done
done < <(grep -E '^\| `' docs/PROOF.md)

# Functions that the documents name as CRATE::NAME, and words of the README's table of crates.
for pair in $(cat $documents | grep -oE 'zr_[a-z_]+::[a-z_]+' | sort -u); do
  grep -rqw -- "${pair##*::}" "crates/${pair%%::*}" --include='*.rt' || tell "the documents name $pair"
done
while IFS='|' read -r _ crate text _; do
  crate=$(echo "$crate" | tr -d '` ')
  for word in $(echo "$text" | grep -oE '`[A-Za-z_]{3,}`' | tr -d '`'); do
    [ -d "crates/$word" ] && continue
    grep -rqw -- "$word" "crates/$crate/specs" "crates/$crate/src" "crates/$crate/proofs" 2> /dev/null ||
      grep -rqw -- "$word" crates/*/specs crates/*/src || tell "README.md has $word ($crate)"
  done
done < <(grep -E '^\| `zr_' README.md)

[ "$missing" -eq 0 ] && echo "all that the documents name is there"
