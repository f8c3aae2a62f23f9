#!/usr/bin/env bash
# What the program answers at its edges: to words that are no command line, to an empty script, to a line that is none, and
# where an object ends. Each case has a fresh folder; ZR, if set, is a command that is run in the place of ./zr.
set -u
here=$(cd "$(dirname "$0")" && pwd)
wrong=0

zr() {
  if [ -n "${ZR:-}" ]; then $ZR "$@"; else "$here/../zr" "$@"; fi
}

# edge NAME STATUS SCRIPT ANSWERS WORD..: the script on these words is answered so, and the program ends with this status.
edge() {
  name=$1 status=$2 script=$3 answers=$4
  shift 4
  folder=$(mktemp -d)
  told=$(cd "$folder" && printf "$script" | zr "$@" 2> errors; echo "status $?")
  if [ "$told" = "$(printf "${answers}status %s" "$status")" ] && [ ! -s "$folder/errors" ]; then
    echo "$name: as it should be"
  else
    echo "$name: WRONG: $told"
    wrong=$((wrong + 1))
  fi
  [ "$status" -ne 1 ] || [ -z "$(ls -A "$folder" | grep -v '^errors$')" ] || { echo "$name: WRONG: a device was made"; wrong=$((wrong + 1)); }
  rm -rf "$folder"
}

# The program is there before anything is said on standard error.
zr > /dev/null 2>&1

edge 'three bytes' 0 'create p 1 a\nmake 1 1\nwrite 1 0 616263\nread 1 0 3\n' 'ok\nok\nok\ndata 616263\n' a:8388608
edge 'an empty script' 0 '' '' a:8388608
edge 'what was never written' 0 'create p 1 a\nmake 1 1\nwrite 1 0 616263\nread 1 5 4\n' 'ok\nok\nok\ndata 00000000\n' a:8388608
edge 'the end of an object' 0 'create p 1 a\nmake 1 1\nwrite 1 137438953471 ff\nread 1 137438953471 1\nwrite 1 137438953472 ff\n' \
  'ok\nok\nok\ndata ff\nrefused 5 out of range\n' a:8388608
edge 'no words' 1 '' ''
edge 'a device twice' 1 '' '' a a
edge 'a path that is none' 1 '' '' 'a b:8388608'
edge 'an option that is none' 1 '' '' --help
edge 'a policy that is none' 1 '' '' --policy worst a:8388608
edge 'a line that is none' 5 'frob\n' 'bad line 1\n' a:8388608
edge 'a line that breaks off' 5 'create p 1 a\nmake 1' 'ok\nbad line 2\n' a:8388608
edge 'a device that is not there' 7 '' '' a
[ "$wrong" -eq 0 ]
