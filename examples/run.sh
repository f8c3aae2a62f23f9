#!/usr/bin/env bash
# Runs each example, in a fresh folder or behind the one before it, and compares what it is answered with the answers beside
# it. ZR, if set, is a command that is run in the place of ./zr.
set -u
here=$(cd "$(dirname "$0")" && pwd)
wrong=0
folder=

zr() {
  if [ -n "${ZR:-}" ]; then $ZR "$@"; else "$here/../zr" "$@"; fi
}

# begin: a fresh folder, for the example that follows and those that go on with its devices.
begin() {
  [ -z "$folder" ] || rm -rf "$folder"
  folder=$(mktemp -d)
}

# example NAME DEV..: NAME.zr on these devices is answered as NAME.out has it, and ends with status 0.
example() {
  name=$1
  shift
  (cd "$folder" && zr "$@" < "$here/$name.zr" > answers)
  status=$?
  if [ "$status" -eq 0 ] && diff "$here/$name.out" "$folder/answers"; then
    echo "$name: as it should be"
  else
    echo "$name: WRONG, status $status"
    wrong=$((wrong + 1))
  fi
}

trap 'rm -rf "$folder"' EXIT
begin
example first disk:8388608
example again disk
begin
example objects disk:8388608
example lost disk
begin
example add a:8388608 b:16777216 c:1048576
begin
example full disk:8388608
begin
example out a:8388608 b:8388608
example in b a
example missing b
begin
example checkpoint disk0:8388608 disk1:8388608
begin
example upgrade disk:8388608
begin
example rewind disk0:8388608 disk1:8388608 disk2:16777216
begin
example day disk0:8388608 disk1:8388608 disk2:16777216
begin
example mistake disk0:16777216 disk1:16777216
rm "$folder/disk1"
example without disk0
[ "$wrong" -eq 0 ]
