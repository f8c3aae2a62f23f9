#!/bin/sh
# How many script lines a second the built program answers, beside the time that `wc -l` takes for the same file.
# Build it first: `rt run` in crates/zr_cli. The number of lines is the first argument, or 1,000,000.
set -eu
lines=${1:-1000000}
program=$(cd "$(dirname "$0")/../crates/zr_cli/out" && pwd)/zr_cli
folder=$(mktemp -d)
trap 'rm -rf "$folder"' EXIT
cd "$folder"
{
    printf 'create p 1 a\nmake 1 1\nwrite 1 0 616263\n'
    yes 'read 1 0 3' | head -n "$lines"
} > script
seconds() {
    begin=$(date +%s%N)
    "$@" < script > answers
    end=$(date +%s%N)
    echo $((end - begin))
}
took=$(seconds "$program" a:8388608)
test "$(tail -n 1 answers)" = 'data 616263'
counted=$(seconds wc -l)
echo "zr: $((lines * 1000000000 / took)) lines a second ($((took / 1000000)) ms)"
echo "wc -l: $((lines * 1000000000 / counted)) lines a second ($((counted / 1000000)) ms)"
