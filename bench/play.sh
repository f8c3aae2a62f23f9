#!/usr/bin/env bash
# play.sh [PROGRAM]: with a PROGRAM that one is run, else zr_play is built, with its proofs.
#
# Runs scripts on devices in memory (crates/zr_play) and holds their answers, and the SHA-256 of what each leaves on its
# devices, against those of an independent model of the program: 203 of objects, three long days on larger devices, 300 in
# which devices are given up, and 300 in which pools go back to a checkpoint or to a recent group. Of these 600 the digests of
# the model's answers are kept. Last, the 300 with removals are run twice more: none of them may read of a device that is
# gone, and no removal may take more steps that copy than units were left to copy. The gate runs a few of each. README.md says
# how many agree today, and in what others differ.
set -u
top=$(cd "$(dirname "$0")/.." && pwd)
program=${1:-$top/crates/zr_play/out/zr_play}
if [ $# = 0 ]; then
  (cd "$top/crates/zr_play" && rt run < /dev/null > /tmp/zr-play.$$ 2>&1) || { cat /tmp/zr-play.$$ >&2; exit 70; }
fi
for name in '' days.; do
  time "$program" < "$top/bench/play/${name}stdin" > /tmp/zr-play.$$
  if cmp /tmp/zr-play.$$ "$top/bench/play/${name}stdout"; then
    echo "$(grep -c '^====' "$top/bench/play/${name}stdin") scripts: equal"
  else
    status=1
  fi
done
for kind in removals checkpoints; do
  python3 "$top/bench/play/generate.py" $kind > /tmp/zr-scripts.$$
  time "$program" < /tmp/zr-scripts.$$ > /tmp/zr-play.$$
  python3 "$top/bench/play/generate.py" sums < /tmp/zr-play.$$ > /tmp/zr-sums.$$
  if cmp /tmp/zr-sums.$$ "$top/bench/play/$kind.sums"; then echo "300 scripts with $kind: equal"; else status=1; fi
done
python3 "$top/bench/play/generate.py" reads > /tmp/zr-scripts.$$
time "$program" < /tmp/zr-scripts.$$ > /tmp/zr-play.$$
gone=$(grep -c '^gone ' /tmp/zr-play.$$)
none=$(grep -c '^reads: none on a device that is gone$' /tmp/zr-play.$$)
if [ "$none $gone" = "300 257" ]; then
  echo "300 scripts with removals: no read of a device that is gone, of which there are $gone"
else
  echo "scripts with removals: $none of 300 have no read of a device that is gone; $gone devices are gone, not 257" >&2
  status=1
fi
python3 "$top/bench/play/generate.py" copies > /tmp/zr-scripts.$$
time "$program" < /tmp/zr-scripts.$$ > /tmp/zr-play.$$
counted=$(awk '/^copies: / { scripts++; within += $2; all += $4 } END { print scripts, within, all }' /tmp/zr-play.$$)
if [ "$counted" = "300 299 299" ]; then
  echo "300 scripts with removals: of 299 removals none takes more steps than units were left"
else
  echo "scripts with removals: $counted are scripts, removals with no more steps than units were left, and removals; not 300 299 299" >&2
  status=1
fi
rm -f /tmp/zr-play.$$ /tmp/zr-scripts.$$ /tmp/zr-sums.$$
exit ${status:-0}
