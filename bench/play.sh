#!/usr/bin/env bash
# Times the program `play` on a full file at N=15, m=3 beside the second program, each reading the file from standard input:
# the median of five runs in microseconds. Called by bench/run with the two commands.
set -euo pipefail
play=$1 second=$2 out=$3
python3 - >"$out/full.hex" <<'P'
from itertools import permutations
print("010F03080000077000")
count = 0
for k in range(1, 5):
    for route in permutations(range(1, 15), k):
        print("02%02X%s%04X" % (k, "".join("%02X" % x for x in route), 7 + count % 3))
        count += 1
print("03%04X" % count)
P
for side in play second; do
  [ $side = play ] && command=$play || command="$second play"
  for _ in 1 2 3 4 5; do
    start=$(date +%s%N)
    $command <"$out/full.hex" >"$out/full.$side"
    echo $((($(date +%s%N) - start) / 1000))
  done | sort -n | sed -n 3p >"$out/time.$side"
done
cmp "$out/full.play" "$out/full.second"
lines=$(wc -l <"$out/full.hex")
bytes=$(wc -c <"$out/full.hex")
printf '\n| full file | play, us | second program, us |\n|---|---|---|\n| %s lines, %s bytes | %s | %s |\n' \
  "$lines" "$bytes" "$(cat "$out/time.play")" "$(cat "$out/time.second")"
