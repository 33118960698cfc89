#!/bin/sh
# rows.sh NAME WORD: ratios beyond the check
cd /work/main; taskset -c 1 /work/proto/bench-$1 $2 2>&1 | awk -F'|' 'NF>10 && $3>0{printf "%s/%s %s(%s) ", $3+0,$4+0,$12+0,$10+0} END{print ""}'
