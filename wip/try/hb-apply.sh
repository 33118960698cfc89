#!/bin/sh
# Applies the renaming to the tree in the current folder: names, then lines over 110 columns, then the layout.
set -e
python3 /work/hb-rename.py .
for i in 1 2 3; do
    F=$(python3 -c "
import glob
for f in glob.glob('crates/**/*.rt',recursive=True)+glob.glob('crates/**/*.antt',recursive=True):
    if any(len(l.rstrip('\n'))>110 for l in open(f)): print(f)")
    [ -n "$F" ] && python3 /work/hb-wrap.py $F
    rt fmt
done
