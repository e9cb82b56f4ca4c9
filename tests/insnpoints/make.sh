#!/bin/sh
# Makes what the program insnpoints reads and must write from points.s. LLVM assembles it, and LLVM's disassembly is the text,
# less the slot's number before each line and the label after a jump. `LLVM=-19 ./make.sh` runs llvm-mc-19 and so on.
set -eu
cd "$(dirname "$0")"
crate=../../crates/insnpoints
work=$(mktemp -d)
trap 'rm -r "$work"' EXIT

"llvm-mc${LLVM-}" -triple bpfel -filetype=obj -o "$work/points.o" points.s
"llvm-objcopy${LLVM-}" -O binary --only-section=.text "$work/points.o" "$crate/stdin"
"llvm-objdump${LLVM-}" -d "$work/points.o" | sed -nE '/^ *[0-9]+:\t/ { s/^ *[0-9]+:\t//; s/ <[^>]*>$//; p }' > "$crate/stdout"
