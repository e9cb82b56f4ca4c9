#!/bin/sh
# Proves the library for C and makes target/staticlib/libshurtenbo.a, which include/shurtenbo.h declares.
set -eu
cd "$(dirname "$0")/.."
(cd crates/shurtenbo_c && rt lib)
mkdir -p target/staticlib
made=crates/shurtenbo_c/out/libshurtenbo_c.a
wanted=target/staticlib/libshurtenbo.a
cmp -s "$made" "$wanted" || cp "$made" "$wanted"
