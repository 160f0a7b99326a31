#!/usr/bin/env bash
# Times calls through the exports beside the inner calls (bench/exports.c). The inner calls become C functions in a copy of the
# repository, since nothing but the eight exports is a C function here. Needs target/staticlib/libexports.a (c/build.sh).
set -eu
top=$(cd "$(dirname "$0")/.." && pwd)
cc=$(command -v "${CC:-cc}" || command -v gcc || command -v clang) || { echo "bench/exports.sh: no C compiler found (set CC)" >&2; exit 1; }
exports=$top/target/staticlib/libexports.a
[ -f "$exports" ] || { echo "bench/exports.sh: run c/build.sh first" >&2; exit 1; }
room=$(mktemp -d)
trap 'rm -rf "$room"' EXIT
tar -C "$top" --no-wildcards-match-slash --exclude='crates/*/out' -cf - crates crates.txt | tar -C "$room" -xf -
mkdir -p "$room/crates/inner/src"
cp "$top/bench/inner.txt" "$room/crates/inner/src/lib.rt"
echo "inner staticlib: model native_ms calls" >> "$room/crates.txt"
(cd "$room/crates/inner" && rt lib) > "$room/log" 2>&1 || { tail "$room/log"; exit 1; }
cd "$room"
"$cc" -std=c11 -Wall -Wextra -Werror -O2 -D_DEFAULT_SOURCE -I"$top/c" -o exports "$top/bench/exports.c" crates/inner/out/libinner.a "$exports"
./exports
