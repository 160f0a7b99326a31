#!/usr/bin/env bash
# Builds the archive target/staticlib/libexports.a, compiles the example with warnings as errors, runs it and compares what it
# prints. On a fresh clone this is the one command for a host. The archive is the crate exports_c, under the name that hosts link.
set -eu
cd "$(dirname "$0")/.."
cc=$(command -v "${CC:-cc}" || command -v gcc || command -v clang) || { echo "c/build.sh: no C compiler found (set CC)" >&2; exit 1; }
(cd crates/exports_c && rt lib)
mkdir -p target/staticlib target/c
cp crates/exports_c/out/libexports_c.a target/staticlib/libexports.a
flags="-std=c11 -Wall -Wextra -Werror -pedantic -O2 -Ic"
for name in example guard; do
    "$cc" $flags -D_DEFAULT_SOURCE -o "target/c/$name" "c/$name.c" target/staticlib/libexports.a
done
target/c/example > target/c/example.stdout
cmp c/example.stdout target/c/example.stdout
echo "c/build.sh: target/staticlib/libexports.a built, the example prints what it must"
