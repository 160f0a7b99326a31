#!/bin/sh
# Measures the port beside the given Rust, in one program: ratios of times, or with --count of instructions (callgrind's, which
# hold still on a busy machine). Builds all that it needs, in target/bench; nothing of the given text stays in the repository.
#   bench/run.sh [--count] [--spaced] [--port DIR]
# --spaced doesn't have the Rust's tables a power of two apart, so that the Rust is faster than it would be.
# --port DIR measures the crates of another working tree of this repository.
# MMTK_SRC names the folder of the given Rust, if it isn't ../shared/docs/src beside the repository.
# The port is compiled as it is released (-O3) and not proved here. The Rust is compiled without assertions, so that it is at
# its best: linked as one module, with every call inlined that can be, and loops that start at a cache line.
set -eu

fail() { echo "bench/run.sh: $*" >&2; exit 1; }

here=$(cd "$(dirname "$0")" && pwd)
top=$(dirname "$here")
port=$top
count=
spaced=
while [ $# -gt 0 ]; do
    case $1 in
    --count) count=1 ;;
    --spaced) spaced="--cfg spaced" ;;
    --port) [ $# -ge 2 ] || fail "--port takes a folder"; port=$(cd "$2" && pwd); shift ;;
    *) fail "usage: bench/run.sh [--count] [--spaced] [--port DIR]" ;;
    esac
    shift
done
given=${MMTK_SRC:-$top/../shared/docs/src}
out=$top/target/bench

for tool in rustc rt ${count:+valgrind}; do
    command -v $tool >/dev/null 2>&1 || fail "$tool is missing"
done
[ -d "$given/src" ] || fail "the given Rust isn't at $given: set MMTK_SRC to the folder that holds its src/"
[ -d "$port/crates/native_ms/src" ] || fail "$port has no crates/native_ms"
# The copies of the port are compiled without proof, by rattle-cases of rattle-kit-5b-plain. rattle-kit-13f has nothing that does so: it
# compiles only what is proved, and neither the functions of port.txt nor the copy `bare` is.
kit=$(dirname "$(dirname "$(rt doc)")")
own=$kit/on/$(uname -m)
[ -x "$own/bin/rattle-cases" ] || fail "this toolchain compiles only what is proved, and the bench's copies of the port are not (docs/SPEED.md)"

rm -rf "$out"
mkdir -p "$out/lib"

# ---- the port: a copy of native_ms in which all is visible, with the functions of port.txt. In the copy `bare` the calls don't
# test what is lent.
compile_port() { # NAME
    $own/bin/rattle-cases --toolchain "$own/toolchain" --staticlib "$out/lib/lib$1.a" "$out/$1/native_ms/src/lib.rt" \
        --crate-name native_ms --lib "std=$kit/libs/std/src/lib.rt" --lib "model=$out/$1/model/src/lib.rt" \
        --lib "laws=$out/$1/laws/src/lib.rt" --lib "words=$out/$1/words/src/lib.rt" || fail "the port ($1) isn't compiled"
}
for name in port bare; do
    for crate in model laws words native_ms; do
        mkdir -p "$out/$name/$crate"
        cp -R "$port/crates/$crate/src" "$out/$name/$crate/src"
    done
    find "$out/$name" -name '*.rt' -exec sed -i 's/^fn /pub(crate) fn /' {} +
    sed -i -e 's/^pub struct Params/#[repr(C)]\n&/' -e 's/^pub struct Row /#[repr(C)]\n&/' "$out/$name/model/src/lib.rt"
    sed "s/fn port_/fn ${name}_/" "$here/port.txt" >"$out/$name/native_ms/src/bench_port.rt"
    echo 'pub mod bench_port;' >>"$out/$name/native_ms/src/lib.rt"
done
checks=$out/bare/native_ms/src/checks.rt
sed -i '/^pub(crate) fn check_lent(/,/^}/ s/^{$/{\n    return Ok(());/' "$checks"
[ "$(sed -n '/^pub(crate) fn check_lent(/,/^}/p' "$checks" | grep -c '^    return Ok(());')" = 1 ] || fail "checks.rt has no check_lent of its known form"
compile_port port
compile_port bare

# ---- the Rust: the files that the oracle compiles, and its stand-ins, but for those of the bench
eval "$(sed -n '/^files="/,/"$/p' "$top/oracle/build.sh")"
cp -R "$top/oracle/standins/src" "$out/src"
for f in $files; do
    [ -f "$given/src/$f" ] || fail "the given Rust has no src/$f"
    mkdir -p "$out/src/$(dirname "$f")"
    cp "$given/src/$f" "$out/src/$f"
    chmod u+w "$out/src/$f"
done
cp "$here/binding.rs" "$here/calls.rs" "$out/src/"

best="-C opt-level=3 -C llvm-args=-inline-threshold=1000 -C llvm-args=-align-loops=64"
build() { rustc --edition 2021 $best -L "$out/lib" "$@" || fail "rustc failed on: $*"; }

build --crate-name edit -o "$out/lib/edit" "$top/oracle/tools/edit.rs"
"$out/lib/edit" "$here/edits.txt" "$out/src"
build --out-dir "$out/lib" --check-cfg "cfg(spaced)" $spaced --crate-name lent --crate-type rlib "$here/lent.rs"
build --out-dir "$out/lib" --crate-name outside --crate-type rlib "$top/oracle/standins/outside.rs"
build --out-dir "$out/lib" --crate-name bytemuck --crate-type proc-macro "$top/oracle/standins/bytemuck.rs"
names="--extern lent=$out/lib/liblent.rlib --extern bytemuck=$(ls "$out"/lib/*bytemuck.*)"
for crate in outside atomic atomic_traits num_traits downcast_rs cfg_if; do
    names="$names --extern $crate=$out/lib/liboutside.rlib"
done
for log in 12 16; do
    crate="--out-dir $out/lib --crate-type rlib --cap-lints allow --cfg block$log $names $out/src/lib.rs"
    build --crate-name ms$log $crate
    build --crate-name eager$log --cfg 'feature="eager_sweeping"' $crate
done
build -C lto=fat -C codegen-units=1 --extern lent="$out/lib/liblent.rlib" --extern ms12="$out/lib/libms12.rlib" \
    --extern ms16="$out/lib/libms16.rlib" --extern eager12="$out/lib/libeager12.rlib" --extern eager16="$out/lib/libeager16.rlib" -l static=port -l static=bare --crate-name bench -o "$out/bench" "$here/main.rs"

# ---- the table
commit=$(git -C "$port" log -1 --format='%h of %cs' -- crates 2>/dev/null || echo "no commit")
[ -z "$(git -C "$port" status --porcelain -- crates 2>/dev/null)" ] || commit="$commit, with changes"
echo "Processor: $(sed -n 's/^model name[^:]*: //p' /proc/cpuinfo | head -n 1). Code: $commit."
if [ -n "$count" ]; then
    mkdir "$out/count"
    valgrind -q --tool=callgrind --callgrind-out-file="$out/count/out" "$out/bench" --count "$out/count/out"
else
    "$out/bench"
fi
