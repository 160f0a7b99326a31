#!/usr/bin/env bash
# The programs where a read or a write fails, and the census where a trace has a rest: what each says on standard error, and
# what it still prints. The gate compares standard output only, so this is run by hand.
# Use: open.sh BIN    the folder of the built programs, target/bin after tools/programs
set -u
bin=$(cd "$1" && pwd)
top=$(cd "$(dirname "$0")/../.." && pwd)
room=$(mktemp -d)
trap 'rm -rf "$room"' EXIT
failed=0

# tried NAME OUT ERR: the command's standard output is the file OUT (- if it went elsewhere), its standard error the line ERR
tried() {
    if [ "$2" != - ] && ! cmp -s "$2" "$room/out"; then
        echo "$1: standard output differs"; failed=1
    elif [ "$(cat "$room/err")" != "$3" ]; then
        echo "$1: standard error differs: $(cat "$room/err")"; failed=1
    else
        echo "$1: $3"
    fi
}

listing() { python3 "$top/oracle/census/listing.py" < "$1" > "$1.listing"; }

: > "$room/empty"
printf 'b 1\na 1 1024 8 0 2' > "$room/trace"
printf 'b 1\n%.0s' $(seq 256) > "$room/256"
{ cat "$room/256"; echo 'b 1'; } > "$room/257"
{ echo 'b 1'; head -c 16380 /dev/zero; } > "$room/16384"
{ cat "$room/16384"; echo; } > "$room/16385"
for f in trace 256 257 16384 16385; do listing "$room/$f"; done
in="standard input can't be read"
out="standard output can't be written"
rest="census: the trace has more than 16,384 bytes or 256 lines; the rest is unread"

for f in trace 256 16384; do
    "$bin/census" < "$room/$f" > "$room/out" 2> "$room/err"; tried "census, $f" "$room/$f.listing" ""
done
for f in 257 16385; do
    "$bin/census" < "$room/$f" > "$room/out" 2> "$room/err"; tried "census, $f" "$room/$f.listing" "$rest"
    "$bin/census" < "$room/$f" > /dev/full 2> "$room/err"; tried "census, $f to a full device" - "census: $out"$'\n'"$rest"
done

# each program that reads: closed, and a folder
for p in census script census_samples exports_samples; do
    "$bin/$p" <&- > "$room/out" 2> "$room/err"; tried "$p, input closed" "$room/empty" "$p: $in"
    "$bin/$p" < "$room" > "$room/out" 2> "$room/err"; tried "$p, input a folder" "$room/empty" "$p: $in"
done

# each program: a full device, and closed
for p in census script census_samples exports_samples size_answers; do
    from=$top/crates/$p/stdin
    [ -f "$from" ] || from=/dev/null
    "$bin/$p" < "$from" > /dev/full 2> "$room/err"; tried "$p, to a full device" - "$p: $out"
    "$bin/$p" < "$from" >&- 2> "$room/err"; tried "$p, output closed" - "$p: $out"
    "$bin/$p" < "$from" > "$room/out" 2> "$room/err"; tried "$p, its own sample" "$top/crates/$p/stdout" ""
done

head -c 1000 "$top/crates/census_samples/stdin" > "$room/cut"
"$bin/census_samples" < "$room/cut" > /dev/null 2> "$room/err"
tried "census_samples, cut off" - "census_samples: a sample is cut off or too long"
exit $failed
