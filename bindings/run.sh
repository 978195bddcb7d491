#!/usr/bin/env bash
# Compiles and runs the examples and tests of the C header and of the Rust crate. Fails unless the examples print what documents 01 and 02 say.
# `HOURS_ARCHIVE` names the folder of libhours.a; without it, that of `bindings/archive.sh`, which makes the archive if it is missing.
set -euo pipefail
cd "$(dirname "$0")/.."

strict=(-Wall -Wextra -Wpedantic -Werror -Iinclude)
manifest=bindings/rust/Cargo.toml
programs=target/bindings
folded='code 0 drained 1 emitted 1 left 0 bytes 15 place 0 why 0
00010000000000000000040005A000'
line='Mo,We-Fr 10:00-18:00; Tu 10:00-12:00,13:00-18:00'
moved='200000100000000000000000000010001680
00010000000000000000040005A000'

expect() {
    local name=$1 expected=$2 printed
    shift 2
    printed=$("$@")
    if [ "$printed" != "$expected" ]; then
        printf '%s printed:\n%s\nbut the documents say:\n%s\n' "$name" "$printed" "$expected" >&2
        exit 1
    fi
    echo "$name: printed as the documents say"
}

if [ -z "${HOURS_ARCHIVE:-}" ] && [ ! -f target/staticlib/libhours.a ]; then
    bindings/archive.sh
fi
HOURS_ARCHIVE=$(realpath "${HOURS_ARCHIVE:-target/staticlib}")
export HOURS_ARCHIVE
archive=$HOURS_ARCHIVE/libhours.a
mkdir -p "$programs"

gcc -std=c11 "${strict[@]}" bindings/c/example.c "$archive" -o "$programs/example"
expect 'the C example of a fold' "$folded" "$programs/example"

gcc -std=c11 "${strict[@]}" bindings/c/line.c "$archive" -o "$programs/line"
expect 'the C example of a line' "$line" "$programs/line"

gcc -std=c11 "${strict[@]}" bindings/c/convert.c "$archive" -o "$programs/convert"
expect 'the C example of a conversion' "$moved" "$programs/convert"

for test in test large lists; do
    gcc -std=c11 "${strict[@]}" "bindings/c/$test.c" "$archive" -o "$programs/$test"
    "$programs/$test"
    g++ -std=c++11 "${strict[@]}" -x c++ "bindings/c/$test.c" -x none "$archive" -o "$programs/$test++"
    "$programs/$test++"
    echo "the C tests of $test.c, as C and as C++: passed"
done

expect 'the Rust example of a fold' "$folded" cargo run --quiet --manifest-path "$manifest" --example fold
expect 'the Rust example of a line' "$line" cargo run --quiet --manifest-path "$manifest" --example line
expect 'the Rust example of a conversion' "$moved" cargo run --quiet --manifest-path "$manifest" --example convert
cargo test --quiet --manifest-path "$manifest"
echo 'the Rust tests: passed'
