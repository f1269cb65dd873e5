#!/bin/sh
# All tests: cargo's, a build by rustc alone, and garbage through the program.
set -eu
cd "$(dirname "$0")"

cargo test --quiet
cargo build --quiet
mkdir -p target
rustc -O --edition 2021 -o target/model-rustc src/main.rs

scratch=$(mktemp -d)
trap 'rm -rf "$scratch"' EXIT

# Any bytes: both builds end well and print the same; the one by cargo
# build stops at an overflow, the one by rustc -O does not.
for size in 0 1 2 5 10 100 1000 10000 100000 1048575 1048576 1048577 3000000; do
    for letters in all some; do
        if [ "$letters" = all ]; then
            head -c "$size" /dev/urandom > "$scratch/script"
        else
            head -c $((size * 26 + 1000)) /dev/urandom | LC_ALL=C tr -dc 'KLPQRTW' | head -c "$size" > "$scratch/script"
        fi
        target/debug/model < "$scratch/script" > "$scratch/debug"
        target/model-rustc < "$scratch/script" > "$scratch/release"
        cmp "$scratch/debug" "$scratch/release"
    done
done

# One byte over the limit is a bad script, and no more is said.
head -c 1048577 /dev/zero | tr '\0' P | target/model-rustc > "$scratch/over"
printf 'bad script\n' | cmp - "$scratch/over"

# The trace of a powered-up chip, to the byte.
printf 'P' | target/model-rustc > "$scratch/power"
{
    printf 'P 0\nC'
    for n in $(seq 69); do
        if [ "$n" = 28 ]; then printf ' 8191'; else printf ' 0'; fi
    done
    printf '\n'
} | cmp - "$scratch/power"

echo "all tests passed"
