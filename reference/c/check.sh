#!/bin/sh
# Compares the C twin with the Rust reference: the bench program on every case,
# as it is and with restraint 15, and single calls on a random trace, built
# plainly and with sanitizers. The trace has to have each refusal of the strongest
# window 100 times, and 7, 8 and 9 frames of it as often; and each fault of the
# generator 100 times, alone and with others, where it is not long. The C bench program
# prints nothing if its input is a folder, closed, or not open for reading.
set -eu
here=$(cd "$(dirname "$0")/.." && pwd)
cd "$here"
compiler=${CC:-cc}
target=${CARGO_TARGET_DIR:-target}
out=$target/c
mkdir -p "$out"
cargo build --release --offline --locked --quiet
reference=$target/release/reference
rm -rf "$out/cases"
"$reference" cases "$out/cases"
for capture in "$out"/cases/*.p6k; do
    "$reference" played 15 < "$capture" > "${capture%.p6k}.15"
done
"$reference" trace 250000 > "$out/trace"

strict="-std=c11 -D_POSIX_C_SOURCE=200809L -Wall -Wextra -Wpedantic -Wconversion -Werror"
for build in "-O2" "-O3 -march=native" "-O1 -g -fsanitize=address,undefined -fno-sanitize-recover=all"; do
    $compiler $strict $build -Ic c/relay.c c/bench.c -o "$out/bench"
    $compiler $strict $build -Ic c/relay.c c/check.c -o "$out/check"
    count=0
    for capture in "$out"/cases/*.p6k; do
        "$out/bench" < "$capture" > "$out/text"
        cmp "$out/text" "${capture%.p6k}.txt"
        "$out/bench" 15 < "$capture" > "$out/text"
        cmp "$out/text" "${capture%.p6k}.15"
        count=$((count + 1))
    done
    for level in "" 15; do
        "$out/bench" $level > "$out/text" 2>&1 < c && { echo "$build: a folder is read"; exit 1; }
        cmp "$out/text" /dev/null
        "$out/bench" $level > "$out/text" 2>&1 <&- && { echo "$build: a closed input is read"; exit 1; }
        cmp "$out/text" /dev/null
        "$out/bench" $level > "$out/text" 2>&1 0> /dev/null && { echo "$build: an output is read"; exit 1; }
        cmp "$out/text" /dev/null
    done
    calls=$("$out/check" 100 < "$out/trace") || { echo "$build: $calls"; exit 1; }
    echo "$build: $count bench texts agree, with and without restraint, $calls"
done
