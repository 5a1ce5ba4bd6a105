#!/usr/bin/env bash
# Each target for so many seconds: by libFuzzer where clang has it, else by fuzz/mutate.c. Called by make fuzz.
set -euo pipefail
cd "$(dirname "$0")/.."
T=target/fuzz
seconds=$1
for target in volume label index form rows ansi; do
    # shellcheck disable=SC2086
    if clang -std=c11 -D_GNU_SOURCE $CFLAGS -Iinclude -Isample -Itest -fsanitize=fuzzer,address,undefined fuzz/$target.c fuzz/counters.c \
        sample/sample.c target/libklapouzen.a -o $T/${target}_libfuzzer 2> $T/clang.log; then
        echo "$target, libFuzzer; its corpus: $($T/${target}_mutate $T/corpus/$target 0)"
        mkdir -p $T/found/$target
        $T/${target}_libfuzzer -max_total_time="$seconds" -max_len=2000000 -print_final_stats=1 \
            -artifact_prefix=$T/ $T/found/$target $T/corpus/$target 2>&1 | tail -n 9
    else
        echo "$target, fuzz/mutate.c ($T/clang.log says why not libFuzzer):"
        $T/${target}_mutate $T/corpus/$target "$seconds"
    fi
done
