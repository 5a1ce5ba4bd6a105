#!/usr/bin/env bash
# Runs every test of the host, two at a time; the last line says how many passed. Called by make test.
set -u
cd "$(dirname "$0")/.." || exit 2
T=target
CC=${CC:-cc}
CASES=${CASES:-10000}
LOGS=$T/test/logs
rm -rf $LOGS
mkdir -p $LOGS
names=()

# start NAME COMMAND..: beside the others, JOBS (2) at a time; its output and its status in files of its own.
start() {
    local log=$LOGS/${#names[@]}
    names+=("$1")
    shift
    while [ "$(jobs -pr | wc -l)" -ge "${JOBS:-2}" ]; do
        wait -n
    done
    { "$@" > "$log" 2>&1; echo $? > "$log.status"; } &
}

# All of them in the order in which they were started; the status is 0 where every one's was.
finish() {
    local i passed=0 failed=0
    wait
    for i in "${!names[@]}"; do
        if [ "$(cat $LOGS/"$i".status)" = 0 ]; then
            passed=$((passed + 1))
            echo "ok      ${names[i]}$(tail -n 1 $LOGS/"$i" | sed 's/^./: &/')"
        else
            failed=$((failed + 1))
            echo "FAILED  ${names[i]}"
            cat $LOGS/"$i"
        fi
    done
    echo "host: $passed passed, $failed failed"
    [ $failed -eq 0 ]
}

header_alone() { # compiler words..
    echo '#include "klapouzen.h"' | "$@" -Wall -Wextra -pedantic -Werror -Iinclude -fsyntax-only -
}

# A program outside the tree, with what pkg-config would give it.
installed() {
    local at=$PWD/$T/test/installed
    rm -rf "$at"
    env -u MAKEFLAGS make -s install PREFIX="$at" > /dev/null || return 1
    local flags
    flags=$(sed -n "s|\${prefix}|$at|g; s|\${libdir}|$at/lib|; s|\${includedir}|$at/include|; s|^Cflags: ||p; s|^Libs: ||p" \
        "$at/lib/pkgconfig/klapouzen.pc" | sort | tr '\n' ' ')
    cat > "$at/one.c" <<'END'
#include <klapouzen.h>
#include <stdio.h>
int main(void)
{
    uint64_t count;
    uint64_t refusal = klapouzen_check_list(NULL, 0, NULL, 0, &count);
    printf("%s\n", klapouzen_refusal_text(refusal));
    return refusal != 0;
}
END
    # shellcheck disable=SC2086
    $CC -std=c11 "$at/one.c" $flags -o "$at/one" && "$at/one" > /dev/null \
        && "$at/bin/klapouzen" --help > /dev/null && test -s "$at/share/man/man1/klapouzen.1"
}

# The long ones first, so that none runs alone at the end.
start "against the reference" $T/test/differential "$CASES"
start "command line" test/cli.sh $T/klapouzen $T/make_sample
for target in volume label index form rows ansi; do
    start "fuzz $target" $T/fuzz/${target}_mutate $T/fuzz/corpus/$target "${FUZZ_SECONDS:-3}"
done
start "smallest and largest sizes" $T/test/bounds
start "what goes with 4" $T/test/fronts
start "what 14 is" $T/test/given
start "numbers" $T/test/numbers
start "stack" $T/test/stack
start "installed" installed
start "the build" test/build.sh
start "the program of four files" test/program.sh $T/programs/bench $T/make_sample
start "header in C11" header_alone "$CC" -std=c11 -x c
start "header in C99" header_alone "$CC" -std=c99 -x c
# gcc without g++ has no C++ in it.
if "$CC" -x c++ -fsyntax-only /dev/null 2> /dev/null; then
    start "header in C++" header_alone "$CC" -std=c++11 -x c++
fi
finish
