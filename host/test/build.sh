#!/usr/bin/env bash
# The build as a person meets it: what it says while rt proves, what it does where something is missing.
# rt, the compiler and apt-get are stand-ins; what they are called for is written to a folder of this test.
set -u
cd "$(dirname "$0")/.." || exit 2
WORK=$(mktemp -d)
trap 'rm -rf "$WORK"' EXIT
mkdir "$WORK/bin" "$WORK/target"
PATH=$WORK/bin:$PATH
export WORK
unset MAKEFLAGS MFLAGS MAKELEVEL WERROR
failures=0

fail() {
    failures=$((failures + 1))
    echo "FAILED: $1"
    sed 's/^/  /' "$WORK/out" | head -20
}

says() { grep -qxF -- "$1" "$WORK/out" || fail "no line \"$1\""; }

stand_in() { # NAME, its text on standard input
    { echo '#!/usr/bin/env bash'; cat; } > "$WORK/bin/$1"
    chmod +x "$WORK/bin/$1"
}

# ---- Proving: a line a crate that is proved, the rest in the log, rt's status ----

mkdir -p "$WORK/repository/host" "$WORK/repository/crates/top" "$WORK/repository/crates/program"
cp prove.sh "$WORK/repository/host/"
cat > "$WORK/repository/crates.txt" <<'END'
# NAME: the crates it uses
top staticlib: left right low io
low:
left: low libc
right: low
beside: low
program: left io
END
# It says what rt says: of right nothing where that is proved already.
stand_in rt <<'END'
mkdir "$WORK/proving" || exit 8
read -r line && exit 9
folder=$(basename "$PWD")
prove() { # CRATE, what the verdict is
    echo "rt: chose --jobs 2 for $1"
    for i in 1 2 3 4 5; do echo "fn $1::number_$i: proved"; done
    echo "logic=$2 functions=5 sum=dac8208d650f15bf logic-built=trusted"
}
prove low proved
prove left proved
sleep 0.2
rmdir "$WORK/proving"
if [ -n "${BROKEN:-}" ]; then
    echo "error: a theorem is not proved" >&2
    prove right not-proved
    echo "rt: the library right did not build, so nothing above it was checked"
    exit 3
fi
case "$* $folder" in "lib top" | "run program") ;; *) exit 4 ;; esac
prove "$folder" proved
END

prove() { # RT-COMMAND CRATE
    "$WORK/repository/host/prove.sh" "$WORK/target/$2.log" "$1" "$2"
}

# shown CRATE WHAT: a line of the crate, whatever the seconds
shown() { grep -qxE -- "$1: $2, [0-9]+ s\)" "$WORK/out" || fail "no line of $1: $2"; }

prove lib top > "$WORK/out" 2>&1 || fail "status $?, not 0"
grep -q "^proving top and what it uses, 4 crates" "$WORK/out" || fail "not the number of crates"
shown low "proved \(5 functions"
shown left "proved \(5 functions"
shown top "proved \(5 functions"
[ "$(wc -l < "$WORK/out")" -eq 4 ] || fail "not a line a crate"
grep -qx "fn left::number_4: proved" "$WORK/target/top.log" || fail "the log is not whole"

BROKEN=1 prove lib top > "$WORK/out" 2>&1
[ $? -eq 3 ] || fail "not rt's status"
grep -qxE "right: NOT PROVED \([0-9]+ s\)" "$WORK/out" || fail "no line of the crate that is not proved"
says "error: a theorem is not proved"
says "rt: the library right did not build, so nothing above it was checked"

# Two rules of make side by side: one rt after the other.
prove lib top > "$WORK/out" 2>&1 &
prove run program > "$WORK/out2" 2>&1 || fail "two at once: $(tail -n 1 "$WORK/out2")"
wait $! || fail "two at once"
grep -q "^proving program and what it uses, 3 crates" "$WORK/out2" || fail "not a program's crates: $(cat "$WORK/out2")"
grep -qxE "program: proved \(5 functions, [0-9]+ s\)" "$WORK/out2" || fail "not a program's line: $(cat "$WORK/out2")"

# ---- Warnings, missing headers ----

stand_in warns <<'END'
case " $* " in *" -Werror "*) exit 1 ;; esac
while [ $# -gt 1 ]; do [ "$1" = -o ] && : > "$2"; shift; done
END
make -s CC=warns T="$WORK/target" "$WORK/target/sample/sample.o" > "$WORK/out" 2>&1 || fail "a warning ends a user's build"
make -s CC=warns WERROR=1 T="$WORK/target" "$WORK/target/sample/sample.o" > "$WORK/out" 2>&1 && fail "WERROR=1 lets warnings pass"
make -n CC=warns T="$WORK/target" test 2> /dev/null | grep -q -- "-Werror .*cli/main.c" || fail "make test lets warnings pass"

stand_in without_headers <<'END'
case " $* " in *" - "* | *" -" | *" - ") grep -q 'include <' && exit 1 ;; esac
while [ $# -gt 1 ]; do [ "$1" = -o ] && : > "$2"; shift; done
END
for program in apt-get apt sudo dpkg; do
    echo "echo \"$program \$*\" >> \"$WORK/called\"; exit 1" | stand_in $program
done
for target in peers/collect.o bench/main.o; do
    make -s CC=without_headers T="$WORK/target" "$WORK/target/$target" > "$WORK/out" 2>&1 && fail "$target without headers"
    says "expat's or libxml2's headers are missing. Debian has them: apt-get install libexpat1-dev libxml2-dev"
done
[ ! -e "$WORK/called" ] || fail "called unasked: $(cat "$WORK/called")"

echo "$failures failures"
[ $failures -eq 0 ]
