#!/usr/bin/env bash
# Document 01's program on files that are missing, at their bounds, past them, and not to be read: program.sh PROGRAM SAMPLE
set -u
PROGRAM=$(realpath "$1")
SAMPLE=$(realpath "$2")
SHIM=$(realpath "$(dirname "$0")")/shim.c
WORK=$(mktemp -d)
trap 'rm -rf "$WORK"' EXIT
cd "$WORK" || exit 2
LIST=4096
STORE=24576
checks=0
failures=0

# writes LINES WHAT [WORD=VALUE..]: what the program writes in the folder `files`, with these words in its environment.
writes() {
    local wanted=$1 what=$2 found
    shift 2
    found=$(cd files && env "$@" "$PROGRAM")
    checks=$((checks + 1))
    [ "$found" = "$wanted" ] && return
    failures=$((failures + 1))
    printf 'FAILED: %s\n  wanted: %s\n  found:  %s\n' "$what" "${wanted//$'\n'/ | }" "${found//$'\n'/ | }"
}

fresh() {
    rm -rf files
    "$SAMPLE" fresh files
}

size() { stat -c %s "files/$1"; }

KEPT='cut 0 0 keep 7 7 generation 1'

# ---- Missing files are empty ----

mkdir files
writes "refused 9" "no files"
printf 'VOL1' > files/data.store
writes "refused 1" "a store without its list"
fresh
writes "verdict consistent"$'\n'"$KEPT" "a fresh volume"

# ---- The bounds: bytes that are no list, or of no list ----

for name in index.list data.list index.store data.store; do
    case $name in *.list) bound=$LIST ;; *) bound=$STORE ;; esac
    fresh
    truncate -s $bound files/$name
    writes "refused 1" "$name, $bound bytes"
    truncate -s $((bound + 1)) files/$name
    writes "refused 15" "$name, $((bound + 1)) bytes, and malformed"
done

# ---- The bounds: a fresh volume with more behind it ----

# marks NAME BYTES: file marks up to this size of the list
marks() {
    head -c $(($2 - $(size "$1"))) /dev/zero | tr '\0' '\1' >> "files/$1"
}

# block SIDE BYTES: a block up to this size of the store
block() {
    local length=$(($2 - $(size "$1.store")))
    # shellcheck disable=SC2059
    printf "\\2\\0\\0\\$(printf %o $((length / 256)))\\$(printf %o $((length % 256)))" >> "files/$1.list"
    truncate -s "$2" "files/$1.store"
}

for side in index data; do
    [ $side = index ] && broken=1 || broken=2
    fresh
    marks $side.list $LIST
    writes "verdict break $broken 0"$'\n'"$KEPT" "$side.list, $LIST bytes of a volume"
    marks $side.list $((LIST + 1))
    writes "refused 15" "$side.list, $((LIST + 1)) bytes of a volume"
    fresh
    block $side $STORE
    writes "verdict break $broken 0"$'\n'"$KEPT" "$side.store, $STORE bytes of a volume"
    fresh
    block $side $((STORE + 1))
    writes "refused 15" "$side.store, $((STORE + 1)) bytes of a volume"
done

# ---- A file that can't be read to its end ends there ----

fresh
rm files/index.list
mkdir files/index.list
writes "refused 1" "a folder for a list"
rm files/index.store
mkdir files/index.store
writes "refused 9" "folders for both"

${CC:-cc} -std=gnu11 -Wall -Wextra -shared -fPIC "$SHIM" -o shim.so -ldl || exit 2
fresh
LOADED="LD_PRELOAD=$WORK/shim.so"
# Two readings a file: its bytes, and that it has no more.
writes "refused 1" "data.list, whose bytes can't be read" "$LOADED" SHIM_FAIL=read:5
writes "verdict consistent"$'\n'"$KEPT" "data.list, behind whose bytes reading fails" "$LOADED" SHIM_FAIL=read:6

echo "$checks checks, $failures failures"
[ $failures -eq 0 ]
