#!/usr/bin/env bash
# The test of the tests: each variants/NAME.edit makes one fault in a copy of cli/, and cli.sh must fail with the program built from it.
# variants.sh [NAME..]: all of them, or those named; two at a time. The last line is the score. Called by make variants.
set -u
cd "$(dirname "$0")/.." || exit 2
CC=${CC:-cc}
T=$PWD/target
WORK=$(mktemp -d)
trap 'rm -rf "$WORK"' EXIT

# Applies FILE.edit to the copy of cli/ in FOLDER and prints the files that it changed.
# The form: lines `file: PATH`, `old: TEXT`, `new: TEXT`; each old text stands exactly once in its file.
apply() { # FILE.edit FOLDER
    python3 -I -S - "$1" "$2" <<'PYTHON'
import os, sys
path, texts = None, {}
for line in open(sys.argv[1]):
    key, _, text = line.rstrip("\n").partition(": ")
    if line.startswith("#") or not line.strip():
        continue
    elif key == "file":
        path = os.path.join(sys.argv[2], text)
        texts.setdefault(path, open(path).read())
    elif key == "old":
        old = text
        if texts[path].count(old) != 1:
            sys.exit(f"{sys.argv[1]}: {texts[path].count(old)} times in {path}: {old}")
    elif key in ("new", "new:"):
        texts[path] = texts[path].replace(old, text)
    else:
        sys.exit(f"{sys.argv[1]}: a line that is none: {line}")
for path, text in texts.items():
    open(path, "w").write(text)
    print(path)
PYTHON
}

# Builds the program of FOLDER: only changed files are compiled, unless a header is among them.
build() { # FOLDER FILE..
    local folder=$1 file
    shift
    cp -r "$T/cli" "$folder/objects" || return 1
    case " $* " in *.h\ *) set -- "$folder"/cli/*.c ;; esac
    for file; do
        $CC -std=c11 -D_GNU_SOURCE -O1 -w -Iinclude -c "$file" -o "$folder/objects/$(basename "$file" .c).o" || return 1
    done
    $CC "$folder"/objects/*.o "$T/libklapouzen.a" -lpthread -o "$folder/klapouzen"
}

# Leaves one word in FOLDER/result: caught, MISSED, or BROKEN where the variant is none.
try() { # NAME FOLDER
    local files
    mkdir -p "$2" && cp -r cli "$2/cli"
    echo BROKEN > "$2/result"
    files=$(apply "test/variants/$1.edit" "$2" 2> "$2/log") || return
    # shellcheck disable=SC2086
    build "$2" $files > "$2/log" 2>&1 || return
    if FIRST=1 timeout 300 test/cli.sh "$2/klapouzen" "$T/make_sample" > "$2/log" 2>&1; then
        echo MISSED > "$2/result"
    else
        echo caught > "$2/result"
    fi
}

if [ $# -eq 0 ]; then
    for edit in test/variants/*.edit; do
        set -- "$@" "$(basename "$edit" .edit)"
    done
fi
# Without a fault nothing may be caught.
test/cli.sh "$T/klapouzen" "$T/make_sample" > "$WORK/log" 2>&1 || { cat "$WORK/log"; echo "cli.sh fails with the program itself"; exit 2; }
for name; do
    while [ "$(jobs -pr | wc -l)" -ge "${JOBS:-2}" ]; do
        wait -n
    done
    try "$name" "$WORK/$name" &
done
wait
caught=0
for name; do
    result=$(cat "$WORK/$name/result")
    printf '%-8s %s  %s\n' "$result" "$name" "$(sed -n '1s/^# /(/p' "test/variants/$name.edit"))"
    case $result in
    caught) caught=$((caught + 1)); sed -n '/^FAILED/{s/^/         /p;q}' "$WORK/$name/log" | cut -c 1-150 | cat -v ;;
    BROKEN) sed 's/^/         /' "$WORK/$name/log" ;;
    esac
done
echo "$caught of $# faulty variants caught"
[ $caught -eq $# ]
