# The library that is loaded before the C library, and what the parts ask of it.
SHIM="LD_PRELOAD=$WORK/shim.so SHIM_LOG=$WORK/calls"
${CC:-cc} -std=gnu11 -Wall -Wextra -shared -fPIC "$PARTS/../shim.c" -o shim.so -ldl || fail "no shim"

# stops SIGNAL CALL COMMAND..: the signal comes after the first such call, and the program ends by it, also where the
# tests themselves run with signals ignored, as a shell starts them in the background.
stops() {
    local signal=$1 call=$2
    shift 2
    rm -f calls
    # shellcheck disable=SC2016,SC2086
    is $((128 + signal)) bash -c 'ulimit -c 0; "$@"; exit $?' - env --default-signal $SHIM SHIM_SIGNAL="$signal" SHIM_AT="$call" "$@"
    says calls "signal $signal"
}

# The calls of fsync and the renaming, the drafts' names and the folder made plain.
lasting_calls() {
    grep -E '^(fsync|rename) ' calls | sed "s|$(pwd -P)|.|; s|\.partial-[0-9]*|.draft|"
}

one_line() { # FILE: it has one line
    checks=$((checks + 1))
    [ "$(wc -l < "$1")" -eq 1 ] || fail "not one line in $1" "$(head -5 "$1")"
}

# extracted DIR NUMBER FILE [GAPS [OPTION..]]: the file has the bytes of the extents, as the test's own reading has them, and
# the list its gaps; in the index that the options choose.
extracted() {
    "$K" files "$1" --json "${@:5}" > listing
    checks=$((checks + 1))
    python3 -I -S "$PARTS/../extracted.py" "$1" listing "$2" "$3" ${4:+"$4"} > out 2>&1 || fail "$3 is not file $2 of $1" "$(tail -1 out)"
}

# lose FROM TO SIDE:N..: a copy of a cartridge, with these blocks as the drive leaves them that could not read them.
# SIDE:N+ adds an unreadable block before element N, or behind the last.
lose() {
    rm -rf "$2" && cp -r "$1" "$2"
    python3 -I -S - "${@:2}" <<'PYTHON' || fail "no cartridge $2"
import sys
folder = sys.argv[1]
for word in sys.argv[2:]:
    side, number = word.rstrip("+").split(":")
    codes, store = (open(f"{folder}/{side}.{part}", "rb").read() for part in ("list", "store"))
    at = begin = 0
    for _ in range(int(number)):
        size = 5 if codes[at] == 2 else 1
        begin += int.from_bytes(codes[at + 1:at + size], "big")
        at += size
    size = 0 if word.endswith("+") else 5 if codes[at] == 2 else 1
    end = begin + int.from_bytes(codes[at + 1:at + size], "big")
    open(f"{folder}/{side}.list", "wb").write(codes[:at] + b"\3" + codes[at + size:])
    open(f"{folder}/{side}.store", "wb").write(store[:begin] + store[end:])
PYTHON
}
