#!/usr/bin/env bash
# The command line as a person uses it: cli.sh KLAPOUZEN SAMPLE
# The parts in cli/ run in one shell and one folder, in the order of their names; what one makes, later ones use.
set -u
K=$(realpath "$1")
SAMPLE=$(realpath "$2")
PARTS=$(realpath "$(dirname "$0")")/cli
WORK=$(mktemp -d)
trap 'umount "$WORK/small" 2> /dev/null; rm -rf "$WORK"' EXIT
cd "$WORK" || exit 2
export TERM=xterm
unset NO_COLOR
checks=0
failures=0

fail() {
    failures=$((failures + 1))
    echo "FAILED: $1"
    shift
    [ $# -gt 0 ] && printf '  %s\n' "$@"
    # For variants.sh one is enough.
    [ -z "${FIRST:-}" ] || exit 1
}

# is STATUS COMMAND..: runs it, keeps its output in out and err.
is() {
    local wanted=$1 found
    shift
    "$@" > out 2> err
    found=$?
    checks=$((checks + 1))
    [ $found -eq "$wanted" ] || fail "$*: status $found, not $wanted" "$(head -5 out)" "$(head -5 err)"
}

says() { # FILE TEXT: a line of the file has the text
    checks=$((checks + 1))
    grep -qF -- "$2" "$1" || fail "no \"$2\" in $1" "$(head -5 "$1")"
}

says_not() {
    checks=$((checks + 1))
    grep -qF -- "$2" "$1" && fail "\"$2\" in $1"
}

same() {
    checks=$((checks + 1))
    cmp -s "$1" "$2" || fail "$1 and $2 differ"
}

absent() {
    checks=$((checks + 1))
    [ ! -e "$1" ] || fail "$1 is there"
}

no_drafts() {
    checks=$((checks + 1))
    [ -z "$(find . -name '*.partial-*')" ] || fail "drafts are left: $(find . -name '*.partial-*')"
}

# Each line of the file is one JSON text.
is_json() {
    checks=$((checks + 1))
    python3 -I -S -m json.tool --json-lines "$1" > /dev/null 2>&1 || fail "$1 is not JSON" "$(head -5 "$1" | cat -v)"
}

is_xml() {
    checks=$((checks + 1))
    python3 -I -S -c 'import sys, xml.dom.minidom; xml.dom.minidom.parse(sys.argv[1])' "$1" 2> xml_error || fail "$1 is not XML" "$(tail -1 xml_error)"
}

# The file is UTF-8 without controls but line ends, and without format characters and separators.
is_visible() {
    checks=$((checks + 1))
    iconv -f UTF-8 -t UTF-8 "$1" > /dev/null 2>&1 && ! LC_ALL=C.UTF-8 grep -aqP '[\p{Cc}\p{Cf}\p{Zl}\p{Zp}]' "$1" \
        || fail "a terminal obeys $1" "$(head -5 "$1" | cat -v)"
}

# Where element N of a list begins in its store.
offset_of() {
    od -An -v -tu1 -w1 "$2" | awk -v n="$1" '
        body == 0 { if (element == n) exit; element++; if ($1 == 2) { body = 4; length_ = 0 } next }
        { length_ = length_ * 256 + $1; if (--body == 0) sum += length_ }
        END { print sum }'
}

for kind in fresh torn nights defect sparse long many extents spellings padded; do
    "$SAMPLE" $kind $kind || exit 2
done

for part in "$PARTS"/*.sh; do
    # shellcheck source=/dev/null
    . "$part"
done

echo "$checks checks, $failures failures"
[ $failures -eq 0 ]
