#!/usr/bin/env bash
# Instructions, counted by valgrind: counts.sh TARGET
# Of one call of a function: others may be inlined. Where two functions read the same text there is their ratio.
set -euo pipefail
bench=$1/bench/bench
out=$1/bench/callgrind.out

# counted FUNCTION WHAT [TEXT]: prints the instructions of the function in `bench once WHAT TEXT`.
counted() {
    local function=$1
    shift
    if ! valgrind --tool=callgrind --callgrind-out-file="$out" --toggle-collect="$function" "$bench" once "$@" 2> "$out.log" > /dev/null; then
        cat "$out.log" >&2
        exit 1
    fi
    awk '/Collected/ { print $NF }' "$out.log"
}

print_count() { # NAME INSTRUCTIONS [OF]: and how many times OF this is
    printf '%-60s %12s' "$1" "$2"
    if [ $# -gt 2 ]; then
        awk -v one="$2" -v other="$3" 'BEGIN { printf "  %5.2fx", one / other }'
    fi
    echo
}

count() { # FUNCTION WHAT NAME
    print_count "$1, $3" "$(counted "$1" "$2")"
}

count klapouzen_ansi ansi "the most files"
count klapouzen_check_list blocks "65,536 blocks"
count klapouzen_check_list unreadable "65,536 unreadable blocks"
count klapouzen_verdict data "two sides of 65,536 elements"
count klapouzen_verdict holed "the same, half of them unreadable"
# All but klapouzen_read_index hand out the same: header, entries with decoded names, rows. The last checks none of it.
for text in flat indented nested; do
    whole=$(counted whole_by_library whole $text)
    print_count "klapouzen_read_index, 1 MB, $text" "$(counted klapouzen_read_index index $text)" "$whole"
    print_count "klapouzen_read_whole, 1 MB, $text" "$(counted klapouzen_read_whole whole $text)" "$whole"
    print_count "  with klapouzen_decode of each name" "$whole" "$whole"
    print_count "  libxml2's SAX interface, collecting the same" "$(counted collect_by_sax sax $text)" "$whole"
done
# Well-formedness alone.
for text in flat Cyrillic kanji; do
    form=$(counted klapouzen_check_form form $text)
    print_count "klapouzen_check_form, 1 MB, $text" "$form" "$form"
    print_count "  expat, with handlers that do nothing" "$(counted form_by_expat expat $text)" "$form"
done
count klapouzen_check_form form_broken "1 MB, flat, its last byte wrong"
count klapouzen_read_index index_broken "1 MB, flat, its last byte wrong"
count klapouzen_read_index padded "1 MB, flat, its numbers padded"
count klapouzen_read_index zeros "1 MB, a number with zeros in front"
count klapouzen_read_index signed_zeros "1 MB, a number with a sign and zeros in front"
count klapouzen_read_index smallest "no files"
count klapouzen_read_index respelled "no files, its UUID given in capitals"
count klapouzen_read_index given "what is given tested"
count klapouzen_write_label label "378 bytes"
