# Two reads of one tape.
"$SAMPLE" rewound rewound || exit 2

# compares STATUS OLD NEW LINE..: prints what check says of each, and then exactly these lines. Of a read and itself: a copy.
compares() {
    local status=$1 old=$2 new=$3
    shift 3
    [ "$old" != "$new" ] || { rm -rf twin && cp -r "$old" twin && new=twin; }
    {
        printf 'OLD  '; "$K" check "$old" | sed -n 1p
        printf 'NEW  '; "$K" check "$new" | sed -n 1p
        printf '%s\n' "$@"
    } > wanted
    is "$status" "$K" compare "$old" "$new"
    checks=$((checks + 1))
    cmp -s out wanted || fail "compare $old $new" "$(diff out wanted)"
}

# reread FROM SIDE: a folder for each line of standard input, with that side edited as elements.py has it.
reread() {
    python3 -I -S "$PARTS/../elements.py" "$1" "$2" || fail "no such read"
}

edited() { # FROM SIDE TO EDIT..
    local from=$1 side=$2 IFS=$'\t'
    shift 2
    rm -rf "$1"
    reread "$from" "$side" <<< "$*"
}

# front FROM INDEX DATA TO: the first elements of each side.
front() {
    rm -rf "$4"
    is 0 "$K" cut --keep-index "$2" --keep-data "$3" "$1" "$4"
}

# respell FOLDER SIDE FROM TO: the last such text in the store as another of the same length.
respell() {
    python3 -I -S - "$@" <<'PYTHON' || fail "no $3 in $1"
import sys
folder, side, old, new = sys.argv[1:]
store = open(f"{folder}/{side}.store", "rb").read()
at = store.rindex(old.encode())
assert len(old) == len(new)
open(f"{folder}/{side}.store", "wb").write(store[:at] + new.encode() + store[at + len(old):])
PYTHON
}

CONTINUED="NEW is OLD continued: every cut of OLD is one of NEW"
CONTINUES="OLD is NEW continued: every cut of NEW is one of OLD"
NEITHER="neither is the other continued"
NEW_HAS="$NEITHER, but NEW has all that OLD's cut keeps"
OLD_HAS="$NEITHER, but OLD has all that NEW's cut keeps"
EACH_HAS="$NEITHER, but each has all that the other's cut keeps"
UNKNOWN="neither is known to be the other continued"
ALL_INDEX="index side: the same 13 elements"
ALL_DATA="data side:  the same 78 elements"

# ---- The same, and one that goes on ----

compares 0 nights nights "$ALL_INDEX" "$ALL_DATA" "OLD and NEW are the same" "both rescue 3 index constructs"
front nights 10 99 fewer_index
front nights 99 77 fewer_data
front nights 12 31 fewer
compares 0 fewer_index nights "index side: NEW goes on: OLD's 10 elements, then 3 more" "$ALL_DATA" "$CONTINUED" \
    "NEW rescues more: 3 index constructs, OLD 2"
compares 1 nights fewer_index "index side: OLD goes on: NEW's 10 elements, then 3 more" "$ALL_DATA" "$CONTINUES" \
    "OLD rescues more: 3 index constructs, NEW 2"
compares 0 fewer_data nights "$ALL_INDEX" "data side:  NEW goes on: OLD's 77 elements, then 1 more" "$CONTINUED" \
    "both rescue 3 index constructs"
compares 1 nights fewer_data "$ALL_INDEX" "data side:  OLD goes on: NEW's 77 elements, then 1 more" "$CONTINUES" \
    "both rescue 3 index constructs"
compares 0 fewer nights "index side: NEW goes on: OLD's 12 elements, then 1 more" \
    "data side:  NEW goes on: OLD's 31 elements, then 47 more" "$CONTINUED" "NEW rescues more: 3 index constructs, OLD 2"
compares 1 nights fewer "index side: OLD goes on: NEW's 12 elements, then 1 more" \
    "data side:  OLD goes on: NEW's 31 elements, then 47 more" "$CONTINUES" "OLD rescues more: 3 index constructs, NEW 2"

# Each goes on on one side.
compares 1 fewer_index fewer_data "index side: NEW goes on: OLD's 10 elements, then 3 more" \
    "data side:  OLD goes on: NEW's 77 elements, then 1 more" "$NEW_HAS" "NEW rescues more: 3 index constructs, OLD 2"
compares 1 fewer_data fewer_index "index side: OLD goes on: NEW's 10 elements, then 3 more" \
    "data side:  NEW goes on: OLD's 77 elements, then 1 more" "$OLD_HAS" "OLD rescues more: 3 index constructs, NEW 2"

# One element, none, files that are missing, and as many as have to be grouped.
front nights 1 0 one_element
front nights 0 0 no_element
mkdir no_files && : > no_files/data.list
compares 0 one_element nights "index side: NEW goes on: OLD's 1 element, then 12 more" \
    "data side:  NEW goes on: OLD's 0 elements, then 78 more" "$CONTINUED" "only NEW can be cut"
compares 0 one_element one_element "index side: the same 1 element" "data side:  the same 0 elements" \
    "OLD and NEW are the same" "neither can be cut"
compares 1 one_element no_element "index side: OLD goes on: NEW's 0 elements, then 1 more" \
    "data side:  the same 0 elements" "$CONTINUES" "neither can be cut"
compares 0 no_files no_element "index side: the same 0 elements" "data side:  the same 0 elements" \
    "OLD and NEW are the same" "neither can be cut"
mkdir marks marks_more
head -c 12345 /dev/zero | tr '\0' '\001' > marks/index.list
head -c 65536 /dev/zero | tr '\0' '\001' > marks_more/index.list && : > marks_more/index.store
compares 0 marks marks_more "index side: NEW goes on: OLD's 12,345 elements, then 53,191 more" \
    "data side:  the same 0 elements" "$CONTINUED" "neither can be cut"
compares 0 marks_more marks_more "index side: the same 65,536 elements" "data side:  the same 0 elements" \
    "OLD and NEW are the same" "neither can be cut"

# Behind OLD's end a block may be unreadable, and OLD may end with one.
edited kept data lost_behind block,71,100 lose,71 block,72,9
compares 0 kept lost_behind "$ALL_INDEX" "data side:  NEW goes on: OLD's 71 elements, then 2 more" "$CONTINUED" \
    "both rescue 3 index constructs"
front lost_behind 99 72 lost_last
compares 0 kept lost_last "$ALL_INDEX" "data side:  NEW goes on: OLD's 71 elements, then 1 more" "$CONTINUED" \
    "both rescue 3 index constructs"
compares 0 lost_last lost_behind "$ALL_INDEX" "data side:  NEW goes on: OLD's 72 elements, then 1 more" "$CONTINUED" \
    "both rescue 3 index constructs"
compares 1 lost_behind lost_last "$ALL_INDEX" "data side:  OLD goes on: NEW's 72 elements, then 1 more" "$CONTINUES" \
    "both rescue 3 index constructs"

# ---- The first difference ----

# Element 40 of the data side, in the middle of a run, as each of these; of all pairs what is said.
reread nights data <<'READS'
as_mark	drop,40	mark,40
as_block	size,40,4096
as_short	size,40,100
as_byte	size,40,1
as_lost	lose,40
READS
as_words() {
    case $1 in
    as_mark) echo "a mark" ;;
    as_block) echo "a block of 4,096 bytes" ;;
    as_short) echo "a block of 100 bytes" ;;
    as_byte) echo "a block of 1 byte" ;;
    as_lost) echo "an unreadable block" ;;
    esac
}
for old in as_mark as_block as_short as_byte as_lost; do
    for new in as_mark as_block as_short as_byte as_lost; do
        alone=
        [ $old = as_lost ] && alone=": 1 unreadable in OLD alone"
        [ $new = as_lost ] && alone=": 1 unreadable in NEW alone"
        if [ $old = $new ]; then
            rm -rf twin && cp -r $old twin
            is 0 "$K" compare $old twin
            says out "$ALL_DATA"
            continue
        fi
        is 1 "$K" compare $old $new
        says out "$ALL_INDEX"
        says out "data side:  differs first at element 40: OLD has $(as_words $old), NEW has $(as_words $new); 1 of the 78 elements that both have differs$alone"
        says_not out "; OLD has 78"
        says out "$NEITHER"
    done
done

# Bytes: of the first block, the last one, one in the middle; the first byte, the last, some; the first that differs counts.
differs() { # SIDE ELEMENT LENGTH BYTE EDIT..
    local line="differs first at element $2: a block of $3 bytes in both, its bytes differ from byte $4 on; 1 of the "
    edited nights "$1" altered "${@:5}"
    is 1 "$K" compare nights altered
    if [ "$1" = index ]; then
        says out "index side: ${line}13 elements that both have differs"
        says out "$ALL_DATA"
    else
        says out "$ALL_INDEX"
        says out "data side:  ${line}78 elements that both have differs"
    fi
    says out "$NEITHER"
}
differs data 0 80 0 put,0,1,v
differs data 0 80 79 put,0,80,~
differs data 40 4,096 0 'put,40,1,\xff'
differs data 40 4,096 4095 'put,40,4096,\xff'
differs data 40 4,096 2000 'put,40,2001,\xff' 'put,40,2003,\xff' 'put,40,4096,\xff'
differs data 77 1,200 0 put,77,1,z
differs data 77 1,200 1199 put,77,1200,z
differs index 0 80 10 put,0,11,z
differs index 11 2,587 0 put,11,1,z
edited nights data one_byte size,77,1
edited nights data other_byte size,77,1 put,77,1,z
is 1 "$K" compare one_byte other_byte
says out "data side:  differs first at element 77: a block of 1 byte in both, its bytes differ from byte 0 on; 1 of the 78 elements that both have differs"

# Others behind the first: blocks of other lengths, and a store that is shifted by them.
edited nights data shifted size,40,100 'put,60,7,\xff'
compares 1 nights shifted "$ALL_INDEX" \
    "data side:  differs first at element 40: OLD has a block of 4,096 bytes, NEW has a block of 100 bytes; 2 of the 78 elements that both have differ" \
    "$OLD_HAS" "OLD rescues more: 3 index constructs, NEW 2"
# An element more or fewer, before the end and behind it.
edited nights data inserted mark,77
compares 1 nights inserted "$ALL_INDEX" \
    "data side:  differs first at element 77: OLD has a block of 1,200 bytes, NEW has a mark; 1 of the 78 elements that both have differs; OLD has 78 elements, NEW 79" \
    "$EACH_HAS" "both rescue 3 index constructs"
edited fewer_data data shorter 'put,72,3,\xff'
compares 1 nights shorter "$ALL_INDEX" \
    "data side:  differs first at element 72: a block of 4,096 bytes in both, its bytes differ from byte 2 on; 1 of the 77 elements that both have differs; OLD has 78 elements, NEW 77" \
    "$EACH_HAS" "both rescue 3 index constructs"
edited one_element index lost_one lose,0
compares 1 lost_one nights \
    "index side: differs first at element 0: OLD has an unreadable block, NEW has a block of 80 bytes; 1 of the 1 element that both have differs: 1 unreadable in OLD alone; OLD has 1 element, NEW 13" \
    "data side:  NEW goes on: OLD's 0 elements, then 78 more" "$NEITHER" "only NEW can be cut"
edited marks_more index all_other drop,0 block,65535,1
compares 1 all_other marks_more \
    "index side: differs first at element 65535: OLD has a block of 1 byte, NEW has a mark; 1 of the 65,536 elements that both have differs" \
    "data side:  the same 0 elements" "$NEITHER" "neither can be cut"
# One side differs, and the other goes on: neither is the other continued.
edited fewer data fewer_other 'put,9,5,\xff'
compares 1 fewer_other nights "index side: NEW goes on: OLD's 12 elements, then 1 more" \
    "data side:  differs first at element 9: a block of 4,096 bytes in both, its bytes differ from byte 4 on; 1 of the 31 elements that both have differs; OLD has 31 elements, NEW 78" \
    "$NEITHER" "NEW rescues more: 3 index constructs, OLD 2"

# What OLD could not read and NEW could, and the other way; what neither could read is the same.
edited nights data worn_old lose,31 lose,42 lose,43 lose,72
edited nights data worn_new lose,44 lose,72
compares 1 worn_old nights "$ALL_INDEX" \
    "data side:  differs first at element 31: OLD has an unreadable block, NEW has a block of 4,096 bytes; 4 of the 78 elements that both have differ: 4 unreadable in OLD alone" \
    "$NEW_HAS" "NEW rescues more: 3 index constructs, OLD 2"
compares 1 nights worn_old "$ALL_INDEX" \
    "data side:  differs first at element 31: OLD has a block of 4,096 bytes, NEW has an unreadable block; 4 of the 78 elements that both have differ: 4 unreadable in NEW alone" \
    "$OLD_HAS" "OLD rescues more: 3 index constructs, NEW 2"
compares 1 worn_old worn_new "$ALL_INDEX" \
    "data side:  differs first at element 31: OLD has an unreadable block, NEW has a block of 4,096 bytes; 4 of the 78 elements that both have differ: 3 unreadable in OLD alone, 1 in NEW alone" \
    "$EACH_HAS" "both rescue 2 index constructs"
compares 0 worn_old worn_old "$ALL_INDEX" "$ALL_DATA" "OLD and NEW are the same" "both rescue 2 index constructs"
# The last element that a cut keeps, 70 on the data side and 12 on the index side, and the first behind it.
edited nights data at_mark drop,70 block,70,9 lose,70
compares 1 nights at_mark "$ALL_INDEX" \
    "data side:  differs first at element 70: OLD has a mark, NEW has an unreadable block; 1 of the 78 elements that both have differs: 1 unreadable in NEW alone" \
    "$OLD_HAS" "OLD rescues more: 3 index constructs, NEW 2"
edited nights data past_mark lose,71
compares 1 nights past_mark "$ALL_INDEX" \
    "data side:  differs first at element 71: OLD has a block of 4,096 bytes, NEW has an unreadable block; 1 of the 78 elements that both have differs: 1 unreadable in NEW alone" \
    "$EACH_HAS" "both rescue 3 index constructs"
edited nights index at_end drop,12 block,12,9 lose,12
compares 1 at_end nights \
    "index side: differs first at element 12: OLD has an unreadable block, NEW has a mark; 1 of the 13 elements that both have differs: 1 unreadable in OLD alone" \
    "$ALL_DATA" "$NEW_HAS" "NEW rescues more: 3 index constructs, OLD 2"
edited nights index past_end block,13,9
edited nights index past_end_mark mark,13
compares 1 past_end past_end_mark \
    "index side: differs first at element 13: OLD has a block of 9 bytes, NEW has a mark; 1 of the 14 elements that both have differs" \
    "$ALL_DATA" "$EACH_HAS" "both rescue 3 index constructs"
front worn_old 99 45 worn_front
compares 0 worn_front worn_old "$ALL_INDEX" "data side:  NEW goes on: OLD's 45 elements, then 33 more" "$CONTINUED" \
    "both rescue 2 index constructs"

# ---- Lists and labels that are refused ----

SEVEN="the same 7 elements"
BAD="list is malformed or does not fit its store"
compares 1 fresh bad1 "index side: $SEVEN" "data side:  not compared: NEW's $BAD" "$UNKNOWN" "only OLD can be cut"
compares 1 bad1 fresh "index side: $SEVEN" "data side:  not compared: OLD's $BAD" "$UNKNOWN" "only NEW can be cut"
compares 1 bad1 bad1 "index side: $SEVEN" "data side:  not compared: each $BAD" "$UNKNOWN" "neither can be cut"
compares 1 bad1 bad1i "index side: not compared: NEW's $BAD" "data side:  not compared: OLD's $BAD" "$UNKNOWN" "neither can be cut"
compares 1 bad1i nights "index side: not compared: OLD's $BAD" \
    "data side:  NEW goes on: OLD's 7 elements, then 71 more" "$UNKNOWN" "only NEW can be cut"
compares 1 bad1 nights "index side: NEW goes on: OLD's 7 elements, then 6 more" \
    "data side:  not compared: OLD's $BAD" "$UNKNOWN" "only NEW can be cut"
compares 1 bad1i bad3 "index side: not compared: OLD's $BAD" \
    "data side:  differs first at element 0: a block of 80 bytes in both, its bytes differ from byte 0 on; 1 of the 7 elements that both have differs" \
    "$NEITHER" "neither can be cut"
compares 1 bad3 fresh "index side: $SEVEN" \
    "data side:  differs first at element 0: a block of 80 bytes in both, its bytes differ from byte 0 on; 1 of the 7 elements that both have differs" \
    "$NEITHER" "only NEW can be cut"
# Of a file that is longer than any may be only the front is read, and nothing is said of the rest.
compares 1 bad15 bad15 "index side: not compared: each $BAD" "data side:  $SEVEN" "$UNKNOWN" "neither can be cut"
front nights 99 3 no_labels
compares 0 no_labels nights "$ALL_INDEX" "data side:  NEW goes on: OLD's 3 elements, then 75 more" "$CONTINUED" "only NEW can be cut"
compares 0 torn fresh "index side: $SEVEN" "data side:  NEW goes on: OLD's 6 elements, then 1 more" "$CONTINUED" "only NEW can be cut"
compares 1 fresh torn "index side: $SEVEN" "data side:  OLD goes on: NEW's 6 elements, then 1 more" "$CONTINUES" "only OLD can be cut"
compares 0 torn torn "index side: $SEVEN" "data side:  the same 6 elements" "OLD and NEW are the same" "neither can be cut"
# Elements that no cut keeps are not said to be kept.
edited nights index uncut lose,5 lose,8 lose,11
while read -r old new only; do
    is 1 "$K" compare "$old" "$new"
    tail -n 2 out > found
    printf '%s\n' "$NEITHER" "only $only can be cut" > wanted
    same found wanted
done <<PAIRS
uncut fresh NEW
fresh uncut OLD
PAIRS

# ---- Two volumes ----

ONE=30a91a08-daae-48d1-ae75-69804e61d2ea
OTHER=30a91a08-daae-48d1-ae75-69804e61d2eb
labelled() { # FOLDER IDENTIFIER UUID
    is 0 "$K" label --identifier "$2" --uuid "$3" --time 2026-11-15T05:00:00.000000000Z --creator bench --into "$1" --fresh
}
labelled volume KLA001 $ONE
labelled volume_name KLA002 $ONE
labelled volume_uuid KLA001 $OTHER
labelled volume_capitals KLA001 ${ONE^^}
is 1 "$K" compare volume volume_name
says out "two volumes: OLD is KLA001 $ONE, NEW is KLA002 $ONE"
is 1 "$K" compare volume_name volume
says out "two volumes: OLD is KLA002 $ONE, NEW is KLA001 $ONE"
is 1 "$K" compare volume volume_uuid
says out "two volumes: OLD is KLA001 $ONE, NEW is KLA001 $OTHER"
# It stands before what they are to each other.
is 1 "$K" compare volume volume_name
sed -n 5,6p out | cut -d : -f 1 > found
printf '%s\n' "two volumes" "$NEITHER" > wanted
same found wanted
# In capitals it is the same volume; one without labels may be any.
is 1 "$K" compare volume volume_capitals
says out "differs first at element 2: "
says_not out "two volumes"
is 1 "$K" compare spellings fresh
says_not out "two volumes"
is 1 "$K" compare volume bad3
says_not out "two volumes"
is 1 "$K" compare bad3i volume_uuid
says_not out "two volumes"

# ---- More index constructs, and less of the data ----

front rewound 7 99 before
compares 0 before rewound "index side: NEW goes on: OLD's 7 elements, then 3 more" "data side:  the same 68 elements" \
    "$CONTINUED" "NEW rescues more: 2 index constructs, OLD 1" \
    "but NEW's cut keeps 22 elements of the data side, OLD's 68; it has generation 1, OLD's 3" \
    "klapouzen cut --keep-index 7 --keep-data 68 rewound OUT makes OLD's cut of it"
compares 1 rewound before "index side: OLD goes on: NEW's 7 elements, then 3 more" "data side:  the same 68 elements" \
    "$CONTINUES" "OLD rescues more: 2 index constructs, NEW 1" \
    "but OLD's cut keeps 22 elements of the data side, NEW's 68; it has generation 1, NEW's 3" \
    "klapouzen cut --keep-index 7 --keep-data 68 rewound OUT makes NEW's cut of it"
# The command makes what it says, also of a read that goes on behind OLD's cut on both sides, or has other elements there.
makes_cut() { # STATUS OLD NEW
    local status=$1 command
    shift
    rm -rf OUT olds
    is "$status" "$K" compare "$1" "$2"
    command=$(sed -n 's/^klapouzen \(cut .* OUT\) makes OLD.s cut of it$/\1/p' out)
    checks=$((checks + 1))
    # shellcheck disable=SC2086
    "$K" cut "$1" olds > /dev/null && "$K" $command > /dev/null && diff -r OUT olds > /dev/null \
        || fail "klapouzen $command: not OLD's cut"
    rm -rf OUT olds
}
makes_cut 0 before rewound
cp -r rewound rewound_on && printf '\001\003' | tee -a rewound_on/index.list >> rewound_on/data.list
makes_cut 0 before rewound_on
edited before index before_on mark,7
makes_cut 0 before_on rewound
says out "OLD's 8 elements"
edited before index before_else block,7,5
makes_cut 1 before_else rewound
says out "differs first at element 7"
says out "$NEW_HAS"

# Only the generation is lower, which is lawful where both point at one index.
cp -r rewound lower
respell lower index '<startblock>20</startblock></previous' '<startblock>66</startblock></previous'
respell lower index '<generationnumber>1<' '<generationnumber>4<'
front lower 7 99 lower_before
respell lower_before index '<generationnumber>3<' '<generationnumber>7<'
{ head -c "$(stat -c %s lower_before/index.store)" lower_before/index.store; tail -c +"$(($(stat -c %s lower_before/index.store) + 1))" lower/index.store; } > store
mv store lower/index.store
compares 0 lower_before lower "index side: NEW goes on: OLD's 7 elements, then 3 more" "data side:  the same 68 elements" \
    "$CONTINUED" "NEW rescues more: 2 index constructs, OLD 1" "but NEW's cut has generation 4, OLD's 7" \
    "klapouzen cut --keep-index 7 --keep-data 68 lower OUT makes OLD's cut of it"
makes_cut 0 lower_before lower
# As high a generation and as much data: nothing to say.
respell lower index '<generationnumber>4<' '<generationnumber>7<'
compares 0 lower_before lower "index side: NEW goes on: OLD's 7 elements, then 3 more" "data side:  the same 68 elements" \
    "$CONTINUED" "NEW rescues more: 2 index constructs, OLD 1"
# Where it has not all that the other's cut keeps there is no command, and the index side may be less too.
edited before data before_other 'put,30,1,\xff'
is 1 "$K" compare before_other rewound
says_not out "all that"
says out "but NEW's cut keeps 22 elements of the data side, OLD's 68; it has generation 1, OLD's 3"
says_not out "makes"
is 1 "$K" compare many nights
says out "NEW rescues more: 3 index constructs, OLD 1"
says out "but NEW's cut keeps 13 elements of the index side, OLD's $("$K" check --json many | grep -o '"index_kept":[0-9]*' | cut -d : -f 2)"
says_not out "it has generation"
says_not out "of the data side"
# As many constructs and other cuts.
compares 1 fresh before \
    "index side: differs first at element 5: OLD has a block of 914 bytes, NEW has a block of 2,586 bytes; 1 of the 7 elements that both have differs" \
    "data side:  differs first at element 4: OLD has a mark, NEW has a block of 4,096 bytes; 3 of the 7 elements that both have differ; OLD has 7 elements, NEW 68" \
    "$NEITHER" "both rescue 1 index construct" "but NEW's cut keeps 68 elements of the data side, OLD's 7; it has generation 3, OLD's 1"

# ---- JSON ----

is 0 "$K" compare --json before rewound
is_json out
one_line out
says out '"index":{"relation":"new_continues_old","common":7,"difference":null,"differing":0,"unreadable_in_old_alone":0,"unreadable_in_new_alone":0},"data":{"relation":"same","common":68,'
says out '},"relation":"new_continues_old","old_cut_in_new":true,"new_cut_in_old":false,"same_volume":true,"rescues_more":"new"}'
is 1 "$K" compare worn_old worn_new --json
says out '"data":{"relation":"different","common":31,"difference":{"element":31,"old":{"kind":"unreadable","length":null},"new":{"kind":"block","length":4096},"byte":null},"differing":4,"unreadable_in_old_alone":3,"unreadable_in_new_alone":1},"relation":"neither","old_cut_in_new":true,"new_cut_in_old":true,"same_volume":true,"rescues_more":null}'
is 1 "$K" compare --json bad1 fresh
says out '"data":{"relation":"malformed","common":null,"difference":null,"differing":null,"unreadable_in_old_alone":null,"unreadable_in_new_alone":null},"relation":"neither","old_cut_in_new":null,"new_cut_in_old":false,"same_volume":null,"rescues_more":"new"}'
is 1 "$K" compare --json volume_uuid volume
says out '"same_volume":false,"rescues_more":null}'

# Pairs of fronts and of altered reads, some with each, against a reading of the test's own.
reads="nights fresh torn before rewound lower fewer fewer_index fewer_data fewer_other shifted inserted worn_old worn_new worn_front lost_behind as_mark altered one_element bad1 bad1i volume_uuid volume_capitals"
for n in 3 7 11; do
    front nights $n $((6 * n - 1)) front.$n
    reads="$reads front.$n"
done
rm -rf twin && cp -r worn_old twin && reads="$reads twin"
# shellcheck disable=SC2086
"$K" check --json $reads > checked
for old in $reads; do
    for new in nights before rewound fewer_index worn_old worn_new bad1 bad1i front.7 twin; do
        [ "$old" != "$new" ] || continue
        object=$("$K" compare --json "$old" "$new")
        printf '%s\t%s\t%s\t%s\n' $? "$old" "$new" "$object"
    done
done > compared
checks=$((checks + $(wc -l < compared)))
python3 -I -S "$PARTS/../compared.py" checked < compared > out 2>&1 || fail "compare --json: $(tail -1 out)"

# ---- Names, help, bad use ----

cp -r before "$ODD 1" && cp -r rewound "$ODD 2"
is 0 "$K" compare "$ODD 1" "$ODD 2"
is_visible out
says out "OLD  $SHOWN 1  KLA001"
says out "klapouzen cut --keep-index 7 --keep-data 68 $SHOWN 2 OUT makes OLD's cut of it"
is 0 "$K" compare --json "$ODD 1" "$ODD 2"
is_visible out
is_json out
is 0 "$K" compare --help
says out "usage: klapouzen compare [--json] OLD NEW"
says out "Not promised"
for words in "" fresh "fresh fresh fresh"; do
    # shellcheck disable=SC2086
    is 2 "$K" compare $words
    says err "klapouzen: two folders wanted, OLD and NEW"
    says err "usage: klapouzen compare [--json] OLD NEW"
done
# One folder by any of its names: nothing is compared, and nothing is said to be the same.
ln -s nights other_name
for words in "nights nights" "nights ./nights/" "--json nights nights" "nights other_name" "other_name nights" "torn torn"; do
    # shellcheck disable=SC2086
    is 2 "$K" compare $words
    says err "klapouzen: one folder given twice: ${words##* }"
    checks=$((checks + 1))
    [ ! -s out ] || fail "something is said of one folder"
done
rm other_name
is 2 "$K" compare nowhere nowhere
says err "klapouzen: nowhere: No such file or directory"
is 2 "$K" compare --nonsense fresh fresh
says err "unknown option: --nonsense"
is 2 "$K" compare --json=x fresh fresh
for words in "fresh nowhere" "nowhere fresh" "--json fresh nowhere"; do
    # shellcheck disable=SC2086
    is 2 "$K" compare $words
    says err "klapouzen: nowhere: No such file or directory"
    one_line err
    checks=$((checks + 1))
    [ ! -s out ] || fail "something is said of a read that can't be read"
done
rm -rf front.* as_* at_* past_* fewer* marks* twin no_element no_files one_element one_byte other_byte altered shifted inserted shorter lost_* worn_old worn_new worn_front all_other uncut volume* lower* before* rewound_on "$ODD 1" "$ODD 2"
