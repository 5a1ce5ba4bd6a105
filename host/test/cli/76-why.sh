# What is refused, and where a text goes wrong.
DECLARATION='<?xml version="1.0" encoding="UTF-8"?>'

# wrong TO SIDE FIRST [FROM]: a fresh cartridge, or another one, with the text on standard input there. %HERE% is where it goes wrong.
wrong() {
    rm -rf "$1"
    python3 -I -S "$PARTS/../wrong_text.py" "${4:-fresh}" "$1" "$2" "$3" || fail "no cartridge $1"
}

# marked FOLDER SIDE COLUMNS [FILE]: what is in `out` marks the place of that text; FILE has its JSON object.
marked() {
    checks=$((checks + 1))
    python3 -I -S "$PARTS/../marked.py" "$1" "$2" "$3" ${4:+"$4"} < out 2> judged || fail "not the place in $1" "$(cat judged)" "$(cat out)"
}

# goes_wrong NAME: the text on standard input as the index side's only index: why says its place, in words and in JSON.
goes_wrong() {
    wrong "$1" index 5
    is 1 "$K" why --json "$1"
    one_line out
    is_visible out
    mv out told
    is 1 "$K" why "$1"
    is_visible out
    says out "index side: index.store, index construct 0, element"
    says out "  refused 4: the text is not in the XML form"
    marked "$1" index 80 told
}

# ---- An index that software wrote without references ----

"$SAMPLE" unescaped unescaped || exit 2
is 1 "$K" why unescaped
cat > wanted <<'END'
index side: index.store, index construct 2, element 11
  refused 4: the text is not in the XML form
  byte 1473, line 2, column 1435 of a text of 2,032 bytes
  byte 1473 of element 11, byte 4325 of index.store
  found byte 0x20 ' ' within <name>
     2 | ...</file><file><fileuid>3</fileuid><name>salt & pepper.wav</name><r...
       |                                                 ^

data side: data.store, index construct 2, element 29
  refused 4: the text is not in the XML form
  byte 1473, line 2, column 1435 of a text of 2,032 bytes
  byte 1473 of element 29, byte 74218 of data.store
  found byte 0x20 ' ' within <name>
     2 | ...</file><file><fileuid>3</fileuid><name>salt & pepper.wav</name><r...
       |                                                 ^

index partition: 1 of 3 indexes is not sound
data partition: 1 of 3 indexes is not sound
verdict: break 3: index 2 of the data partition is not sound: refused 4: the text is not in the XML form at byte 1473, line 2, column 1435
END
same out wanted
is 1 "$K" why --json unescaped
cat > wanted <<'END'
{"folder":"unescaped","side":"index","file":"index.store","construct":2,"element":11,"last_element":11,"begin":2852,"length":2032,"refusal":{"number":4,"text":"the text is not in the XML form","place":{"front":1473,"line":2,"column":1435,"element":11,"byte":1473,"store_byte":4325,"found":32,"open":5,"within":"name"}}}
{"folder":"unescaped","side":"data","file":"data.store","construct":2,"element":29,"last_element":29,"begin":72745,"length":2032,"refusal":{"number":4,"text":"the text is not in the XML form","place":{"front":1473,"line":2,"column":1435,"element":29,"byte":1473,"store_byte":74218,"found":32,"open":5,"within":"name"}}}
END
same out wanted

# ---- Nothing is refused ----

is 0 "$K" why fresh
printf '%s\n' 'index partition: its index is sound' 'data partition: its index is sound' 'verdict: consistent' > wanted
same out wanted
is 0 "$K" why nights
printf '%s\n' 'index partition: all 3 indexes are sound' 'data partition: all 4 indexes are sound; 1 index run does not stand' \
    'verdict: break 2: the data partition does not end with a whole index' > wanted
same out wanted
is 0 "$K" why --data nights
printf '%s\n' 'data partition: all 4 indexes are sound; 1 index run does not stand' \
    'verdict: break 2: the data partition does not end with a whole index' > wanted
same out wanted
is 0 "$K" why --json nights
checks=$((checks + 1))
[ ! -s out ] || fail "an object for a sound index"
is 0 "$K" why nights --data --construct 3
printf '%s\n' 'data side: data.store, index construct 3, element 69' '  sound' '' > wanted
same out wanted
is 0 "$K" why nights --construct 1 --json
says out '{"folder":"nights","side":"index","file":"index.store","construct":1,"element":8,"last_element":8,"begin":'
says out ',"refusal":null}'
is_json out
is 0 "$K" why defect
says out 'data partition: all 2 indexes are sound; 1 index run does not stand'
is 0 "$K" why torn
says out 'data partition: no index stands; 1 index run does not stand'

# ---- Bad use ----

is 2 "$K" why
says err "one folder wanted"
is 2 "$K" why fresh nights
is 2 "$K" why nowhere
says err "nowhere: No such file or directory"
for number in x '' -1 1x 99999999999999999999; do
    is 2 "$K" why fresh --construct="$number"
    says err "not a construct number"
    says err "usage: klapouzen why"
done
is 1 "$K" why nights --construct 3
says err "klapouzen: nights: refused 2: no such element, construct, file, entry or file position (index side: index.store, index construct 3)"
checks=$((checks + 1))
[ ! -s out ] || fail "something is said of an index that is not there"
is 1 "$K" why nights --data --construct 4 --json
says err "(data side: data.store, index construct 4)"
is 0 "$K" why nights --construct 7 --construct 1 --data --data

# ---- Where a text goes wrong ----

# In the middle of a line, in the first, the second and a later one.
goes_wrong first <<< '<?xml version="1.0" %HERE%?ncoding="UTF-8"?>'
says out "  found byte 0x3f '?'"
goes_wrong second <<< "$DECLARATION
<ltfsindex version=\"2.0.1\"><creator>salt &%HERE% pepper</creator></ltfsindex>"
says out "  found byte 0x20 ' ' within <creator>"
goes_wrong later <<< "$DECLARATION
<ltfsindex version='2.0.1'>
  <creator>x</creator>
  <name>a > b</name></%HERE%contents>
</ltfsindex>"
says out "  found byte 0x63 'c' within <ltfsindex>"
# Line ends: CR LF, at the place too; a CR alone ends no line.
goes_wrong crlf < <(printf '%s\r\n<a>\r\n  <b>one &%%HERE%% two</b>\r\n</a>\r\n' "$DECLARATION")
says_not out '\x0d'
goes_wrong at_cr < <(printf '%s\r\n<a>\r\n  <b>one &%%HERE%%\r\n two</b>\r\n</a>\r\n' "$DECLARATION")
says out '     3 |   <b>one &\x0d'
says out "  found byte 0x0d within <b>"
goes_wrong at_lf < <(printf '%s\n<a>\n  <b>one &%%HERE%%\n two</b>\n</a>\n' "$DECLARATION")
says out '     3 |   <b>one &\x0a'
goes_wrong cr_alone < <(printf '%s\r<a>\r  <b>one &%%HERE%% two</b>\r</a>\r' "$DECLARATION")
# Tabs, and a backslash, which are wider where they are printed.
goes_wrong tabs < <(printf '%s\n<a>\n\t\t<b>\\one \\ &%%HERE%%\ttwo</b>\n</a>\n' "$DECLARATION")
says out '     3 | \x09\x09<b>\\one \\ &\x09two</b>'
# Characters of no, one and two columns, and such as a terminal obeys.
goes_wrong wide <<< "$DECLARATION
<a><b>Don’t — “stop” €5 Café Caf$(printf 'e\314\201') 中文 🎵 ｆｕｌｌ</b><c>&%HERE%中</c></a>"
says out "  found byte 0xe4 of '中' within <c>"
goes_wrong obeyed <<< "$DECLARATION
<a><b>$(printf '\342\200\256\342\200\213\302\233[31m\177\363\240\200\201\357\273\277')</b><c>&%HERE%$(printf '\033')[31m</c>"
says out '     2 | <a><b>\u202e\u200b\u009b[31m\x7f\U000e0001\ufeff</b><c>&\x1b[31m</c>'
says out "  found byte 0x1b within <c>"
# Within a character: a byte that does not go on with it, one that is none, one of a character that XML does not have.
goes_wrong cut_character < <(printf '%s\n<a>M\303%%HERE%%(ller</a>' "$DECLARATION")
says out '     2 | <a>M\xc3(ller</a>'
goes_wrong no_character < <(printf '%s\n<a>M%%HERE%%\377ller</a>' "$DECLARATION")
says out "  found byte 0xff within <a>"
goes_wrong not_xml < <(printf '%s\n<a>M\357\277%%HERE%%\276ller</a>' "$DECLARATION")
says out "  found byte 0xbe of '\\ufffe' within <a>"
says out '     2 | <a>M\ufffeller</a>'
goes_wrong surrogate < <(printf '%s\n<a>M\355%%HERE%%\240\200ller</a>' "$DECLARATION")
says out '     2 | <a>M\xed\xa0\x80ller</a>'
# Behind the root element: as a block that was filled up.
goes_wrong filled_up < <(printf '%s\n<ltfsindex/>\n%%HERE%%' "$DECLARATION"; head -c 600 /dev/zero)
says out "  found byte 0x00 behind the end of <ltfsindex>"
# Too deep: the 65th element's name.
goes_wrong deep < <(echo "$DECLARATION"; printf '<x>%.0s' {1..64}; printf '<%%HERE%%y></y>'; printf '</x>%.0s' {1..64})
says out "  found byte 0x79 'y' within <x>"

# A text that ends too early: with one byte, in the declaration, in a tag, at a line's end, in a character.
goes_wrong one_byte < <(printf '<%%HERE%%')
says out "  byte 1, line 1, column 2 of a text of 1 byte"
says out "  the text ends there, too early: no element is open yet"
goes_wrong declaration < <(printf '<?xml version="1.0" enc%%HERE%%')
goes_wrong in_tag < <(printf '%s\n<ltfsindex version="2.0.1"><directory><name>x</name><contents%%HERE%%' "$DECLARATION")
says out "  the text ends there, too early: 2 elements are open, the innermost is <directory>"
goes_wrong line_end < <(printf '%s\n<ltfsindex version="2.0.1">\n%%HERE%%' "$DECLARATION")
says out "  the text ends there, too early: 1 element is open, <ltfsindex>"
goes_wrong in_character < <(printf '%s\n<a><b>M\303%%HERE%%' "$DECLARATION")
goes_wrong in_attribute < <(printf '%s\n<a attribute="x>y%%HERE%%' "$DECLARATION")
goes_wrong behind_attributes <<< "$DECLARATION
<a b='x>\"y'><c/><c d=\"x>'y\">&%HERE% </c></a>"
says out "  found byte 0x20 ' ' within <c>"
# All blocks are full: the end is the last one's.
goes_wrong full_blocks < <(echo "$DECLARATION"; printf '<a>'; head -c $((3 * 4096 - 42)) /dev/zero | tr '\0' x; printf '%%HERE%%')
says out "index construct 0, elements 5-7"
says out "  byte 4096 of element 7, "

# Long lines: cut on one side, on the other, on both, and just not; of 71 columns behind the line's number.
bytes() { head -c "$1" /dev/zero | tr '\0' "$2"; }
while read -r before behind; do
    { echo "$DECLARATION"; printf '<a>'; bytes "$before" b; printf '&%%HERE%%<'; bytes "$behind" c; } > text
    wrong long_line index 5 < text
    "$K" why long_line > out
    marked long_line index 80
done <<LENGTHS
0 1000
10 56
10 57
44 22
44 23
45 21
45 22
66 0
67 0
1000 0
1000 1
1000 21
1000 22
1000 23
1000 1000
LENGTHS
for character in '中' "$(printf 'e\314\201')" "$(printf '\302\233')" "$(printf '\363\240\200\201')"; do
    goes_wrong wide_line < <(echo "$DECLARATION"; printf '<a>'; printf "$character%.0s" {1..300}; printf '&%%HERE%%'; printf "$character%.0s" {1..300})
done
# A place in the second block of a text, and in the last: the element and its byte. The window has bytes of both blocks.
goes_wrong second_block < <(echo "$DECLARATION"; printf '<a>'; bytes $((4096 - 41)) b; printf '&%%HERE%% '; bytes 9000 c)
says out "index construct 0, elements 5-8"
says out "  byte 4098, line 2, column 4060 of a text of 13,099 bytes"
says out "  byte 2 of element 6, byte 4566 of index.store"
goes_wrong block_end < <(echo "$DECLARATION"; printf '<a>'; bytes $((4096 - 43)) b; printf '&%%HERE%% '; bytes 9000 c)
says out "  byte 0 of element 6, "
goes_wrong last_block < <(echo "$DECLARATION"; printf '<a>'; bytes 1048000 b; printf '&%%HERE%% ')
says out "index construct 0, elements 5-260"
# Many lines, and a long name.
goes_wrong many_lines < <(echo "$DECLARATION"; echo '<a>'; yes '<b/>' | head -n 99998; printf '  <c>&%%HERE%% </c></a>')
says out "line 100001, column 7 of"
says out "100001 |   <c>& </c></a>"
goes_wrong long_name < <(echo "$DECLARATION"; printf '<'; bytes 5000 n; printf '>&%%HERE%%>')
says out " within <nnnnnnnnnnnnnnnnnnnnnnnnnnnnnnnnnnnnnnnn...>"

# A terminal: as wide as it is, with the same places under the carets, and in colour.
if command -v script > /dev/null; then
    for columns in 50 80 132; do
        for folder in wide_line second later obeyed in_tag; do
            script -qec "stty cols $columns; '$K' why $folder" /dev/null > coloured < /dev/null
            says coloured $'\033[31mrefused 4\033[0m: the text'
            says coloured $'\033[31m^\033[0m'
            sed 's/\x1b\[[0-9;]*m//g' coloured > out
            marked $folder index $columns
        done
    done
    script -qec "stty cols 50; NO_COLOR=1 '$K' why second" /dev/null > out < /dev/null
    says_not out $'\033'
    marked second index 50
fi

# ---- Labels ----

# In a line that the other side's label does not have.
LABEL="$DECLARATION
<ltfslabel version=\"2.0.1\">
  <creator>salt &%HERE% pepper</creator></ltfslabel>"
for side in index data; do
    wrong one $side 2 <<< "$LABEL"
    is 1 "$K" why --json one
    one_line out
    says out "\"side\":\"$side\",\"file\":\"$side.store, element 2\",\"construct\":null,\"element\":2,\"last_element\":2,\"begin\":80,\"length\":114,\"refusal\":{\"number\":4,"
    mv out told
    is 1 "$K" why one
    says out "$side side: $side.store, element 2"
    says out "no index is read: the labels are refused"
    marked one $side 80 told
    # What check and show say of it.
    place=$(sed -n 's/^  \(byte [0-9]*, line [0-9]*, column [0-9]*\) of a text .*/\1/p' out)
    is 1 "$K" check one
    says out "one  refused 4: the text is not in the XML form ($side side: $side.store, element 2, $place)"
    is 1 "$K" check --json one
    is_json out
    says out "\"file\":\"$side.store, element 2\",\"place\":{\"front\":84,\"line\":3,\"column\":18}}"
    is 1 "$K" show one
    says out "refused 4: the text is not in the XML form ($side side: $side.store, element 2, $place); see klapouzen why one"
    # An index that was asked for is not read either.
    is 1 "$K" why one --construct 0
    says out "no index is read: the labels are refused"
done
# Of both sides: each by itself, at places of their own, the index side's first.
wrong index_wrong index 2 <<< "$LABEL"
wrong both_wrong data 2 index_wrong <<< "$DECLARATION
<ltfslabel version=\"2.0.1\">
    <creator%HERE%&lt;</creator></ltfslabel>"
is 1 "$K" why both_wrong
cp out both
sed -n '1,/^$/p' both > out
marked both_wrong index 80
sed '1,/^$/d' both > out
marked both_wrong data 80
is 1 "$K" why --data --json both_wrong
checks=$((checks + 1))
[ "$(sed 's/.*"side":"\([a-z]*\)".*/\1/' out | tr '\n' ' ')" = "index data " ] || fail "not both labels, or in another order" "$(cat out)"
is 1 "$K" check both_wrong
says out "(index side: index.store, element 2, byte 84, line 3, column 18)"
# A label that is refused although the other side's list is malformed.
cp -r index_wrong list_wrong && printf '\004' >> list_wrong/data.list
is 1 "$K" why list_wrong
says out "data side: data.list with data.store"
says out "  refused 1: the block list is malformed or does not fit its store"
sed -n '1,/^$/p' out > both && mv both out
marked list_wrong index 80

# Other refusals of labels, with what is known of them.
is 1 "$K" why swapped
says out "both sides: index.store and data.store, the labels"
says out "  refused 8: labels disagree, or an index belongs to another volume"
is 1 "$K" why swapped --json
is_json out
says out '"side":"both","file":"index.store and data.store, the labels","construct":null,"element":null,"last_element":null,"begin":null,"length":null,"refusal":{"number":8,'
is 1 "$K" why headless
says out "index side: index.list"
says out "  refused 9: the partition does not begin with block, mark, block, mark"
says out "  the list begins with block, mark, and ends there"
is 1 "$K" why missing
says out "  the list is empty"
lose fresh one index:1
is 1 "$K" why one
says out "index side: index.list, element 1 is unreadable"
says out "  the list begins with block, unreadable block, block, mark"
is 1 "$K" why bad3
says out "data side: data.store, element 0"
says out "  refused 3: not a VOL1 label of an LTFS volume"
says_not out "bytes, a VOL1 label"
is 1 "$K" why bad3 --json
says out '"construct":null,"element":0,"last_element":0,"begin":null,"length":null,"refusal":{"number":3,'
rm -rf one && printf 'one\tsize,0,79\n' | python3 -I -S "$PARTS/../elements.py" fresh index
is 1 "$K" why one
says out "  the block has 79 bytes, a VOL1 label has 80"

# relabelled FROM TO: a fresh cartridge with other words in the index side's label.
relabelled() {
    rm -rf one && cp -r fresh one && sed -i "s|$1|$2|" one/index.store
}
relabelled 'ltfslabel version="2.0.1"' 'ltfslabel version="2.1.1"'
is 1 "$K" why one
says out "index side: index.store, element 2"
says out "  refused 7: the version is not 2.0.R"
says out "  the text is in the XML form, and its root and attribute are right"
relabelled '<compression>true</compression>' '<compressiom>true</compressiom>'
is 1 "$K" why one
says out "  refused 5: wrong root, or an element or attribute missing, repeated, unknown or misplaced"
says out "  the text is in the XML form"
relabelled '<blocksize>4096<' '<blocksize>4095<'
is 1 "$K" why one
says out "  refused 6: a value outside its rule"
says out "  the text is in the XML form, and all its elements are right"
is 1 "$K" why one --json
says out '"element":2,"last_element":2,"begin":80,"length":388,"refusal":{"number":6,"text":"a value outside its rule"}}'
wrong one data 2 < <(bytes 4097 ' ')
is 1 "$K" why one
says out "data side: data.store, element 2"
says out "  refused 15: text too long, or too many entries or extents"
says out "  a text of at most 4,096 bytes is read"
says out "  its text is 4,097 bytes from byte 80 of data.store on"
says_not out "directories and files"

# A tape with ANSI labels is named as the other commands name it.
"$SAMPLE" ansi labelled_tape || exit 2
is 1 "$K" why labelled_tape
printf '%s\n' 'an ANSI labelled tape, volume BENCH1, with 6 files: see klapouzen ansi labelled_tape' > wanted
same out wanted
is 1 "$K" why labelled_tape --json
is_json out
says out '"side":"index","file":"index.list","construct":null,"element":null,"last_element":null,"begin":null,"length":null,"refusal":{"number":9,'
says out ',"ansi":{"identifier":"BENCH1","files":6,"refusal":null}}'

# ---- Other refusals of an index ----

# reindexed SIDE FROM TO: the cut of the three nights with other words in its last index on that side.
is 0 "$K" cut nights three
reindexed() {
    rm -rf one && cp -r three one
    python3 -I -S - "one/$1.store" "$2" "$3" <<'PYTHON' || fail "no \"$2\" in the last index"
import sys
path, old, new = sys.argv[1], sys.argv[2].encode(), sys.argv[3].encode()
store = open(path, "rb").read()
begin = store.rindex(b"<?xml")
if old not in store[begin:]:
    sys.exit(1)
open(path, "wb").write(store[:begin] + store[begin:].replace(old, new, 1))
PYTHON
}

# refused_index SIDE CONSTRUCT ELEMENT NUMBER: why tells of this one alone, in words and in JSON, and where its text is.
refused_index() {
    local begin length
    begin=$(offset_of "$3" "one/$1.list")
    length=$(($(offset_of $(($3 + 1)) "one/$1.list") - begin))
    is 1 "$K" why --json one
    one_line out
    is_json out
    says out "\"side\":\"$1\",\"file\":\"$1.store\",\"construct\":$2,\"element\":$3,\"last_element\":$3,\"begin\":$begin,\"length\":$length,"
    says out "\"refusal\":{\"number\":$4,\"text\":"
    says_not out '"place"'
    is 1 "$K" why one
    says out "$1 side: $1.store, index construct $2, element $3"
    says out "  refused $4: "
    says out "  its text is ${length%???},${length: -3} bytes from byte $begin of $1.store on"
    says_not out "^"
}
reindexed data '<readonly>false</readonly>' '<readonlx>false</readonlx>'
refused_index data 3 69 5
says out "  the text is in the XML form"
says out "data partition: 1 of 4 indexes is not sound"
says out "index partition: all 3 indexes are sound"
says out "verdict: break 3: index 3 of the data partition is not sound: refused 5: wrong root"
reindexed index '<readonly>false</readonly>' '<readonly>falsy</readonly>'
refused_index index 2 11 6
says out "  the text is in the XML form, and all its elements are right"
says out "index partition: 1 of 3 indexes is not sound"
says out "verdict: break 4: the last index of the index partition, index 2, is not sound: refused 6: a value outside its rule"
reindexed index 'version="2.0.1"' 'version="3.0.1"'
refused_index index 2 11 7
says out "  the text is in the XML form, and its root and attribute are right"
reindexed data '<volumeuuid>3' '<volumeuuid>4'
refused_index data 3 69 8
says out "  the volume's UUID is 30a91a08-daae-48d1-ae75-69804e61d2ea, its partitions are a and b;"
says out "  the index has another UUID, or a letter that is neither"
reindexed index '<length>9000<' '<length>8999<'
refused_index index 2 11 11
says out "  the text is in the XML form, and all its elements and values are right"
reindexed index '<location><partition>a</partition><startblock>11<' '<location><partition>a</partition><startblock>12<'
refused_index index 2 11 12
says out "  it stands at a 11 and says another place; all else is right"
# Only the one that is asked for.
is 0 "$K" why one --construct 1
says out "  sound"
is 0 "$K" why one --data
says_not out "index side"
is 1 "$K" why one --construct 2
says out "  refused 12: the index does not stand where it says"
says_not out partition:

# Too long by a byte, and not; too many entries; too many extents. Of a text that is not too long that is told.
for length in 1048576 1048577; do
    wrong one index 5 < <(echo "$DECLARATION"; echo '<ltfsindex version="2.0.1">'; bytes $((length - 39 - 28)) ' ')
    is 1 "$K" why one
    [ $length -eq 1048577 ] || says out "  refused 4: "
done
says out "  refused 15: text too long, or too many entries or extents"
says out "  a text of at most 1,048,576 bytes is read"
says out "  its text is 1,048,577 bytes from byte 468 of index.store on"
says_not out "directories and files"

# index_with ENTRY COUNT: the text of a fresh index with so many of these in its root directory.
index_with() {
    python3 -I -S - "$@" <<'PYTHON'
import sys
text = open("fresh/index.store").read()
text = text[text.rindex("<?xml"):]
sys.stdout.write(text.replace("<contents>", "<contents>" + sys.argv[1] * int(sys.argv[2])))
PYTHON
}
ENTRY='<fileuid/><name/><creationtime/><changetime/><modifytime/><accesstime/><backuptime/><readonly/>'
wrong one index 5 < <(index_with "<directory>$ENTRY<contents/></directory>" 4096)
is 1 "$K" why one
says out "  refused 15: text too long, or too many entries or extents"
says_not out "at most"
says out "  the text is not too long: it has over 4,096 directories and files, or a file with over 1,024 extents"
wrong one index 5 < <(index_with "<directory>$ENTRY<contents/></directory>" 4095)
is 1 "$K" why one
says out "  refused 6: "

# ---- Unreadable blocks ----

lose three one data:29
is 1 "$K" why one
says out "data side: data.store, index construct 2, element 29"
says out "  refused 19: an unreadable block"
says out "  unreadable, of 1 block: 29"
says out "verdict: break 3: index 2 of the data partition is not sound: refused 19: an unreadable block"
# Some blocks of a long index, and one of the other side, which has numbers of its own.
wrong filled_index index 5 < <(index_with "<directory>$ENTRY<contents/></directory>" 200)
lose filled_index one index:6 index:8 index:9 data:5
is 1 "$K" why one
says out "index side: index.store, index construct 0, elements 5-11"
says out "  unreadable, of 7 blocks: 6, 8, 9"
is 1 "$K" why one --json
is_json out
says out '"construct":0,"element":5,"last_element":11,"begin":null,"length":null,"refusal":{"number":19,"text":"an unreadable block","unreadable":[6,8,9]}}'
says out '"construct":0,"element":5,"last_element":5,"begin":null,"length":null,"refusal":{"number":19,"text":"an unreadable block","unreadable":[5]}}'

# ---- Several at once ----

# Each in its order, also those that no verdict names; and the map counts them.
cp -r three several && printf '?' | dd of=several/index.store bs=1 seek="$(offset_of 8 three/index.list)" conv=notrunc status=none
sed -i 's|<volumeuuid>3\([^/]*/volumeuuid><generationnumber>1<\)|<volumeuuid>4\1|' several/data.store
lose several one data:29
is 1 "$K" why one --json
checks=$((checks + 1))
[ "$(sed 's/.*"side":"\([a-z]*\)".*"construct":\([0-9]*\).*"number":\([0-9]*\).*/\1 \2 \3/' out | tr '\n' ' ')" = "index 1 4 data 0 8 data 2 19 " ] || fail "not these three" "$(cat out)"
is 1 "$K" why one
says out "index partition: 1 of 3 indexes is not sound"
says out "data partition: 2 of 4 indexes are not sound"
is 1 "$K" why one --data
says_not out "index side"
is 0 "$K" show one
says out "  index 1    refused 4: the text is not in the XML form at byte 0, line 1, column 1"
says out "  index 0    refused 8: labels disagree, or an index belongs to another volume"
says out "3 indexes are not sound: 1 refused 4, 1 refused 8, 1 refused 19; see klapouzen why one"
for folder in three nights; do
    is 0 "$K" show $folder
    says_not out "klapouzen why"
done
# Runs that are left out, by refusal.
lose long one index:50
sed -i 's|<generationnumber>3[0-9]<|<generationnumber>00<|' one/index.store
is 0 "$K" show one
says out " of them not sound: 1 refused 4, 10 refused 6, 1 refused 19; 1 unreadable block; --all shows them"
says out "12 indexes are not sound: 1 refused 4, 10 refused 6, 1 refused 19; see klapouzen why one"
# A folder's name reaches a terminal in characters that can be seen.
cp -r one $'odd \033[31m why'
is 0 "$K" show $'odd \033[31m why'
is_visible out
says out '; see klapouzen why odd \x1b[31m why'
is 1 "$K" why --json $'odd \033[31m why'
is_visible out
says out '{"folder":"odd \u001b[31m why","side":"index"'
