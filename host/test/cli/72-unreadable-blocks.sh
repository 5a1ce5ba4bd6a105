# Blocks that the drive could not read.
"$SAMPLE" unreadable worn || exit 2
NAME="worn  KLA001  30a91a08-daae-48d1-ae75-69804e61d2ea"

# ---- Check ----

is 1 "$K" check worn
says out "$NAME  break 5: file 2 of the last index does not lie on the tape: wednesday.wav; cut keeps 11 + 26 of 21 + 74 elements, generation 2; 2 unreadable blocks on the index side, 3 on the data side"
says out "1 cartridge: 0 consistent, 1 to cut, 0 without a cut, 0 refused, 0 unreadable; 1 of all with unreadable blocks"
is 1 "$K" check --json worn
is_json out
says out '"elements":{"index":21,"data":74},"unreadable_blocks":{"index":2,"data":3},"cut":{"index_construct":1,"data_construct":1,"index_kept":11,"index_dropped":10,"data_kept":26,'
is 1 "$K" check worn fresh nights worn
says out "4 cartridges: 1 consistent, 3 to cut, 0 without a cut, 0 refused, 0 unreadable; 2 of all with unreadable blocks"
is 0 "$K" check fresh
says_not out "unreadable block"

# Of one side, and of one block. An index of the index side that is not its last does not count.
lose kept one index:8
is 0 "$K" check one
says out "  consistent; cut keeps all 13 + 71 elements, generation 4; 1 unreadable block on the index side"
says_not out "data side"
lose kept one data:29
is 1 "$K" check one
says out "break 3: index 2 of the data partition is not sound: refused 19: an unreadable block; cut keeps "
says out "; 1 unreadable block on the data side"
says_not out "index side"

# In a data run where no file is: consistent. In a file of the last index: break 5. In the last index: break 4.
lose long one data:154 data:155
is 0 "$K" check one
says out "  consistent; cut keeps all 187 + 304 elements, generation 61; 2 unreadable blocks on the data side"
lose kept one data:31
is 1 "$K" check one
says out "break 5: file 2 of the last index does not lie on the tape: wednesday.wav; cut keeps 10 + 25 of 13 + 71 elements, generation 2; 1 unreadable block on the data side"
lose kept one index:11
is 1 "$K" check one
says out "break 4: the last index of the index partition, index 2, is not sound: refused 19: an unreadable block; cut keeps "

# The last byte of a list; a list of nothing else; neither is malformed.
lose fresh one data:7+
is 1 "$K" check one
says out "break 2: the data partition does not end with a whole index; cut keeps 7 + 7 of 7 + 8 elements, generation 1; 1 unreadable block on the data side"
mkdir only && printf '\003' > only/index.list
is 1 "$K" check only
says out "only  refused 9: the partition does not begin with block, mark, block, mark (index side: index.list, element 0 is unreadable); 1 unreadable block on the index side"
head -c 65536 /dev/zero | tr '\0' '\003' > only/index.list
is 1 "$K" check only
says out "; 65,536 unreadable blocks on the index side"
printf '\003' >> only/index.list
is 1 "$K" check only
says out "refused 1: "
says_not out "unreadable block"
rm -rf only
lose fresh one data:7+ && printf 'x' >> one/data.store
is 1 "$K" check --json one
says out '"refusal":{"number":1,'
says out '"elements":{"index":7,"data":null},"unreadable_blocks":{"index":0,"data":null}}'

# Among the labels, on each side: in the place of each of the four.
for side in index data; do
    for n in 0 1 2 3; do
        lose fresh one $side:$n
        is 1 "$K" check one
        says out "one  refused 9: the partition does not begin with block, mark, block, mark ($side side: $side.list, element $n is unreadable); 1 unreadable block on the $side side"
        is 1 "$K" check --json one
        is_json out
        says out "\"refusal\":{\"number\":9,\"text\":\"the partition does not begin with block, mark, block, mark\",\"side\":\"$side\",\"file\":\"$side.list, element $n is unreadable\"}"
    done
done
is 1 "$K" show one
says out "0-3  labels?    3 blocks, 1 unreadable, "
says out "          3  unreadable 1 block"
# One behind a mark in the place of a label is not why.
printf '\001\003' > one/data.list && : > one/data.store
is 1 "$K" check one
says out "(data side: data.list); 1 unreadable block on the data side"

# ---- Show ----

is 0 "$K" show worn --svg worn.svg
says out "index partition a: 21 elements, 18,308 bytes, 2 unreadable blocks"
says out "  [LLLLIIIIIII?x??-xiiii]"
says out "        11-14  index 2    refused 19: an unreadable block, 1 of 2 blocks"
says out "           12  unreadable 1 block"
says out "        15-16  data       2 blocks, 1 unreadable, 4,096 bytes"
says out "data partition b: 74 elements, 225,913 bytes, 3 unreadable blocks"
says out "        33-69  data       37 blocks, 3 unreadable, 137,712 bytes"
says out "        42-43  unreadable 2 blocks"
says out "           63  unreadable 1 block"
says out "[LLLLIII===============IIII---iiii--------xx-------------------x------iii]"
says_not out defect
is 0 "$K" show fresh
says_not out unreadable
lose kept one index:8
is 0 "$K" show one
says out "[LLLLIII?X?III]"
says out "        7-9  index 1    refused 19: an unreadable block, 1 of 1 block"

# What is a defect, and what is none: full, short, unreadable; the numbers are the first element of each.
full() { printf '\002\000\000\020\000'; }
short() { printf '\002\000\000\000\012'; }
# run KINDS: a fresh cartridge with such an index run behind it on the index side.
run() {
    local kind bytes=0
    rm -rf run && cp -r fresh run
    { cat fresh/index.list; printf '\001'
    for kind in $1; do
        case $kind in full) full ;; short) short ;; lost) printf '\003' ;; esac
    done; printf '\001'; } > run/index.list
    for kind in $1; do
        case $kind in full) bytes=$((bytes + 4096)) ;; short) bytes=$((bytes + 10)) ;; esac
    done
    head -c $bytes /dev/zero >> run/index.store
}
for kinds in "lost" "lost lost" "full lost" "lost full" "lost short" "full lost short" "lost full lost"; do
    run "$kinds"
    is 0 "$K" show run
    says_not out defect
    says out "  index 1    refused 19: an unreadable block, $(grep -o lost <<< "$kinds" | wc -l) of "
    is 1 "$K" files run --construct 1
    says err "run: refused 19: an unreadable block (index side: index.store, index construct 1)"
done
while read -r element kinds; do
    run "$kinds"
    is 0 "$K" show run
    says out "$(printf '  %11s  defect     a short block before the last of an index run' "$element")"
    says_not out "index 1 "
    is 1 "$K" files run --construct 1
    says err "refused 2"
done <<KINDS
9 short lost
10 lost short lost
10 lost short full
10 full short lost
KINDS

# What is left of an index is no index, though it reads as one: its text filled up to a block, and an unreadable block behind it.
lose fresh remnant index:6+
python3 -I -S - <<'PYTHON'
store = open("remnant/index.store", "rb").read()
begin = store.index(b"<?xml", store.index(b"</ltfslabel>"))
with open("remnant/index.store", "wb") as file:
    file.write(store[:begin] + store[begin:].ljust(4096, b"\n"))
with open("remnant/index.list", "r+b") as file:
    file.seek(13)
    file.write(b"\2" + (4096).to_bytes(4, "big"))
PYTHON
is 1 "$K" check remnant
says out "break 4: "
says out "no cut"
is 1 "$K" files remnant
says err "remnant: refused 19: an unreadable block (index side: index.store, index construct 0)"
is 0 "$K" show remnant
says out "4-7  index 0    refused 19: an unreadable block, 1 of 2 blocks"
# Without the block it is one.
tail -c 2 remnant/index.list | od -An -tx1 > tail_of
says tail_of "03 01"
{ head -c -2 remnant/index.list; printf '\001'; } > front && cp front remnant/index.list
is 0 "$K" check remnant

# Many of them: the first stretches, and all where that is asked for; of runs that are left out the number.
lose nights many_lost data:32 data:34 data:36 data:38 data:40 data:42 data:44 data:46 data:48 data:50 data:51
is 0 "$K" show many_lost
says out "31-67  data       37 blocks, 11 unreadable, "
says out "           46  unreadable 1 block"
says out "          ...  unreadable 3 blocks more; --all shows them"
says_not out "         48  unreadable"
is 0 "$K" show many_lost --all
says out "        50-51  unreadable 2 blocks"
says_not out "more;"
lose long long_lost data:154 data:155 data:164
is 0 "$K" show long_lost
says out " runs more, 3 unreadable blocks; --all shows them"
says_not out "  unreadable "
is 0 "$K" show long_lost --all
says out "      154-155  unreadable 2 blocks"

# The picture: a bar for each stretch that can be told from the one before, and the legend.
is_xml worn.svg
says worn.svg ">unreadable block</text>"
says worn.svg 'class="note">2 unreadable</text>'
says worn.svg 'class="note">3 unreadable</text>'
says worn.svg 'class="caption">3 unreadable</text>'
says worn.svg 'class="caption">2 blocks</text>'
says worn.svg ">refused 19</text>"
bars() { # FILE NUMBER
    checks=$((checks + 1))
    [ "$(grep -c '<rect.* height="11" class="unreadable"' "$1")" -eq "$2" ] || fail "not $2 bars of unreadable blocks in $1"
}
bars worn.svg 4
bars fresh.svg 0
# Each over the run that it is in, as far along as its elements are: two of the 37 from the tenth on, and the 31st.
checks=$((checks + 1))
python3 -I -S - > places <<'PYTHON' || fail "the bars: $(cat places)"
import sys, xml.dom.minidom
boxes = [[b.getAttribute("class")] + [float(b.getAttribute(k)) for k in ("x", "y", "width")]
         for b in xml.dom.minidom.parse("worn.svg").getElementsByTagName("rect") if b.getAttribute("x")]
run = [b for b in boxes if b[0] == "data" and b[2] == 280][2]
bars = [b for b in boxes if b[0] == "unreadable" and b[2] == 277]
print(run, bars)
along = [round((b[1] + b[3] / 2 - run[1]) / run[3] * 37, 1) for b in bars]
print(along)
sys.exit(len(bars) != 2 or not 9.6 < along[0] < 10.4 or not 30.1 < along[1] < 30.9 or not 3 < bars[0][3] < 6)
PYTHON
head -c 65528 /dev/zero | tr '\0' '\003' > lost_run
cp -r fresh all_lost && cat lost_run >> all_lost/data.list
is 0 "$K" show all_lost --svg all_lost.svg
says out "      7-65534  data       65,528 blocks, 65,528 unreadable, 0 bytes"
bars all_lost.svg 1
says all_lost.svg ">65,528 unreadable</text>"
# Every second block: as few bars as can be told apart.
python3 -I -S -c 'open("all_lost/data.list", "ab").truncate(19); open("all_lost/data.list", "ab").write(b"\3\2\0\0\0\1" * 10000); open("all_lost/data.store", "ab").write(b"x" * 10000)'
rm all_lost.svg
is 0 "$K" show all_lost --svg all_lost.svg
says out "data       20,000 blocks, 10,000 unreadable, 10,000 bytes"
bars all_lost.svg 1
rm -rf all_lost

# ---- Files and extract ----

is 0 "$K" files worn --construct 3
says out ": 1 directory, 13 files, 3 of them on unreadable blocks"
says out "        b 33+0, 150,000 bytes at 0, 3 unreadable blocks"
says out "        b 42+4,000, 300 bytes at 0, 2 unreadable blocks"
says out "        a 15+0, 5,000 bytes at 0, 1 unreadable block"
checks=$((checks + 1))
[ "$(grep -c unreadable out)" -eq 4 ] || fail "an extent is marked that touches none" "$(cat out)"
is 0 "$K" files worn --construct 3 --json
is_json out
says out '"startblock":42,"byteoffset":4000,"bytecount":300,"fileoffset":0,"unreadable_blocks":2},{"partition":"b","startblock":33,"byteoffset":0,"bytecount":5000,"fileoffset":1000,"unreadable_blocks":0}]}'
is 0 "$K" files worn
says_not out unreadable

# The cut keeps an index without the file: which one it is.
is 1 "$K" extract worn wednesday.wav
says err "worn: wednesday.wav: no file has this path or name in index 1 of the index partition"
is 1 "$K" extract worn --data --construct 2 --number 12
says err "worn: 12: no file has this number in index 2 of the data partition"

# Without --holes: which bytes, and nothing is written.
is 1 "$K" extract worn --construct 3 wednesday.wav --output lost
says err "worn: position 36864 of the file, 4,096 bytes: block 42 is unreadable (data side: data.list)"
says err "worn: position 40960 of the file, 4,096 bytes: block 43 is unreadable (data side: data.list)"
says err "worn: position 122880 of the file, 4,096 bytes: block 63 is unreadable (data side: data.list)"
says err "worn: 12,288 of 150,000 bytes of the file could not be read; --holes writes the others, and zeros for these"
checks=$((checks + 1))
[ "$(wc -l < err)" -eq 4 ] || fail "not a line for each gap" "$(cat err)"
absent lost
absent lost.gaps
is 1 "$K" extract worn --construct 3 wednesday.wav
checks=$((checks + 1))
[ ! -s out ] || fail "bytes before a gap are written"
is 1 "$K" extract worn --construct 3 notes.txt
says err "worn: position 4096 of the file, 904 bytes: block 16 is unreadable (index side: index.list)"
no_drafts

# With it: to the end of the block or of the extent, whichever comes first; each block a line.
is 3 "$K" extract worn --construct 3 wednesday.wav --holes --output lost
says err "worn: 12,288 of 150,000 bytes of the file could not be read; lost has zeros for them, and lost.gaps lists them"
one_line err
printf '36864 4096 b 42\n40960 4096 b 43\n122880 4096 b 63\n' > wanted
same lost.gaps wanted
checks=$((checks + 1))
[ ! -s out ] || fail "something is on standard output"
extracted worn 2 lost lost.gaps --construct 3
for n in 3 4; do
    is 3 "$K" extract worn --construct 3 --number $n --holes --output lost_$n
    extracted worn $n lost_$n lost_$n.gaps --construct 3
done
printf '0 96 b 42\n96 204 b 43\n' > wanted
same lost_3.gaps wanted
printf '4096 904 a 16\n' > wanted
same lost_4.gaps wanted
checks=$((checks + 1))
[ "$(stat -c %b lost)" -lt "$(stat -c %b wednesday)" ] || fail "zeros for a gap take space"

# To standard output: the same bytes in a file and in a pipe, and the list on standard error.
for way in "> out" "| cat > out"; do
    is 3 bash -c "set -o pipefail; '$K' extract worn --construct 3 jingle.wav --holes 2> told $way"
    bash -c "'$K' extract worn --construct 3 jingle.wav --holes 2> told $way"
    same out lost_3
    printf '%s\n' "klapouzen: worn: 300 of 6,000 bytes of the file could not be read; zeros were written for them. Position, bytes, partition, block:" > wanted
    cat lost_3.gaps >> wanted
    same told wanted
done
absent out.gaps

# A whole file is written as without it, and a list that is there does not matter.
printf other > monday.gaps
is 0 "$K" extract worn monday.wav --holes --output monday
extracted worn 0 monday
checks=$((checks + 1))
[ ! -s err ] || fail "something is said of a whole file" "$(cat err)"
says monday.gaps other
is 0 "$K" extract worn monday.wav --holes
same out monday

# What is missing for another reason is refused, and nothing is written; also where an unreadable block stands before it.
is 1 "$K" extract sparse 5 --holes --output past
says err "byte 2000 of block 9, which is not there (data side: data.store)"
absent past
is 1 "$K" extract sparse 5
checks=$((checks + 1))
[ ! -s out ] || fail "something is written of a file that is not there"
lose sparse sparse_lost data:8
is 3 "$K" extract sparse_lost 0 --holes --output sparse_holes
extracted sparse_lost 0 sparse_holes sparse_holes.gaps
lose worn cut_off data:42
head -c 200 worn/data.list > cut_off/data.list
python3 -I -S - <<'PYTHON'
codes, at, bytes_ = open("cut_off/data.list", "rb").read(), 0, 0
while at < len(codes):
    size = 5 if codes[at] == 2 else 1
    if at + size > len(codes):
        break
    bytes_ += int.from_bytes(codes[at + 1:at + size], "big")
    at += size
open("cut_off/data.list", "r+b").truncate(at)
open("cut_off/data.store", "r+b").truncate(bytes_)
PYTHON
for holes in "" --holes; do
    is 1 "$K" extract cut_off --construct 3 wednesday.wav $holes --output past
    says err ", which is not there (data side: data.store)"
    one_line err
    absent past
    absent past.gaps
done

# Neither file replaces one that is there, and none is left alone.
printf other > taken.gaps
is 2 "$K" extract worn --construct 3 jingle.wav --holes --output taken
says err "klapouzen: taken.gaps: File exists"
one_line err
absent taken
says taken.gaps other
printf other > there
is 2 "$K" extract worn --construct 3 jingle.wav --holes --output there
says err "klapouzen: there: File exists"
one_line err
says there other
absent there.gaps
is 2 "$K" extract worn --construct 3 jingle.wav --holes --output nowhere/lost
says err "nowhere/lost: No such file or directory"
one_line err
if [ "$(id -u)" -ne 0 ]; then
    mkdir closed_folder && chmod 555 closed_folder
    is 2 "$K" extract worn --construct 3 jingle.wav --holes --output closed_folder/lost
    says err "closed_folder/lost: Permission denied"
fi
is 2 bash -c "ulimit -f 16; '$K' extract worn --construct 3 wednesday.wav --holes --output full"
says err "full: File too large"
# shellcheck disable=SC2086
is 2 env $SHIM SHIM_FREE=137711 "$K" extract worn --construct 3 wednesday.wav --holes --output full
says err "full: 137,712 bytes have to be stored, 137,711 are free"
absent full
absent full.gaps
# shellcheck disable=SC2086
is 3 env $SHIM SHIM_FREE=137712 "$K" extract worn --construct 3 wednesday.wav --holes --output enough_holes
same enough_holes lost
no_drafts

# Both are on disk before they have their names, the list first.
rm -f calls
# shellcheck disable=SC2086
is 3 env $SHIM "$K" extract worn --construct 3 jingle.wav --holes --output below/holed
lasting_calls > order
printf '%s\n' 'fsync ./below/holed.gaps.draft' 'rename below/holed.gaps' 'fsync ./below' 'fsync ./below/holed.draft' 'rename below/holed' 'fsync ./below' > wanted
same order wanted
for call in 1 2 3 4; do
    # shellcheck disable=SC2086
    is 2 env $SHIM SHIM_FAIL=fsync:$call "$K" extract worn --construct 3 jingle.wav --holes --output failed
    says err "klapouzen: failed"
    says err ": Input/output error"
    one_line err
    absent failed
    absent failed.gaps
done
no_drafts

# Signals: both or none, and what is there was said.
for call in open fwrite fsync; do
    stops 15 $call "$K" extract worn --construct 3 wednesday.wav --holes --output stopped
    absent stopped
    absent stopped.gaps
done
stops 2 rename "$K" extract worn --construct 3 wednesday.wav --holes --output stopped
absent stopped
absent stopped.gaps
# A full pipe can be left.
mkfifo holes_pipe
exec 9<> holes_pipe
"$K" extract worn --construct 3 wednesday.wav --holes > holes_pipe 2> /dev/null &
timeout 10 head -c 1 <&9 > /dev/null
kill -TERM $! 2> /dev/null
wait $! 2> /dev/null
status=$?
checks=$((checks + 1))
[ $status -eq 143 ] || fail "a signal does not end extract --holes at a full pipe"
exec 9<&-
no_drafts

# ---- Cut ----

# The rescue's cut, and one that is told: list and store are the fronts, byte for byte.
is 0 "$K" cut worn worn_kept
says out "worn_kept  cut keeps 11 + 26 of 21 + 74 elements, generation 2"
is 0 "$K" check worn_kept
says out "consistent; cut keeps all 11 + 26 elements, generation 2"
is 0 "$K" cut --keep-index 17 --keep-data 64 worn worn_told
says out "worn_told  keeps 17 + 64 of 21 + 74 elements; "
for name in index.list index.store data.list data.store; do
    head -c "$(stat -c %s worn_told/$name)" worn/$name > front
    same worn_told/$name front
done
checks=$((checks + 2))
[ "$(tail -c 1 worn_told/data.list)" = $'\003' ] || fail "the last element kept is not the unreadable block"
[ "$(tail -c 1 worn_told/index.list)" = $'\003' ] || fail "the last element kept is not the unreadable block"
is 1 "$K" check worn_told
says out "2 unreadable blocks on the index side, 3 on the data side"
is 0 "$K" cut --keep-data 63 worn_told worn_again
is 1 "$K" check worn_again
says out "2 unreadable blocks on the index side, 2 on the data side"
is 0 "$K" cut --keep-data 63 --keep-index 17 worn worn_once
diff -r worn_again worn_once > /dev/null || fail "cutting twice is not cutting once"
no_drafts
