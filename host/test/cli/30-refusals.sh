# Refusals with number, text, file and side.
mkdir empty && touch empty/index.list
is 1 "$K" check empty
says out "refused 9: the partition does not begin with block, mark, block, mark (index side: index.list)"
cp -r fresh bad1 && printf '\004' >> bad1/data.list
is 1 "$K" check bad1
says out "refused 1: the block list is malformed or does not fit its store (data side: data.list with data.store)"
cp -r fresh bad3 && printf 'X' | dd of=bad3/data.store conv=notrunc status=none
is 1 "$K" check bad3
says out "refused 3: not a VOL1 label of an LTFS volume (data side: data.store, element 0)"
cp -r fresh bad4 && printf '?' | dd of=bad4/index.store bs=1 seek=80 conv=notrunc status=none
is 1 "$K" check --json bad4
says out '"refusal":{"number":4,"text":"the text is not in the XML form","side":"index","file":"index.store, element 2","place":{"front":0,"line":1,"column":1}}'
is_json out
says out '"elements":{"index":7,"data":7},"unreadable_blocks":{"index":0,"data":0}}'
cp -r fresh bad1i && printf '\004' >> bad1i/index.list
is 1 "$K" check bad1i
says out "(index side: index.list with index.store)"
is 1 "$K" check --json bad1i
is_json out
says out '"elements":{"index":null,"data":7},"unreadable_blocks":{"index":null,"data":0}}'
cp -r fresh bad3i && printf 'X' | dd of=bad3i/index.store conv=notrunc status=none
is 1 "$K" check bad3i
says out "(index side: index.store, element 0)"
cp -r fresh bad4d && printf '?' | dd of=bad4d/data.store bs=1 seek=80 conv=notrunc status=none
is 1 "$K" check bad4d
says out "refused 4: the text is not in the XML form (data side: data.store, element 2, byte 0, line 1, column 1)"
mkdir headless && cp fresh/data.* headless && head -c 6 fresh/index.list > headless/index.list && head -c 80 fresh/index.store > headless/index.store
is 1 "$K" check headless
says out "refused 9: the partition does not begin with block, mark, block, mark (index side: index.list)"
mkdir swapped
cp fresh/index.list swapped/data.list && cp fresh/index.store swapped/data.store
cp fresh/data.list swapped/index.list && cp fresh/data.store swapped/index.store
is 1 "$K" check swapped
says out "refused 8: labels disagree, or an index belongs to another volume (both sides: "
rm -rf missing && cp -r fresh missing && rm missing/data.list missing/data.store
is 1 "$K" check missing
says out "(data side: data.list)"
cp -r fresh bad15 && head -c 16777217 /dev/zero > bad15/index.store
is 1 "$K" check bad15
says out "refused 1: "
