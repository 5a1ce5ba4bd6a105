# Show.
is 0 "$K" show nights
says out "index partition a: 13 elements"
says out "[LLLLIIIIIIIII]"
says out "68-70  index 3    generation 4, points back to b 29, 3 files"
says out "---- cut: 71 kept, 7 dropped ----"
says out "76-77  index run  1 block, 1,200 bytes, no closing mark"
says_not out $'\033'
says out "[LLLLIII==============III==III==================================III-----?]"
is 0 "$K" show defect
says out "[LLLLIIIIIIiii]"
says out "[LLLLIII===III!???]"
says out "13  defect     a block longer than the block size"
is 0 "$K" show long
says out "46 runs more, 1 of them not sound: 1 refused 4; --all shows them"
says_not out "index 30 "
is 0 "$K" show long --all
says out "index 30   generation 32, points back to b 157, 0 files"
says out "index 31   refused 4: the text is not in the XML form at byte 0, line 1, column 1"
says out "1 index is not sound: 1 refused 4; see klapouzen why long"
# A cut and a defect far from the ends and from each other: generation 7's index unsound, an empty run in the middle.
cp -r long long_torn
printf '?' | dd of=long_torn/data.store bs=1 seek="$(offset_of 32 long/data.list)" conv=notrunc status=none
{ head -c 522 long/data.list; printf '\001\001'; tail -c +523 long/data.list; } > long_torn/data.list
is 0 "$K" show long_torn
says out "---- cut: 29 kept, 277 dropped ----"
says out "31-33  index 5    refused 4"
says out "        155  defect     an empty index run"
is 1 "$K" show empty
says out "refused 9"
is 1 "$K" show bad1
is 0 "$K" show nights --svg picture.svg
says picture.svg "</svg>"
cp picture.svg before.svg
is 2 "$K" show nights --svg picture.svg
says err "picture.svg: File exists"
same picture.svg before.svg
is 2 "$K" show nights --svg nowhere/picture.svg
is 1 "$K" show bad1 --svg refused.svg
says refused.svg "refused 1"
is 1 "$K" show bad3
says out "index partition: 7 elements"
says out "0-3  labels?    2 blocks, "
says out "4-6  index run  1 block, "
no_drafts
