# Files and extract.
is 0 "$K" files nights
says out "index 2 of the index partition, generation 4"
says out "     2         150,000  wednesday.wav"
says out "        b 31+0, 150,000 bytes at 0"
is 0 "$K" files nights --construct 1
says out "1 directory, 1 file"
is 0 "$K" files nights --data --construct 0
says out "1 directory, 0 files"
is 1 "$K" files nights --construct 9
says err "refused 2: no such element, construct, file, entry or file position (index side: index.store, index construct 9)"
is 2 "$K" files nights --construct x
is 0 "$K" files sparse --json
says out '{"file":0,"length":80000,"name":"gaps & <more>","path":"gaps & <more>","fileuid":2,"extents":[{"partition":"b","startblock":7,'
says out '"past the block","fileuid":7,"extents":[{"partition":"b","startblock":9,"byteoffset":2000,"bytecount":10,"fileoffset":0,"unreadable_blocks":0}]}'
is 0 "$K" files many
says out "1 directory, 2,533 files"
says out "  2528              10  2528.wav"
checks=$((checks + 1))
[ "$(grep -c '^        b 4+16, 10 bytes at 0$' out)" -eq 159 ] || fail "not a row for each file with bytes"
is 0 "$K" extract many 2528.wav
tail -c +"$(($(offset_of 4 many/data.list) + 17))" many/data.store | head -c 10 > part
same out part
is 0 "$K" extract nights wednesday.wav
mv out all
is 0 "$K" extract nights 2 --output wednesday
same all wednesday
tail -c +"$(($(offset_of 31 nights/data.list) + 1))" nights/data.store | head -c 150000 > part
same part wednesday
extracted nights 2 wednesday
is 2 "$K" extract nights 2 --output wednesday
says err "wednesday: File exists"
is 2 "$K" extract nights 2 --output nowhere/wednesday
says err "nowhere/wednesday: No such file or directory"
is 2 bash -c "ulimit -f 16; '$K' extract nights 2 --output full"
says err "full: File too large"
is 0 "$K" extract sparse 'gaps & <more>'
checks=$((checks + 1))
[ "$(stat -c %s out)" -eq 80000 ] || fail "not 80,000 bytes"
cp out gaps
extracted sparse 0 gaps
is 0 "$K" extract sparse 1
head -c 100000 /dev/zero > zeros
same out zeros
is 0 "$K" extract sparse 2 --output none
checks=$((checks + 1))
[ -e none ] && [ ! -s none ] || fail "no empty file"
is 1 "$K" extract sparse twice
says err "sparse: twice: several files have this path in index 0 of the index partition; give --number"
is 1 "$K" extract sparse nobody
says err "sparse: nobody: no file has this path or name in index 0 of the index partition"
is 1 "$K" extract sparse 6
says err "sparse: 6: no file has this number"
is 1 "$K" extract sparse 5 --output past
says err "byte 2000 of block 9, which is not there (data side: data.store)"
absent past
no_drafts

# A name comes before a number; --number is the number.
is 0 "$K" extract extents 3 --output named
extracted extents 0 named
is 0 "$K" extract extents --number 3 --output numbered
extracted extents 3 numbered
is 1 "$K" extract extents --number 4
says err "extents: 4: no file has this number"
is 2 "$K" extract extents --number three
says err "not a file's number: three"
is 2 "$K" extract extents 3 --number 3

# As many rows as may be, the last part first: by the program's own time, whatever else runs.
TIMEFORMAT=%U
took=$({ time "$K" extract extents falling > out; } 2>&1)
checks=$((checks + 1))
awk -v took="$took" 'BEGIN { exit !(took < 0.7) }' || fail "extracting 12 MiB in 1,024 rows took $took s"
same out numbered

# Gaps take no space in a new file, and in standard output where it is one; they are zeros everywhere.
is 0 "$K" extract sparse 1 --output all_gap
checks=$((checks + 2))
[ "$(stat -c %b all_gap)" -eq 0 ] || fail "zeros were written"
same all_gap zeros
is 0 "$K" extract sparse 1
[ "$(stat -c %b out)" -eq 0 ] || fail "zeros were written"
same out zeros
# A limit keeps a program that goes wrong from filling the disk.
(ulimit -f 1024; "$K" extract sparse 0 | cat > piped)
same piped gaps
printf before > appended
(ulimit -f 1024; "$K" extract sparse 0 >> appended)
{ printf before; cat gaps; } > wanted
same appended wanted
(ulimit -f 1024; "$K" extract sparse 0 >> appended_new)
same appended_new gaps
{ printf before; "$K" extract sparse 0; printf after; } > between
{ printf before; cat gaps; printf after; } > wanted
same between wanted
head -c 80000 /dev/urandom > old
(ulimit -f 1024; "$K" extract sparse 0 1<> old)
same old gaps

# No more than is free.
# shellcheck disable=SC2086
is 2 env $SHIM SHIM_FREE=9105 "$K" extract sparse 0 --output too_much
says err "too_much: 9,106 bytes have to be stored, 9,105 are free"
absent too_much
# shellcheck disable=SC2086
is 0 env $SHIM SHIM_FREE=9106 "$K" extract sparse 0 --output enough
same enough gaps
# shellcheck disable=SC2086
is 2 env $SHIM SHIM_FREE=100 "$K" extract sparse 0
says err "standard output: 9,106 bytes have to be stored, 100 are free"
no_drafts

# A block that is longer than the block size: what it has beyond is no part of a file.
cp -r nights longer
end=$(($(offset_of 31 nights/data.list) + 4096))
{ head -c $end nights/data.store; printf X; tail -c +$((end + 1)) nights/data.store; } > longer/data.store
python3 -I -S - <<'END'
with open("longer/data.list", "r+b") as file:
    elements, at = file.read(), 0
    for _ in range(31):
        at += 1 if elements[at] == 1 else 5
    file.seek(at)
    file.write(b"\2" + (4097).to_bytes(4, "big"))
END
is 0 "$K" extract longer wednesday.wav --construct 2
same out wednesday
