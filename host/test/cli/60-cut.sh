# Cut.
is 0 "$K" cut nights kept
is 0 "$K" check kept
says out "cut keeps all 13 + 71 elements, generation 4"
head -c "$(stat -c %s kept/data.store)" nights/data.store > front
same kept/data.store front
cp -r kept before
is 2 "$K" cut nights kept
says err "kept: File exists"
diff -r kept before > /dev/null || fail "an existing folder was changed"
is 2 "$K" cut nights picture.svg
same picture.svg before.svg
mkdir hollow
is 2 "$K" cut nights hollow
is 1 "$K" cut torn nothing
says err "torn: refused 13: no consistent cut"
absent nothing
is 1 "$K" cut empty nothing
absent nothing
is 2 "$K" cut nights nowhere/out
says err "nowhere/out: No such file or directory"
is 0 "$K" cut fresh copy/
diff -r fresh copy > /dev/null || fail "a consistent volume is not copied whole"
no_drafts

# A disk that fills up half-way: a limit on file size, and a small tmpfs where there may be one.
is 2 bash -c "ulimit -f 16; '$K' cut nights full"
says err "full/data.store: File too large"
absent full
no_drafts
mkdir small
if mount -t tmpfs -o size=64k tmpfs small 2> /dev/null; then
    is 2 "$K" cut nights small/full
    says err "No space left on device"
    checks=$((checks + 1))
    [ -z "$(ls -A small)" ] || fail "something is left on the full disk"
    is 2 "$K" extract nights wednesday.wav --output small/full
    says err "small/full: 150,000 bytes have to be stored, 65,536 are free"
    checks=$((checks + 1))
    [ -z "$(ls -A small)" ] || fail "something is left on the full disk"
    # What is not stored takes no space.
    is 0 "$K" extract extents terabyte --output small/all_gap
    is 0 "$K" extract extents "terabyte with bytes" --output small/gaps
    extracted extents 1 small/all_gap
    extracted extents 2 small/gaps
    umount small
fi

# Through to the disk before it has its name, and the name too.
rm -f calls
# shellcheck disable=SC2086
is 0 env $SHIM "$K" cut nights lasting
lasting_calls > order
printf '%s\n' 'fsync ./lasting.draft/index.list' 'fsync ./lasting.draft/index.store' 'fsync ./lasting.draft/data.list' \
    'fsync ./lasting.draft/data.store' 'fsync ./lasting.draft' 'rename lasting' 'fsync .' > wanted
same order wanted
mkdir below
rm -f calls
# shellcheck disable=SC2086
is 0 env $SHIM "$K" extract nights wednesday.wav --output below/lasting
lasting_calls > order
printf '%s\n' 'fsync ./below/lasting.draft' 'rename below/lasting' 'fsync ./below' > wanted
same order wanted

# Where that fails nothing is left, and the message names the place and not the draft.
for call in 1 2 3 4 5 6; do
    # shellcheck disable=SC2086
    is 2 env $SHIM SHIM_FAIL=fsync:$call "$K" cut nights failed
    says err "klapouzen: failed"
    says err ": Input/output error"
    says_not err partial
    one_line err
    absent failed
done
for call in 1 2; do
    # shellcheck disable=SC2086
    is 2 env $SHIM SHIM_FAIL=fsync:$call "$K" extract nights wednesday.wav --output failed
    says err "failed: Input/output error"
    absent failed
done
no_drafts

# What comes to its place in the last moment stays, on file systems that can rename "unless it exists" and on others.
for without in "" SHIM_NO_RENAME=1; do
    rm -rf planted
    # shellcheck disable=SC2086
    is 2 env $SHIM $without SHIM_PLANT=file "$K" extract nights wednesday.wav --output planted
    says err "planted: File exists"
    one_line err
    says planted other
    rm -rf planted
    # shellcheck disable=SC2086
    is 2 env $SHIM $without SHIM_PLANT=folder "$K" cut nights planted
    says err "planted: File exists"
    one_line err
    checks=$((checks + 1))
    rmdir planted || fail "the folder that was there is not as it was"
done
# shellcheck disable=SC2086
is 0 env $SHIM SHIM_NO_RENAME=1 "$K" cut nights renamed/
diff -r renamed kept > /dev/null || fail "a cut without RENAME_NOREPLACE is not whole"
# shellcheck disable=SC2086
is 0 env $SHIM SHIM_NO_RENAME=1 "$K" extract nights wednesday.wav --output linked
extracted nights 2 linked
checks=$((checks + 1))
[ "$(stat -c %h linked)" -eq 1 ] || fail "the draft's name is left"
no_drafts

# A draft is never written through what has its name: the shell's number is the program's.
# shellcheck disable=SC2016
is 2 bash -c 'ln -s victim "taken.partial-$$"; exec "$0" extract nights wednesday.wav --output taken' "$K"
says err "taken: its draft taken.partial-"
absent victim
absent taken
rm taken.partial-*

# Without memory half-way nothing is left either.
for asked in 1 2 3 4 5 6; do
    # shellcheck disable=SC2086
    env $SHIM SHIM_NO_MEMORY=$asked "$K" show nights --svg "memory$asked.svg" > out 2> err
    checks=$((checks + 1))
    [ $? -ne 2 ] || [ ! -e "memory$asked.svg" ] || fail "a picture is left without memory"
    # shellcheck disable=SC2086
    env $SHIM SHIM_NO_MEMORY=$asked "$K" cut nights "memory$asked" > out 2> err
    checks=$((checks + 1))
    [ -e "memory$asked/data.store" ] || [ ! -e "memory$asked" ] || fail "a part of a cut is left without memory"
done
says err "out of memory"
no_drafts
