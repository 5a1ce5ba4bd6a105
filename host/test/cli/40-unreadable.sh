# Unreadable.
is 2 "$K" check fresh nowhere
says err "nowhere: No such file or directory"
says out "1 consistent, 0 to cut, 0 without a cut, 0 refused, 1 unreadable"
is 2 "$K" check --json nowhere
says out '{"folder":"nowhere","verdict":"unreadable"}'
mkdir -p unreadable/index.list
is 2 "$K" check unreadable
says err "unreadable/index.list: not a regular file"
is 2 "$K" show fresh/index.list
says err "not a folder"
if [ "$(id -u)" -ne 0 ]; then
    cp -r fresh closed && chmod 000 closed/data.store
    is 2 "$K" check closed
    says err "closed/data.store: Permission denied"
fi

# A pipe is not waited for.
mkdir pipes && mkfifo pipes/data.list
is 2 timeout 5 "$K" check pipes
says err "pipes/data.list: not a regular file"

# No cartridge, which is not a bad one.
mkdir no_cartridge && touch no_cartridge/notes
for command in check show why files; do
    is 2 "$K" $command no_cartridge
    says err "no_cartridge: no cartridge here: no index.list, index.store, data.list or data.store"
    says_not out "refused 9"
done
is 2 "$K" cut no_cartridge nothing
is 2 "$K" extract no_cartridge name
is 2 "$K" check --json no_cartridge
says out '{"folder":"no_cartridge","verdict":"unreadable"}'

# A store that is one byte longer than a store may be, behind a list that fits all but this byte.
cp -r fresh over
left=$((16777216 - $(stat -c %s over/data.store)))
while [ $left -gt 0 ]; do
    length=$((left < 1048576 ? left : 1048576))
    # shellcheck disable=SC2059
    printf "\\002\\000\\x$(printf %02x $((length >> 16)))\\x$(printf %02x $((length >> 8 & 255)))\\x$(printf %02x $((length & 255)))" \
        >> over/data.list
    left=$((left - length))
done
truncate -s 16777216 over/data.store
is 1 "$K" check over
says out "break 2: "
truncate -s 16777217 over/data.store
is 1 "$K" check over
says out "refused 1: "

# The library has its own stack, however little there is.
is 0 bash -c "ulimit -s 1024; '$K' check fresh many"
