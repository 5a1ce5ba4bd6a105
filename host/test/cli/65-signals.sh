# Signals: nothing half-written is left, the program ends by the signal, and what was put in its place was whole.
LABEL="--identifier KLA002 --creator LTFS"
for signal in 1 2 3 15; do
    stops $signal open "$K" extract nights wednesday.wav --output stopped
    stops $signal open "$K" show nights --svg stopped
    stops $signal mkdir "$K" cut nights stopped
    stops $signal open "$K" cut nights stopped
    # shellcheck disable=SC2086
    stops $signal mkdir "$K" label $LABEL --into stopped
    # shellcheck disable=SC2086
    stops $signal open "$K" label $LABEL stopped stopped_too
    absent stopped
    absent stopped_too
done
no_drafts

# The writing itself stops: after the signal no block is written.
stops 2 fwrite "$K" extract nights wednesday.wav --output stopped
checks=$((checks + 1))
[ "$(sed '1,/^signal/d' calls | grep -c '^fwrite a file')" -eq 0 ] || fail "writing went on after the signal"
absent stopped

# Between the two files of a label: none is left.
# shellcheck disable=SC2086
stops 15 rename "$K" label $LABEL stopped stopped_too
absent stopped
absent stopped_too

# A cut that is in its place says so.
stops 2 rename "$K" cut nights finished
says out "finished  cut keeps 13 + 71 of 13 + 78 elements, generation 4"
diff -r finished kept > /dev/null || fail "the finished cut is not whole"
stops 15 rename "$K" label --identifier KLA002 --creator LTFS --into finished_labels
says out "KLA002  "
says finished_labels/data.label "</ltfslabel>"

# A signal that is ignored, as by nohup, changes nothing.
# shellcheck disable=SC2016,SC2086
is 0 bash -c 'trap "" HUP; exec "$@"' - env $SHIM SHIM_SIGNAL=1 SHIM_AT=open "$K" extract nights wednesday.wav --output ignored
extracted nights 2 ignored

# Without a draft a signal is not held: here the program waits for a full pipe.
mkfifo full_pipe
exec 9<> full_pipe
"$K" extract extents terabyte > full_pipe 2> /dev/null &
head -c 1 <&9 > /dev/null
kill -TERM $!
wait $! 2> /dev/null
status=$?
checks=$((checks + 1))
[ $status -eq 143 ] || fail "a signal does not end the program at a full pipe"
exec 9<&-
no_drafts
