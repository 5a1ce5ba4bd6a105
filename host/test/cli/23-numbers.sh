# Numbers between line ends, with a sign and zeros: what they say is all that counts.
# The same words for both cartridges, but for their names and how long their stores are.
as_nights() { # status words..
    local status=$1
    shift
    is "$status" "$K" "$@" nights
    sed 's/nights/padded/; s/ elements, [0-9,]* bytes$/ elements/' out > as_nights
    is "$status" "$K" "$@" padded
    sed 's/ elements, [0-9,]* bytes$/ elements/' out > as_padded
    same as_padded as_nights
}
as_nights 1 check
as_nights 1 check --json
as_nights 0 show
as_nights 0 files
as_nights 0 files --json
as_nights 0 files --data --construct 2
for file in monday.wav tuesday.wav wednesday.wav; do
    is 0 "$K" extract nights $file --output plain
    is 0 "$K" extract padded $file --output other
    same plain other
    rm plain other
done
is 0 "$K" cut padded padded_kept
is 0 "$K" check padded_kept
says out "padded_kept  KLA001  30a91a08-daae-48d1-ae75-69804e61d2ea  consistent; cut keeps all 13 + 71 elements, generation 4"

# respelled FROM TO: the same volume with other words on its index side, as many bytes.
respelled() {
    rm -rf respelled && cp -r padded_kept respelled
    sed -i "s/$1/$2/" respelled/index.store
}

# A minus stands before zero, and before nothing else.
respelled ' +0000$' ' -0000'
is 0 "$K" check respelled
respelled ' +0004096$' ' -0004096'
is 1 "$K" check respelled
says out "refused 6"
respelled ' +00011$' ' -00011'
is 1 "$K" check respelled
says out "break 4: "
says out "cut keeps "

# No digits, white space behind a sign and between digits, another byte.
for wrong in '         ' ' +       ' '+ 0004096' ' 0004 096' '+0004096x' '++0004096'; do
    respelled ' +0004096$' "$wrong"
    is 1 "$K" check respelled
    says out "refused 6"
done

# A place of another value is another place, however it is spelled.
respelled ' +00011$' ' +00012'
is 1 "$K" check respelled
says out "break 4: "

# What is written has the short form.
is 0 "$K" label --identifier KLA001 --creator LTFS --time 2026-11-17T05:00:00.000000000Z --block-size 0524288 --into short_label
says short_label/data.label "<blocksize>524288</blocksize>"
rm -rf respelled padded_kept short_label as_nights as_padded
