# Label.
ID="--identifier KLA002 --uuid 30a91a08-daae-48d1-ae75-69804e61d2ea"
is 0 "$K" label $ID --creator LTFS --time 2026-11-15T05:00:00.000000000Z v1 l1
checks=$((checks + 2))
[ "$(stat -c %s v1)" -eq 80 ] || fail "VOL1 is not 80 bytes"
[ "$(stat -c %s l1)" -eq 378 ] || fail "the label is not 378 bytes"
is 0 "$K" label $ID --creator 'a & b' --owner Me --block-size=4096 --compression false --location b v2 l2
says l2 "<creator>a &amp; b</creator>"
is 0 "$K" label $ID --creator 'a & b <c> &amp; "d"' --into spelled_creator --fresh
is 0 "$K" show spelled_creator
says out ', by a & b <c> &amp; "d"'
says l2 "<location><partition>b</partition></location>"
says v2 "Me            "
is 2 "$K" label $ID --creator LTFS v1 l3
absent l3
is 2 "$K" label $ID --creator LTFS v3 l1
absent v3
is 1 "$K" label $ID --creator LTFS --block-size 100 v3 l3
says err "refused 14: a given field or number is outside its rule (LTFS label"
is 1 "$K" label $ID --identifier SHORT --creator LTFS v3 l3
says err "(VOL1: identifier or owner)"
is 1 "$K" label $ID --owner 'fifteen letters' --creator LTFS v3 l3
absent v3
absent l3
no_drafts

# Both partitions in one run.
is 0 "$K" label --identifier KLA002 --creator LTFS --into labels
checks=$((checks + 1))
grep -Eqx 'KLA002  [0-9a-f]{8}-[0-9a-f]{4}-4[0-9a-f]{3}-[89ab][0-9a-f]{3}-[0-9a-f]{12}  20[0-9T:.-]{27}Z' out \
    || fail "no identifier, random UUID and time" "$(cat out)"
checks=$((checks + 1))
[ "$(echo labels/*)" = "labels/data.label labels/data.vol1 labels/index.label labels/index.vol1" ] || fail "not the four files"
same labels/index.vol1 labels/data.vol1
says labels/index.label "<location><partition>a</partition></location>"
says labels/data.label "<location><partition>b</partition></location>"
sed 's|<location><partition>b|<location><partition>a|' labels/data.label > moved
same moved labels/index.label
says labels/data.label "<volumeuuid>$(awk '{ print $2 }' out)</volumeuuid>"
says labels/data.label "<formattime>$(awk '{ print $3 }' out)</formattime>"
cp out first_run
is 0 "$K" label --identifier KLA002 --creator LTFS --into labels2
checks=$((checks + 1))
[ "$(awk '{ print $2 }' out)" != "$(awk '{ print $2 }' first_run)" ] || fail "the same UUID twice"
is 2 "$K" label --identifier KLA002 --creator LTFS --into labels
says err "labels: File exists"
# shellcheck disable=SC2086
is 0 "$K" label $ID --creator LTFS --time 2026-11-15T05:00:00.000000000Z --index c --data d --into given
says out "KLA002  30a91a08-daae-48d1-ae75-69804e61d2ea  2026-11-15T05:00:00.000000000Z"
says given/data.label "<location><partition>d</partition></location>"

# As a cartridge, whose labels are not refused.
is 0 "$K" label --identifier KLA002 --creator LTFS --into unwritten --fresh
uuid=$(awk '{ print $2 }' out)
is 1 "$K" check unwritten
says out "unwritten  KLA002  $uuid  break 1: the index partition does not end with a whole index; no cut"
is 0 "$K" show unwritten
says out "[LLLL]"
for side in index data; do
    cat labels/$side.vol1 labels/$side.label | sed "s/$(awk '{ print $2 }' first_run)/$uuid/; s|<formattime>.*</formattime>||" > wanted
    sed 's|<formattime>.*</formattime>||' unwritten/$side.store > found
    same found wanted
done

# A run that writes two files says what the other one needs.
is 0 "$K" label --identifier KLA002 --creator LTFS --uuid 30a91a08-daae-48d1-ae75-69804e61d2ea v4 l4
says out "KLA002  30a91a08-daae-48d1-ae75-69804e61d2ea  20"
is 2 "$K" label --creator LTFS --into labels3
is 2 "$K" label --identifier KLA002 --creator LTFS --into labels3 v5 l5
is 2 "$K" label --identifier KLA002 --creator LTFS --location a --into labels3
is 2 "$K" label --identifier KLA002 --creator LTFS --fresh v5 l5
is 1 "$K" label --identifier KLA002 --creator LTFS --block-size 1 --into labels3
absent labels3
absent v5
no_drafts
