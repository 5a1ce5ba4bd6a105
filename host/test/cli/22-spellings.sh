# One UUID in two spellings on one volume: of one volume all the same, and told.
is 0 "$K" check spellings
says out "spellings  KLA001  30a91a08-daae-48d1-ae75-69804e61d2ea  consistent; cut keeps all 16 + 24 elements, generation 4; its labels spell the UUID differently"
is 0 "$K" check --json spellings
says out '"uuid":"30a91a08-daae-48d1-ae75-69804e61d2ea","data_uuid":"30A91A08-DAAE-48D1-AE75-69804E61D2EA","verdict":"consistent"'
is_json out
is 0 "$K" show spellings
says out "KLA001  30a91a08-daae-48d1-ae75-69804e61d2ea"
says out "UUID     30A91A08-DAAE-48D1-AE75-69804E61D2EA on the data partition's label, spelled differently"
says_not out "refused"
checks=$((checks + 1))
[ "$(grep -c 'generation [1-4], ' out)" -eq 8 ] || fail "not every index is sound" "$(cat out)"
for n in 0 1 2 3; do
    is 0 "$K" files --construct $n spellings
    is 0 "$K" files --data --construct $n spellings
done
is 0 "$K" cut spellings spellings_kept
same spellings_kept/data.store spellings/data.store

# Spelled alike, nothing is said of it.
is 0 "$K" check fresh
says_not out "spell"
is 0 "$K" check --json fresh
says out '"uuid":"30a91a08-daae-48d1-ae75-69804e61d2ea","data_uuid":"30a91a08-daae-48d1-ae75-69804e61d2ea"'
is 0 "$K" show fresh
says_not out "spell"

# respelled FROM TO FILE..: a volume with other words in these files.
respelled() {
    local from=$1 to=$2 file
    shift 2
    rm -rf respelled && cp -r fresh respelled
    for file; do
        sed -i "s/$from/$to/g" "respelled/$file"
    done
}

# Both sides in capitals; one side, labels and indexes; and a spelling of both.
small=30a91a08-daae-48d1-ae75-69804e61d2ea
large=$(tr a-f A-F <<< "$small")
respelled "$small" "$large" index.store data.store
is 0 "$K" check respelled
says out "respelled  KLA001  $large  consistent"
says_not out "spell the"
respelled "$small" "$large" index.store
is 0 "$K" check respelled
says out "respelled  KLA001  $large  consistent"
says out "; its labels spell the UUID differently"
respelled "$small" "$large" data.store
is 0 "$K" check respelled
says out "respelled  KLA001  $small  consistent"
respelled "$small" 30A91a08-dAaE-48d1-Ae75-69804e61D2eA data.store
is 0 "$K" check respelled

# Another digit is another volume: in a label, and in an index.
respelled "$small" 30A91A08-DAAE-48D1-AE75-69804E61D2EB data.store
is 1 "$K" check respelled
says out "refused 8"
respelled "$small" 30091a08-daae-48d1-ae75-69804e61d2ea index.store
is 1 "$K" check respelled
says out "refused 8"
respelled "<ltfsindex\(.*\)$small" "<ltfsindex\1${large%A}B" index.store
is 1 "$K" check respelled
says out "break 4: "
says out "no cut"

# A label is written as it is told, and agrees with the other spelling.
is 0 "$K" label --identifier KLA001 --creator LTFS --time 2026-11-17T05:00:00.000000000Z --uuid "$large" --into spelled_label
says spelled_label/data.label "<volumeuuid>$large</volumeuuid>"
rm -rf respelled spellings_kept spelled_label
