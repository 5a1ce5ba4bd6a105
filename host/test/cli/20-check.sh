# Check.
is 0 "$K" check fresh
says out "fresh  KLA001  30a91a08-daae-48d1-ae75-69804e61d2ea  consistent; cut keeps all 7 + 7 elements, generation 1"
says out "1 cartridge: 1 consistent"
says_not out $'\033'
is 1 "$K" check fresh torn nights defect
says out "torn  KLA001  30a91a08-daae-48d1-ae75-69804e61d2ea  break 2: "
says out "; no cut leaves a consistent volume"
says out "keeps 13 + 71 of 13 + 78 elements, generation 4"
says out "4 cartridges: 1 consistent, 2 to cut, 1 without a cut, 0 refused, 0 unreadable"
is 1 "$K" check --json torn fresh
says out '"verdict":"break","break":{"which":2,"number":0,'
says out '"verdict":"consistent","elements":{"index":7,"data":7},"unreadable_blocks":{"index":0,"data":0},"cut":{'
says out '"cut":{"index_construct":0,"data_construct":0,"index_kept":7,"index_dropped":0,"data_kept":7,"data_dropped":0,"generation":1}}'
says out '"elements":{"index":7,"data":6},"unreadable_blocks":{"index":0,"data":0},"cut":null}'
says_not out "cartridge"
checks=$((checks + 1))
[ "$(wc -l < out)" -eq 2 ] || fail "not one object a line"
is_json out
is 1 "$K" check --json nights defect
is_json out
says out '"elements":{"index":13,"data":78},"unreadable_blocks":{"index":0,"data":0},"cut":{"index_construct":2,"data_construct":3,"index_kept":13,"index_dropped":0,"data_kept":71,"data_dropped":7,"generation":4}}'
says out '"elements":{"index":13,"data":17},"unreadable_blocks":{"index":0,"data":0},"cut":{"index_construct":1,"data_construct":1,"index_kept":10,"index_dropped":3,"data_kept":13,"data_dropped":4,"generation":2}}'
cp -r fresh './-odd "name"'
is 0 "$K" check --json -- '-odd "name"'
says out '{"folder":"-odd \"name\"",'

# Each status by itself, and the summary of cartridges that differ in number.
is 1 "$K" check torn
says out "1 cartridge: 0 consistent, 0 to cut, 1 without a cut, 0 refused, 0 unreadable"
is 1 "$K" check nights
says out "1 cartridge: 0 consistent, 1 to cut, 0 without a cut, 0 refused, 0 unreadable"
is 1 "$K" check --json nights

# Each break with its number.
cp -r fresh torn_index && head -c -1 fresh/index.list > torn_index/index.list
is 1 "$K" check torn_index
says out "break 1: the index partition does not end with a whole index; no cut leaves"
cp -r nights behind && printf '\001' >> behind/data.list
is 1 "$K" check behind
says out "break 3: index 4 of the data partition is not sound: refused 4: the text is not in the XML form at byte 1, line 1, column 2; cut keeps 13 + 71 of 13 + 79"
is 1 "$K" check --json behind
says out '"break":{"which":3,"number":4,"text":"index 4 of the data partition is not sound: refused 4: the text is not in the XML form at byte 1, line 1, column 2","refusal":{"number":4,"text":"the text is not in the XML form","place":{"front":1,"line":1,"column":2}}}'
is_json out
# A sound index that breaks the chain, on each side: it points back to another place than it should.
is 0 "$K" cut nights whole
cp -r whole chain && sed -i 's|<startblock>5<\(/startblock></previous\)|<startblock>6<\1|' chain/data.store
is 1 "$K" check chain
says out "break 3: index 1 of the data partition is sound but breaks the chain; cut keeps "
is 1 "$K" check --json chain
says out '"break":{"which":3,"number":1,"text":"index 1 of the data partition is sound but breaks the chain","refusal":null}'
is_json out
rm -rf chain && cp -r whole chain && sed -i 's|<startblock>69<\(/startblock></previous\)|<startblock>29<\1|' chain/index.store
is 1 "$K" check chain
says out "break 4: the last index of the index partition, index 2, is sound but does not follow the data partition's last; cut keeps "
is 1 "$K" check --json chain
says out ", is sound but does not follow the data partition's last\",\"refusal\":null}"
rm -rf whole
is 1 "$K" check --json sparse
says out '"break":{"which":5,"number":5,"text":"file 5 of the last index does not lie on the tape","path":"past the block"}'
is_json out
