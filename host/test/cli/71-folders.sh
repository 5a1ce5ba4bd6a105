# Directories in directories: paths in the list, and files told apart by them.
"$SAMPLE" folders folders || exit 2
RAW='takes & cuts/<raw>'
ODD_FOLDER=$'odd\177\342\200\256gpj'

# extracts WORD NUMBER: the word means the file with this number, whose bytes it writes.
extracts() {
    rm -f found
    is 0 "$K" extract folders "$1" --output found
    extracted folders "$2" found
}

# refuses WORD TEXT: nothing is written, and this is said of the word, in an index that is named.
refuses() {
    rm -f found
    is 1 "$K" extract folders "$1" --output found
    says err "klapouzen: folders: $2 in index 0 of the index partition"
    absent found
    is_visible err
}

# ---- The list ----

is 0 "$K" files folders
is_visible out
says out ": 7 directories, 9 files"
for line in '0           4,097  notes.txt' '1           4,097  takes & cuts/notes.txt' '2           4,097  takes & cuts/<raw>/monday.wav' \
    '3           4,097  takes & cuts/<raw>/the "one".wav' '4           4,097  takes & cuts/monday.wav' '5           4,097  5/6/&lt;' \
    '6           4,097  odd\x7f\u202egpj/csi\u009b[31m' '7           4,097  odd\x7f\u202egpj/tuesday.wav'; do
    checks=$((checks + 1))
    grep -qxF "     $line" out || fail "no line \"$line\"" "$(head -5 out)"
done
checks=$((checks + 1))
[ "$(wc -l < out)" -eq 19 ] || fail "not a line for the index, a file and an extent"
mv out list

is 0 "$K" files --directories folders
is_visible out
checks=$((checks + 1))
printf '                        %s\n' / 'takes & cuts/' 'takes & cuts/<raw>/' 5/ 5/6/ 'odd\x7f\u202egpj/' empty/ > wanted
grep '/$' out | cmp -s wanted - || fail "not all directories, each before what it holds" "$(grep '/$' out)"
grep -v '/$' out > rest
same rest list
checks=$((checks + 1))
[ "$(grep -n 'takes & cuts/$' out | cut -d : -f 1)" -eq 5 ] || fail "a directory does not stand where the text has it"

is 0 "$K" files --json folders
is_visible out
is_json out
says out '{"file":3,"length":4097,"name":"the \"one\".wav","path":"takes & cuts/<raw>/the \"one\".wav","fileuid":7,"extents":[{"partition":"b","startblock":10,'
says out '"name":"&lt;","path":"5/6/&lt;",'
says out '"path":"odd\u007f\u202egpj/csi\u009b[31m"'
says_not out '"directory"'
is 0 "$K" files --json --directories folders
is_json out
checks=$((checks + 1))
[ "$(wc -l < out)" -eq 16 ] || fail "not an object for each directory and file"
says out '{"directory":true,"name":"sample","path":"","fileuid":1}'
says out '{"directory":true,"name":"<raw>","path":"takes & cuts/<raw>","fileuid":5}'
says out '{"directory":true,"name":"empty","path":"empty","fileuid":16}'

# ---- A path ----

extracts notes.txt 0
extracts /notes.txt 0
extracts ./notes.txt 0
extracts 'takes & cuts/notes.txt' 1
extracts "$RAW/monday.wav" 2
extracts "/$RAW/monday.wav" 2
extracts ".//./$RAW/monday.wav" 2
extracts 'takes & cuts/monday.wav' 4
extracts '5/6/&lt;' 5
extracts "$ODD_FOLDER"/$'csi\302\233[31m' 6

# ---- A name, where no file has it as its path and only one has it ----

extracts 'the "one".wav' 3
extracts '&lt;' 5
extracts $'csi\302\233[31m' 6
refuses monday.wav "monday.wav: several files have this name"
says err "; give the path, or --number"
refuses ./monday.wav "./monday.wav: no file has this path"
refuses /monday.wav "/monday.wav: no file has this path"
refuses '<raw>/monday.wav' "<raw>/monday.wav: no file has this path"
refuses '<' "<: no file has this path or name"
refuses MONDAY.WAV "MONDAY.WAV: no file has this path or name"
refuses 'the &quot;one&quot;.wav' 'the &quot;one&quot;.wav: no file has this path or name'

# ---- A path that two files have ----

refuses "$ODD_FOLDER/tuesday.wav" 'odd\x7f\u202egpj/tuesday.wav: several files have this path'
says err "; give --number"
is 0 "$K" extract folders --number 7 --output seventh
extracted folders 7 seventh
is 0 "$K" extract folders --number 8 --output eighth
extracted folders 8 eighth

# ---- A directory ----

for word in 'takes & cuts' '/takes & cuts' './takes & cuts/' "$RAW" "$RAW/" 5/6 empty / ./ ''; do
    refuses "$word" "$word: this is a directory"
    says_not err --number
done
refuses 5 "5: this is a directory"
says err "; --number gives the file"
refuses "$ODD_FOLDER" 'odd\x7f\u202egpj: this is a directory'

# ---- A number, where nothing has it as its path or name ----

extracts 6 6
extracts 8 8
refuses /6 "/6: no file has this path"
refuses 9 "9: no file has this number"
is 0 "$K" extract folders --number 5 --output fifth
extracted folders 5 fifth

# ---- Paths that nothing has ----

for word in notes.txt/ notes.txt/notes.txt ../notes.txt 5/../notes.txt 'takes & cuts//notes.txt' 'takes & cuts/./notes.txt' 5/7 'takes & cuts/notes.tx' \
    'akes & cuts/notes.txt' 'sample/notes.txt' 5/6/7; do
    refuses "$word" "$word: no file has this path"
done
refuses $'5/\033[31m' '5/\x1b[31m: no file has this path'

# The data side's index, and one that is not there.
is 0 "$K" extract folders --data "$RAW/monday.wav"
cp out found
extracted folders 2 found
is 1 "$K" extract folders --construct 1 "$RAW/monday.wav"
says err "refused 2: "
no_drafts

# ---- Break 5: the path of the file that does not lie on the tape ----

lose folders lost_folders data:16
is 1 "$K" check lost_folders
is_visible out
says out 'break 5: file 6 of the last index does not lie on the tape: odd\x7f\u202egpj/csi\u009b[31m; no cut'
is 0 "$K" show lost_folders
is_visible out
says out 'verdict  break 5: file 6 of the last index does not lie on the tape: odd\x7f\u202egpj/csi\u009b[31m'
is 1 "$K" check --json lost_folders
is_json out
says out '"text":"file 6 of the last index does not lie on the tape","path":"odd\u007f\u202egpj/csi\u009b[31m"}'
is 0 "$K" cut lost_folders told_folders --keep-index 9
says out "break 5: file 6 of the last index does not lie on the tape: odd"
is 1 "$K" compare folders lost_folders
is_visible out
says out 'does not lie on the tape: odd\x7f\u202egpj/csi\u009b[31m'
is 1 "$K" check --json torn
says_not out '"path"'
