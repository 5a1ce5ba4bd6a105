# Tapes with ANSI labels.
for kind in ansi ansi_worn ansi_many; do
    "$SAMPLE" $kind $kind || exit 2
done

# edit FROM: a tape for each line of standard input, as line_of writes it.
edit() {
    python3 -I -S "$PARTS/../elements.py" "$1" || fail "no such tape"
}

line_of() { # FOLDER EDIT..
    local IFS=$'\t'
    printf '%s\n' "$*"
}

# edited EDIT..: the sample with these edits, in the folder `edited`.
edited() {
    rm -rf edited
    line_of edited "$@" | edit ansi
}

# is_so CONDITION: of the JSON text in out, which has the name `tape`.
is_so() {
    checks=$((checks + 1))
    python3 -I -S -c 'import json, sys; tape = json.load(open("out")); sys.exit(not eval(sys.argv[1]))' "$1" 2> /dev/null \
        || fail "not so: $1" "$(head -c 2000 out)"
}

# blocks_of FOLDER FIRST END: the bytes of these elements, the last not among them, in the file `blocks`.
blocks_of() {
    local begin end
    begin=$(offset_of "$2" "$1/index.list")
    end=$(offset_of "$3" "$1/index.list")
    tail -c +$((begin + 1)) "$1/index.store" | head -c $((end - begin)) > blocks
}

# ---- The list ----

is 0 "$K" ansi ansi
cat > wanted <<'END'
volume BENCH1, owner Klapouzen, version 4, by DECULTRIX0001
6 files:
  file  ID                 format   block  record  blocks       bytes  element  path
     0  HOSTS              D        2,048     512       2       4,000        6  /etc/hosts
     1  PAYROLL.DAT        F        4,000      80       3      12,000       16  /usr/staff/payroll.dat
     2  PAYROLL.DAT        F        4,000      80       3       9,600       27  /usr/staff/1990/payroll.dat
     3  QUARTERLY.REPORT.  S        2,048       0       3       5,000       39  /usr/staff/letters/board/1991/quarterly.report.with.figures
     4  LOCK               F        2,048      80       0           0       50  /usr/spool/lock
     5  TAPE.LOG           D        2,048     132       1         300       58
END
same out wanted
is 0 "$K" ansi --json ansi
one_line out
is_so 'tape["folder"] == "ansi" and tape["refusal"] is None and tape["place"] is None and tape["words"] is None and tape["elements"] == 65'
is_so 'tape["volume"] == {"version": 4, "identifier": "BENCH1", "owner": "Klapouzen", "implementation": "DECULTRIX0001"}'
is_so '[file["number"] for file in tape["files"]] == list(range(6))'
is_so 'tape["files"][1] == {"number": 1, "id": "PAYROLL.DAT", "format": "F", "block_length": 4000, "record_length": 80, "blocks": 3, "bytes": 12000, "element": 16,
    "path": "/usr/staff/payroll.dat"}'
is_so '"path" not in tape["files"][5] and "path_missing" not in tape["files"][5]'
edited put,0,5,'      ' put,0,38,'              '
is 0 "$K" ansi edited
says out "volume without identifier, no owner, version 4, by DECULTRIX0001"
edited put,0,80,3 put,0,25,'             '
is 0 "$K" ansi edited
says out "volume BENCH1, owner Klapouzen, version 3"
says_not out ", by"

# A tape is the index side alone.
cp -r ansi with_data && mkfifo with_data/data.list && mkdir with_data/data.store
is 0 timeout 5 "$K" ansi with_data
same out wanted

# As many files as there can be: by the program's own time, whatever else runs.
is 0 "$K" ansi ansi_many
says out "9,362 files:"
says out "  9361  FILE09361.DAT      F        2,048      80       0           0   65,531"
says_not out "path"
TIMEFORMAT=%U
for words in "" --json "--extract FILE09361.DAT"; do
    # shellcheck disable=SC2086
    took=$({ time "$K" ansi ansi_many $words > out; } 2>&1)
    checks=$((checks + 1))
    awk -v took="$took" 'BEGIN { exit !(took < 0.1) }' || fail "9,362 files took $took s: $words"
done

# ---- Paths ----

# path NUMBER PATH EDIT..: the file's path, or in parentheses why it has none. Looked at below, as the tapes are made at once.
paths=()
path() {
    line_of "path_${#paths[@]}" "${@:3}" >> path_edits
    paths+=("$1 $2")
}

LONG=/usr/staff/letters/board/1991/quarterly.report.with.figures
path 3 $LONG put,37,80,' '
path 3 ${LONG:0:36} put,35,48,3
path 3 '(no path: HDR5 is missing)' put,35,48,5
path 3 '(no path: HDR4 is missing)' put,37,1,HDR5
path 3 '(no path: HDR4 is missing)' put,35,48,' ' put,37,1,HDR5
path 3 $LONG put,35,48,' '
path 3 $LONG put,35,48,2
path 0 '(no path: HDR3 is missing)' drop,4
path 0 '' drop,4 put,3,48,' '
path 0 '' put,4,45,'                                    '
path 0 'a b' put,4,45,'a b       '
path 0 /etc/hosts put,3,48,'x'
# In the trailer's labels it goes on only where HDR2 says so.
path 0 /etc/hosts label,11,EOF3/more
path 0 /etc/hosts put,3,49,x label,11,EOF3/more
path 0 '(no path: EOF4 is missing)' put,3,49,4 label,11,EOF3/more
path 0 "/etc/hosts                          /more" put,3,49,3 label,11,EOF3/more
# shellcheck disable=SC2046
edited put,4,45,"/$(printf '%035d' 0)" put,3,48,9 put,3,49,9 $(for i in 4 5 6 7 8 9; do printf 'label,%d,HDR%d%076d ' $((i + 1)) $i $i; done) \
    $(for i in 3 4 5 6 7 8 9; do printf 'label,%d,EOF%d%076d ' $((i + 14)) $i $i; done)
is 0 "$K" ansi edited --json
is_so 'tape["files"][0]["path"] == "/" + "0" * 35 + "".join("%076d" % i for i in (4, 5, 6, 7, 8, 9, 3, 4, 5, 6, 7, 8, 9))'
# Only ULTRIX writes paths there: VOL1 says so, and in version 3 HDR1.
path 0 '' put,0,25,'OTHER        '
path 0 '' put,0,25,'             '
path 0 /etc/hosts put,0,25,'             ' put,0,80,3
path 0 '' put,0,25,'             ' put,0,80,3 put,2,61,OTHER put,9,61,OTHER
path 0 /etc/hosts put,0,34,9999
edit ansi < path_edits
for i in "${!paths[@]}"; do
    number=${paths[$i]%% *}
    is 0 "$K" ansi "path_$i"
    checks=$((checks + 1))
    [ "$(sed -n "s/^ *$number  .\{70\} *//p" out)" = "${paths[$i]#* }" ] || fail "not the path of file ${paths[$i]}: line $((i + 1)) of path_edits" "$(cat out)"
done
edited put,35,48,5
is 0 "$K" ansi edited --json
is_so '"path" not in tape["files"][3] and tape["files"][3]["path_missing"] == "HDR5"'

# ---- Wrong labels ----

# wrong LINE EDIT..: what is said of the tape. Looked at below, as the tapes are made at once.
wrong_lines=()
wrong() {
    line_of "wrong_${#wrong_lines[@]}" "${@:2}" >> wrong_edits
    wrong_lines+=("$1")
}

wrong 'element 0: VOL1 is expected, a block of 80 bytes that begins with "XXXX" stands there' put,0,1,XXXX
wrong 'element 0: VOL1 is expected, a block of 3 bytes that begins with "xxx" stands there' block,0,3
wrong 'element 0: VOL1 is expected, a mark stands there' mark,0
wrong 'element 0: VOL1 has 79 bytes, a label has 80' size,0,79
wrong "element 0: VOL1's version (byte 80) is \"2\", not 3 or 4" put,0,80,2
wrong "element 0: VOL1's version (byte 80) is \"\\x1b\", not 3 or 4" put,0,80,'\x1b'
wrong 'element 1: a volume label (VOL2 to VOL9, UVL) or HDR1 is expected, VOL1 stands there' label,1,VOL1
wrong 'element 2: a volume label (VOL2 to VOL9, UVL) or HDR1 is expected, a mark stands there' mark,2
wrong 'element 2: VOL2 stands behind VOL2: the numbers have to rise' label,1,VOL2 label,2,VOL2
wrong 'element 2: VOL2 stands behind UVL1: numbered labels stand before user labels' label,2,VOL2
wrong 'element 2: HDR1 has 81 bytes, a label has 80' size,2,81
wrong 'element 3: HDR2 is expected, HDR3 stands there (file 0, HOSTS)' drop,3
wrong 'element 3: HDR2 has 17 bytes, a label has 80 (file 0, HOSTS)' size,3,17
wrong "element 3: HDR2's record format (byte 5) is \"U\", not F, D or S (file 0, HOSTS)" put,3,5,U
wrong "element 3: HDR2's record format (byte 5) is \"\\x00\", not F, D or S (file 0, HOSTS)" put,3,5,'\x00'
wrong "element 3: HDR2's block length (bytes 6-10) is \" 2048\", not five digits (file 0, HOSTS)" put,3,6,' 2048'
wrong "element 3: HDR2's record length (bytes 11-15) is \"0051x\", not five digits (file 0, HOSTS)" put,3,15,x
wrong "element 3: HDR2's record format (byte 5) is \"U\", not F, D or S; HDR2's record length (bytes 11-15) is \"x0512\", not five digits (file 0, HOSTS)" \
    put,3,5,U put,3,11,x
wrong 'element 4: a header label (HDR3 to HDR9, UHL) or a mark is expected, HDR1 stands there (file 0, HOSTS)' put,4,1,HDR1
wrong 'element 5: HDR3 stands behind HDR3: the numbers have to rise (file 0, HOSTS)' label,5,HDR3
wrong 'element 5: HDR3 stands behind HDR9: the numbers have to rise (file 0, HOSTS)' label,4,HDR9
wrong 'element 57: HDR3 stands behind UHL1: numbered labels stand before user labels (file 5, TAPE.LOG)' label,57,HDR3
wrong 'element 5: a header label (HDR3 to HDR9, UHL) or a mark is expected, a block of 2,048 bytes that begins with "bcde" stands there (file 0, HOSTS)' drop,5
wrong 'element 6: a data block of 17 bytes, 18 are the least (file 0, HOSTS)' block,6,17
wrong 'element 7: a data block of 20,481 bytes, 20,480 are the most (file 0, HOSTS)' block,7,20481
wrong 'element 9: EOF1 is expected, EOF2 stands there (file 0, HOSTS)' drop,9
wrong 'element 9: EOF1 is expected, a mark stands there (file 0, HOSTS)' mark,9
wrong 'element 9: EOF1 has 70 bytes, a label has 80 (file 0, HOSTS)' size,9,70
wrong 'element 9: EOF1 is expected, "HDR " stands there (file 0, HOSTS)' label,9,HDR
wrong 'element 10: EOF2 is expected, EOF3 stands there (file 0, HOSTS)' put,10,1,EOF3
wrong 'element 11: a trailer label (EOF3 to EOF9, UTL) or a mark is expected, HDR1 stands there (file 0, HOSTS)' drop,11
wrong 'element 12: EOF3 stands behind EOF4: the numbers have to rise (file 0, HOSTS)' label,11,EOF4 label,12,EOF3
wrong 'element 63: EOF4 stands behind UTL1: numbered labels stand before user labels (file 5, TAPE.LOG)' label,63,EOF4
wrong 'element 12: HDR1 or the mark that ends the tape is expected, VOL1 stands there' put,12,1,VOL1
wrong 'element 65: 1 element stands behind the mark that ends the tape: a mark' mark,65
wrong 'element 65: 2 elements stand behind the mark that ends the tape: the first is HDR1' label,65,HDR1 mark,66

# An unreadable block, which can stand nowhere.
wrong 'element 0: VOL1 is expected, an unreadable block stands there' lose,0
wrong 'element 2: a volume label (VOL2 to VOL9, UVL) or HDR1 is expected, an unreadable block stands there' lose,2
wrong 'element 3: HDR2 is expected, an unreadable block stands there (file 0, HOSTS)' lose,3
wrong 'element 7: a data block or a mark is expected, an unreadable block stands there (file 0, HOSTS)' lose,7
wrong 'element 9: EOF1 is expected, an unreadable block stands there (file 0, HOSTS)' lose,9
wrong 'element 12: HDR1 or the mark that ends the tape is expected, an unreadable block stands there' lose,12
wrong 'element 65: 1 element stands behind the mark that ends the tape: an unreadable block' block,65,1 lose,65

# EOF1 and HDR1, field by field; all that differ are named.
for field in 'file ID:5:21' 'file set ID:22:27' 'file section number:28:31' 'file sequence number:32:35' 'generation number:36:39' \
    'generation version number:40:41' 'creation date:42:47' 'expiration date:48:53' 'implementation ID:61:73' 'reserved part:74:80'; do
    IFS=: read -r name first last <<< "$field"
    wrong "element 9: EOF1's $name (bytes $first-$last) is \"" put,9,"$first",~
    wrong "element 9: EOF1's $name (bytes $first-$last) is \"" put,9,"$last",~
done
wrong "element 9: EOF1's file security (byte 54) is \"x\", HDR1's in element 2 \" \"; EOF1's block count (bytes 55-60) is \"     2\", not six digits (file 0, HOSTS)" \
    put,9,54,x put,9,55,'     2'
wrong "element 20: EOF1's file sequence number (bytes 32-35) is \"0009\", HDR1's in element 12 \"0002\"; EOF1's reserved part (bytes 74-80) is \"x      \", \
HDR1's in element 12 \"       \" (file 1, PAYROLL.DAT)" put,20,32,0009 put,20,74,x put,20,55,999999

# The count, and a file that goes on on another tape.
wrong 'element 20: EOF1 says 2 blocks, 3 stand there (file 1, PAYROLL.DAT)' put,20,55,000002
wrong 'element 20: EOF1 says 1 block, 3 stand there' put,20,55,000001
wrong 'element 51: EOF1 says 999,999 blocks, none stands there (file 4, LOCK)' put,51,55,999999
wrong 'element 60: EOF1 says 0 blocks, 1 stands there (file 5, TAPE.LOG)' put,60,55,000000
wrong 'element 20: EOV1 stands in the place of EOF1: the file goes on on another tape; EOV1 says 3 blocks, 3 stand there (file 1, PAYROLL.DAT)' put,20,1,EOV1
wrong 'element 20: EOV1 stands in the place of EOF1: the file goes on on another tape (file 1, PAYROLL.DAT)' put,20,1,EOV1 put,20,55,xxx
wrong 'element 20: EOF1 is expected, EOV2 stands there (file 1, PAYROLL.DAT)' put,20,1,EOV2

# A tape that ends too early.
wrong 'the tape is empty, VOL1 is missing' keep,0
wrong 'behind element 0, the last: the tape ends too early, HDR1 is missing' keep,1
wrong 'behind element 2, the last: the tape ends too early, HDR2 is missing (file 0, HOSTS)' keep,3
wrong 'behind element 4, the last: the tape ends too early, the mark behind the header labels is missing (file 0, HOSTS)' keep,5
wrong 'behind element 6, the last: the tape ends too early, the mark behind the data blocks is missing (file 0, HOSTS)' keep,7
wrong 'behind element 8, the last: the tape ends too early, EOF1 is missing (file 0, HOSTS)' keep,9
wrong 'behind element 9, the last: the tape ends too early, EOF2 is missing (file 0, HOSTS)' keep,10
wrong 'behind element 10, the last: the tape ends too early, the mark behind the trailer labels is missing (file 0, HOSTS)' keep,11
wrong 'behind element 63, the last: the tape ends too early, the further mark that ends the tape is missing' keep,64

# With bytes that a terminal would obey.
wrong 'element 9: EOF1'"'"'s file ID (bytes 5-21) is "HOSTS            ", HDR1'"'"'s in element 2 "\x1b\xff\x7fTS            " (file 0, \x1b\xff\x7fTS)' put,2,5,'\x1b\xff\x7f'
wrong 'element 2: a volume label (VOL2 to VOL9, UVL) or HDR1 is expected, a block of 80 bytes that begins with "H\x1b[7" stands there' put,2,2,'\x1b[7'

edit ansi < wrong_edits
for i in "${!wrong_lines[@]}"; do
    is 1 "$K" ansi "wrong_$i"
    says out "${wrong_lines[$i]}"
    is_visible out
    is 1 "$K" ansi "wrong_$i" --json
    cat out >> wrong_objects
done

# JSON has the same words, the place and the number.
printf '%s\n' "${wrong_lines[@]}" > wrong_lines
checks=$((checks + 1))
python3 -I -S - 2> json_error <<'END' || fail "JSON says something else" "$(tail -1 json_error)"
import json
import re
lines, objects = open("wrong_lines").read().splitlines(), open("wrong_objects").read().splitlines()
assert len(lines) == len(objects), len(objects)
for line, text in zip(lines, objects):
    tape = json.loads(text)
    _, behind, element, words = re.fullmatch(r"((behind )?element (\d+)[^:]*: )?(.*)", line).groups()
    place = 0 if element is None else int(element) + (behind is not None)
    number = 17 if words.startswith("EOV1 stands") else 18 if words.startswith("EOF1 says") else 16
    assert tape["words"].startswith(words) and tape["words"].count(";") == words.count(";"), (words, tape["words"])
    assert tape["place"] == place and tape["refusal"]["number"] == number, line
END

# The files that stand whole before the wrong label; of others there is none.
is 1 "$K" ansi ansi_worn
{
    sed -n 1p wanted
    echo "refused 18: EOF1's block count is not that of the data blocks present"
    echo 'element 31: EOF1 says 4 blocks, 3 stand there (file 2, PAYROLL.DAT)'
    echo '2 files stand whole before it:'
    sed -n 3,5p wanted
} > refused
same out refused
is 0 "$K" ansi ansi_worn --extract PAYROLL.DAT
blocks_of ansi 16 19
same out blocks
is 1 "$K" ansi ansi_worn --extract LOCK
says err "ansi_worn: LOCK: no file has this name among those that stand whole before the wrong label"
is 1 "$K" ansi ansi_worn --number 2
says err "ansi_worn: 2: no file has this number among those that stand whole before the wrong label"
edited keep,64
is 1 "$K" ansi edited
says out "6 files stand whole before it:"
edited drop,11
is 1 "$K" ansi edited
says_not out "whole"
is 1 "$K" ansi edited --extract HOSTS nothing
says err "edited: refused 16: not an ANSI labelled tape: its layout or a label is wrong; element 11: a trailer label"
one_line err
absent nothing

# No tape, and no ANSI labels.
cp -r ansi malformed && printf '\004' >> malformed/index.list
is 1 "$K" ansi malformed
says out "refused 1: the block list is malformed or does not fit its store"
one_line out
is 1 "$K" ansi malformed --json
is_so 'tape["refusal"]["number"] == 1 and tape["place"] is None and tape["words"] is None and tape["elements"] is None and tape["volume"] is None and tape["files"] == []'
is 1 "$K" ansi nights
says out "element 1: a volume label (VOL2 to VOL9, UVL) or HDR1 is expected, a mark stands there"
says out "element 2 is an LTFS label: see klapouzen check nights"
is 2 "$K" ansi nowhere
says err "nowhere: No such file or directory"
is 2 "$K" ansi no_cartridge
says err "no_cartridge: no cartridge here: no index.list or index.store"
is 2 "$K" ansi unreadable
says err "unreadable/index.list: not a regular file"

# ---- Extracting ----

blocks_of ansi 16 19
is 0 "$K" ansi ansi --extract /usr/staff/payroll.dat payroll
same payroll blocks
is 0 "$K" ansi ansi --number 1
same out blocks
is 0 "$K" ansi ansi --extract 1
same out blocks
is 0 "$K" ansi --extract=1 ansi by_number
same by_number blocks
blocks_of ansi 27 30
is 0 "$K" ansi ansi --extract /usr/staff/1990/payroll.dat
same out blocks
blocks_of ansi 6 8
is 0 "$K" ansi ansi --extract HOSTS hosts
same hosts blocks
is 0 "$K" ansi ansi --extract LOCK lock
checks=$((checks + 1))
[ -e lock ] && [ ! -s lock ] || fail "no empty file"
is 1 "$K" ansi ansi --extract PAYROLL.DAT twice
says err "ansi: PAYROLL.DAT: 2 files have this name: 1, 2; give --number"
absent twice
is 1 "$K" ansi ansi --extract NOBODY nobody
says err "ansi: NOBODY: no file has this name"
is 1 "$K" ansi ansi --extract HOST nobody
is 1 "$K" ansi ansi --extract 6 nobody
says err "ansi: 6: no file has this number"
absent nobody
# A name comes before a number; an ID that is another file's path names two.
edited put,12,5,'0          ' put,20,5,'0          '
is 0 "$K" ansi edited --extract 0
same out payroll
is 0 "$K" ansi edited --number 0
same out hosts
edited put,12,5,'/etc/hosts ' put,20,5,'/etc/hosts '
is 1 "$K" ansi edited --extract /etc/hosts
says err "edited: /etc/hosts: 2 files have this name: 0, 1; give --number"
# shellcheck disable=SC2046
line_of same_id $(for i in 0 1 2 3 4 5 6 7 8; do printf 'put,%d,5,SAME_________ put,%d,5,SAME_________ ' $((7 * i + 1)) $((7 * i + 5)); done) | edit ansi_many
is 1 "$K" ansi same_id --extract SAME_________
says err "9 files have this name: 0, 1, 2, 3, 4, 5, 6, 7 ..; give --number"

# Whole or not at all.
is 2 "$K" ansi ansi --extract HOSTS hosts
says err "hosts: File exists"
is 2 "$K" ansi ansi --extract HOSTS nowhere/hosts
says err "nowhere/hosts: No such file or directory"
is 2 bash -c "ulimit -f 4; '$K' ansi ansi --number 1 full_ansi"
says err "full_ansi: File too large"
absent full_ansi
for signal in 2 15; do
    stops $signal open "$K" ansi ansi --number 1 stopped
    stops $signal fwrite "$K" ansi ansi --number 1 stopped
    absent stopped
done
checks=$((checks + 1))
[ "$(sed '1,/^signal/d' calls | grep -c '^fwrite a file')" -eq 0 ] || fail "writing went on after the signal"
for call in 1 2; do
    # shellcheck disable=SC2086
    is 2 env $SHIM SHIM_FAIL=fsync:$call "$K" ansi ansi --number 1 failed
    says err "failed: Input/output error"
    absent failed
done
# shellcheck disable=SC2086
is 2 env $SHIM SHIM_FREE=11999 "$K" ansi ansi --number 1 too_much
says err "too_much: 12,000 bytes have to be stored, 11,999 are free"
absent too_much
# shellcheck disable=SC2086
is 0 env $SHIM SHIM_FREE=12000 "$K" ansi ansi --number 1 enough_ansi
same enough_ansi payroll
rm -f calls
# shellcheck disable=SC2086
is 0 env $SHIM "$K" ansi ansi --number 1 lasting_ansi
lasting_calls > order
printf '%s\n' 'fsync ./lasting_ansi.draft' 'rename lasting_ansi' 'fsync .' > wanted_calls
same order wanted_calls
is 2 bash -c "'$K' ansi ansi --number 1 > /dev/full"
says err "standard output: No space left on device"
one_line err
no_drafts

# Bad use.
is 2 "$K" ansi ansi ansi
says err "one folder wanted"
is 2 "$K" ansi ansi --extract HOSTS --number 0
says err "--extract or --number wanted, not both"
is 2 "$K" ansi ansi --extract HOSTS --json
is 2 "$K" ansi ansi --number one
says err "not a file's number: one"
is 2 "$K" ansi ansi --number 0 new newer
says err "a folder and a new file wanted"

# ---- Bytes that a terminal would obey ----

edited put,0,5,'V\x1b[7m' put,0,38,'\x9b"\xff' put,2,5,'H\x1b]0;\xc2\x9b' put,9,5,'H\x1b]0;\xc2\x9b' put,4,45,'/\x07\x7f\\"\xff'
is 0 "$K" ansi edited
is_visible out
says out 'volume V\x1b[7m1, owner \x9b"\xffpouzen, version 4'
says out '     0  H\x1b]0;\u009b     D        2,048'
says out '  /\x07\x7f\\"\xff'
is 0 "$K" ansi edited --json
is_visible out
is_so 'tape["volume"]["identifier"] == "V\x1b[7m1" and tape["files"][0]["id"] == "H\x1b]0;\x9b"'
is_so 'bytes.fromhex(tape["volume"]["owner_bytes"]) == b"\x9b\"\xffpouzen"'
is_so 'bytes.fromhex(tape["files"][0]["path_bytes"]).startswith(b"/\x07\x7f\\\"\xff")'
is 0 "$K" ansi edited --extract $'H\033]0;\302\233'
same out hosts
edited put,2,5,'\x1b\xff\x7f'
is 1 "$K" ansi edited --extract HOSTS
is_visible err
line_of $'ansi <&> \033[31m' put,0,5,'<&>"\x1b ' | edit ansi
is 1 "$K" check $'ansi <&> \033[31m'
is_visible out
says out 'an ANSI labelled tape, volume <&>"\x1b, with 6 files: see klapouzen ansi ansi <&> \x1b[31m'
is 1 "$K" show $'ansi <&> \033[31m' --svg ansi.svg
is_visible ansi.svg
is_xml ansi.svg
says ansi.svg 'volume &#60;&#38;&#62;&#34;\x1b, with 6 files: see klapouzen ansi ansi &#60;&#38;&#62; \x1b[31m'

# ---- The other commands ----

is 1 "$K" check ansi fresh ansi_worn
says out "ansi  an ANSI labelled tape, volume BENCH1, with 6 files: see klapouzen ansi ansi"
says out "ansi_worn  an ANSI labelled tape, volume BENCH1, refused 18 at element 31 behind 2 whole files: see klapouzen ansi ansi_worn"
says out "3 cartridges: 1 consistent, 0 to cut, 0 without a cut, 2 refused, 0 unreadable; 2 of the refused are ANSI labelled tapes"
is 1 "$K" check ansi empty
says out "0 consistent, 0 to cut, 0 without a cut, 2 refused, 0 unreadable; 1 of the refused is an ANSI labelled tape"
is 1 "$K" check ansi --json
is_so 'tape["verdict"] == "refused" and tape["refusal"]["number"] == 9 and tape["ansi"] == {"identifier": "BENCH1", "files": 6, "refusal": None}'
is 1 "$K" check ansi_worn --json
is_so 'tape["ansi"]["files"] == 2 and tape["ansi"]["refusal"] == {"number": 18, "text": "EOF1'"'"'s block count is not that of the data blocks present", "place": 31}'
edited put,20,1,EOV1
is 1 "$K" check edited
says out "edited  an ANSI labelled tape, volume BENCH1, refused 17 at element 20 behind 1 whole file: see klapouzen ansi edited"
edited lose,17
is 1 "$K" check edited
says out "edited  an ANSI labelled tape, volume BENCH1, refused 16 at element 17 behind 1 whole file: see klapouzen ansi edited; 1 unreadable block on the index side"
is 1 "$K" check edited --json
is_so 'tape["ansi"]["files"] == 1 and tape["ansi"]["refusal"]["number"] == 16 and tape["unreadable_blocks"] == {"index": 1, "data": 0}'
is 0 "$K" ansi edited --extract HOSTS
same out hosts
# Before a HDR1 it might be any tape.
edited lose,2
is 1 "$K" check edited
says out "edited  refused 9: the partition does not begin with block, mark, block, mark (index side: index.list); 1 unreadable block on the index side"
edited drop,20
is 1 "$K" check edited
says out "edited  refused 9: "
says_not out ANSI
is 1 "$K" check edited --json
is_so '"ansi" not in tape'
for words in files show "extract:HOSTS" "cut:nothing"; do
    IFS=: read -r command word <<< "$words"
    is 1 "$K" "$command" ansi ${word:+"$word"}
    cat out err > both
    says both "an ANSI labelled tape, volume BENCH1, with 6 files: see klapouzen ansi ansi"
done
absent nothing

# Cut where it is told: what is no LTFS volume has a list too.
is 0 "$K" cut --keep-index 20 ansi ansi_front
says out "ansi_front  keeps 20 + 0 of 65 + 0 elements; refused 9: "
is 1 "$K" ansi ansi_front
says out "behind element 19, the last: the tape ends too early, EOF1 is missing (file 1, PAYROLL.DAT)"
cp -r ansi ansi_bad && printf '\004' > ansi_bad/data.list
is 1 "$K" cut --keep-index 20 ansi_bad nothing
says err "klapouzen: ansi_bad: refused 1: the block list is malformed or does not fit its store (data side: data.list with data.store)"
absent nothing
