# Names that a terminal would obey: on standard output and error, in JSON and in pictures.
ODD=$'odd <&> "q" \\ \033[31m \177 \302\233 \342\200\256 \342\201\247 \330\234 \342\200\250 \342\200\213 \357\273\277 \302\255 \363\240\200\201'
SHOWN='odd <&> "q" \\ \x1b[31m \x7f \u009b \u202e \u2067 \u061c \u2028 \u200b \ufeff \u00ad \U000e0001'
for text in $'\033' $'\177' $'\302\233' $'\342\200\256' $'\342\200\250' $'\377'; do
    printf '%s' "$text" > probe
    (FIRST=1; is_visible probe) > /dev/null && fail "is_visible sees nothing in ${text@Q}"
done
cp -r fresh "$ODD"
is 0 "$K" check "$ODD"
is_visible out
says out "$SHOWN  KLA001"
is 0 "$K" show "$ODD" --svg odd.svg
is_visible out
says out "$SHOWN"
is_visible odd.svg
is_xml odd.svg
says odd.svg '>odd &#60;&#38;&#62; &#34;q&#34; \\ \x1b[31m \x7f \u009b \u202e \u2067'
is 0 "$K" check --json "$ODD"
is_visible out
is_json out
says out '{"folder":"odd <&> \"q\" \\ \u001b[31m \u007f \u009b \u202e \u2067 \u061c \u2028 \u200b \ufeff \u00ad \udb40\udc01","identifier"'
checks=$((checks + 1))
python3 -I -S -c 'import json, sys; sys.exit(json.load(open("out"))["folder"] != sys.argv[1])' "$ODD" || fail "a folder's name does not come back from JSON"

# A name that is no UTF-8: its bytes come back from JSON. Nothing else has the bytes.
BROKEN=$'broken \377\303( \355\240\200 \340\200\257 \364\220\200\200'
cp -r torn "$BROKEN"
is 1 "$K" check --json "$BROKEN" fresh
is_visible out
is_json out
says out '{"folder":"broken \ufffd\ufffd( \ufffd\ufffd\ufffd \ufffd\ufffd\ufffd \ufffd\ufffd\ufffd\ufffd","folder_bytes":"62726f6b656e20ffc32820eda08020e080af20f4908080",'
says out '{"folder":"fresh","identifier"'
checks=$((checks + 1))
python3 -I -S -c '
import json, os
name = bytes.fromhex(json.loads(open("out").readline())["folder_bytes"])
os.stat(os.path.join(name, b"index.list"))' 2> /dev/null || fail "a folder can't be opened again from JSON"
is 1 "$K" check "$BROKEN"
is_visible out
says out 'broken \xff\xc3( \xed\xa0\x80 \xe0\x80\xaf \xf4\x90\x80\x80  KLA001'
is 2 "$K" check --json $'not there \377'
says out '{"folder":"not there \ufffd","folder_bytes":"6e6f7420746865726520ff","verdict":"unreadable"}'
is_visible err

# What is said on standard error: folders, files, options, commands.
for words in "check:not there $ODD" "check:$ODD/index.list" "show:--$ODD" "$ODD:" "files:--construct:$ODD:fresh" "why:--construct:$ODD:fresh" "extract:fresh:$ODD" "extract:$ODD:7" \
    "cut:$ODD:$ODD" "cut:fresh:not there/$ODD"; do
    IFS=: read -ra words <<< "$words"
    checks=$((checks + 1))
    "$K" "${words[@]}" > out 2> err && fail "status 0: ${words[*]@Q}"
    is_visible err
    says err 'odd <&> "q" \\ \x1b[31m \x7f \u009b'
done
cp -r torn "torn $ODD"
is 1 "$K" cut "torn $ODD" nothing
is_visible err
says err "klapouzen: torn $SHOWN: refused 13"

# Names on a tape.
"$SAMPLE" odd odd || exit 2
is 0 "$K" files odd
is_visible out
for name in 'del\x7f' 'csi\u009b[31m' 'override\u202egpj' 'isolate\u2066' 'mark\u061c' 'line\u2028end' 'width\u200b' 'bom\ufeff' 'tag\U000e0001' 'back\\x1b' \
    'quote"&amp;<' 'Straße 🎵'; do
    says out "0  $name"
done
is 0 "$K" files odd --json
is_visible out
is_json out
for name in 'del\u007f' 'csi\u009b[31m' 'override\u202egpj' 'isolate\u2066' 'mark\u061c' 'line\u2028end' 'width\u200b' 'bom\ufeff' 'tag\udb40\udc01' 'back\\x1b' \
    'quote\"&amp;<' 'Straße 🎵'; do
    says out "\"name\":\"$name\","
done
is 0 "$K" extract odd $'csi\302\233[31m'
is 0 "$K" extract odd 'quote"&amp;<'
is 0 "$K" extract odd 'back\x1b'
