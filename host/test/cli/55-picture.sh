# The picture: an XML text that says what it shows, bounded however many runs there are.

# draws FILE CLASS=NUMBER..: so many boxes of a class are in the tracks, each wide enough to be seen.
draws() {
    checks=$((checks + 1))
    python3 -I -S - "$@" <<'PYTHON' > boxes || fail "$1: $(cat boxes)"
import sys, xml.dom.minidom
boxes = [b for b in xml.dom.minidom.parse(sys.argv[1]).getElementsByTagName("rect") if b.getAttribute("height") == "46"]
for wanted in sys.argv[2:]:
    name, number = wanted.split("=")
    widths = [float(b.getAttribute("width")) for b in boxes if b.getAttribute("class") == name]
    if len(widths) != int(number) or any(w < 3 for w in widths):
        sys.exit(print(f"{len(widths)} boxes of {name}, not {number}, or too narrow: {widths}") or 1)
PYTHON
}

# Caption and legend.
says picture.svg "<title>nights</title>"
says picture.svg ">nights</text>"
says picture.svg ">KLA001</tspan>"
says picture.svg ">30a91a08-daae-48d1-ae75-69804e61d2ea</tspan>"
says picture.svg ">break 2: the data partition does not end with a whole index</text>"
says picture.svg ">cut keeps 13 + 71 of 13 + 78 elements, generation 4</text>"
is 0 "$K" show torn --svg no_cut.svg
says no_cut.svg ">no cut leaves a consistent volume</text>"
says picture.svg ">cut: keep 71, drop 7</text>"
says picture.svg ">gen 4</text>"
says picture.svg ">68-70</text>"
for entry in labels "data run" "sound index" "not sound" "indexes and data, too narrow to tell apart" cut "dropped by it" "points back to" "first defect"; do
    says picture.svg ">$entry</text>"
done
checks=$((checks + 1))
[ "$(grep -c 'class="cut"' picture.svg)" -eq 2 ] || fail "not one cut and its legend"
# The arrows, by the numbers of the boxes in their tracks: index 1, 2, 3 to data 1, 3, 7, and a data index to the one before.
checks=$((checks + 1))
python3 -I -S - > arrows <<'PYTHON' || fail "the arrows: $(cat arrows)"
import re, sys, xml.dom.minidom
picture = xml.dom.minidom.parse("picture.svg")
boxes = {"160": [], "280": []}
for box in picture.getElementsByTagName("rect"):
    if box.getAttribute("y") in boxes and box.getAttribute("class") != "dropped":
        boxes[box.getAttribute("y")].append(float(box.getAttribute("x")) + float(box.getAttribute("width")) / 2)
arrows = []
for path in picture.getElementsByTagName("path"):
    ends = re.fullmatch(r"M([\d.]+) (\d+) C.* ([\d.]+) (\d+)", path.getAttribute("d"))
    if ends:
        side = "160" if float(ends[2]) < 250 else "280"
        near = lambda x, middles: min(range(len(middles)), key=lambda i: abs(middles[i] - float(x)))
        arrows.append((side, near(ends[1], boxes[side]), near(ends[3], boxes["280"])))
print(arrows)
sys.exit(arrows != [("160", 1, 1), ("160", 2, 3), ("160", 3, 7), ("280", 3, 1), ("280", 5, 3), ("280", 7, 5)])
PYTHON
# The hatching goes from the cut to the end of the track.
checks=$((checks + 1))
python3 -I -S - > hatched <<'PYTHON' || fail "the hatching: $(cat hatched)"
import sys, xml.dom.minidom
picture = xml.dom.minidom.parse("picture.svg")
places = [(box.getAttribute("class"), float(box.getAttribute("x")), float(box.getAttribute("x")) + float(box.getAttribute("width")))
          for box in picture.getElementsByTagName("rect") if box.getAttribute("y") == "280"]
cut = min(float(path.getAttribute("d")[1:].split()[0]) for path in picture.getElementsByTagName("path")
          if path.getAttribute("class") == "cut" and float(path.getAttribute("d").split()[1]) < 390)
runs, hatched = [p for p in places if p[0] != "dropped"], [p for p in places if p[0] == "dropped"]
print(cut, runs, hatched)
sys.exit(len(hatched) != 1 or hatched[0][1:] != (runs[8][1], runs[9][2]) or not runs[7][2] <= cut <= runs[8][1])
PYTHON

# Colour by soundness, hatched where dropped.
draws picture.svg labels=2 index=7 data=4 unsound=1 mixed=0 dropped=1
is 0 "$K" show behind --svg behind.svg
says behind.svg ">refused 4</text>"
draws behind.svg unsound=1 dropped=1
is 0 "$K" show fresh --svg fresh.svg
draws fresh.svg labels=2 index=2 dropped=0 unsound=0

# Each kind of defect, on the map and in the picture.
cp -r fresh empty_run && printf '\001\001' >> empty_run/data.list
cp -r fresh short_block && printf '\001\002\0\0\0\012\002\0\0\0\012\001' >> short_block/index.list && printf '%020d' 0 >> short_block/index.store
while IFS=: read -r folder element what; do
    is 0 "$K" show "$folder" --svg "$folder.svg"
    says out "$(printf '  %11s  defect     %s' "$element" "$what")"
    is_xml "$folder.svg"
    says "$folder.svg" ">$element: $what</text>"
    checks=$((checks + 1))
    [ "$(grep -c '<circle' "$folder.svg")" -eq 2 ] || fail "not one defect and its legend in $folder.svg"
done <<KINDS
defect:13:a block longer than the block size
empty_run:8:an empty index run
short_block:9:a short block before the last of an index run
KINDS
checks=$((checks + 1))
[ "$(grep -c '<circle' fresh.svg)" -eq 1 ] || fail "a defect where there is none"

# As many generations as fit: all of them drawn, the one unsound and the few dropped seen, and the file small.
"$SAMPLE" full filled || exit 2
is 1 "$K" check filled
says out "break 4: the last index of the index partition, index 18092, is sound but does not follow the data partition's last; cut keeps 54,283 + 63,329 of 54,283 + 63,332 elements, generation 18093"
is 0 "$K" show filled --svg filled.svg
says out "18,078 runs more, 1 of them not sound: 1 refused 4; --all shows them"
says filled.svg ">cut: keep 63,329, drop 3</text>"
says filled.svg ">18,093 indexes</text>"
says filled.svg ">4-63328</text>"
draws filled.svg labels=2 mixed=1 unsound=1 dropped=1 index=3
checks=$((checks + 1))
[ "$(stat -c %s filled.svg)" -lt 16384 ] || fail "the picture of many runs is long"
is 0 "$K" show long --svg long.svg
draws long.svg index=120 data=60 unsound=1 mixed=0

# A long name: its end.
LONG=$(printf 'delivery %03d ' {1..18})
cp -r fresh "$LONG"
is 0 "$K" show "$LONG" --svg name.svg
says name.svg ">&#8230; delivery 014 delivery 015 delivery 016 delivery 017 delivery 018 </text>"
is_xml refused.svg
says refused.svg ">bad1</text>"
says refused.svg "(data side: data.list with data.store)"
no_drafts
