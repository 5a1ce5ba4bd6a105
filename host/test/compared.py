"""What klapouzen compare --json has to say, by a reading of its own: compared.py CHECKED < COMPARED

CHECKED has the object of check --json for each folder, a line each. Each line of standard input is a comparison: exit
status, OLD, NEW, and the object, with tabs between.
"""
import itertools
import json
import re
import sys

ELEMENT = re.compile(rb"\x01|\x02(....)|\x03", re.DOTALL)
KINDS = {1: "mark", 2: "block", 3: "unreadable"}


def read(folder, side):
    """List, store and elements, each with its bytes; None in the place of these where the list is malformed."""
    codes, store = (open(f"{folder}/{side}.{part}", "rb").read() for part in ("list", "store"))
    found = list(ELEMENT.finditer(codes))
    lengths = [int.from_bytes(one[1] or b"", "big") for one in found]
    whole = b"".join(one[0] for one in found) == codes and sum(lengths) == len(store)
    if not whole or any(one[1] and not length for one, length in zip(found, lengths)):
        return codes, store, None
    ends = itertools.accumulate(lengths)
    return codes, store, [(one[0], store[end - length:end]) for one, length, end in zip(found, lengths, ends)]


def relation(old, new):
    """By the bytes of the files alone."""
    if old == new:
        return "same"
    if all(n.startswith(o) for o, n in zip(old, new)):
        return "new_continues_old"
    if all(o.startswith(n) for o, n in zip(old, new)):
        return "old_continues_new"
    return None


def first_difference(old, new, at):
    byte = None
    if old[0] == new[0]:
        byte = min(i for i, pair in enumerate(zip(old[1], new[1])) if pair[0] != pair[1])
    elements = [{"kind": KINDS[one[0][0]], "length": len(one[1]) or None} for one in (old, new)]
    return {"element": at, "old": elements[0], "new": elements[1], "byte": byte}


def side_of(old, new):
    if old[2] is None or new[2] is None:
        numbers = ("common", "difference", "differing", "unreadable_in_old_alone", "unreadable_in_new_alone")
        return {"relation": "malformed", **dict.fromkeys(numbers)}
    pairs = list(zip(old[2], new[2]))
    differing = [at for at, pair in enumerate(pairs) if pair[0] != pair[1]]
    lost = [[pairs[at][read][0] == b"\3" for at in differing] for read in (0, 1)]
    return {
        "relation": relation(old[:2], new[:2]) or "different",
        "common": differing[0] if differing else len(pairs),
        "difference": first_difference(*pairs[differing[0]], differing[0]) if differing else None,
        "differing": len(differing),
        "unreadable_in_old_alone": sum(o and not n for o, n in zip(*lost)),
        "unreadable_in_new_alone": sum(n and not o for o, n in zip(*lost)),
    }


def rescued(checked):
    cut = checked.get("cut")
    return cut["index_construct"] + 1 if cut else 0


def cut_within(checked, tapes, others):
    """Whether what the cut keeps is the other read's front too; None where there is no cut."""
    cut = checked.get("cut")
    if not cut:
        return None
    fronts = [(tapes[side][2][:cut[side + "_kept"]], others[side][2]) for side in ("index", "data")]
    return all(other is not None and other[:len(front)] == front for front, other in fronts)


def wanted(old, new, checked):
    tapes = [{side: read(folder, side) for side in ("index", "data")} for folder in (old, new)]
    sides = {side: side_of(tapes[0][side], tapes[1][side]) for side in ("index", "data")}
    files = [tape["index"][:2] + tape["data"][:2] for tape in tapes]
    malformed = "malformed" in [side["relation"] for side in sides.values()]
    volumes = [(one["identifier"], one["uuid"].lower()) if "uuid" in one else None for one in (checked[old], checked[new])]
    more = rescued(checked[new]) - rescued(checked[old])
    return {
        "old": checked[old], "new": checked[new], **sides,
        "relation": "neither" if malformed else relation(*files) or "neither",
        "old_cut_in_new": cut_within(checked[old], *tapes),
        "new_cut_in_old": cut_within(checked[new], *tapes[::-1]),
        "same_volume": None if None in volumes else volumes[0] == volumes[1],
        "rescues_more": "new" if more > 0 else "old" if more < 0 else None,
    }


def hurts(found):
    """Whether a read that has what the other's cut keeps cuts worse: never, the library proves."""
    old, new = found["old"].get("cut"), found["new"].get("cut")
    numbers = ("index_construct", "data_construct", "index_kept", "data_kept", "generation")
    if not found["old_cut_in_new"]:
        return False
    return not new or rescued(found["new"]) <= rescued(found["old"]) and any(old[key] != new[key] for key in numbers)


checked = {one["folder"]: one for one in map(json.loads, open(sys.argv[1]))}
relations = set()
for line in sys.stdin:
    status, old, new, text = line.rstrip("\n").split("\t")
    found, want = json.loads(text), wanted(old, new, checked)
    relations |= {found["relation"]} | {(side, found[side]["relation"]) for side in ("index", "data")}
    if found["relation"] == "neither":
        relations |= {(key, found[key]) for key in ("old_cut_in_new", "new_cut_in_old")}
    for key in want.keys() | found.keys():
        if found.get(key) != want.get(key):
            sys.exit(f"{old} and {new}: {key} is {found.get(key)}, not {want.get(key)}")
    if int(status) != (want["relation"] not in ("same", "new_continues_old")):
        sys.exit(f"{old} and {new}: status {status}")
    if hurts(found):
        sys.exit(f"{old} and {new}: reading on hurts")
# Every relation was among them: of the whole, of each side, and of the cuts where neither goes on.
if len(relations) != 4 + 2 * 5 + 2 * 3:
    sys.exit(f"only {relations}")
