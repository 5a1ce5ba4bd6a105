"""Whether an extracted file has the bytes of its extents: extracted.py DIR FILES_JSON NUMBER EXTRACTED [GAPS]

DIR's lists and stores are read here, the extents come from `klapouzen files --json`. Position p in an extent is in
block startblock + (byteoffset + p - fileoffset) div B, at the remainder; in no extent it is a zero. What the extracted
file has no room for on disk (holes) need not be read: it is zeros. What is on an unreadable block is zeros too, and a
line of the file GAPS; without GAPS there may be no such block.
"""
import json
import os
import re
import sys

folder, listing, number, extracted = sys.argv[1:5]
UNREADABLE = b""


def read(name):
    with open(os.path.join(folder, name), "rb") as file:
        return file.read()


def blocks_of(side):
    """The blocks of a side by element number; None for a mark, UNREADABLE for such a block."""
    elements, store, at, offset = read(side + ".list"), read(side + ".store"), 0, 0
    blocks = []
    while at < len(elements):
        if elements[at] == 1:
            blocks.append(None)
            at += 1
        elif elements[at] == 3:
            blocks.append(UNREADABLE)
            at += 1
        else:
            length = int.from_bytes(elements[at + 1 : at + 5], "big")
            blocks.append(store[offset : offset + length])
            offset += length
            at += 5
    return blocks


tapes = {b"a": blocks_of("index"), b"b": blocks_of("data")}
block_size = int(re.search(rb"<blocksize>(\d+)</blocksize>", read("index.store")).group(1))
with open(listing, encoding="utf-8") as lines:
    wanted = [json.loads(line) for line in lines][int(number)]


def expected(begin, end):
    """The bytes from one position up to another."""
    found = bytearray(end - begin)
    for extent in wanted["extents"]:
        first, blocks = extent["fileoffset"], tapes[extent["partition"].encode()]
        p, last = max(first, begin), min(first + extent["bytecount"], end)
        while p < last:
            block, place = divmod(extent["byteoffset"] + p - first, block_size)
            piece = blocks[extent["startblock"] + block] or bytes(block_size)
            piece = piece[place : min(block_size, place + last - p)]
            found[p - begin : p - begin + len(piece)] = piece
            p += len(piece)
    return found


def gaps():
    """A line for each block of each extent that is unreadable, by position."""
    found = []
    for extent in wanted["extents"]:
        begin, end = extent["byteoffset"], extent["byteoffset"] + extent["bytecount"]
        for block in range((end - 1) // block_size + 1):
            first, behind = max(begin, block * block_size), min(end, (block + 1) * block_size)
            element = extent["startblock"] + block
            if tapes[extent["partition"].encode()][element] == UNREADABLE:
                found.append((extent["fileoffset"] + first - begin, behind - first, extent["partition"], element))
    return "".join("%d %d %s %d\n" % gap for gap in sorted(found))


def parts(file, length):
    """What the file system stores of the file, in parts of a megabyte at most."""
    at = 0
    while at < length:
        try:
            at = os.lseek(file, at, os.SEEK_DATA)
        except OSError:
            return
        end = os.lseek(file, at, os.SEEK_HOLE)
        for begin in range(at, end, 1 << 20):
            yield begin, min(begin + (1 << 20), end)
        at = end


with open(extracted, "rb") as out:
    length = os.fstat(out.fileno()).st_size
    if length != wanted["length"]:
        sys.exit(f"{length} bytes, not {wanted['length']}")
    regions = list(parts(out.fileno(), length))
    regions += [(e["fileoffset"], e["fileoffset"] + e["bytecount"]) for e in wanted["extents"]]
    for begin, end in regions:
        if os.pread(out.fileno(), end - begin, begin) != expected(begin, end):
            sys.exit(f"the bytes from {begin} to {end} differ")

listed = ""
if len(sys.argv) > 5:
    with open(sys.argv[5]) as lines:
        listed = lines.read()
if listed != gaps():
    sys.exit(f"the gaps are {gaps()!r}, not {listed!r}")
