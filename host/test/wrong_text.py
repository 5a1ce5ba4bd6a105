"""A cartridge with another text: wrong_text.py FROM TO SIDE FIRST, the text on standard input.

FROM is a cartridge with blocks of 4,096 bytes. The new folder TO has it with the text in the place of the blocks from element
FIRST to the next mark, those of an index or of a label. The text is also put there as SIDE.text. Where it has %HERE% in it,
that is taken out: it stands before the first byte that can't stand where it does, or at the end. What must be said of this
place is put there as SIDE.place: JSON, counted by other means than the program's.
"""
import json
import os
import shutil
import sys
import xml.parsers.expat

MARKER = b"%HERE%"
BLOCK_SIZE = 4096
LABELS = 4


def elements_of(folder, side):
    """None for a mark, the bytes of a block"""
    with open(os.path.join(folder, side + ".list"), "rb") as file:
        codes = file.read()
    with open(os.path.join(folder, side + ".store"), "rb") as file:
        store = file.read()
    while codes:
        is_block = codes[0] == 2
        length = int.from_bytes(codes[1:5], "big") if is_block else 0
        yield store[:length] if is_block else None
        codes, store = codes[5 if is_block else 1:], store[length:]


def column_of(line, byte):
    """the number of the character with this byte; a byte that is no UTF-8 is one by itself"""
    end, column = 0, 1
    for character in line.decode("utf-8", "surrogateescape"):
        end += len(character.encode("utf-8", "surrogateescape"))
        column += end <= byte
    return column


def open_in(front):
    """the names of the elements that are open, by expat"""
    names = []
    parser = xml.parsers.expat.ParserCreate()
    parser.StartElementHandler = lambda name, attributes: names.append(name)
    parser.EndElementHandler = lambda name: names.pop()
    try:
        parser.Parse(front, True)
    except xml.parsers.expat.ExpatError:
        pass
    return names


def place_in(text, byte, first, before):
    """of a text whose first element is `first`, with so many bytes of the store before it"""
    lines = text[:byte].split(b"\n")
    blocks = min(byte, len(text) - 1) // BLOCK_SIZE if first >= LABELS else 0
    names = open_in(text[:byte])
    return {
        "front": byte,
        "line": len(lines),
        "column": column_of(text[byte - len(lines[-1]):].split(b"\n")[0], len(lines[-1])),
        "element": first + blocks,
        "byte": byte - blocks * BLOCK_SIZE,
        "store_byte": before + byte,
        "found": text[byte] if byte < len(text) else None,
        "open": len(names),
        "within": names[-1] if names else None,
    }


source, target, side, first = sys.argv[1], sys.argv[2], sys.argv[3], int(sys.argv[4])
given = sys.stdin.buffer.read()
text = given.replace(MARKER, b"", 1)
elements = list(elements_of(source, side))
before = sum(len(e) for e in elements[:first] if e is not None)
size = BLOCK_SIZE if first >= LABELS else len(text)
elements[first:elements.index(None, first)] = [text[i:i + size] for i in range(0, len(text), size)]
shutil.copytree(source, target)
with open(os.path.join(target, side + ".list"), "wb") as file:
    file.write(b"".join(b"\1" if e is None else b"\2" + len(e).to_bytes(4, "big") for e in elements))
with open(os.path.join(target, side + ".store"), "wb") as file:
    file.write(b"".join(e for e in elements if e is not None))
with open(os.path.join(target, side + ".text"), "wb") as file:
    file.write(text)
if MARKER in given:
    with open(os.path.join(target, side + ".place"), "w") as file:
        json.dump(place_in(text, given.index(MARKER), first, before), file)
