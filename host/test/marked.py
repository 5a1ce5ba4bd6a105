"""Whether klapouzen why marks the place of a text: marked.py FOLDER SIDE COLUMNS [TOLD].

FOLDER is one of wrong_text.py's, SIDE that of the text. Standard input is what the program prints of this one text, on lines of
so many columns; TOLD is the file with its JSON object, where that is wanted too. Widths of characters are Unicode's.
"""
import json
import os
import re
import sys
import unicodedata

GUTTER = len("     1 | ")
LONGEST = len(r"\U000e0001")
TOKEN = re.compile(r"\\x([0-9a-f]{2})|\\u([0-9a-f]{4})|\\U([0-9a-f]{8})|\\(\\)|(.)", re.DOTALL)


def tokens(shown):
    """what a line shows, as bytes, with the columns that each takes"""
    for token in TOKEN.finditer(shown):
        byte, four, eight, backslash, character = token.groups()
        if byte:
            yield bytes.fromhex(byte), 4
        elif four or eight:
            yield chr(int(four or eight, 16)).encode(), len(token[0])
        elif backslash:
            yield b"\\", 2
        else:
            is_wide = unicodedata.east_asian_width(character) in "WF"
            yield character.encode(), 0 if unicodedata.combining(character) else 2 if is_wide else 1


def split_at(shown, column):
    """the bytes before a column and from it on"""
    before, behind, at = b"", b"", 0
    for text, columns in tokens(shown):
        if at < column or (at == column and columns == 0):
            before += text
        else:
            behind += text
        at += columns
    return before, behind, at


def expect(condition, what):
    if not condition:
        sys.exit(what)


folder, side, columns = sys.argv[1], sys.argv[2], int(sys.argv[3])
with open(os.path.join(folder, side + ".place")) as file:
    place = json.load(file)
with open(os.path.join(folder, side + ".text"), "rb") as file:
    text = file.read()
if len(sys.argv) > 4:
    with open(sys.argv[4]) as file:
        told = json.load(file)
    expect(told["refusal"]["number"] == 4 and told["side"] == side, f"not a text of this side: {told}")
    expect(told["refusal"]["place"] == place, f"not the place: {told['refusal']['place']}, but {place}")
    expect(told["length"] == len(text), "not the text's length")

lines = sys.stdin.buffer.read().decode().replace("\r\n", "\n").split("\n")
words = f"  byte {place['front']}, line {place['line']}, column {place['column']} of a text of {len(text):,} byte"
expect(any(line.startswith(words) for line in lines), f"no \"{words}\"")
words = f"  byte {place['byte']} of element {place['element']}, byte {place['store_byte']} of {side}.store"
expect(words in lines, f"no \"{words}\"")
words = "  the text ends there, too early: " if place["found"] is None else f"  found byte 0x{place['found']:02x}"
expect(any(line.startswith(words) for line in lines), f"no \"{words}\"")

number = [i for i, line in enumerate(lines) if line.startswith(f"{place['line']:6} | ")]
expect(len(number) == 1, "not one marked line")
shown, caret = lines[number[0]][GUTTER:], lines[number[0] + 1]
expect(re.fullmatch(r"       \|  *\^", caret), f"no caret under the line: {caret}")
column = len(caret) - GUTTER - 1
before, behind, width = split_at(shown, column)
expect(width <= columns - GUTTER and column < columns - GUTTER, f"a line of {width} columns, a caret in column {column}")

# The line by characters, a byte that is no UTF-8 being one: what is before the place, and from it on without the line's end.
begin = text.rfind(b"\n", 0, place["front"]) + 1
characters = text[begin:].partition(b"\n")
characters = (characters[0] + characters[1]).decode("utf-8", "surrogateescape")
wanted = [part.encode("utf-8", "surrogateescape") for part in (characters[:place["column"] - 1], characters[place["column"] - 1:])]
if wanted[1] in (b"\n", b"\r\n"):
    wanted[1] = wanted[1][:1]
else:
    wanted[1] = wanted[1].removesuffix(b"\n").removesuffix(b"\r") if wanted[1].endswith(b"\n") else wanted[1]

# An ellipsis is for what is left out, which is no more than there is no room for.
is_cut = [before != wanted[0], behind != wanted[1]]
if is_cut[0]:
    expect(before.startswith(b"...") and wanted[0].endswith(before[3:]), f"another text before the place: {before}")
if is_cut[1]:
    expect(behind.endswith(b"...") and wanted[1].startswith(behind[:-3]), f"another text from the place on: {behind}")
    expect(len(behind) > 3, "the place itself is left out")
expect(not any(is_cut) or width > columns - GUTTER - 2 * LONGEST, f"left out though there is room: {width} columns")
