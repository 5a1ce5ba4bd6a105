"""Tapes with other elements: elements.py FROM [SIDE], a folder with index.list and index.store, or those of SIDE.

Each line of standard input makes a new folder: its name and the edits, with tabs between; the other side is as it was. An
edit is words with commas between, done one after another; N is an element's number:
  drop,N            without it
  keep,N            the first N alone
  mark,N            a mark before it
  block,N,LENGTH    a block of so many bytes before it
  label,N,TEXT      a block of 80 bytes before it, the text filled up with spaces
  put,N,FIRST,TEXT  other bytes from this one on, counted from 1; \\xNN is a byte
  size,N,LENGTH     the block cut off or filled up with spaces
  lose,N            the block as one that could not be read
"""
import os
import shutil
import sys

UNREADABLE = b""


def read(folder, side):
    with open(os.path.join(folder, side + ".list"), "rb") as file:
        codes = file.read()
    with open(os.path.join(folder, side + ".store"), "rb") as file:
        store = file.read()
    elements, at, begin = [], 0, 0
    while at < len(codes):
        if codes[at] == 1:
            elements.append(None)
            at += 1
        elif codes[at] == 3:
            elements.append(UNREADABLE)
            at += 1
        else:
            length = int.from_bytes(codes[at + 1:at + 5], "big")
            elements.append(store[begin:begin + length])
            begin += length
            at += 5
    return elements


def code_of(element):
    if element is None:
        return b"\1"
    return b"\3" if element == UNREADABLE else b"\2" + len(element).to_bytes(4, "big")


def write(folder, side, elements):
    with open(os.path.join(folder, side + ".list"), "wb") as file:
        file.write(b"".join(map(code_of, elements)))
    with open(os.path.join(folder, side + ".store"), "wb") as file:
        file.write(b"".join(e for e in elements if e is not None))


def as_bytes(text):
    return text.encode().decode("unicode_escape").encode("latin-1")


def edit(elements, kind, number, *words):
    at = int(number)
    if kind == "drop":
        del elements[at]
    elif kind == "keep":
        del elements[at:]
    elif kind == "mark":
        elements.insert(at, None)
    elif kind == "block":
        elements.insert(at, b"x" * int(words[0]))
    elif kind == "label":
        elements.insert(at, as_bytes(words[0]).ljust(80))
    elif kind == "put":
        first, text = int(words[0]) - 1, as_bytes(words[1])
        elements[at] = elements[at][:first] + text + elements[at][first + len(text):]
    elif kind == "lose":
        elements[at] = UNREADABLE
    elif kind == "size":
        elements[at] = elements[at][:int(words[0])].ljust(int(words[0]))
    else:
        sys.exit(f"no such edit: {kind}")


given = sys.argv[2] if len(sys.argv) > 2 else "index"
whole = read(sys.argv[1], given)
for line in sys.stdin:
    folder, *edits = line.rstrip("\n").split("\t")
    tape = list(whole)
    for words in edits:
        edit(tape, *words.split(",", 3))
    shutil.copytree(sys.argv[1], folder)
    write(folder, given, tape)
