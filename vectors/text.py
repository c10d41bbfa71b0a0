#!/usr/bin/env python3
"""Makes text.txt beside this script: cases of UTF-8 at every boundary of RFC 3629's byte ranges. The answers are those of
Python's strict decoder on the same bytes.

usage: text.py            write the file
       text.py --check    fail if the file is not what would be written now
"""
import itertools
import pathlib
import sys

HEADER = """\
# Cases of text, one a line: case, TAB, answer. Bytes are hex, '-' is no bytes. Made by text.py.
#   utf8 MESSAGE PLACE COUNT   -> number place: 0 0 if the COUNT bytes from PLACE on, as far as they lie in the message, are UTF-8,
#                                 else 13 and the offset among them of the first sequence that is not allowed
"""
LAST = 2**64 - 1

# The first and last byte of every range of the grammar, and their neighbours.
LEADS = {
    0: (0x00, 0x7F, 0x80, 0xBF, 0xC0, 0xC1, 0xF5, 0xFF),
    1: (0xC2, 0xDF),
    2: (0xE0, 0xE1, 0xEC, 0xED, 0xEE, 0xEF),
    3: (0xF0, 0xF1, 0xF3, 0xF4),
}
SECONDS = (0x7F, 0x80, 0x8F, 0x90, 0x9F, 0xA0, 0xBF, 0xC0)
TAILS = (0x7F, 0x80, 0xBF, 0xC0)


def sequences():
    """Every boundary lead byte with every row of boundary bytes after it, cut off or whole."""
    for after, leads in LEADS.items():
        for lead in leads:
            yield bytes([lead])
            for count in range(1, max(after, 1) + 1):
                for rest in itertools.product(SECONDS, *[TAILS] * (count - 1)):
                    yield bytes([lead, *rest])
    # What a decoder without the ranges of the second byte would take.
    for lead, count in ((0xC0, 1), (0xC1, 1), (0xE0, 2), (0xED, 2), (0xF0, 3), (0xF4, 3), (0xF5, 3), (0xF8, 4), (0xFC, 5)):
        for second in (0x80, 0xBF):
            yield bytes([lead, second]) + b"\x80" * (count - 1)


def runs():
    """Sequences, good and bad, between runs of ASCII on both sides of whole eights."""
    pieces = ("é".encode(), "語".encode(), "😀".encode(), b"\x80", b"\xc3", b"\xe8\xaa", b"\xf0\x9f\x98", b"\xed\xa0\x80")
    for before, piece, behind in itertools.product((0, 1, 7, 8, 9, 15, 16, 17), pieces, (0, 1, 8)):
        yield b"a" * before + piece + b"z" * behind
    # Of two bad ones the first counts.
    for first, second in itertools.product(pieces[3:], repeat=2):
        yield "aé語😀".encode() + first + b"z" + second
    for count in (2, 3, 4, 100):
        yield "".join("aé語😀"[i % 4] for i in range(count)).encode()
    yield b"a" * 2000 + b"\xff"
    yield b"a" * 2000 + "é".encode()


def eights():
    """Each byte by itself; text of several eights in which few sequences end with one, cut off and broken at each of its bytes; and
    ASCII on both sides of whole blocks after a longer sequence."""
    for byte in range(256):
        yield bytes([byte])
    text = "語é😀x語".encode() * 3
    for at in range(len(text)):
        yield text[:at]
        yield text[:at] + b"\xff" + text[at + 1 :]
    for count in (7, 8, 9, 31, 32, 33, 39, 40, 41, 71, 72, 73):
        for last in ("é".encode(), b"\x80"):
            yield "é".encode() + b"a" * count + last


def parts():
    """Parts of one message: between sequences, through them, and past its end."""
    message = "aé語😀z".encode() + b"\xff"
    for at in range(len(message) + 2):
        for count in (0, 1, 2, 3, 4, 5, 11, 12, LAST):
            yield message, at, count
    yield message, LAST, LAST
    yield message, LAST, 0


def cases():
    yield b"", 0, 0
    for message in itertools.chain(sequences(), runs(), eights()):
        yield message, 0, len(message)
    yield from parts()


def judge(text):
    """Number and place."""
    try:
        text.decode("utf-8", "strict")
    except UnicodeDecodeError as broken:
        return 13, broken.start
    return 0, 0


def lines():
    for message, at, count in cases():
        number, place = judge(message[at:][:count])
        yield f"utf8 {message.hex() or '-'} {at} {count}\t{number} {place}\n"


def main(words):
    path = pathlib.Path(__file__).resolve().parent / "text.txt"
    made = HEADER + "".join(dict.fromkeys(lines()))
    if words == ["--check"]:
        if path.read_text() != made:
            sys.exit(f"{path.name} is not what text.py makes")
    elif words:
        sys.exit(__doc__)
    else:
        path.write_text(made)


main(sys.argv[1:])
