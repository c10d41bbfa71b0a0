#!/usr/bin/env python3
"""Makes what the programs `cases` and `roundtrip` are run on, their `stdin`, and what they must write, their `stdout`, from
the vector files beside this script.

usage: make.py                    write the four files
       make.py --check            fail if one of them is not what would be written now
       make.py --line PROGRAM N   print the vector that line N of a program's stream is made from

A line of the stream of `cases` is a case: the operation's number, its inputs, and the answer that it must give, all as
decimal numbers. A list, and bytes too, stand as their length and then their numbers, a signed number as its pattern of 32 bits. A prepared
state stands as its counts of rows, members and entries, then its sizes and its alignments, each as a list without the zeros at its end. A
line of the stream of `roundtrip` is the message of a case of `check` or `read`: its inputs without rooms.
"""
import pathlib
import sys

HERE = pathlib.Path(__file__).resolve().parent
CRATES = HERE.parent / "crates"
REQUESTS = ("W-203", "W-208", "W-209", "W-201", "W-202", "W-206")
FILES = ("text.txt", "base.txt", "conformance.txt", "document.txt", "circle.txt", *(f"{request}.txt" for request in REQUESTS))

# The operations that `cases` runs, in the order of their numbers, from 1 on. Those on prepared states are in work.
RUN = ("utf8", "sound", "layout", "header_read", "header_write", "check", "read", "write", "epitaph_write")

# The fields of each operation in the vector files: its inputs, and its answer.
FIELDS = {
    "utf8": ("bytes number number", "number number"),
    "sound": ("list list list", "number number"),
    "layout": ("list list list number", "number number number number"),
    "check": ("list list list number bytes number", "number number"),
    "read": ("list list list number bytes number room room", "number number list list"),
    "write": ("list list list number list room", "number number number number bytes"),
    "header_read": ("bytes", "number number number flags number number number signed"),
    "header_write": ("number flags number room", "number number bytes"),
    "epitaph_write": ("flags signed room", "number number bytes"),
    "prepare": ("list list list", "number number state"),
    "append": ("state list list list", "number number state"),
    "go_back": ("state list list list number number number", "number number state"),
    "state_check": ("state list list list number bytes number", "number number"),
}

# The operations whose messages `roundtrip` sends, and the inputs that a message is.
SENT = ("check", "read")
MESSAGE = "list list list number bytes number"


def listed(numbers):
    return [len(numbers), *numbers]


def stored(field):
    """The numbers of a store, up to the last that is not 0."""
    store = {} if field == "-" else {int(at): int(n) for at, n in (pair.split("=") for pair in field.split(";"))}
    return listed([store.get(at, 0) for at in range(1 + max(store, default=-1))])


def state(field):
    *counts, sizes, alignments = field.split(":")
    return [*map(int, counts), *stored(sizes), *stored(alignments)]


# The numbers of a field by its kind; '-' is an empty list, no bytes, or a room that is enough for anything.
NUMBERS = {
    "number": lambda field: [int(field)],
    "list": lambda field: listed([] if field == "-" else [int(n) for n in field.split(",")]),
    "bytes": lambda field: listed([] if field == "-" else list(bytes.fromhex(field))),
    "signed": lambda field: [int(field) % 2**32],
    "flags": lambda field: list(bytes.fromhex(field)),
    "room": lambda field: [2**64 - 1 if field == "-" else int(field)],
    "state": state,
}


def numbers_of(kinds, fields):
    kinds = kinds.split()
    if len(kinds) != len(fields):
        raise ValueError(f"{len(fields)} fields, not {len(kinds)}: {' '.join(fields)}")
    return [n for kind, field in zip(kinds, fields) for n in NUMBERS[kind](field)]


def split(line):
    """The operation of a vector, its inputs and its answer."""
    if "\t" in line:
        case, answer = line.split("\t")
    else:
        _, _, case, answer, *_ = line.split(" | ")
    operation, *inputs = case.split()
    answer = answer.split()
    # conformance.txt leaves out where a header's body starts and ends.
    if operation == "header_read" and len(answer) == 6:
        answer[5:5] = ["16", str(len(inputs[0]) // 2)] if answer[0] == "0" else ["0", "0"]
    return operation, inputs, answer


def vectors(operations):
    """Each vector of these operations, in the order of the files: its file, its line, and what `split` makes of it."""
    for name in FILES:
        for line in (HERE / name).read_text().splitlines():
            if line and not line.startswith("#"):
                operation, inputs, answer = split(line)
                if operation in operations:
                    yield name, line, operation, inputs, answer


def stream(lines):
    return "".join(" ".join(map(str, numbers)) + "\n" for numbers in lines)


def cases():
    """The stream of `cases`, and its lines when every case passes."""
    lines = []
    for _, _, operation, inputs, answer in vectors(RUN):
        kinds, answers = FIELDS[operation]
        lines.append([1 + RUN.index(operation), *numbers_of(kinds, inputs), *numbers_of(answers, answer)])
    counts = [sum(numbers[0] == number for numbers in lines) for number in range(1 + len(RUN))]
    names = ("no operation", *RUN)
    return stream(lines), "".join(f"{name}: {count} passed, 0 failed\n" for name, count in zip(names, counts))


def roundtrip():
    """The stream of `roundtrip`, and its lines when every message that is accepted comes back. It lends room enough, so that
    22 is never answered."""
    lines, told = [], []
    for _, _, _, inputs, answer in vectors(SENT):
        lines.append(numbers_of(MESSAGE, inputs[: len(MESSAGE.split())]))
        number, place = answer[:2]
        if number not in ("0", "22"):
            told.append(f"line {len(lines)}: refused with {number} at {place}\n")
    counts = {"same": len(lines) - len(told), "different": 0, "refused": len(told)}
    return stream(lines), "".join(told) + "".join(f"{name}: {count}\n" for name, count in counts.items())


# The programs, with the operations whose vectors their streams are made from.
PROGRAMS = {"cases": (cases, RUN), "roundtrip": (roundtrip, SENT)}


def made():
    """Each program's two files."""
    for name, (make, _) in PROGRAMS.items():
        for file, text in zip(("stdin", "stdout"), make()):
            yield CRATES / name / file, text


def main(words):
    if not words:
        for path, text in made():
            path.write_text(text)
    elif words == ["--check"]:
        for path, text in made():
            if path.read_text() != text:
                sys.exit(f"{path.relative_to(CRATES.parent)} is not what vectors/make.py makes")
    elif words[0] == "--line" and len(words) == 3 and words[1] in PROGRAMS:
        name, line, *_ = list(vectors(PROGRAMS[words[1]][1]))[int(words[2]) - 1]
        print(f"{name}: {line}")
    else:
        sys.exit(__doc__)


main(sys.argv[1:])
