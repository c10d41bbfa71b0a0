#!/usr/bin/env python3
"""Brings the repository's own definitions and lemmas to one spelling, snake case, after the kit's port.py has run.

usage: tools/respell.py [--check]      at the top of the repository; --check prints the names and writes nothing

A definition or a field in camel case, or a lemma with dashes, is written with underscores: `membersExist` is `members_exist`,
`entries-step` is `entries_step`. Where a lemma would get the name of a definition it gets `_lem` after it. Types and modules
keep their names, and so do the names of goals and steps, which Rattle makes (the files of one function's proof keep their own).
Two files get another name, since Rattle now makes a module `specs.contracts`. It is run once: a second run would rename more.
"""
import collections
import pathlib
import re
import sys

ROOT = pathlib.Path(__file__).resolve().parent.parent
KEYWORDS = set("record use mod data infix infixl infixr let in where unfolding deriving module section variable mutual open syntax ruleset elim".split())
HEAD = re.compile(r"^(\s*)((?:(?:pub|abbrev|unfoldable|private|axiom)\s+)*)([^\s(){}\[\];,.:]+)(\s.*)?$")
NAME = re.compile(r"[A-Za-zα-ω_][\w'-]*")


# Names of arguments, as they are imported or bound.
BOUND = ("innerWriter", "lentObjects", "lentObjects'", "byteNumber", "paddedLength")
# Lemmas that would share a definition's name: the name, the file that declares it, and whether other files import it.
LEMMAS = {
    "has_parts": "crates/nesting/proofs/Nested.antt",
    "struct_fields": "crates/nesting/proofs/Starts.antt",
    "header_read": "crates/rules/proofs/Header.antt",
    "written_as": "crates/demands/proofs/Demands.antt",
}


def files(*patterns):
    for pattern in patterns:
        for path in sorted(ROOT.glob(pattern)):
            if "out" not in path.relative_to(ROOT).parts and path.is_file():
                yield path


def is_of_one_function(path):
    """Whether a file is the proof of one function: its names follow the goals'."""
    parts = path.relative_to(ROOT).parts
    return "proofs" in parts and len(parts) - parts.index("proofs") > 2


def without_binders(text):
    text = text.strip()
    while text[:1] in ("(", "{"):
        depth = 0
        for at, letter in enumerate(text):
            depth += (letter in "({") - (letter in ")}")
            if depth == 0:
                break
        else:
            return text
        text = text[at + 1 :].strip()
    return text


def declared(path):
    """The names that a file declares, and those among them that are fields or constructors."""
    names, fields, inside = set(), set(), None
    for line in path.read_text(encoding="utf-8").splitlines():
        if line.lstrip().startswith("--") or not line.strip():
            continue
        indent = len(line) - len(line.lstrip())
        if inside is not None and indent <= inside:
            inside = None
        if re.match(r"^\s*(pub\s+)?(record|data)\s", line):
            inside = indent
            continue
        found = HEAD.match(line)
        if not found or found[3] in KEYWORDS:
            continue
        rest = (found[4] or "").strip()
        several = re.match(r"^((?:[^\s(){}:;,=]+\s+)*): ", rest + " ")
        if several and inside is not None:
            fields |= {found[3], *several[1].split()}
        elif (without_binders(rest) + " ").startswith(": "):
            names.add(found[3])
    return names, fields


def snake(name):
    if name[:1].isupper():
        return name
    name = re.sub(r"([a-z0-9])([A-Z])", r"\1_\2", name)
    name = re.sub(r"([A-Z])([A-Z][a-z])", r"\1_\2", name).lower()
    return name.replace("-", "_")


def spellings():
    names, fields = set(), set()
    for path in files("crates/*/specs/**/*.antt", "crates/*/proofs/**/*.antt"):
        own, inner = declared(path)
        fields |= inner
        if not is_of_one_function(path):
            names |= own
        else:
            names |= {name for name in own if "-" not in name and snake(name) != name}
    new = {name: snake(name) for name in names | fields if snake(name) != name}
    new.update({name: snake(name) for name in BOUND})
    taken = (names | fields) - set(new)
    by_new = collections.defaultdict(list)
    for name in new:
        by_new[new[name]].append(name)
    for spelled, olds in by_new.items():
        if spelled in taken or len(olds) > 1:
            for old in olds:
                if "-" in old:
                    new[old] = spelled + "_lem"
    values = collections.Counter(new.values())
    for old, spelled in sorted(new.items()):
        if values[spelled] > 1 or spelled in taken:
            print(f"falls together: {old} -> {spelled}")
    return new, fields


def move_contracts():
    """specs/Contracts.antt of two crates is Promises.antt now."""
    for crate in ("walk_records", "write_records"):
        old = ROOT / "crates" / crate / "specs" / "Contracts.antt"
        if not old.exists():
            continue
        old.rename(old.with_name("Promises.antt"))
        lib = old.with_name("Lib.antt")
        lib.write_text(lib.read_text(encoding="utf-8").replace("pub mod Contracts", "pub mod Promises"), encoding="utf-8")
        for path in files("crates/*/**/*.antt", "crates/*/src/**/*.rt"):
            text = path.read_text(encoding="utf-8")
            turned = text.replace(f"{crate}.specs.Contracts", f"{crate}.specs.Promises")
            if turned != text:
                path.write_text(turned, encoding="utf-8")


def with_lemmas(path, text):
    """A text in which those lemmas have their `_lem`: in the file that declares one, and in those that import it from there."""
    for name, home in LEMMAS.items():
        module = re.escape("proofs." + pathlib.Path(home).stem)
        if path == ROOT / home or re.search(rf"use Rattle\.[\w.]*{module}\.\{{[^}}]*(?<![\w'-]){name}(?![\w'-])", text):
            text = re.sub(rf"(?<![\w'.-]){name}(?![\w'.-])", name + "_lem", text)
    return text


def respelled(text, new, fields, aliases):
    """A text under the new names. What stands behind a dot is a field of ours, or a name of a module that the file calls by another."""

    def one(found):
        name, at = found[0], found.start()
        if name not in new:
            return name
        if at and text[at - 1] == ".":
            before = re.search(r"([\w'-]+)\.$", text[:at])
            if not (name in fields or (before and (before[1] in aliases or before[1][:1].isupper()))):
                return name
        return new[name]

    return NAME.sub(one, text)


COMMENT = re.compile(r"(?:^|(?<=\s))(?:--(?=\s|$)|//).*$")


def in_parts(line, is_code, turn):
    """A line turned in its code, and in its comment as far as a name is meant: what stands in backticks, or is in camel case."""
    comment = COMMENT.search(line) if is_code else re.search("^.*$", line)
    code, said = (line[: comment.start()], comment[0]) if comment else (line, "")
    quoted = re.split(r"(`[^`]*`)", said)
    return turn(code) + "".join(turn(part) if part[:1] == "`" else NAME.sub(lambda m: turn(m[0]) if "-" not in m[0] else m[0], part) for part in quoted)


def main():
    check = sys.argv[1:] == ["--check"]
    if sys.argv[1:] and not check:
        sys.exit(__doc__)
    new, fields = spellings()
    if check:
        for old, spelled in sorted(new.items()):
            print(f"{old} {spelled}{' (field)' if old in fields else ''}")
        return
    for path in files("crates/*/specs/**/*.antt", "crates/*/proofs/**/*.antt", "crates/*/src/**/*.rt", "crates/*/must-fail/*.edit"):
        text = path.read_text(encoding="utf-8")
        aliases = set(re.findall(r"^\s*(?:pub )?use [\w.]+ as ([\w-]+)\s*$", text, re.M)) - {"tie"}
        turn = lambda part: respelled(part, new, fields, aliases)
        lines = with_lemmas(path, text).split("\n")
        if path.suffix == ".rt":
            apart = lambda line: re.split(r'("(?:[^"\\]|\\.)*")', line)
            turned = ["".join(part if part[:1] == '"' else in_parts(part, True, turn) for part in apart(line)) for line in lines]
        else:
            is_code = lambda line: path.suffix == ".antt" or re.match("(file|old|new):", line)
            turned = [in_parts(line, is_code(line), turn) for line in lines]
        turned = "\n".join(turned)
        if turned != text:
            path.write_text(turned, encoding="utf-8")
    move_contracts()


main()
