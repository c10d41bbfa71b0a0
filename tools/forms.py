#!/usr/bin/env python3
"""Counts the places in src/ that docs/DESIGN-PASS.md speaks of, a line for each point.

usage: tools/forms.py [COMMIT]       the working tree, or a commit
       tools/forms.py -l N [COMMIT]  the places of point N, each by file and line
       tools/forms.py -t [COMMIT]    the second way: functions that are alike but for names, types and numbers,
                                     and each loop, comparison and parameter list by its words

A place is counted by what stands in the text, so a count may hold a place that is right as it is: the page says which and why.
"""
import collections
import pathlib
import re
import subprocess
import sys

ROOT = pathlib.Path(__file__).resolve().parent.parent


def sources(commit):
    """(path, text) of each source file, without comments and clauses."""
    if commit:
        listed = subprocess.run(["git", "ls-tree", "-r", "--name-only", commit, "crates"], cwd=ROOT, capture_output=True, text=True, check=True)
        names = [n for n in listed.stdout.split("\n") if re.search(r"/src/\w+\.rt$", n)]
        for name in names:
            shown = subprocess.run(["git", "show", f"{commit}:{name}"], cwd=ROOT, capture_output=True, text=True, check=True)
            yield name, shown.stdout
    else:
        for path in sorted(ROOT.glob("crates/*/src/*.rt")):
            yield str(path.relative_to(ROOT)), path.read_text(encoding="utf-8")


def bare(text):
    """The text with comments, ghost lines and clauses blanked, lines kept."""
    text = re.sub(r"//[^\n]*", "", text)
    text = re.sub(r"(?m)^\s*ghost[^\n]*$", "", text)
    out, depth, clause = [], 0, False
    for line in text.split("\n"):
        if not clause and re.match(r"\s+(requires|ensures)\b", line):
            clause, depth = True, 0
        if clause:
            depth += line.count("{") - line.count("}")
            clause = depth > 0
            out.append("")
        else:
            out.append(line)
    return "\n".join(out)


def functions(text):
    """(name, line, parameters, body) of each function."""
    for m in re.finditer(r"\bfn (\w+)(<[^>]*>)?\(", text):
        i, depth = m.end(), 1
        while depth:
            depth += {"(": 1, ")": -1}.get(text[i], 0)
            i += 1
        parameters = text[m.end():i - 1]
        j = text.find("{", i)
        semi = text.find(";", i)
        if j < 0 or 0 <= semi < j:
            continue
        k, depth = j + 1, 1
        while depth:
            depth += {"{": 1, "}": -1}.get(text[k], 0)
            k += 1
        yield m.group(1), text.count("\n", 0, m.start()) + 1, parameters, text[j + 1:k - 1]


def enums(text):
    for m in re.finditer(r"\benum (\w+)[^{]*\{(.*?)\n\}", text, re.S):
        variants = re.findall(r"^    (\w+)(\([^)]*\)|\s*\{[^}]*\})?,", m.group(2), re.M)
        yield m.group(1), text.count("\n", 0, m.start()) + 1, variants


def at(text, pattern):
    for m in re.finditer(pattern, text, re.S):
        yield text.count("\n", 0, m.start()) + 1, " ".join(m.group(0).split())[:90]


BUNDLE = ("rows", "members", "entries", "sizes", "alignments")


def point1(path, text):
    for name, line, variants in enums(text):
        names = {v for v, _ in variants}
        holds = [v for v, held in variants if held]
        answer = names & {"Refused", "Bad", "Wrong", "Broken"} or (len(names) == 2 and len(holds) == 1)
        if answer:
            yield line, f"enum {name} {{ {', '.join(v for v, _ in variants)} }}"
    yield from at(text, r"\bkind [!=]= \d+")
    yield from at(text, r"\bmatch (?:kind|operation|table::kind_at\([^)]*\)) \{")
    yield from at(text, r"\b(?:refused|fault_at|at_byte|refused_at|no_room)\(\d+")
    yield from at(text, r"\bnumber: \d+")


def skeleton(name, body, parameters):
    words = re.findall(r"\w+|[^\w\s]", parameters + "{" + body)
    seen = {}
    out = []
    for w in words:
        if re.fullmatch(r"u8|u16|u32|u64|usize|i32|\d\w*", w):
            out.append("#")
        elif re.fullmatch(r"[a-zA-Z_]\w*", w) and w not in KEPT:
            out.append("n" + str(seen.setdefault(w, len(seen))))
        else:
            out.append(w)
    return " ".join(out)


KEPT = {"let", "mut", "if", "else", "while", "for", "in", "match", "return", "as", "fn", "loop", "true", "false"}


def point2(path, text):
    return ()


def twins(files):
    groups = collections.defaultdict(list)
    for path, text in files:
        for name, line, parameters, body in functions(text):
            if body.strip():
                groups[skeleton(name, body, parameters)].append((path, line, name))
    return [g for g in groups.values() if len(g) > 1]


def point3(path, text):
    yield from at(text, r"\bwhile [^{]*\{")


def point4(path, text):
    for name, line, _, _ in functions(text):
        if re.fullmatch(r"same\w*|place_number|signed\w*|pattern\w*|put_number|is_digit|with_digit|passed_on|widened|wide|extended", name):
            yield line, f"fn {name}"


def point5(path, text):
    for name, line, parameters, _ in functions(text):
        given = [p for p in BUNDLE if re.search(rf"\b{p}: &", parameters)]
        if len(given) > 1:
            yield line, f"fn {name}({', '.join(given)}, ..)"


def point6(path, text):
    yield from at(text, r"\b(\w+): \[\w+; \w+\],\s+(?:pub )?\w+: \[\w+; \w+\]")
    yield from at(text, r"(?:/ 2;|\(low \+ high\) / 2)")
    yield from at(text, r"\bkept\[\w+\]")
    yield from at(text, r"(?:pub )?count: usize,\s+(?:pub )?widths")


def point7(path, text):
    yield from at(text, r"\bmatch (?:operation|outcome|step) \{")


POINTS = {1: point1, 2: point2, 3: point3, 4: point4, 5: point5, 6: point6, 7: point7}


def main():
    arguments = sys.argv[1:]
    listed = None
    second = False
    if arguments[:1] == ["-l"]:
        listed = int(arguments[1])
        arguments = arguments[2:]
    elif arguments[:1] == ["-t"]:
        second = True
        arguments = arguments[1:]
    files = [(p, bare(t)) for p, t in sources(arguments[0] if arguments else None)]
    groups = twins(files)
    if second:
        for g in sorted(groups):
            print("alike:", ", ".join(f"{p}:{line} {name}" for p, line, name in g))
        for word in (r"\+= 1;", r"\bmatch\b", r"&& |& \(", r"\bas u\d+"):
            print(f"{word}: {sum(len(re.findall(word, t)) for _, t in files)}")
        return
    for number, point in POINTS.items():
        if listed not in (None, number):
            continue
        places = [(p, line, what) for p, t in files for line, what in point(p, t)]
        if number == 2:
            places = [(p, line, f"fn {name}, {len(g)} alike") for g in groups for p, line, name in g]
        if listed:
            for p, line, what in places:
                print(f"{p}:{line}: {what}")
        print(f"point {number}: {len(places)}")


main()
