#!/usr/bin/env python3
"""Counts the places in src/ that are written in an older form than the language has today.

    forms.py [--list N] [CRATE]...    a row for each point, a column for each crate; --list N: the places of point N

What counts, by point (docs/DESIGN-PASS.md says what became of each):
1  an enum of two variants of which one holds something; a struct, not of the C interface, with a `bool` or an answer
   beside other fields; a function that turns an enum into a number or a number into an enum by three arms or more
2  functions of one shape (names, types and numbers left out) of 25 tokens or more; structs and enums of one shape
3  `while`, `loop`
4  functions by whose names equality, order, conversion, a default or a method of the library is written by hand
5  parameters of which three or more go together through three functions or more (a place is a function); a fact of
   `requires` that three functions or more ask (a place is a function)
6  a struct with an array and its length beside it; a table lent as a slice is one place for each record type
7  a `match` that only says which function runs, three arms or more; a parameter `go: bool`
8  files of answers; answers that stand, to the letter, in three files or more
"""
import collections
import itertools
import os
import re
import sys

CRATES = ["hns_encoding", "hnsr_body", "hnsr_circuit", "lekchnam", "peer_work", "hnsr_run", "cases", "round_trip"]
KEYWORDS = set("fn pub crate mut let if else return match while for in struct enum impl trait const self Self true "
               "false as mod use extern loop".split())
TOKEN = re.compile(r"[A-Za-z_]\w*|\d\w*|'[a-z]+\b|[^\s\w]")
BY_HAND = re.compile(r"^(both|either|no|either_is|same_\w+|no_\w+|min_\w+|saturating_\w+|default|undrawn|"
                     r"\w*number|kind_of|\w*_cause|cause|to_bytes|from_high_low|reservation_of|be_bytes|word_of|"
                     r"byte_of|to_endpoint|toward_side|answer_number|empty_\w+|is_some|is_zero|is_nonzero)$")


def files(crate):
    top = os.path.join("crates", crate, "src")
    for folder, _, names in sorted(os.walk(top)):
        for name in sorted(names):
            if name.endswith(".rt"):
                yield os.path.join(folder, name)


def bare(text):
    """The text with comments blanked; lines stay where they are."""
    return re.sub(r"//[^\n]*", "", text)


def closing(text, at, pair="{}"):
    """The place behind the bracket that closes the one at `at`."""
    depth = 0
    for i in range(at, len(text)):
        depth += (text[i] == pair[0]) - (text[i] == pair[1])
        if depth == 0:
            return i + 1
    return len(text)


class Function:
    def __init__(self, path, text, start, name):
        self.path, self.line, self.name = path, text.count("\n", 0, start) + 1, name
        head = text.index("(", start)
        end = closing(text, head, "()")
        given = re.split(r",(?![^<(\[]*[>)\]])", text[head + 1:end - 1])
        self.params = [p for p in (re.sub(r"\s+", " ", p.strip()) for p in given) if p]
        at = end
        self.clauses = []
        while True:
            found = re.compile(r"(requires|ensures)\*?(?:\s+\w+)?\s*\{|\{|;").search(text, at)
            if found.group().startswith(("requires", "ensures")):
                stop = closing(text, found.end() - 1)
                self.clauses.append((found.group(1), re.sub(r"\s+", " ", text[found.end():stop - 1]).strip()))
                at = stop
                continue
            break
        self.body = "" if found.group() == ";" else text[found.start():closing(text, found.start())]
        self.sign = text[start:at]

    def place(self):
        return f"{self.path}:{self.line} {self.name}"

    def shape(self):
        head = re.sub(r"\b(requires|ensures)\b[\s\S]*", "", self.sign)
        tokens = TOKEN.findall(head + self.body)
        return len(tokens), " ".join(t if t in KEYWORDS or not (t[0].isalnum() or t[0] == "_") else
                                     ("0" if t[0].isdigit() else "x") for t in tokens)


def functions(path, text):
    for m in re.finditer(r"\bfn (\w+)", text):
        yield Function(path, text, m.start(), m.group(1))


def types(path, text):
    """(place, whether C sees it, kind, name, body)"""
    for m in re.finditer(r"((?:#\[[^\]]*\]\s*)*)(?:pub(?:\(crate\))? )?(struct|enum) (\w+)[^;{]*\{", text):
        body = text[m.end():closing(text, m.end() - 1) - 1]
        line = text.count("\n", 0, m.start(2)) + 1
        yield f"{path}:{line} {m.group(3)}", "repr(C)" in m.group(1), m.group(2), m.group(3), body


def parts(body):
    return [p.strip() for p in re.split(r",(?![^{(\[<]*[>})\]])", body) if p.strip()]


def count(crate):
    points = collections.defaultdict(list)
    shapes, kinds, sets, facts = (collections.defaultdict(list) for _ in range(4))
    every = []
    for path in files(crate):
        text = bare(open(path).read())
        for place, in_c, kind, name, body in types(path, text):
            fields = parts(body)
            if kind == "enum" and len(fields) == 2 and (any("(" in f or "{" in f for f in fields)):
                points[1].append(f"{place}: an enum of two")
            if kind == "struct" and not in_c and len(fields) > 1 and any(
                    re.search(r":\s*(bool|Checked|HnsrAnswer|Step|Result<\(\), \w+>)$", f) for f in fields):
                points[1].append(f"{place}: a flag or an answer beside a value")
            plain = re.sub(r"\[u8; [\w:]+\]|\b(u8|u16|u32|u64|usize)\b", "N", body)
            kinds[kind, re.sub(r"\w+", lambda w: "0" if w.group()[0].isdigit() else "x", plain)].append(place)
            if kind == "struct" and re.search(r"\[u8;|\[u32;", body) and re.search(r"\b(len|length): ", body):
                points[6].append(f"{place}: an array and its length")
        for f in functions(path, text):
            every.append(f)
            size, shape = f.shape()
            if size >= 25:
                shapes[shape].append(f.place())
            arms = len(re.findall(r"=> \d[\w_]*,", f.body))
            arms += len(re.findall(r"if \w+ == \d+ \{\s*return \w+::", f.body))
            arms += len(re.findall(r"\d => \w+::\w+,", f.body)) + len(re.findall(r"kind: \d", f.body))
            if arms >= 3:
                points[1].append(f"{f.place()}: numbers for kinds")
            points[3] += [f"{f.place()}: {w}" for w in re.findall(r"\bwhile [^{]*|\bloop\b", f.body)]
            if BY_HAND.match(f.name):
                points[4].append(f.place())
            for clause, words in f.clauses:
                if clause == "requires":
                    for fact in re.split(r" × ", words):
                        facts[fact.strip("() ")].append(f.place())
            calls = re.findall(r"=> (\w+)\(", f.body)
            if len(calls) >= 3 and f.body.count("=>") - len(calls) <= 1 and f.body.count("match") == 1:
                points[7].append(f"{f.place()}: which function runs")
            if any(re.match(r"go: bool", p) for p in f.params):
                points[7].append(f"{f.place()}: a parameter `go`")
    for groups in (shapes, kinds):
        for shape, places in groups.items():
            if len(places) > 1 and len(shape) > 8:
                points[2] += [f"{p}: one of {len(places)}" for p in places]
    named = [(f, [p for p in f.params if ":" in p]) for f in every]
    for f, params in named:
        for trio in itertools.combinations(sorted(set(params)), 3):
            sets[trio].append(f.place())
    together = {p for places in sets.values() if len(places) >= 3 for p in places}
    points[5] += [f"{p}: parameters that go together" for p in sorted(together)]
    for fact, places in facts.items():
        if len(places) >= 3:
            points[5] += [f"{p}: asks {fact}" for p in places]
    if crate == "hnsr_circuit":
        points[6] += [f"table of {r}" for r in ("RelayPending", "RelayCircuit", "ReservationUsage", "InflightAction")]
    answers = collections.defaultdict(list)
    for folder, _, names in sorted(os.walk(os.path.join("crates", crate, "proofs"))):
        if "Answers.antt" in names:
            path = os.path.join(folder, "Answers.antt")
            points[8].append(f"{path}: answers")
            for block in re.findall(r"^[\w-]+(?: \w+)* = [^\n]*(?:\n +[^\n]*)*", open(path).read(), re.M):
                answers[re.sub(r"\s+", " ", block.split("=", 1)[1])].append(path)
    points[8] += [f"{p}: again: {a.strip()}" for a, paths in answers.items() if len(paths) >= 3 for p in paths]
    return points


def main():
    words, listed = sys.argv[1:], None
    if words[:1] == ["--list"]:
        listed, words = int(words[1]), words[2:]
    crates = words or CRATES
    counted = {c: count(c) for c in crates}
    if listed:
        print("\n".join(p for c in crates for p in counted[c][listed]))
        return
    print("| point | " + " | ".join(crates) + " | in all |")
    print("|---|" + "---|" * (len(crates) + 1))
    for point in range(1, 9):
        row = [len(counted[c][point]) for c in crates]
        print(f"| {point} | " + " | ".join(map(str, row)) + f" | {sum(row)} |")


if __name__ == "__main__":
    main()
