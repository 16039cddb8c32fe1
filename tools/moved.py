#!/usr/bin/env python3
"""What moved between two commits: definitions, types, promises, laws and proofs, by crate.

    python3 tools/moved.py [--full] OLD NEW        --full shows both texts of what changed

definitions   what a reader must believe: specs/ without the folders below. Of hnsr_run: Past, History, Claim, Waking,
              with all that they import of their own crate.
model         specs/Code: what the code holds between two steps
worked        specs/Worked: examples. All.antt, a list of names that tools/unfolding.py writes, is none.
types         structs, enums and constants of src/. Definitions are about those of the tables and of the answers.
promises      of each function of src/: parameters, result, what it requires and what it ensures
laws          the rest of specs/, with their proofs
proofs        of each function its Answers.antt and its Invariants.antt in proofs/; in an older commit its Proof.antt

Two texts are the same where their tokens are. Comments, line breaks, spaces, imports and the separator that ends a list
do not count; nor do `pub`, `abbrev` and `unfoldable`, and in a definition `unfolding`: they say who sees a name and
what the checker may open, not what is meant. An item is known by its crate and name, and by its file where the name
stands in two. Moved is what has the same text in another file or crate. Changed is what has another text, wherever it
stands now.
"""
import collections
import re
import subprocess
import sys

KINDS = ["definitions", "model", "worked", "types", "promises", "laws", "proofs"]
FOLDERS = {"Code": "model", "Worked": "worked"}  # of specs/, beside Laws
FATES = ["stayed", "moved", "changed", "new", "gone"]
BELIEVED = {"hnsr_run": ["Past", "History", "Claim", "Waking"]}  # where it is not all of specs/ without Laws
WRITTEN_BY_A_TOOL = "All.antt"
PROOFS = ["Answers.antt", "Invariants.antt", "Proof.antt"]
SEEN_OR_OPENED = {"pub", "abbrev", "unfoldable"}

Item = collections.namedtuple("Item", "kind crate name file tokens text")


# ---- the items of a commit
def git(*words, **more):
    return subprocess.run(["git", *words], check=True, capture_output=True, **more).stdout


def files(commit):
    """The texts of a commit's crates, by path."""
    root = git("rev-parse", "--show-toplevel").decode().strip()
    paths = git("ls-tree", "-r", "-z", "--name-only", commit, "--", "crates", cwd=root).decode().split("\0")
    paths = [path for path in paths if path.endswith((".antt", ".rt")) and "/proofs/By/" not in path]
    blobs = git("cat-file", "--batch", cwd=root, input="".join(f"{commit}:{path}\n" for path in paths).encode())
    texts, at = {}, 0
    for path in paths:
        start = blobs.index(b"\n", at) + 1
        size = int(blobs[at:start].split()[-1])
        texts[path] = blobs[start:start + size].decode()
        at = start + size + 1
    return texts


def items(commit):
    texts = files(commit)
    believed = {crate: imported(texts, crate, modules) for crate, modules in BELIEVED.items()}
    for path, text in texts.items():
        _, crate, part, *folders = path.split("/")
        file = "/".join(folders)
        if part == "src":
            yield from (Item(kind, crate, name, file, *compared) for kind, name, compared in of_source(text))
        elif part == "proofs" and len(folders) > 1 and folders[-1] in PROOFS:
            proof = "\n".join(block for _, block, _ in declarations(text))
            yield Item("proofs", crate, folders[-2], file, tokens(proof), proof)
        elif part == "specs" and folders[-1] != WRITTEN_BY_A_TOOL:
            module = file.removesuffix(".antt").replace("/", ".")
            law = module not in believed[crate] if crate in believed else "Laws" in folders
            for name, block, around in declarations(text):
                meant = tokens(around + (block if law else without_unfolding(block)))
                yield Item("laws" if law else "definitions", crate, name, file, meant, block)


def imported(texts, crate, modules):
    """Modules of a crate's specs/, and all that they import of it."""
    reached, todo = set(), list(modules)
    while todo:
        module = todo.pop()
        path = f"crates/{crate}/specs/{module.replace('.', '/')}.antt"
        if module not in reached and path in texts:
            reached.add(module)
            own = rf"Rattle(?:\.{crate}|·{crate}·specs)\.specs\."
            todo += re.findall(rf"^\s*(?:pub )?use {own}([\w.]*\w)", texts[path], re.M)
    return reached


# ---- definitions, laws, proofs: antt
def tokens(text):
    """The path of a module in front of a name does not count, nor does a separator before a closing bracket."""
    text = re.sub(r"[;,](?=\s*[)}\]])", "", re.sub(r"(^|\s)--.*", r"\1", text))
    words = re.findall(r"[(){}\[\];,]|[^\s(){}\[\];,]+", text)
    return [re.sub(r"^Rattle[·.]\S*\.", "", word) for word in words if word not in SEEN_OR_OPENED]


def declarations(text):
    """Of each declaration its name, its lines, and the headers of the modules around it."""
    yield from nested([line for line in text.split("\n") if line.strip() and not line.lstrip().startswith("--")], "")


def nested(lines, around):
    indent = min((len(line) - len(line.lstrip()) for line in lines), default=0)
    starts = [at for at, line in enumerate(lines) if line[indent] != " " and begins(line.split())]
    for start, end in zip(starts, starts[1:] + [len(lines)]):
        block = lines[start:end]
        words = block[0].split()
        if words[0] == "module":
            last = next(at for at, line in enumerate(block) if re.search(r"\bwhere\s*(--.*)?$", line))
            yield from nested(block[last + 1:], around + "\n".join(block[:last + 1]) + "\n")
        elif not {"use", "mod"} & set(words[:2]):
            name = next(word for word in words if word not in SEEN_OR_OPENED | {"record", "data"})
            yield name, "\n".join(block), around


def begins(words):
    return words[0] in SEEN_OR_OPENED | {"record", "data", "module", "use", "mod"} or words[1:2] == [":"]


def without_unfolding(block):
    indent, kept, inside = len(block) - len(block.lstrip()), [], False
    for line in block.split("\n"):
        if line[indent] != " ":
            inside = line.split()[0] == "unfolding"
        if not inside:
            kept.append(line)
    return "\n".join(kept)


# ---- promises and types: Rattle
SEEN = r"(?:(?:pub(?:\(\w+\))?|extern \"C\"|const(?= fn)) )*"
PARAMETERS = r"(?:<(?:[^<>\n]|<[^<>\n]*>)*>)?"
DECLARED = re.compile(rf"^( *){SEEN}(fn|struct|enum|const|trait|type|ghost|impl{PARAMETERS}) (\w+)"
                      rf"(?:{PARAMETERS} for (\w+))?", re.M)
BRACE_OR_END = re.compile(r"\{|;$", re.M)


def of_source(text):
    """Kind, name, tokens and text of what a source declares. What an impl has bears the type's name in front, and what
    it has of a trait both names; a trait's own declarations bear the trait's. A ghost member counts as a type."""
    text = "\n".join(line for line in re.sub(r"//.*", "", text).split("\n") if line.strip())
    owner = ""
    for found in DECLARED.finditer(text):
        indent, keyword, name, of = found.groups()
        keyword = keyword.split("<")[0]
        if not indent:
            owner = f"{of} as {name}::" if of else f"{name}::" if keyword in ("impl", "trait") else ""
        if keyword in ("fn", "struct", "enum", "const", "type") or keyword == "ghost" and indent and owner:
            part = text[found.start(2):end_of(text, found.start(2), keyword)].rstrip()
            # a comma in front of a bracket is layout
            compared = re.findall(r"\w+|[^\s\w]", re.sub(r",(\s*[)\]}])", r"\1", part))
            yield "promises" if keyword == "fn" else "types", owner + name, (compared, part)


def end_of(text, at, keyword):
    """Where a declaration ends; a function at its body's brace, behind `requires {..}` and `ensures {..}`, and a brace
    in a type's argument is neither."""
    while True:
        brace = BRACE_OR_END.search(text, at)
        before = text[text.rfind("\n", 0, brace.start()) + 1:brace.start()]
        argument = before.rstrip().endswith("<")
        clause = argument or re.search(r"^\s*\w+\*?(?: \w+)?\s*\Z", before)
        if brace.group() == ";" or (keyword == "fn" and not clause):
            return brace.start()
        at, depth = brace.end(), 1
        while depth:
            depth += {"{": 1, "}": -1}.get(text[at], 0)
            at += 1
        if keyword != "fn" and not argument:
            return at


def fates(old, new):
    """What became of each item: (fate, old item or none, new item or none)."""
    def in_file(item): return item.kind, item.crate, item.name, item.file
    def in_stem(item): return item.kind, item.crate, item.name, item.file.split("/")[-1]
    def in_crate(item): return item.kind, item.crate, item.name
    def anywhere(item): return item.kind, item.name
    def same(key): return lambda item: (key(item), tuple(item.tokens))

    # where a name stands twice, only the same file or the same text tells which is meant
    for key, lone in [(same(in_file), False), (in_file, False), (same(in_crate), False), (in_stem, True),
                      (in_crate, True), (same(anywhere), False)]:
        left, waiting = [], collections.defaultdict(list)
        for item in new:
            waiting[key(item)].append(item)
        count = collections.Counter(map(key, old))
        for item in old:
            others = waiting[key(item)]
            if others and not (lone and (count[key(item)] > 1 or len(others) > 1)):
                other = others.pop(0)
                moved = (item.crate, item.file) != (other.crate, other.file)
                yield "changed" if item.tokens != other.tokens else "moved" if moved else "stayed", item, other
            else:
                left.append(item)
        old, new = left, [item for others in waiting.values() for item in others]
    yield from (("gone", item, None) for item in old)
    yield from (("new", None, item) for item in new)


def listed(item, folders):
    """The kind under which an item is listed; what is gone goes by the folder that its file has now."""
    if item.kind != "definitions":
        return item.kind
    folder, _, file = item.file.rpartition("/")
    return FOLDERS.get(folder or folders.get(file, ""), item.kind)


def show(item, other, full):
    now = other or item
    line = f"    {now.name}  {now.file}"
    if item and other and (item.crate, item.file) != (other.crate, other.file):
        line += f"  from {item.crate + '/' if item.crate != other.crate else ''}{item.file}"
    print(line)
    if full and item and other and item.tokens != other.tokens:
        for mark, text in [("-", item.text), ("+", other.text)]:
            print("\n".join(f"      {mark} {row}" for row in text.split("\n")))


def main():
    commits = [word for word in sys.argv[1:] if word != "--full"]
    if len(commits) != 2:
        sys.exit(__doc__)
    old, new = (list(items(commit)) for commit in commits)
    folders = {file: folder for folder, _, file in (item.file.rpartition("/") for item in new) if folder in FOLDERS}
    lists = collections.defaultdict(list)
    for fate, item, other in fates(old, new):
        lists[listed(other or item, folders), (other or item).crate, fate].append((item, other))
    groups = [(kind, crate) for kind in KINDS for crate in sorted({crate for _, crate, _ in lists})]
    print(f"| crate | what | {' | '.join(FATES)} |\n{'|---' * (2 + len(FATES))}|")
    for kind, crate in groups:
        counts = [len(lists[kind, crate, fate]) for fate in FATES]
        if any(counts):
            print(f"| {crate} | {kind} | {' | '.join(map(str, counts))} |")
    for kind, crate in groups:
        for fate in FATES[1:]:
            pairs = sorted(lists[kind, crate, fate], key=lambda pair: (pair[1] or pair[0])[:4])
            if pairs:
                print(f"\n{crate}: {kind} {fate}")
            for item, other in pairs:
                show(item, other, "--full" in sys.argv)


if __name__ == "__main__":
    main()
