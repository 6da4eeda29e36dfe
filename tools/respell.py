#!/usr/bin/env python3
"""Brings this repository's definitions and lemmas to one spelling: words in snake case, types and facts in upper camel case.

usage: python3 tools/respell.py [--dry]      at the top, once, after the toolchain's own port.py

A name is ours where an .antt file of specs/ or proofs/ declares it (proofs of one function, Proof.antt, aside). What a library declares too
is turned only in files that declare it or bring it in from a module of ours. Functions, types and strings of src/ keep their names;
of a .rt file only clauses, ghost items and backticked words of comments are read. must-fail/*.edit is read as the file it edits.
"""

import collections
import os
import re
import subprocess
import sys

IDENT = re.compile(r"(?<![\w'\-₀₁₂₃₄₅₆₇₈₉])[A-Za-z_][\w'\-₀₁₂₃₄₅₆₇₈₉]*")
DECL = re.compile(r"^(\s*)(?:pub |abbrev pub |abbrev |unfoldable pub |unfoldable )?([A-Za-z_][\w'\-₀-₉]*)(?: \{[^}:]*\})? : (.*)$")
DATA = re.compile(r"^\s*(?:pub )?(?:record|data) ([A-Za-z_][\w'\-]*)")
# What would fall together with another name in the same file, or with a parameter, by hand.
BY_HAND = {
    "named-lent": "named_lent_is", "block-at": "block_at_is", "cell-at": "cell_at_is", "event-sync": "event_sync_is", "step-sync": "step_sync_is",
    "hex-written": "hex_written_is", "superblock-read": "superblock_read_op", "back-in": "back_in_is", "by-kind": "by_kind_is", "piece-at": "piece_at_is",
    "slot-at": "slot_at_is", "most-blocks": "at_most_blocks", "no-ids": "empty_ids", "FrozenLoc": "system_frozen_loc",
}
# Fields of structs of src/ that are spelled as the source has them; a word of specs/ of that spelling keeps it too.
KEPT = {
    "frozenJournalPosition", "frozenLoc", "isFrozen", "journalReads", "journalWrites", "superblockReads", "whichSuperblock", "writtenJournalLen",
}
# A field of ours that a library has too.
FIELDS = {"encode-some"}
# The same of names that the toolchain's own script had turned: the module that declares them, the name, and what it becomes.
BY_MODULE = {
    ("Rattle.tables.specs.Laws.Counts", "has_room"): "has_room_is", ("Rattle.range.specs.Blank", "some_byte"): "some_byte_is",
    ("Rattle.requests.specs.Laws.Pairs", "reads_at"): "reads_at_is", ("Rattle.requests.specs.Laws.Receive", "second_fits"): "second_fits_here",
}


def humps(name):
    words = []
    for part in re.split(r"[-_]", name):
        words += re.sub(r"(?<=[a-z0-9])(?=[A-Z])|(?<=[A-Z])(?=[A-Z][a-z])", " ", part).split()
    return words


def snake(name):
    return "_".join(w.lower() for w in humps(name))


def camel(name):
    return "".join(w[0].upper() + w[1:] for w in humps(name))


def files(root, ends, skip=("out", ".git", "target")):
    for folder, dirs, names in os.walk(root):
        dirs[:] = sorted(d for d in dirs if d not in skip)
        for n in sorted(names):
            if n.endswith(ends):
                yield os.path.join(folder, n)


def of_function(path):
    return os.path.basename(path) in ("Proof.antt",)


def declared(text):
    """Each name that the file declares, with whether what it ends in is a type."""
    out = {}
    lines = text.split("\n")
    for i, line in enumerate(lines):
        m = DATA.match(line)
        if m:
            out[m.group(1)] = "data"
            continue
        m = DECL.match(line)
        if not m or line.lstrip().startswith("--"):
            continue
        sig, j = m.group(3), i + 1
        while j < len(lines) and re.match(r"^\s*→", lines[j]):
            sig += " " + lines[j].strip()
            j += 1
        depth, last = 0, 0
        for k, c in enumerate(sig):
            depth += c in "({[" and 1 or c in ")}]" and -1 or 0
            if c == "→" and depth == 0:
                last = k + 1
        kind = "type" if re.match(r"^Type\b", sig[last:].strip()) else "word"
        if m.group(1) and re.match(r"[A-Z]", m.group(2)) and line.split()[0] == m.group(2):
            kind = "data"
        if out.get(m.group(2)) not in ("data", "type"):
            out[m.group(2)] = kind
    return out


def imported(text):
    """Names that the file brings in: from our modules, and from others."""
    ours, others = set(), set()
    for m in re.finditer(r"(?m)^\s*(?:ghost )?use ([^;{\n]*?)\.\{([^}]*)\}", text):
        names = set()
        for item in m.group(2).split(","):
            for w in item.split(" as "):
                names.add(w.strip())
        path = m.group(1).split(".")
        mine = path[0] == "Rattle" and len(path) > 1 and path[1] in OURS
        (ours if mine else others).update(names)
    return ours, others


def turned(name, kind):
    if name in BY_HAND:
        return BY_HAND[name]
    if kind == "data":
        return name
    if kind == "type":
        return camel(name) if "-" in name or re.match(r"[a-z]", name) and re.search(r"[A-Z]", name) else name
    if "-" in name or re.search(r"[A-Z]", name) and len(name) > 1:
        return snake(name)
    return name


def ghost_parts(text):
    """The spans of a .rt file that are ghost: ghost items, and what stands in the braces of a clause."""
    spans = []
    for m in re.finditer(r"\b(?:ghost use [^;]*;|(?:requires|ensures|ghost)\*?(?: \w+)?:? ?=? ?(?=\{))", text):
        line = text.rfind("\n", 0, m.start()) + 1
        if "//" in text[line:m.start()]:
            continue
        if m.group(0).startswith("ghost use"):
            spans.append((m.start(), m.end()))
            continue
        i, depth = m.end(), 0
        while i < len(text):
            depth += text[i] == "{" and 1 or text[i] == "}" and -1 or 0
            i += 1
            if depth == 0:
                break
        spans.append((m.start() + len(m.group(0)), i))
    return spans


def main(dry):
    global OURS
    OURS = {c for c in os.listdir("crates") if os.path.isdir(os.path.join("crates", c))}
    antt = {p: open(p, encoding="utf-8").read() for p in files("crates", (".antt",))}
    rt = {p: open(p, encoding="utf-8").read() for p in files("crates", (".rt",))}
    edits = {p: open(p, encoding="utf-8").read() for p in files("crates", (".edit",))}
    kinds = {}
    where = collections.defaultdict(set)
    for p, t in antt.items():
        if of_function(p):
            for n, k in declared(t).items():
                line = re.search(r"(?m)^\s*(?:pub |abbrev |unfoldable )*" + re.escape(n) + r" : (.*)$", t)
                if line and not re.search(r"\btie\.|statement M", line.group(1)):
                    where[n].add(p)
                    kinds.setdefault(n, k)
            continue
        for n, k in declared(t).items():
            where[n].add(p)
            if kinds.get(n) in (None, "word"):
                kinds[n] = k
    # the toolchain's folder, which has its guide
    kit = os.path.dirname(subprocess.run(["rt", "doc"], capture_output=True, text=True, check=True).stdout.split()[0])
    library = set()
    for p in files(kit, (".antt",), skip=("out", ".git", "port", "examples")):
        with open(p, encoding="utf-8", errors="replace") as f:
            for line in f:
                m = DECL.match(line) or DATA.match(line)
                if m:
                    library.add(m.group(m.lastindex if DATA.match(line) else 2))
    table = {n: turned(n, k) for n, k in kinds.items()}
    camels = {w for n, w in table.items() if n != w and "-" not in n}
    for n, w in table.items():
        # a law and what it is a law on would fall together
        if "-" in n and n not in BY_HAND and w in camels:
            table[n] = w + "_is"
    table = {n: w for n, w in table.items() if n != w and n not in KEPT}
    steps = set()
    for t in rt.values():
        for m in re.finditer(r"\bfn (\w+)", t):
            steps.add(m.group(1).replace("_", "-"))

    def map_of(text, path):
        ours, others = imported(text)
        module = "Rattle." + os.path.splitext(path)[0].replace("crates/", "", 1).replace("/", ".")
        use = plain_map(text, path, ours, others)
        for (home, n), w in BY_MODULE.items():
            if module == home or re.search(re.escape(home) + r"\.\{[^}]*\b" + n + r"\b", text):
                use[n] = w
        return use

    def plain_map(text, path, ours, others):
        mine = {n for n in table if path in where[n]}
        use = {}
        for n, w in table.items():
            if n in mine or n in ours or n in FIELDS or n not in library and n not in others:
                use[n] = w
        return use

    def apply(text, use, path, spans=None):
        proof = of_function(path)

        def one(m):
            t = m.group(0)
            if t not in use:
                return t
            before = text[m.start() - 1:m.start()]
            if proof and before == "." and t in steps:
                return t
            line = text.rfind("\n", 0, m.start()) + 1
            mark = "--" if path.endswith(".antt") else "//"
            head = text[line:m.start()]
            comment = bool(re.search(r"(^|\s)" + re.escape(mark), head))
            if comment:
                tick = before == "`"
                return use[t] if tick or "-" not in t and len(humps(t)) > 1 else t
            if spans is not None and not any(a <= m.start() < b for a, b in spans):
                return t
            return use[t]

        return IDENT.sub(one, text)

    clashes = collections.defaultdict(set)
    out = {}
    for p, t in list(antt.items()) + list(rt.items()):
        use = map_of(t, p)
        spans = ghost_parts(t) if p.endswith(".rt") else None
        new = apply(t, use, p, spans)
        if new != t:
            out[p] = new
        if not of_function(p):
            had = set(IDENT.findall(t))
            back = collections.defaultdict(set)
            for n in had:
                back[use.get(n, n)].add(n)
            for w, ns in back.items():
                if len(ns) > 1 and not any("." in n for n in ns):
                    clashes[" ".join(sorted(ns)), w].add(p)
            for n in had & set(use):
                if use[n] in had and use[n] != n:
                    clashes[n, use[n]].add(p)
    for p, t in edits.items():
        m = re.search(r"(?m)^file: (\S+)", t)
        if not m:
            continue
        target = os.path.join(os.path.dirname(os.path.dirname(p)), m.group(1))
        base = antt.get(target) or rt.get(target) or ""
        use = map_of(base, target)
        lines = []
        for line in t.split("\n"):
            if line.startswith(("old:", "new:")):
                ghost = target.endswith(".antt") or re.search(r"\b(requires|ensures|ghost)\b", line)
                line = IDENT.sub(lambda m: use.get(m.group(0), m.group(0)) if ghost else m.group(0), line)
            lines.append(line)
        if "\n".join(lines) != t:
            out[p] = "\n".join(lines)
    for p, t in rt.items():
        use = map_of(t, p)
        spans = ghost_parts(t)
        for m in re.finditer(r"\bfn (\w+)(?:<[^>]*>)?\(([^)]*)\)", t):
            params = set(re.findall(r"(\w+)\s*:", m.group(2)))
            end = t.find("\n{", m.end())
            for a, b in spans:
                if m.end() <= a and b <= end + 2 and not t[a:b].startswith("ghost use"):
                    for n in IDENT.findall(t[a:b]):
                        if n in use and use[n] in params:
                            print(f"parameter: {p}: {m.group(1)}: {n} -> {use[n]}")
    same = collections.defaultdict(set)
    for n, w in table.items():
        for p in where[n]:
            same[p, w].add(n)
    for (p, w), ns in sorted(same.items()):
        have = ns | ({w} if p in where.get(w, ()) else set())
        if len(have) > 1:
            print(f"together: {p}: {sorted(have)} -> {w}")
    for (n, w), ps in sorted(clashes.items()):
        print(f"clash: {n} -> {w}: {len(ps)} {sorted(ps)[:3]}")
    print(f"{len(table)} names turned, {len(out)} files")
    if dry:
        return
    for p, t in out.items():
        with open(p, "w", encoding="utf-8") as f:
            f.write(t)
    with open("tools/respelled.txt", "w", encoding="utf-8") as f:
        for n, w in sorted(table.items()):
            f.write(f"{n} {w}\n")


main("--dry" in sys.argv)
