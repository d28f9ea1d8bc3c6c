#!/usr/bin/env python3
"""Brings the repository's own names of definitions and lemmas to the kit's spelling, once, after the kit's port.py: words in snake case, types in
camel case; a dash is kept between two names of definitions. Rattle functions, fields and strings of src/ keep theirs.
Usage: tools/port-names.py [--list]    at the top of the repository; --list only prints the renamings."""
import collections
import os
import re
import sys

TOKEN = re.compile(r"[^\s(){};,.\[\]\"`:@$]+|:")
DECLARED = re.compile(r"^\s*(?:(?:abbrev|unfoldable|irreducible)\s+)?(?:pub\s+)?(?:let\s+)?([^\s(){};,.:]+)(?:\s+[({].*)?\s+:\s")
TYPE = re.compile(r"^\s*(?:pub\s+)?(?:record|data)\s+([^\s(){};,.:]+)")
OWN = re.compile(r"^\s*(?:pub )?(?:ghost )?(?:pub )?use (Rattle\.(\w+)[\w.'+-]*|\S+)\.\{(.*)\}")
# Words of the library that stand in names of lemmas.
WORDS = set("length take drop append map reverse replicate get_or set pow mul add sub div mod cond".split())
# Names that would fall together with another name in scope keep their spelling, or get this one.
OTHER = {
    name: name.replace("-", "_") + "_lem"
    for name in ("first-match", "is-in", "of-new", "on-first", "or-union", "record-over", "rewritten-text", "unused-from", "place_at", "same_from", "seen_by", "is-entry", "is-miss", "is-at", "most-of", "route-of", "run-at")
} | {
    # Fields and constructors have no dash.
    name: name.replace("-", "_")
    for name in ("short-output", "length-kept", "hop-kept", "short-room", "within-reach", "left-run", "right-run", "left-answers", "right-answers", "under-right")
}


def files(ending):
    for top, folders, names in os.walk("crates"):
        folders[:] = sorted(f for f in folders if f != "out")
        for name in sorted(names):
            if name.endswith(ending):
                yield os.path.join(top, name)


def read(path):
    with open(path, encoding="utf-8") as f:
        return f.read()


def snake(word):
    return re.sub(r"(?<=[a-z0-9'_])([A-Z])", lambda m: "_" + m.group(1).lower(), word)


def spelled(name, names):
    parts = [p if p[:1].isupper() else re.sub(r"__+", "_", snake(p)) for p in name.split("-")]
    out = parts[0]
    for part in parts[1:]:
        before = out.split("-")[-1]
        out += ("-" if before in names and part in names else "_") + part
    return out


def main():
    crates = {c for c in os.listdir("crates")}
    antt = {p: read(p) for p in files(".antt")}
    rust = {p: read(p) for p in files(".rt")}
    declared, needs, foreign, words = set(), set(), set(), set(WORDS)
    for path, text in antt.items():
        for line in text.split("\n"):
            if line.lstrip().startswith("--"):
                continue
            m = OWN.match(line)
            if m:
                if m.group(2) not in crates:
                    foreign |= {w.strip() for w in m.group(3).split(",")}
                continue
            m = TYPE.match(line)
            if m:
                words.add(m.group(1))
            m = DECLARED.match(line)
            if m and re.search(re.escape(m.group(1)) + r"(?:\s+[({].*)?\s+:\s+tie\.", line):
                needs.add(m.group(1))
            elif m:
                declared.add(m.group(1))
                if "/specs/" in path and "-" not in m.group(1):
                    words.add(m.group(1))
    for text in rust.values():
        for m in re.finditer(r"ghost use (\S+)\.\{([^}]*)\}", text):
            if not (m.group(1).startswith("Rattle.") and m.group(1).split(".")[1] in crates):
                foreign |= {w.strip() for w in m.group(2).split(",")}
    keep = {"up-to"}
    words -= set("spec in of at to is order on by as one same all none other end".split())
    names = words | {snake(w) for w in words if w[:1].islower()}
    wanted = {}
    for name in sorted(declared - foreign):
        if not re.fullmatch(r"[A-Za-z_][\w'₀-₉-]*", name) or name[0].isupper() and "-" not in name:
            continue
        if name.startswith(("Need-",)):
            continue
        new = OTHER.get(name) or spelled(name, names)
        if name in keep:
            continue
        if new != name:
            wanted[name] = new
    # A function of src/ may have the name of a word of its clauses; a parameter or a variable of a proof may not.
    tokens = {p: set(re.findall(r"(?<![^\s(){};,.\[\]\"`:@$])([A-Za-z_][\w'₀-₉-]*)(?![^\s(){};,.\[\]\"`:@$])", re.sub(r"--[^\n]*|(?:(?<=\s)|^)(?:use )?Rattle\.[\w.'+-]*|\bc\.[\w.'+-]*", " ", t))) for p, t in antt.items()}
    for p, t in rust.items():
        tokens[p] = set(re.findall(r"\b([a-z_]\w*): ", t)) | set(re.findall(r"\blet (?:mut )?([a-z_]\w*)", t)) | {w for m in re.findall(r"ghost use [^;]*;|(?m:^\s*(?:requires|ensures)\b.*$)", t) for w in re.findall(r"(?<!\.)\b[A-Za-z_][\w'₀-₉-]*", m)}
    # Names that would fall together in some file.
    clash = collections.defaultdict(set)
    for path, have in tokens.items():
        made = collections.defaultdict(set)
        for t in have:
            if t in wanted and not (path.endswith("Proof.antt") and t in needs):
                made[wanted[t]].add(t)
        for new, olds in made.items():
            if len(olds) > 1 or new in have and new not in wanted:
                for o in olds:
                    clash[o].add(path)
    if "--list" in sys.argv:
        for o in sorted(wanted):
            print(o, wanted[o], "CLASH " + " ".join(sorted(clash[o])[:4]) if o in clash else "")
        return
    for o in clash:
        if o not in OTHER:
            del wanted[o]
    inside = re.compile(r"(?<![^\s(){};,.\[\]\"`:@$])([A-Za-z_][\w'₀-₉-]*)(?![^\s(){};,.\[\]\"`:@$])")

    def turned(text, proof, clauses):
        def one(m):
            t = m.group(1)
            if t not in wanted:
                return t
            before = text[max(0, m.start() - 200):m.start()]
            if proof and ("-" in t) and re.search(r"(?:^|[\s(,])(?:c|w|l|tie|goal)(?:\.[^\s(){};,\[\]]*)?\.$", before):
                return t
            return wanted[t]
        return inside.sub(one, text)

    for path, text in antt.items():
        proof = path.endswith("Proof.antt")
        if proof:
            mine = set(re.findall(r"(?m)^\s*(?:abbrev )?(?:pub )?(\S+) : tie\.", text))
            kept = {k: wanted.pop(k) for k in list(wanted) if k in mine or k.endswith("-spec")}
            new = turned(text, True, False)
            wanted.update(kept)
        else:
            new = turned(text, False, False)
        if new != text:
            with open(path, "w", encoding="utf-8") as f:
                f.write(new)
    ghost = re.compile(r"(?m)^\s*(?:pub )?ghost use [^;]*;|^\s*(?:requires|ensures|ghost|also_owns|also_shares)\b[^\n]*$")
    for path, text in rust.items():
        new = ghost.sub(lambda m: turned(m.group(0), False, True), text)
        if new != text:
            with open(path, "w", encoding="utf-8") as f:
                f.write(new)
    for path in files(".edit"):
        lines, file = read(path).split("\n"), ""
        for i, line in enumerate(lines):
            if line.startswith("file:"):
                file = line[5:].strip()
            elif re.match(r"(old|new): ", line) and (file.endswith(".antt") or re.match(r"(old|new): \s*(requires|ensures|ghost)\b", line)):
                lines[i] = line[:5] + turned(line[5:], False, True)
        with open(path, "w", encoding="utf-8") as f:
            f.write("\n".join(lines))
    print(len(wanted), "names")


main()
