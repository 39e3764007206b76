#!/usr/bin/env python3
"""Spells this repository's definitions and lemmas as today's Rattle does, once, after port.py: words in snake case, a dash only between two
names, or behind a type's name.

usage: tools/respell.py          at the top: rewrites crates/*/{specs,proofs,src,must-fail}, and prints what it renamed
       tools/respell.py --look   prints what would meet another name, and writes nothing

Names are resolved file by file: a name of ours is one that the file declares, imports from one of our modules, or cites behind the alias of
one. A function of src/ keeps its name, and so do types, modules, and what Rattle makes.
"""
import os
import re
import sys

NAME = r"[^\s(){}.;,@\"«»⌜⌝]+"
TOKEN = re.compile(NAME)
DECLARED = re.compile(rf"^(?:(?:abbrev|unfoldable|pub|ruleset)\s+)*({NAME})(?=\s+(?:\{{[^}}]*\}}\s*|\([^)]*\)\s*)*[:=](?:\s|$))")
RECORD = re.compile(rf"^(?:pub\s+)?(data|record)\s+({NAME})")
MEMBER = re.compile(rf"^\s+(?:pub\s+)?({NAME})\s+:\s")
USE = re.compile(r"\buse\s+(Rattle\.([a-z_0-9]+)\.(?:specs|proofs)[^\s;{]*?)(?:\.\{([^}]*)\}|\s+as\s+([^\s;]+))?(?=[;\s]|$)")


def snake(name):
    return re.sub(r"(?<=[a-z0-9])[A-Z]", lambda m: "_" + m[0].lower(), name)


def files():
    for folder, dirs, names in os.walk("crates"):
        dirs[:] = sorted(d for d in dirs if d not in ("out", "must-fail"))
        for n in sorted(names):
            if n.endswith((".antt", ".rt")):
                yield os.path.join(folder, n)


def module_of(path):
    parts = path[len("crates/"):-len(".antt")].split("/")
    return "Rattle." + ".".join(parts)


def declares(text):
    """Names that the text declares, those of them that are definitions, constructors or fields."""
    names, defs, kind, depth = set(), set(), None, 0
    for line in text.split("\n"):
        m = re.match(r"( *)module _ .*where$", line)
        indent = len(line) - len(line.lstrip())
        if m:
            kind, depth = None, len(m[1]) + 2
            continue
        if line.strip() and indent < depth:
            depth = indent
        if line.strip() and indent == depth and not line.strip().startswith("--"):
            line, kind = line.strip(), None
            r = RECORD.match(line)
            if r:
                kind = r[1]
                continue
            m = DECLARED.match(line)
            if m and m[1] not in ("use", "mod", "pub"):
                names.add(m[1])
                if line.startswith(("abbrev", "unfoldable")):
                    defs.add(m[1])
        elif kind:
            m = MEMBER.match(line)
            if m:
                names.add(m[1])
                defs.add(m[1])
    return names, defs


def main():
    look = "--look" in sys.argv
    texts = {f: open(f, encoding="utf-8").read() for f in files()}
    ours, defs, defined = {}, set(), {}  # module -> names
    for f, t in texts.items():
        if f.endswith(".antt"):
            names, d = declares(t)
            ours[module_of(f)] = names
            defined[module_of(f)] = d
            defs |= d
    library = set()
    for t in texts.values():
        for m in re.finditer(r"\buse\s+(?!Rattle\.(?!std\b))[^\s;{]+\.\{([^}]*)\}", t):
            library |= {x.split(" as ")[0].strip() for x in m[1].split(",")}
    known = {snake(d) for d in defs} | library
    known = {k for k in known if len(k) > 1} - {"one", "none", "is", "two", "not_made", "of_one", "of_two", "number_is"}
    taken = {snake(d) for d in defs}  # a lemma that would have its function's name gets _lem

    def spelled(name, module=None):
        if module and name not in defined[module] and "_" in name and name in taken:
            return name + "_lem"
        if not re.match(r"[A-Za-z]", name) or "◌" in name:
            return name
        parts = name.split("-")
        if name[0].isupper() and len(parts) == 1:
            return name
        parts = [p if p[:1].isupper() else snake(p) for p in parts]
        if len(parts) == 1:
            return parts[0]
        if name[0].isupper():
            return parts[0] + "-" + "_".join(parts[1:])
        for at in range(1, len(parts)):  # a dash between two names
            left, right = "_".join(parts[:at]), "_".join(parts[at:])
            if left in known and right in known:
                return left + "-" + right
        plain = "_".join(parts)
        return plain + "_lem" if plain in taken else plain

    renamed, clashes, turned = {}, [], {}
    for f, t in texts.items():
        is_rt = f.endswith(".rt")
        mine = {}  # what a token becomes where it stands alone
        behind = {}  # alias -> {name: new}
        if not is_rt:
            # what a Proof.antt declares is its own; its goals are named by Rattle
            for n in ours[module_of(f)]:
                mine[n] = spelled(n, module_of(f))
        for m in USE.finditer(t):
            module, listed, alias = m[1], m[3], m[4]
            names = ours.get(module)
            if names is None:
                continue
            if listed is not None:
                for x in listed.split(","):
                    x = x.strip()
                    if " as " in x:
                        was, new = x.split(" as ")
                        if was in names:
                            mine.setdefault(was, spelled(was, module))
                            if "-" in new or snake(new) != new and new[0].islower():
                                mine[new] = spelled(new)
                    elif x in names:
                        mine[x] = spelled(x, module)
            else:
                behind[alias or module.split(".")[-1]] = {n: spelled(n, module) for n in names}
                if alias and alias[0].islower() and spelled(alias) != alias:
                    mine[alias] = spelled(alias)
        mine = {a: b for a, b in mine.items() if a != b}
        turned[f] = mine
        # full paths Rattle.c.specs.M.name in text
        def whole(m):
            module, name = m[1], m[2]
            if name in ours.get(module, ()):
                return module + "." + spelled(name, module)
            return m[0]
        tokens = set(TOKEN.findall(re.sub(r"--.*|//.*", "", t)))
        for a, b in mine.items():
            alone = set(re.findall(rf"(?<![\w.:-])({NAME})(?!\(|[\w-])", re.sub(r"--.*|//.*|\bfn \w+|\buse [^;{{]*", "", t))) if is_rt else set(re.findall(rf"(?<![\w.-])({NAME})", re.sub(r"--.*", "", t)))
            if a in tokens and b in alone and not (b in mine):
                clashes.append((f, a, b))
        back = {}
        for a, b in mine.items():
            if b in back and a in tokens and back[b] in tokens:
                clashes.append((f, a, b + " also " + back[b]))
            back[b] = a

        def turn(m):
            tok, at = m[0], m.start()
            prev = t2[at - 1] if at else " "
            if prev == ".":
                head = re.search(rf"({NAME})\.$", t2[:at])
                if head and head[1] in behind and (len(head[0]) == at or t2[at - len(head[0]) - 1] != "."):
                    return behind[head[1]].get(tok, tok)
                if head and not is_rt and tok in fields:  # a field of a record of ours
                    return fields[tok]
                return tok
            return mine.get(tok, tok)

        fields = {n: spelled(n) for n in FIELDS if spelled(n) != n}
        t2 = re.sub(rf"(Rattle(?:\.[A-Za-z0-9_+]+)+)\.({NAME})", whole, t)
        out = []
        for line in re.split(r"(?<=\n)", t2):
            out.append(line)
        t3, pos = [], 0
        if is_rt:
            # ghost use items and clauses only: a name of ours is in camel case or has a dash, and no name of Rust does
            t4 = TOKEN.sub(turn, t2)
        else:
            t4 = TOKEN.sub(turn, t2)
        for a, b in mine.items():
            if a in tokens:
                renamed.setdefault((a, b), set()).add(f)
        if t4 != t and not look:
            with open(f, "w", encoding="utf-8") as o:
                o.write(t4)
    # the edits, each line by the names of the file that it edits, the fact by those of the file of laws that it names
    for folder, dirs, names in os.walk("crates"):
        if not folder.endswith("must-fail"):
            continue
        crate = os.path.dirname(folder)
        for n in sorted(names):
            path, mine, out = os.path.join(folder, n), {}, []
            text = open(path, encoding="utf-8").read()
            for line in re.split(r"(?<=\n)", text):
                if line.startswith("file: "):
                    mine = turned.get(os.path.join(crate, line[6:].strip()), {})
                elif line.startswith(("old: ", "new: ")):
                    line = line[:5] + TOKEN.sub(lambda m: mine.get(m[0], m[0]), line[5:])
                elif line.startswith("refused: "):
                    words = line.split()
                    laws = turned.get(os.path.join(crate, "proofs", words[1] + ".antt"))
                    if laws and len(words) == 3:
                        line = f"refused: {words[1]} {laws.get(words[2], words[2])}\n"
                out.append(line)
            if "".join(out) != text and not look:
                with open(path, "w", encoding="utf-8") as o:
                    o.write("".join(out))
    for (a, b), fs in sorted(renamed.items()):
        print(f"{a}\t{b}\t{len(fs)}")
    for c in clashes:
        print("MEETS:", *c)


FIELDS = set()
if __name__ == "__main__":
    for f in files():
        if f.endswith(".antt"):
            kind = None
            for line in open(f, encoding="utf-8"):
                if line[:1].strip() and not line.startswith("--"):
                    r = RECORD.match(line)
                    kind = r and r[1]
                elif kind == "record":
                    m = MEMBER.match(line)
                    if m:
                        FIELDS.add(m[1])
    main()
