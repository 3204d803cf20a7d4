#!/usr/bin/env python3
"""Brings the repository's own names in specs/ and proofs/ to today's spelling. Run once, at the top, after port.py.

A definition, a field, a constructor, a variable: words in snake case, joined by '_'. A lemma: the same, but a dash stays where it
joins two names that its statement speaks of, as in length-bytes_of. Types and modules keep their spelling, and so do names of the
library, names that Rattle makes and names of src/.

usage: python3 tools/respell.py [--names FILE]     FILE gets a line 'old new' for each name that changed
"""
import os
import re
import sys

WORD = r"[^\W\d][\w'₀-₉]*(?:-[\w'₀-₉*+≤<]+)*"
TOKEN = re.compile(r"(?<![\w'₀-₉-])" + WORD)
DECLARED = re.compile(r"^(\s*)((?:abbrev |unfoldable |pub )*)(" + WORD + r") :(?=\s|$)")
USE = re.compile(r"^\s*(?:pub )?(?:ghost )?use ([^\s;{]+?)(?:\.\{([^}]*)\})?(?: as ([\w-]+))?;?\s*$", re.M)
CAMEL = re.compile(r"(?<=[a-z0-9])([A-Z][a-z0-9]*)")


def snake(part):
    """toDo as to_do; a part that begins with a capital is a fact or a type and stays."""
    if not part or not part[0].islower():
        return part
    return CAMEL.sub(lambda m: "_" + m.group(1).lower(), part)


def files(root):
    for folder, dirs, names in os.walk(os.path.join(root, "crates")):
        dirs[:] = sorted(d for d in dirs if d != "out")
        for n in sorted(names):
            if n.endswith((".antt", ".rt")):
                yield os.path.join(folder, n)


def is_walk(path):
    return path.endswith("/Proof.antt")


def own(module, crates):
    m = re.match(r"Rattle\.(\w+)\.(specs|proofs)\.", module)
    if not m or m.group(1) not in crates:
        return False
    return not re.search(r"\.(declared|contracts)\.|\.(Statement|Tie|Met|Goals|Given|Lts|Code|Spec|Need)$", module)


def clauses(text):
    """Of a source: what antt reads of it, as the places of its tokens."""
    spans = [m.span() for m in re.finditer(r"^\s*ghost use [^;]*;", text, re.M)]
    for m in re.finditer(r"\b(?:requires|ensures|ghost)\*?(?: \w+:?)? \{", text):
        depth, i = 1, m.end()
        while depth and i < len(text):
            depth += {"{": 1, "}": -1}.get(text[i], 0)
            i += 1
        spans.append((m.end(), i))
    spans += [m.span() for m in re.finditer(r"//[^\n]*", text)]
    return spans


def main(argv):
    root = "."
    crates = set(os.listdir(os.path.join(root, "crates")))
    text = {p: open(p, encoding="utf-8").read() for p in files(root)}
    foreign, statements, kinds, fields = set(), {}, {}, set()
    tokens = set()
    for p, t in text.items():
        for module, names, alias in USE.findall(t):
            if not own(module, crates):
                foreign |= set(re.findall(WORD, re.sub(r"(\S+) as (\S+)", r"\1", names)))
                foreign.add(module.split(".")[-1])
        if p.endswith(".rt"):
            foreign |= set(re.findall(r"\b(?:fn|struct|enum|const|mod|let|let mut) (\w+)", t))
            continue
        if is_walk(p):
            continue
        lines = t.split("\n")
        inside = None
        for i, line in enumerate(lines):
            if re.match(r"\s*(?:abbrev |unfoldable |pub )*(record|data) ", line):
                inside = re.match(r"\s*(?:abbrev |unfoldable |pub )*(record|data) ", line).group(1), len(line) - len(line.lstrip())
                continue
            m = DECLARED.match(line)
            if line.strip() and inside and len(line) - len(line.lstrip()) <= inside[1] and not line.lstrip().startswith("--"):
                inside = None
            if not m:
                continue
            indent, marks, name = m.groups()
            statement = [line[m.end():]]
            for more in lines[i + 1:]:
                if not more.startswith(indent + " ") or re.match(r"\s*--", more) or DECLARED.match(more):
                    break
                statement.append(more)
            statements.setdefault(name, []).append(" ".join(statement))
            if inside:
                kinds.setdefault(name, set()).add("field")
                fields.add(name)
            elif "/specs/" in p or "abbrev" in marks or "unfoldable" in marks:
                kinds.setdefault(name, set()).add("definition")
            else:
                kinds.setdefault(name, set()).add("lemma")
        tokens |= set(TOKEN.findall(re.sub(r"--[^\n]*", "", t)))

    def spelled(name):
        """The new spelling of an own name."""
        parts = name.split("-")
        if kinds.get(name) != {"lemma"}:
            return "_".join(snake(q) for q in parts)
        answers = set()
        for said in statements[name]:
            bound = {w for b in re.findall(r"[({]([^:(){}]+) :", said) for w in TOKEN.findall(b)}
            speaks = {w for w in TOKEN.findall(said)} - bound
            speaks |= {snake(w) for w in speaks}
            # the longest names first
            pieces, i = [], 0
            while i < len(parts):
                for j in range(len(parts), i, -1):
                    word = "_".join(snake(q) for q in parts[i:j])
                    if "-".join(parts[i:j]) in speaks or word in speaks:
                        pieces.append((word, True))
                        i = j
                        break
                else:
                    pieces.append((snake(parts[i]), False))
                    i += 1
            word = pieces[0][0]
            for (_, a), (w, b) in zip(pieces, pieces[1:]):
                word += ("-" if a and b else "_") + w
            answers.add(word)
        return answers.pop() if len(answers) == 1 else "_".join(snake(q) for q in parts)

    generated = re.compile(r"(?:requires|ensures|known|holds|test|result)(?:-\d+)?$")
    respelled = {}
    for name in sorted(tokens | set(statements)):
        if name in foreign and name not in statements:
            continue
        if not name[0].islower() or name in ("absurd",):
            continue
        if name not in statements and generated.search(name):
            continue
        to = spelled(name)
        if to != name:
            respelled[name] = to
    # Names that would fall together: the definition has the name, and a lemma of it gets _lem
    taken = {}
    for old, new in respelled.items():
        taken.setdefault(new, []).append(old)
    antt = set(statements)
    for p, t in text.items():
        if p.endswith(".antt") and not is_walk(p):
            antt |= set(TOKEN.findall(re.sub(r"--[^\n]*", "", t)))
    for new, olds in sorted(taken.items()):
        others = [o for o in olds if kinds.get(o) != {"lemma"}] + ([new] if new in antt and new not in respelled else [])
        lemmas = [o for o in olds if kinds.get(o) == {"lemma"}]
        if len(others) + len(lemmas) == 1:
            continue
        if kinds.get(new) == {"lemma"} and new not in respelled and not lemmas and len(others) == 2:
            respelled[new] = new + "_lem"
            lemmas, others = [new], [o for o in others if o != new]
        for n, o in enumerate(lemmas):
            respelled[o] = new + "_lem" + ("" if n == 0 else "'" * n)
        print("fall together:", new, "definitions", others, "lemmas", [(o, respelled[o]) for o in lemmas])

    def turned(t, walk):
        names = {a: b for a, b in respelled.items()}
        if walk:
            # of a proof that walks the code: what it imports, and fields; the rest Rattle made
            imported = set()
            for module, list_, _ in USE.findall(t):
                if own(module, crates):
                    imported |= set(re.findall(WORD, list_))
            imported |= {m.group(3) for l in t.split("\n") for m in [DECLARED.match(l)] if m and "tie." not in l and "statement" not in l}

        def one(m):
            w = m.group()
            if w not in names:
                return w
            before = t[m.start() - 1] if m.start() else " "
            if walk and before == "." and w not in fields and not aliased(m.start()):
                return w
            if walk and before != "." and w not in imported:
                return w
            return names[w]

        aliases = {a or module.split(".")[-1] for module, l, a in USE.findall(t) if not l and own(module, crates)}

        def aliased(at):
            before = re.search(r"([\w-]+)\.$", t[:at])
            return bool(before) and before.group(1) in aliases

        return TOKEN.sub(one, t)

    changed = 0
    for p, t in text.items():
        if p.endswith(".rt"):
            new, last = "", 0
            for a, b in sorted(clauses(t)):
                if a < last:
                    continue
                new += t[last:a] + TOKEN.sub(lambda m: respelled.get(m.group(), m.group()), t[a:b])
                last = b
            new += t[last:]
        else:
            new = turned(t, is_walk(p))
        if new != t:
            changed += 1
            with open(p, "w", encoding="utf-8") as f:
                f.write(new)
    if "--names" in argv:
        with open(argv[argv.index("--names") + 1], "w") as f:
            f.writelines(f"{a} {b}\n" for a, b in sorted(respelled.items()))
    print(f"{len(respelled)} names, {changed} files")


if __name__ == "__main__":
    main(sys.argv[1:])
