#!/usr/bin/env python3
"""spell.py LANDED [OLD=NEW..]: brings the repository's own definitions, lemmas and record fields to snake case, once, after port.py.

LANDED is the commit that port.py began from. port.py respells only some of the repository's own names; this does the others, in src/ (contracts and
comments), specs/, proofs/, must-fail/, README.md, docs/ and tests/, and carries port.py's own respellings into the pages, scripts and edits, which port.py leaves.

    littleEndian, vGain, no-zeros, down-exactly  ->  little_endian, v_gain, no_zeros, down_exactly

It goes by the names that specs/ and proofs/ define: functions of src/, types, exported C names, strings and Rattle's own names (goal names, `c.if-x`) stay.
It prints each pair of names that would fall together (`clash:`) and leaves such a name as it is: give its new name as OLD=NEW, in a first run. Commit first. A second run finds nothing to do.
"""
import os, re, subprocess, sys

NAME = r"[^\s(){}.;,\"«»\[\]\\]+"
DEF = re.compile(r"(?m)^(?:(?:abbrev|unfoldable|opaque|instance) )?(?:pub )?(?:(?:abbrev|unfoldable) )?(" + NAME + r") : (.*)$")
# a lemma or definition that stands inside a module or a `where`
INNER = re.compile(r"(?m)^[ \t]+(?:(?:abbrev|unfoldable|opaque|instance) )?(?:pub )?(?:(?:abbrev|unfoldable) )?(" + NAME + r") :(?: .*)?$")
FIELD = re.compile(r"(?m)^  (?:pub )?(" + NAME + r") : ")


def snake(n):
    if not re.match(r"[a-z]", n) or not re.search(r"[A-Z-]", n):
        return n
    if re.search(r"[^\w'-]", n):
        return n
    n = re.sub(r"(?<=[a-z0-9])([A-Z])", r"_\1", n).lower() if re.search(r"[a-z0-9][A-Z]", n) else n
    n = re.sub(r"([A-Z]+)", lambda m: m.group(1).lower(), n)
    return n.replace("-", "_")


def defined(text, walk):
    """The names that a file defines, in order. In a function's Proof.antt the answers and the proof itself are Rattle's names."""
    out = []
    for m in DEF.finditer(text):
        n, t = m.group(1), m.group(2)
        if walk and (t.startswith("tie.") or n.endswith("-spec") or n.endswith("_spec")):
            continue
        out.append(n)
    return out


def files(top, ends):
    for folder, dirs, names in os.walk(top):
        dirs[:] = sorted(d for d in dirs if d not in ("out", ".git", "target", "build"))
        for f in sorted(names):
            if f.endswith(ends):
                yield os.path.join(folder, f)


def old_text(commit, path):
    p = subprocess.run(["git", "show", f"{commit}:{path}"], capture_output=True, text=True)
    return p.stdout if p.returncode == 0 else None


def main(argv):
    if not argv:
        sys.exit(__doc__)
    landed, chosen = argv[0], dict(a.split("=") for a in argv[1:])
    ported, names, fields = {}, set(), set()
    for p in files("crates", ".antt"):
        text, walk = open(p, encoding="utf-8").read(), os.path.basename(p) == "Proof.antt"
        now = defined(text, walk) + [m.group(1) for m in FIELD.finditer(text)]
        names |= set(now)
        if not walk:
            names |= {m.group(1) for m in INNER.finditer(text)}
        fields |= {m.group(1) for m in FIELD.finditer(text)}
        before = old_text(landed, p)
        if before is not None:
            was = defined(before, walk) + [m.group(1) for m in FIELD.finditer(before)]
            if len(was) == len(now):
                for a, b in zip(was, now):
                    if a != b:
                        ported[a] = b
    table = {n: snake(n) for n in names if snake(n) != n}
    # names that would fall together: with one of the repository's, or with a word that a file which has the old one uses already
    texts = {p: open(p, encoding="utf-8").read() for p in files("crates", (".antt", ".rt"))}
    bare = lambda t: re.sub(r"(?m)(^|\s)(--|//).*$", "", t)
    words = {p: set(re.findall(r"(?<![\w'.-])[A-Za-z_][\w'-]*(?![\w'.-])", bare(t))) for p, t in texts.items()}
    new_of = {}
    for n in sorted(set(table) - set(chosen)):
        new_of.setdefault(table[n], []).append(n)
    for new, olds in sorted(new_of.items()):
        used = [p for p, ws in words.items() if p.endswith(".antt") and new in ws and any(o in ws for o in olds)]
        if len(olds) == 1 and not used:
            continue
        # a lemma and the definition that it speaks of: the lemma's name says so
        lemmas, rest = [o for o in olds if "-" in o], [o for o in olds if "-" not in o]
        if len(lemmas) == 1 and new + "_law" not in names:
            table[lemmas[0]] = new + "_law"
            print(f"told apart: {lemmas[0]} -> {new}_law")
            lemmas, used = [], used if rest and any(new in words[p] and rest[0] in words[p] for p in used) else []
        if len(lemmas + rest) > 1 or used:
            print(f"clash: {', '.join(lemmas + rest)} -> {new}" + (f" (used in {used[0]}, {len(used)} files)" if used else ""))
            for o in lemmas + rest:
                del table[o]
    table.update({a: b for a, b in chosen.items() if a in names})
    own = {d for d in os.listdir("crates")}
    imports = re.compile(r"(?m)^\s*(?:pub |ghost )?use ([^\s{]+)\.\{([^}]*)\}")

    def foreign(t):
        """What a file takes from a library under a name that the repository has too."""
        out = set()
        for m in imports.finditer(t):
            q = m.group(1).split(".")
            if not (q[0] == "Rattle" and len(q) > 1 and q[1] in own):
                out |= {x.split(" as ")[-1].strip() for x in m.group(2).split(",")}
        return out

    before = r"(?<![\w'.-])"
    pat = lambda t, b=before: re.compile(b + "(" + "|".join(sorted(map(re.escape, t), key=len, reverse=True)) + r")(?![\w'-])")
    changed = 0
    for p, t in texts.items():
        mine = {n: v for n, v in table.items() if n not in foreign(t) and (p.endswith(".antt") or "-" not in n)}
        # after a dot: a record's field, or a definition behind a module's name (camel case; a step of Rattle's has hyphens)
        of_field = {n: v for n, v in mine.items() if n in fields or ("-" not in n and p.endswith(".antt"))}
        u = pat(mine).sub(lambda m: mine[m.group(1)], t) if mine else t
        u = pat(of_field, r"(?<=[\w')»]\.)").sub(lambda m: of_field[m.group(1)], u) if of_field else u
        if u != t:
            open(p, "w", encoding="utf-8").write(u)
            changed += 1
    both = {a: table.get(b, b) for a, b in ported.items()}
    both.update(table)
    both = {a: b for a, b in both.items() if a != b and (re.search(r"[A-Z]", a) or "-" in a)}
    pages = [p for top in ("docs", "tests", "host") for p in files(top, (".md", ".sh", ".py", ".awk"))] + ["README.md"] + list(files("crates", ".edit"))
    pat = lambda t: re.compile(r"(?<![\w'-])(" + "|".join(sorted(map(re.escape, t), key=len, reverse=True)) + r")(?![\w'-])")
    camel, dashed = {a: b for a, b in both.items() if "-" not in a}, {a: b for a, b in both.items() if "-" in a}
    for p in pages:
        if not os.path.isfile(p):
            continue
        t = open(p, encoding="utf-8").read()
        u = pat(camel).sub(lambda m: camel[m.group(1)], t) if camel else t
        if dashed:
            if p.endswith(".edit"):
                u = pat(dashed).sub(lambda m: dashed[m.group(1)], u)
            else:
                u = re.sub(r"`[^`\n]+`", lambda m: pat(dashed).sub(lambda k: dashed[k.group(1)], m.group(0)), u)
        if u != t:
            open(p, "w", encoding="utf-8").write(u)
            changed += 1
    print(f"{len(table)} names respelled, {len(ported)} of port.py's carried over, {changed} files changed")


main(sys.argv[1:])
