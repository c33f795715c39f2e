#!/usr/bin/env python3
"""The places that docs/DESIGN-PASS.md counts: forms of code that a newer form may stand for.

    python3 tools/places.py [COMMIT]      a line for each place, and the counts at the end

It goes by text, in crates/*/src at the commit (the working tree where none is named), and finds
candidates: the page says of each what became of it. The C exports of pw_c and leaves, which repeat
other functions' clauses, are left out where a rule is about parameters or bodies.
"""
import collections
import itertools
import re
import subprocess
import sys

COMMIT = sys.argv[1] if len(sys.argv) > 1 else None
EXPORTS = ("pw_c", "leaves")


def run(*command):
    return subprocess.run(command, check=True, capture_output=True, text=True).stdout


def files(pattern):
    if COMMIT:
        names = run("git", "ls-tree", "-r", "--name-only", COMMIT, "crates").split("\n")
    else:
        names = run("git", "ls-files", "crates").split("\n")
    for name in names:
        if re.fullmatch(pattern, name):
            yield name, run("git", "show", f"{COMMIT}:{name}") if COMMIT else open(name).read()


def plain(text):
    """The text without comments."""
    return re.sub(r"//.*", "", text)


SOURCES = [(n, t) for n, t in files(r"crates/[^/]+/src/.*\.rt")]
FOUND = collections.OrderedDict()


def found(rule, name, line, what):
    FOUND.setdefault(rule, []).append(f"{name}:{line}: {what}")


def by_line(rule, pattern, skip=()):
    for name, text in SOURCES:
        if name.split("/")[1] in skip:
            continue
        for number, line in enumerate(text.split("\n"), 1):
            code = line.split("//")[0]
            match = re.search(pattern, code)
            if match:
                found(rule, name, number, code.strip())


FUNCTION = re.compile(r"^( *)(?:pub(?:\(\w+\))? )?(?:extern \"C\" )?fn (\w+)(?:<[^>]*>)?\(([^)]*)\)[^\n]*(?:\n(?!\1\}).*?)??(?:\n\1| )\{\n(.*?)\n\1\}$", re.S | re.M)


def functions(skip=EXPORTS):
    for name, text in SOURCES:
        if name.split("/")[1] in skip:
            continue
        code = plain(text)
        for match in FUNCTION.finditer(code):
            yield name, code[: match.start()].count("\n") + 1, match.group(2), match.group(3), match.group(4)


# 1. Own enums, flags with a value beside them, numbers for kinds and refusals.
by_line("1a enums", r"^\s*(pub(\(\w+\))? )?enum ")
by_line("1b flags and refusals beside values", r"^    (pub )?(set|full|accepted|more|spelled|found|measured|has_reading|with_volts|refusal): (bool|u8|Refusal),")
by_line("1c numbers for kinds and results", r"\bfn .*\b(res|refusal|kind|stat|text|unit|over|hint)\b: u8|\bfn (number|\w+_number|partial_text|hint|kind_of)\(", EXPORTS)

# 2. Functions whose bodies are the same but for names and literals.
shapes = collections.defaultdict(list)
for name, number, function, _, body in functions():
    words = re.findall(r"\w+|[^\w\s]", body)
    shape = tuple("w" if re.match(r"[a-z_]\w*$|[A-Z]", w) and w not in ("if", "else", "match", "return", "let", "mut", "for", "while", "as") else "0" if w[0].isdigit() else w for w in words)
    if len(words) >= 14:
        shapes[shape].append((name, number, function))
for shape, places in shapes.items():
    if len(places) > 1:
        for name, number, function in places:
            found("2 functions of one shape", name, number, f"{function} (of {len(places)}, with {next(f for _, _, f in places)})")

# 3. Loops that count by hand.
by_line("3 loops", r"^\s*(while|loop)\b")

# 4. Copies, conversions, comparisons and tests written out.
by_line("4a fields copied one by one", r"^\s*let (\w+) = (\w+\.)+\1;")
by_line("4b && and || written out", r"\} else \{ (false|true) \}|\{ true \} else \{|^\s*(false|true)$")
for name, number, function, parameters, body in functions():
    if re.fullmatch(r"\s*match \w+ \{\s*(?:[\w:]+(?:\(_\))? => [\w:.]+,\s*)+\}\s*", body):
        found("4c numbers of an enum", name, number, function)
by_line("4d equality written by hand", r"\bfn (same\w*|differ|is_same)\(")

# 5. Parameters that travel together, through three functions or more; a clause in three or more.
groups = collections.defaultdict(set)
for name, number, function, parameters, _ in functions():
    pairs = sorted({" ".join(p.split()) for p in parameters.split(",") if ":" in p})
    for size in (3, 4):
        for group in itertools.combinations(pairs, size):
            groups[group].add(f"{name.split('/')[1]}::{function}")
kept = []
for group, users in sorted(groups.items(), key=lambda g: (-len(g[0]), -len(g[1]), g[0])):
    if len(users) >= 3 and not any(set(group) <= set(g) and users <= u for g, u in kept):
        kept.append((group, users))
        found("5a three or four parameters that travel together", ", ".join(group), len(users), " ".join(sorted(users)))
clauses = collections.defaultdict(set)
for name, text in SOURCES:
    if name.split("/")[1] in EXPORTS:
        continue
    for number, line in enumerate(text.split("\n"), 1):
        match = re.match(r"\s*(requires|ensures)[ \w]*\{ (.*) \}$", line)
        if match:
            for fact in match.group(2).split(" × "):
                clauses[re.sub(r"^\(|\)$", "", fact)].add(f"{name}:{number}")
for fact, places in clauses.items():
    if len(places) >= 3:
        found("5b facts in three clauses or more", fact, len(places), " ".join(sorted(places)))

# 6. Buffers with a count beside them, arrays that run in parallel.
for name, text in SOURCES:
    for match in re.finditer(r"struct (\w+)[^{]*\{(.*?)\n\}", plain(text), re.S):
        if re.search(r": \[", match.group(2)) and re.search(r"\b(count|len|n): usize", match.group(2)):
            found("6a buffers with a count", name, text[: match.start()].count("\n") + 1, match.group(1))
        elif len(re.findall(r": \[[^;]+; (\w+)\]", match.group(2))) >= 2:
            found("6b arrays side by side", name, plain(text)[: match.start()].count("\n") + 1, match.group(1))
by_line("6c tables side by side", r"^(pub )?const \w+: \[[^;]+; 12\]")

# 7. A yes or no, or a number, that says which of several things to do.
by_line("7 a mark that chooses what is done", r"\bfn \w+\(.*\b(v|va|watts|later|signal|full|spelled): bool|^\s*match (stat|job|main|iu|c|c % 4) \{", EXPORTS)

# 8. Proofs.
for kind, pattern in (("8a answer files", r"crates/.*/proofs/.*/Answers\.antt"), ("8b files of lemmas", r"crates/[^/]+/proofs/[^/]+\.antt"), ("8c loop invariants", r"crates/.*/proofs/.*/Invariants\.antt")):
    for name, text in files(pattern):
        found(kind, name, text.count("\n"), "lines")

for rule, places in FOUND.items():
    print("\n".join(f"{rule} | {p}" for p in places))
print()
for rule, places in FOUND.items():
    print(f"{len(places):4} {rule}")
