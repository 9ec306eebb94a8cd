#!/usr/bin/env python3
"""Spells this repository's definitions and lemmas as today's Rattle does: words in snake case, types and modules as they are.

    python3 tools/port/respell.py [ROOT] [--list]      with --list it prints the names, old and new, and writes nothing

It was run once, directly after the kit's port.py (docs/PORT.md); the six names near the end were turned later, and stand here so that a run on the older
tree gives today's spelling. Names of the kit (what a file imports from elsewhere), functions of src/ and text stay.
"""
import glob
import re
import sys

ROOT = ([a for a in sys.argv[1:] if a != "--list"] or ["."])[0]
IDENT = r"[^\s(){}\[\],.;:λ→⌜⌝=\"`@∀∃∙≡×+*/%^<>≤|?]+"
# two names that would be one: the lemma, written with dashes, gets the ending that the kit's rules name
ENDING = "_lem"
# two definitions that share a word with somebody else's lemma
CHOSEN = {"noFields": "no_fields", "noneLeft": "no_line_left"}


def read(path):
    with open(path, encoding="utf-8") as f:
        return f.read()


def is_odd(name):
    return name[0].islower() and ("-" in name or re.search(r"[a-z0-9][A-Z]", name) is not None)


def snake(name):
    return re.sub(r"([a-z0-9])([A-Z]+)", lambda m: m[1] + "_" + m[2].lower(), name.replace("-", "_"))


def declared(text):
    """Names that a file of specs/ or proofs/ declares or binds."""
    text = re.sub(r"--.*", "", text)
    found = set(re.findall(rf"^\s*(?:(?:unfoldable|abbrev|pub|ruleset|data|record)\s+)*({IDENT})(?:\s+[({{][^\n:]*:[^\n]*?[)}}])*\s+:(?!=)", text, re.M))
    found |= set(re.findall(rf"\blet\s+({IDENT})\s*[:=]", text))
    found |= set(re.findall(rf"\b(?:ruleset|record|data)\s+(?:pub\s+)?({IDENT})", text))
    for group in re.findall(rf"[({{]((?:{IDENT}\s+)+):\s", text) + re.findall(rf"λ\s*((?:{IDENT}\s*)+)\.", text):
        found |= set(group.split())
    return found


def foreign(text):
    """Names that a file imports from outside this repository's crates."""
    found = set()
    for module, names in re.findall(r"^\s*(?:ghost |pub )?use\s+([^\s{]+?)\.\{([^}]*)\}", text, re.M | re.S):
        if not any(module.startswith(f"Rattle.{c}.") for c in CRATES):
            found |= {n.strip() for n in names.split(",")}
    return found


CRATES = [p.split("/")[-1] for p in glob.glob(f"{ROOT}/crates/*")]
ANTT = glob.glob(f"{ROOT}/crates/*/specs/**/*.antt", recursive=True) + glob.glob(f"{ROOT}/crates/*/proofs/**/*.antt", recursive=True)
LAWS = [p for p in ANTT if not p.endswith("/Proof.antt")]
RT = glob.glob(f"{ROOT}/crates/*/src/**/*.rt", recursive=True)
EDITS = glob.glob(f"{ROOT}/crates/*/must-fail/*.edit")
PAGES = [f"{ROOT}/README.md"] + glob.glob(f"{ROOT}/docs/*.md")

own = set()
for path in LAWS:
    own |= declared(read(path)) - foreign(read(path))
names = {}
taken = {n for n in own if not is_odd(n)}
for name in sorted((n for n in own if is_odd(n)), key=lambda n: ("-" in n, n)):
    new = snake(name)
    if name in CHOSEN:
        names[name] = CHOSEN[name]
        continue
    names[name] = new + ENDING if new in taken or new in names.values() else new

# names that the patterns above don't find: one with a level, and the names that imports give
for name in ("unlessRefused", "refusalIn", "coresOf", "returnsOf", "toldVectors", "answeredVectors"):
    names[name] = snake(name)

TOKEN = re.compile(r"(?<![A-Za-z0-9_'-])[a-z][A-Za-z0-9_'₀₁₂₃₄₅₆₇₈₉-]*")


def turned(code, kept):
    return TOKEN.sub(lambda m: names[m[0]] if m[0] in names and m[0] not in kept else m[0], code)


def turned_comment(comment, kept):
    """In a comment words with dashes are prose, but for those in backticks."""
    comment = re.sub(r"`[^`]*`", lambda m: turned(m[0], kept), comment)
    return TOKEN.sub(lambda m: names[m[0]] if m[0] in names and "-" not in m[0] else m[0], comment)


def turned_file(path, mark):
    text = read(path)
    kept = foreign(text)
    out = []
    for line in text.split("\n"):
        at = line.find(mark)
        if at < 0:
            out.append(turned(line, kept))
        else:
            out.append(turned(line[:at], kept) + turned_comment(line[at:], kept))
    return "\n".join(out)


def write(path, text):
    if text != read(path):
        with open(path, "w", encoding="utf-8") as f:
            f.write(text)


if "--list" in sys.argv:
    for name, new in sorted(names.items()):
        print(name, new)
    sys.exit()

for path in ANTT:
    write(path, turned_file(path, "--"))
for path in RT:
    write(path, turned_file(path, "//"))
for path in EDITS:
    write(path, "\n".join(turned(line, set()) if line.startswith(("old:", "new:")) else line for line in read(path).split("\n")))
for path in PAGES:
    write(path, re.sub(r"`[^`\n]*`", lambda m: turned(m[0], set()), read(path)))
