#!/usr/bin/env python3
"""Takes `if◌then◌else◌` from std's Prelude in place of this repository's own definition, which rt ci refuses under that name.

    python3 tools/port/choice.py [ROOT]

Imports change and nothing else: std's has the same arguments and the same two cases. The own definition goes. It may be run again.
"""
import glob
import os
import re
import sys

ROOT = sys.argv[1] if len(sys.argv) > 1 else "."
WORD = "if◌then◌else◌"
OWN = re.compile(r"^(ghost )?use Rattle\.bits\.specs\.Choice\.\{" + WORD + r"\};?\n", re.M)
PRELUDE = re.compile(r"^((?:ghost )?use Rattle\.std\.specs\.Prelude\.\{)([^}]*)(\};?)$", re.M)


def turned(text):
    found = OWN.search(text)
    if not found:
        return text
    ghost = found[1] or ""
    text = OWN.sub("", text)
    if PRELUDE.search(text):
        return PRELUDE.sub(lambda m: f"{m[1]}{m[2]}, {WORD}{m[3]}", text, count=1)
    at = found.start()
    end = ";" if ghost else ""
    return f"{text[:at]}{ghost}use Rattle.std.specs.Prelude.{{{WORD}}}{end}\n{text[at:]}"


for path in glob.glob(f"{ROOT}/crates/*/s*/**/*.*t", recursive=True) + glob.glob(f"{ROOT}/crates/*/proofs/**/*.antt", recursive=True) + glob.glob(f"{ROOT}/crates/*/must-fail/*.edit"):
    with open(path, encoding="utf-8") as f:
        text = f.read()
    new = turned(text).replace("Rattle.bits.specs.Choice.", "Rattle.std.specs.Prelude.")
    if new != text:
        with open(path, "w", encoding="utf-8") as f:
            f.write(new)

if os.path.exists(f"{ROOT}/crates/bits/specs/Choice.antt"):
    os.remove(f"{ROOT}/crates/bits/specs/Choice.antt")
for path, old, new in [
    ("crates/bits/specs/Lib.antt", "pub mod Choice\n", ""),
    ("crates/bits/specs/Lib.antt", "are written with: choice, tests,", "are written with: tests,"),
    ("docs/ARCHITECTURE.md", "choice, fields of bits, signed numbers; computed tests for proofs", "fields of bits, signed numbers; computed tests for proofs"),
    ("docs/ARCHITECTURE.md", "1. `bits/specs/`: choice, a test at every number,", "1. `bits/specs/`: a test at every number,"),
    ("docs/DECISIONS.md", "stands at the bottom** with choice, fields,", "stands at the bottom** with fields,"),
]:
    with open(f"{ROOT}/{path}", encoding="utf-8") as f:
        text = f.read()
    with open(f"{ROOT}/{path}", "w", encoding="utf-8") as f:
        f.write(text.replace(old, new))
