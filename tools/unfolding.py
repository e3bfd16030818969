#!/usr/bin/env python3
"""Writes into crates/run_calls/proofs/Theorems/Cases.antt the names of all definitions that a worked case computes with.

Run it after a definition was added, renamed or removed. It rewrites the `use` lines of whole modules and the `unfolding` line of `holds`.
"""
import os
import re
import textwrap

ROOT = os.path.dirname(os.path.dirname(os.path.abspath(__file__)))
CASES = os.path.join(ROOT, "crates/run_calls/proofs/Theorems/Cases.antt")
# the modules of definitions, in reading order
DEFINITIONS = [
    ("automaton", ["Listed", "Step", "Shape", "Grid", "Rows"]),
    ("token", ["Bytes", "Kind", "Lexeme", "Scanning"]),
    ("names", ["Names"]),
    ("grammar", ["Ranking", "Reader", "Constants", "Expressions", "Statements", "Source", "Checking"]),
    ("cell_meaning", ["Operators", "Evaluation", "Written", "Places", "Links"]),
    ("run_meaning", ["Reach", "Admission", "Report"]),
    ("move_meaning", ["Profile"]),
    ("list_meaning", ["Text", "Lines", "ListChecking", "Setting"]),
    ("run_calls", ["Running", "Services"]),
]


def modules():
    """(crate, module, names) for each module of definitions."""
    for crate, listed in DEFINITIONS:
        for module in listed:
            text = open(os.path.join(ROOT, "crates", crate, "specs", module + ".antt")).read()
            yield crate, module, [a or b for a, b in re.findall(r"^ *unfoldable pub (\S+)|^unfoldable mutual\n(?:  --[^\n]*\n)*  pub (\S+)", text, re.M)]


def main():
    uses, opened = [], ["same_report"]
    for crate, module, names in modules():
        # (an import that nothing needs is one that `rt tidy` drops)
        uses += ["use Rattle.%s.specs.%s" % (crate, module)] if names else []
        opened += ["%s.%s" % (module, name) for name in names]
    text = open(CASES).read()
    text = re.sub(r"(?:^use Rattle\.[\w.]+\n)+", "\n".join(uses) + "\n", text, count=1, flags=re.M)
    line = textwrap.fill("unfolding " + " ".join(opened), 125, subsequent_indent="    ", break_long_words=False, break_on_hyphens=False)
    text = re.sub(r"^unfolding [^\n]*(?:\n    [^\n]*)*(?=\nholds)", lambda _: line, text, flags=re.M)
    open(CASES, "w").write(text)


main()
