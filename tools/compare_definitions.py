#!/usr/bin/env python3
"""Has antt evaluate the definitions on cases and compares with what the cases say.

    compare_definitions.py CASES.jsonl [--chunk N]

A case is one line of JSON, as `reference cases` writes it:
  {"source": [bytes], "check": [number, place]}
  {"source": [bytes], "shape": [..], "grid": [..], "start": s, "steps": n,
   "full": {"number": .., "place": .., "line": .., "cell": .., "steps": .., "count": .., "grid": [..]}, "quiet_count": k}
A run may also have "values", the bytes of its value list, and "words", "names", "scratch" and "marks", the lengths of the buffers, where they are
not the right ones.

It copies the crates into a folder among the temporary files, adds to crate run_calls a module with lists of N cases and for each list the claim that no
case fails, and checks it (`rt check`, which begins with what checks of the same files on this machine kept). A list that is refused, for a failing case or
for the step limit, is checked again case by case. It prints the failing cases' numbers (from 0), how many cases there were and the time; its exit status
is 0 only if all hold.
"""
import json
import os
import re
import shutil
import subprocess
import sys
import tempfile
import time

ROOT = os.path.dirname(os.path.dirname(os.path.abspath(__file__)))

HEADER = """-- Cases that another program wrote.
use mathlib.Core.Option.{none}
use Rattle.std.specs.Prelude.{◌≡◌, refl, Bool, true, List, [], ◌∷◌, ℕ, ℤ, pos, negsuc}
use Rattle.run_meaning.specs.Report.{Report}
use Rattle.run_calls.specs.Running.{Asked}
use Rattle.value.proofs.Theorems.Truth.{failing}
use Rattle.run_calls.proofs.Theorems.Cases.{Lent, Case, checks, runs, holds}

abbrev lent : List ℕ → ℕ → ℕ → Lent
lent source words names = record { source = source; words = words; names = names }

abbrev asked : List ℕ → List ℤ → ℤ → ℤ → ℕ → ℕ → List ℕ → Asked
asked sizes grid start n scratch marks values =
    record { request = record { sizes = sizes; grid = grid; start = start; steps = n; scratch = scratch; marks = marks }; values = values; counts = none }

abbrev report : ℕ → ℕ → ℕ → ℕ → ℕ → ℕ → List ℤ → Report
report n place line cell done count grid = record { number = n; place = place; line = line; cell = cell; steps = done; count = count; grid = grid }
"""


def numbers(xs):
    return "(" + "".join("%d ∷ " % x for x in xs) + "[])"


def integer(z):
    return "pos %d" % z if z >= 0 else "negsuc %d" % (-z - 1)


def integers(xs):
    return "(" + "".join(integer(z) + " ∷ " for z in xs) + "[])"


def case(c):
    lent = "(lent %s %d %d)" % (numbers(c["source"]), c.get("words", 16384), c.get("names", 256))
    if "check" in c:
        return "checks %s %d %d" % (lent, c["check"][0], c["check"][1])
    cells = 1
    for n in c["shape"]:
        cells *= n
    asked = "(asked %s %s (%s) (%s) %d %d %s)" % (
        numbers(c["shape"]), integers(c["grid"]), integer(c["start"]), integer(c["steps"]),
        c.get("scratch", len(c["grid"])), c.get("marks", cells), numbers(c.get("values", [])))
    f = c["full"]
    given = "(report %d %d %d %d %d %d %s)" % (f["number"], f["place"], f.get("line", 0), f["cell"], f["steps"], f["count"], integers(f["grid"]))
    return "runs %s %s %s %d" % (lent, asked, given, c["quiet_count"])


def lists(cases, chunk):
    out = [HEADER]
    for k in range(0, len(cases), chunk):
        rows = "\n    ∷ ".join(case(c) for c in cases[k:k + chunk])
        out.append("list%d : List Case\nlist%d =\n    %s\n    ∷ []\n" % (k, k, rows))
        out.append("claim%d : failing holds %d list%d ≡ []\nunfolding list%d failing holds\nclaim%d = refl\n" % (k, k, k, k, k))
    return "\n".join(out)


def singles(cases, which):
    out = [HEADER]
    for k in which:
        out.append("case%d : Case\ncase%d = %s\n" % (k, k, case(cases[k])))
        out.append("claim%d : holds case%d ≡ true\nunfolding case%d holds\nclaim%d = refl\n" % (k, k, k, k))
    return "\n".join(out)


def check(scratch, text):
    """The numbers of the claims that are refused, and the seconds that it took."""
    crate = os.path.join(scratch, "crates/run_calls")
    with open(os.path.join(crate, "proofs/Theorems/Claims.antt"), "w") as f:
        f.write(text)
    begun = time.time()
    r = subprocess.run(["rt", "check"], cwd=crate, stdout=subprocess.PIPE, stderr=subprocess.STDOUT, text=True)
    refused = sorted({int(n) for n in re.findall(r"`claim(\d+)`", r.stdout)})
    if r.returncode != 0 and not refused:
        sys.exit("the check failed otherwise:\n" + r.stdout[-3000:])
    return refused, time.time() - begun


def prepare(scratch):
    listed = ["value", "automaton", "token", "names", "program", "grammar", "cell_meaning", "read_links", "run_meaning", "move_meaning", "list_meaning", "run_calls"]
    lines = [l for l in open(os.path.join(ROOT, "crates.txt")) if l.split(":")[0] in listed]
    with open(os.path.join(scratch, "crates.txt"), "w") as f:
        f.writelines(lines)
    for name in listed:
        shutil.copytree(os.path.join(ROOT, "crates", name), os.path.join(scratch, "crates", name), ignore=shutil.ignore_patterns("out"))
    lib = os.path.join(scratch, "crates/run_calls/proofs/Theorems.antt")
    text = re.sub(r"(pub )?mod Examples\n", "", open(lib).read()) + "pub mod Claims\n"
    open(lib, "w").write(text)
    os.remove(os.path.join(scratch, "crates/run_calls/proofs/Theorems/Examples.antt"))


def main():
    if len(sys.argv) < 2 or not os.path.isfile(sys.argv[1]):
        sys.exit("usage: compare_definitions.py CASES [--chunk N], where CASES is a file that `reference cases` wrote")
    chunk = int(sys.argv[sys.argv.index("--chunk") + 1]) if "--chunk" in sys.argv else 50
    cases = [json.loads(line) for line in open(sys.argv[1]) if line.strip()]
    with tempfile.TemporaryDirectory() as scratch:
        prepare(scratch)
        refused, seconds = check(scratch, lists(cases, chunk))
        failing = []
        if refused:
            which = [i for k in refused for i in range(k, min(k + chunk, len(cases)))]
            failing, again = check(scratch, singles(cases, which))
            seconds += again
    print("cases %d, failing %s, %.1f s" % (len(cases), failing, seconds))
    sys.exit(1 if failing else 0)


main()
