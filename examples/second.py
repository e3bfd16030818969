#!/usr/bin/env python3
"""Runs the rules of an example by the second program: second.py ROOT FOLDER

FOLDER is an example's folder in which its command has been run. The lines of its command that call run_rule say what is run; the reports and
the grids that they wrote are compared with those of the second program. A resumed run is compared as the rest of the run before it: the second
program runs the steps of both at once. A list of changes that was written must lead to the grid too: the second program sets it into the grid
that was given, and must get the grid that was left. What is said of zeros is counted again in the second program's grid. A run by bands of rows is compared
with the full run of the second program; where there is no plan, the grid must be as it was given. What check_one_move says of a rule is held to
what the second program says of it.
"""

import json
import os
import re
import subprocess
import sys
import tempfile


def entries(text):
    return [int(word) for word in text.split()]


def bytes_of(path):
    with open(path, "rb") as file:
        return list(file.read())


def second_says(root, *words, given=None):
    """What the second program writes."""
    command = ["cargo", "run", "--quiet", "--release", "--offline", "--manifest-path", os.path.join(root, "reference/Cargo.toml"), "--", *words]
    return subprocess.run(command, check=True, capture_output=True, input=given).stdout.decode()


def second_run(root, case):
    """What the second program says of a run: the reports, each as its numbers by their names, and the grid."""
    with tempfile.NamedTemporaryFile("w", suffix=".json") as file:
        json.dump(case, file)
        file.flush()
        said = second_says(root, "run", file.name)
    lines = {line.split()[0]: line.split()[1:] for line in said.splitlines()}
    reports = {way: dict(zip(lines[way][0::2], lines[way][1::2])) for way in ("full", "quiet")}
    return reports, [int(word) for word in lines["grid"]]


def call_of(folder, words):
    """The request of a call of run_rule, as a case for the second program."""
    rule, shape, start, steps, _, grid = words[:6]
    values = (words[7:] + ["-"])[0]
    with open(os.path.join(folder, grid)) as file:
        before = entries(file.read())
    return {
        "source": bytes_of(os.path.join(folder, rule)),
        "shape": [int(size) for size in shape.split("x")],
        "grid": before,
        "start": int(start),
        "steps": int(steps),
        "values": [] if values == "-" else bytes_of(os.path.join(folder, values)),
    }


def report_of(text):
    """The numbers of a report by their names."""
    said = dict(re.findall(r"^(reply|list: line|steps done|cells evaluated):? (\d+)", text, re.M))
    return {"number": int(said["reply"]), "line": int(said.get("list: line", 0)), "steps": int(said["steps done"]), "count": int(said["cells evaluated"])}


def grid_left(folder, out, text):
    """The grid that a call wrote, to a file or after its report."""
    if out == "-":
        return entries(re.sub(r"^(bands|pause|zeros): .*$", "", text.split("cells evaluated:")[1].split("\n", 1)[1], flags=re.M))
    with open(os.path.join(folder, out)) as file:
        return entries(file.read())


def zeros_said(rule, shape, field, grid):
    """What is to be said of the zeros of a field of a rule in a grid."""
    names = re.findall(r"^ *(?:const +)?([a-z]\w*) +of ", bytes(rule).decode(), re.M) or ["cell"]
    zeros = [i // len(names) for i, entry in enumerate(grid) if i % len(names) == names.index(field.lower()) and entry == 0]
    said = "zeros: field %s, %d cells in rows 0 to %d" % (field, len(zeros), shape[0] - 1)
    row = len(grid) // len(names) // shape[0]
    return said + (", first in row %d" % (zeros[0] // row) if zeros else "")


def without_options(words):
    """The plain arguments of a call, and the options after them by their names."""
    options = {}
    while words[-2] in ("--rows", "--zeros"):
        options[words[-2]] = words[-1]
        words = words[:-2]
    return words, options


def profiles_agree(root, folder, lines, wrote):
    """Whether the lines of a command that call check_one_move wrote what the second program says of these rules, up to the rule that is missed, and
    where that is the first with the refusal."""
    rules = [line.split("<")[1].strip() for line in lines if line.startswith("check_one_move ")]
    said = [line for line in wrote.splitlines() if re.match("in the profile$|misses rule ", line)]
    seconds = [second_says(root, "profile", given=bytes(bytes_of(os.path.join(folder, rule)))).rstrip() for rule in rules]
    return len(said) == len(seconds) and all(line == second or line.startswith(second + ":") for line, second in zip(said, seconds))


def joined(earlier, later):
    """A run and the one that resumes it, each a case with its report, as one run."""
    case = dict(earlier[0], steps=earlier[0]["steps"] + later[0]["steps"], values=earlier[0]["values"] + later[0]["values"])
    sums = {name: earlier[1][name] + later[1][name] for name in ("steps", "count")}
    return case, dict(later[1], **sums)


def main(root, folder):
    with open(os.path.join(folder, "command")) as file:
        lines = file.readlines()
    # a call whose arguments are not taken says so on standard error, and has no report
    calls = [line.split()[1:] for line in lines if line.startswith("run_rule ") and "2>&1" not in line]
    with open(os.path.join(folder, "wrote")) as file:
        wrote = file.read()
    texts = re.split(r"^(?=reply )", wrote, flags=re.M)[1:]
    if not profiles_agree(root, folder, lines, wrote):
        print("the second program says something else of a rule")
        return 1
    if len(texts) != len(calls):
        print("%d reports of %d calls" % (len(texts), len(calls)))
        return 1
    whole = None
    for words, text in zip(calls, texts):
        words, options = without_options(words)
        field = options.get("--zeros")
        manner, out = words[4], words[6]
        changes = (words[7:] + ["-", "-"])[1]
        run = call_of(folder, words), report_of(text)
        whole = joined(whole, run) if manner == "resume" else run
        way = "full" if manner == "full" else "quiet"
        left = grid_left(folder, out, text)
        if run[1] == {"number": 59, "line": 0, "steps": 0, "count": 0} and "--rows" in options and left == run[0]["grid"]:
            continue
        reports, second_left = second_run(root, whole[0])
        second = {name: int(reports[way][name]) for name in whole[1]}
        if second_left != left or second != whole[1]:
            print("the second program differs: %s, grid %s" % (second, second_left))
            return 1
        said = re.findall("^zeros: .*$", text, re.M)
        if said != ([zeros_said(run[0]["source"], run[0]["shape"], field, second_left)] if field else []):
            print("the zeros of the second program's grid are not those that are told: %s" % said)
            return 1
        path = os.path.join(folder, changes)
        if changes != "-" and os.path.exists(path):
            reached = run[0]["start"] + run[1]["steps"]
            reports, second_left = second_run(root, dict(run[0], start=reached, steps=0, values=bytes_of(path)))
            if reports[way]["number"] != "0" or second_left != left:
                print("the list of changes does not lead to the grid: %s, grid %s" % (reports[way], second_left))
                return 1
    return 0


if __name__ == "__main__":
    sys.exit(main(*sys.argv[1:]))
