#!/usr/bin/env python3
"""Counts the lines of definitions that must be believed: those that the contracts of the public calls lead to.

    believed.py [--crate NAME] [--inner] [--names] [ROOT]

It begins with the functions that crate NAME (default `cellang`) exports, follows each name in their `ensures` through the `use` lines to its definition in a
.antt file, and from there each name that the definition uses, in all crates under ROOT/crates. A record, a data type, an `abbrev`, an `unfoldable` and a plain
function count alike, with type and clauses; a definition inside `module _ (..) where` brings the line with the module's parameters. A theorem is reached only
if a definition uses it. Names of fields behind a dot are not looked up. A name that a definition binds itself counts as used if the file also declares or
imports it: so the count can be too high where names are shared, and is never too low.

It prints the lines by crate and file; the files that also hold text that is not reached, theorems (plain declarations) apart from other definitions; and
the total. Comments, blank lines and `use` lines are not counted. Beside the total stand the lines of the contracts themselves, the structs and enums of the code
that contracts and definitions name, and how many names of the toolchain's library are used.

--inner begins also with the `pub` functions of the crate that it does not export. --names lists the definitions that are reached.
"""
import argparse
import os
import re
import sys

# ---- the text of a .antt file

TOKEN = re.compile(
    r"""
    "(?:\\.|[^"\\])*"                               # a string
  | (?:--(?=\s|$)|//)[^\n]*                         # a comment
  | \.[^\s(){}\[\],;."]+                            # a field
  | [^\s(){}\[\],;."]+(?:\.[^\s(){}\[\],;."]+)*     # a name, perhaps with its module's in front, or with fields behind it
""",
    re.VERBOSE,
)
SIGNATURE = re.compile(r"(?:(abbrev|unfoldable)\s+)?(?:pub\s+)?([^\s(){}:]+)\s*:(?:\s|$)")
TYPE = re.compile(r"(?:pub\s+)?(record|data)\s+([^\s(){}:]+)")
LABEL = re.compile(r"^\s+(?:pub\s+)?[^\s(){}:]+\s*:(?=\s)")
RULES = re.compile(r"(?:pub\s+)?ruleset\s+(\S+)")


def is_text(line):
    """The line is neither blank nor a comment."""
    return bool(line.strip()) and not re.match(r"\s*(--(\s|-|$)|//)", line)


def names_in(lines):
    """The names in lines: no strings, comments and fields."""
    return [t for t in TOKEN.findall("\n".join(lines)) if not t.startswith(('"', "--", "//", "."))]


def items_of(lines):
    """Numbered lines in items: each begins at the least indent, and has what is indented more or closes a bracket."""
    lines = [(n, line) for n, line in lines if is_text(line)]
    least = min((len(line) - len(line.lstrip()) for _, line in lines), default=0)
    items = []
    for n, line in lines:
        if not items or not line[least].isspace() and line[least] not in ")}]":
            items.append([])
        items[-1].append((n, line))
    return items


def split_at_where(item):
    """The lines of an item up to the first that ends in `where`, and those after it."""
    for k, (_, line) in enumerate(item):
        if re.search(r"(^|\s)where$", line.rstrip()):
            return item[: k + 1], item[k + 1 :]
    return item, []


class Declaration:
    """A definition or a theorem: its numbered lines, and those of the `module` lines around it."""

    def __init__(self, source, name, kind, outer):
        self.source, self.name, self.kind = source, name, kind
        self.text = list(outer)

    def is_theorem(self):
        return self.kind == "plain"

    def lines(self):
        return {n for n, _ in self.text}

    def uses(self):
        """The names in it, without `unfolding` lines and the names of a record's own fields."""
        lines = [line for _, line in self.text if not line.strip().startswith("unfolding ")]
        return names_in([LABEL.sub("", line) for line in lines] if self.kind == "record" else lines)


class Source:
    """A .antt file: its declarations by name, constructors among them, and where its other names come from."""

    def __init__(self, path, crate, text):
        self.path, self.crate = path, crate
        self.imports, self.modules = {}, {}
        self.own, self.declarations, self.fixities = {}, [], []
        lines = list(enumerate(text.split("\n"), 1))
        self.total = {n for n, line in lines if is_text(line) and not re.match(r"\s*(pub\s+)?(use|mod)\s", line)}
        self.read(lines, [], None)

    def read(self, lines, outer, manner):
        """Reads the declarations of a file, of a module or of a `mutual` block."""
        current = None
        for item in items_of(lines):
            first = item[0][1].strip()
            if re.match(r"(pub\s+)?use\s", first):
                read_use(" ".join(line.strip() for _, line in item), self.imports, self.modules)
            elif first.startswith("infix"):
                self.fixities.append((first.split()[2:], item))
            elif first.startswith("module "):
                head, inner = split_at_where(item)
                self.read(inner, outer + head, None)
            elif re.match(r"((abbrev|unfoldable)\s+)?mutual$", first):
                self.read(item[1:], outer + item[:1], first.removesuffix("mutual").strip())
            elif not re.match(r"(pub\s+)?mod\s", first):
                current = self.declare(item, first, outer, manner, current)

    def declare(self, item, first, outer, manner, current):
        """Enters a declaration, or adds a clause to the one before it."""
        type_, signature, rules = TYPE.match(first), SIGNATURE.match(first), RULES.match(first)
        if type_:
            current = self.enter(type_.group(2), type_.group(1), outer)
            for field in items_of(split_at_where(item)[1] if type_.group(1) == "data" else []):
                for constructor in field[0][1].split(":")[0].split():
                    self.own[constructor] = current
        elif signature:
            current = self.enter(signature.group(2), signature.group(1) or manner or "plain", outer)
        elif rules:
            current = self.enter(rules.group(1), "plain", outer)
        elif current is None:
            raise ValueError(f"{self.path}:{item[0][0]}: a clause of nothing")
        current.text += item
        return current

    def enter(self, name, kind, outer):
        d = Declaration(self, name, kind, outer)
        self.declarations.append(d)
        self.own[name] = d
        return d

    def origin(self, name):
        """The declaration that a name means here, or the module that it comes from with its name there; None for a name that is neither."""
        if "." in name:
            module, last = name.split(".")[:2]
            return (self.modules[module], last) if module in self.modules else self.origin(module)
        for found in (self.own, self.imports):
            if name in found:
                return found[name]
        for found in (self.own, self.imports):
            for full in found:
                # an operator such as if◌then◌else◌, known by its first word
                if "◌" in full and name == full.strip("◌").split("◌")[0]:
                    return found[full]
        return None


def read_use(line, imports, modules):
    """Enters the names of a `use` line: those in braces, or the module by its last name or by another one."""
    path = re.sub(r"^\s*(ghost\s+|pub\s+)*use\s+", "", line).rstrip("; ")
    found = re.match(r"(\S+?)\.\{(.*)\}$", path)
    if found:
        for words in (entry.split() for entry in found.group(2).split(",")):
            if words:
                imports[words[-1]] = (found.group(1), words[0])
    else:
        words = path.split()
        modules[words[2] if len(words) == 3 else words[0].split(".")[-1]] = words[0]


# ---- the text of a .rt file


def up_to_semicolon(lines, k):
    """The lines from k up to the one that ends in a semicolon, as one."""
    taken = []
    for line in lines[k:]:
        taken.append(line.strip())
        if line.rstrip().endswith(";"):
            break
    return " ".join(taken)


class Code:
    """A .rt file: its public functions (contract and signature), its public types, and where its other names come from."""

    own = {}
    origin = Source.origin

    def __init__(self, path, crate, text):
        self.path, self.crate = path, crate
        self.imports, self.modules = {}, {}
        self.uses, self.passed, self.functions, self.types = {}, {}, {}, {}
        lines = text.split("\n")
        for k, line in enumerate(lines):
            if line.startswith("ghost use "):
                read_use(up_to_semicolon(lines, k), self.imports, self.modules)
            elif re.match(r"(pub )?use ", line):
                found = re.match(r"(.*?)(?:::)?\{(.*)\}$|(.*)$", up_to_semicolon(lines, k).split("use ", 1)[1].rstrip("; "))
                for name in (found.group(2) or "").split(",") if found.group(2) else [None]:
                    if name is None or name.strip():
                        words = found.group(3).split("::") if name is None else [*found.group(1).split("::"), *name.strip().split("::")]
                        (self.passed if line.startswith("pub") else self.uses)[words[-1]] = words
            elif re.match(r'pub (extern "C" )?fn ', line):
                self.read_function(lines, k)
            elif re.match(r"pub (struct|enum) ", line):
                self.read_type(lines, k)

    def read_function(self, lines, k):
        name = re.search(r"fn (\w+)", lines[k]).group(1)
        contract, signature, open_ = [], [], 0
        for line in lines[k:]:
            # a clause goes on until its braces are closed
            if open_ or re.match(r"\s+(ensures|requires)\b", line):
                contract.append(line)
                open_ += line.count("{") - line.count("}")
                continue
            signature.append(line)
            if line.endswith("{") and not line.startswith("    "):
                break
        self.functions[name] = (contract, "\n".join(signature))

    def read_type(self, lines, k):
        name = re.search(r"(?:struct|enum) (\w+)", lines[k]).group(1)
        self.types[name] = []
        for line in lines[k:]:
            self.types[name] += [line] if is_text(line) else []
            if re.search(r"(^\}|;|\})$", line):
                break


# ---- the crates


class Library:
    def __init__(self, root):
        self.root, self.sources, self.codes = root, {}, {}
        self.reached, self.types, self.outside, self.missing = {}, {}, set(), set()
        crates = os.path.join(root, "crates")
        self.names = sorted(os.listdir(crates))
        for crate in self.names:
            for folder, _, files in os.walk(os.path.join(crates, crate)):
                for name in sorted(files):
                    self.load(crate, os.path.join(folder, name))

    def load(self, crate, path):
        parts = os.path.relpath(path, os.path.join(self.root, "crates", crate)).split(os.sep)
        kind = {".antt": Source, ".rt": Code}.get(os.path.splitext(path)[1])
        if kind and (parts[0] in ("specs", "src") or parts[:2] == ["proofs", "Theorems"]):
            with open(path, encoding="utf-8") as file:
                loaded = kind(os.path.relpath(path, self.root), crate, file.read())
            key = (crate, os.path.splitext(".".join(parts))[0])
            (self.codes if kind is Code else self.sources)[key] = loaded

    # ---- definitions

    def reach(self, file, names):
        """Reaches what names of a file mean, and from there on."""
        waiting = [(file, name) for name in names]
        while waiting:
            source, name = waiting.pop()
            found = source.origin(name)
            if isinstance(found, tuple):
                found = self.imported(source, *found)
            if found is not None and found not in self.reached:
                self.reached[found] = True
                waiting += [(found.source, used) for used in found.uses()]

    def imported(self, source, module, name):
        """The declaration that an imported name means; None for a type of the code, and for a name of the toolchain's library."""
        found = re.match(r"Rattle\.(\w+)\.(.*)$", module)
        if not found or found.group(1) not in self.names:
            self.outside.add((module, name))
        elif ".declared." in module:
            self.reach_type(found.group(1), module.removesuffix(".TheVariants").split(".")[-1])
        elif found.groups() in self.sources and name in self.sources[found.groups()].own:
            return self.sources[found.groups()].own[name]
        else:
            self.missing.add(f"{source.path}: {module}.{name}")
        return None

    # ---- the code

    def reach_type(self, crate, name):
        """A struct or an enum, and those that its fields name."""
        code = next((c for c in self.codes.values() if c.crate == crate and name in c.types), None)
        if code is None:
            self.missing.add(f"{crate}: type {name}")
        elif (crate, name) not in self.types:
            self.types[crate, name] = code.types[name]
            self.reach_types(code, "\n".join(code.types[name]))

    def reach_types(self, code, text):
        """The types that a text of a file names."""
        for name in set(re.findall(r"\b[A-Z]\w*", text)):
            if name in code.types:
                self.reach_type(code.crate, name)
            elif name in code.uses:
                self.reach_type(code.crate if code.uses[name][0] == "crate" else code.uses[name][0], name)

    def exported(self, crate):
        """The functions that a crate exports, each with its file."""
        library = self.codes[crate, "src.lib"]
        found = {name: self.follow(crate, "src", path) for name, path in library.passed.items()}
        found.update({name: library for name in library.functions})
        return {name: code for name, code in found.items() if code}

    def follow(self, crate, inside, path):
        """The file that has the function at the end of a `pub use` path, which is in a folder of modules of a crate; None for a type."""
        module = f"{inside}.{path[0]}"
        if (crate, module) not in self.codes:
            crate, module = path[0], ".".join(["src", *path[1:-1]]) if path[1:-1] else "src.lib"
        code = self.codes[crate, module]
        if path[-1] in code.passed:
            return self.follow(crate, module.removesuffix(".lib"), code.passed[path[-1]])
        return code if path[-1] in code.functions else None

    def begin(self, code, name):
        """Reaches what the contract of a function leads to; its lines."""
        contract, signature = code.functions[name]
        parameters = set(re.findall(r"(\w+)\s*:", signature))
        self.reach(code, [n for n in names_in(contract) if n.split(".")[0] not in parameters])
        self.reach_types(code, signature.replace('"C"', ""))
        return contract


def count(root, crate, inner):
    """The library with everything reached, and the contract of each function that it begins with."""
    library = Library(root)
    functions = library.exported(crate)
    if inner:
        for code in library.codes.values():
            functions.update({name: code for name in code.functions if code.crate == crate})
    return library, {name: library.begin(code, name) for name, code in sorted(functions.items())}


# ---- what is printed


def lines_reached(library):
    """The numbers of the lines reached, by file."""
    by = {}
    for d in library.reached:
        by.setdefault(d.source, set()).update(d.lines())
        for names, item in d.source.fixities:
            if d.name in names:
                by[d.source].update(n for n, _ in item)
    return by


def lines_left(source, reached, library):
    """How many lines of a file that are not reached belong to theorems, and how many to other definitions."""
    theorems, others = set(), set()
    for d in source.declarations:
        if d not in library.reached:
            (theorems if d.is_theorem() else others).update(d.lines() - reached)
    return len(theorems), len(others - theorems)


def print_files(library, by, with_names):
    print("Lines reached, by crate and file (of the lines of the file):")
    for crate in sorted({s.crate for s in by}):
        mine = sorted((s for s in by if s.crate == crate), key=lambda s: s.path)
        print(f"  {crate}: {sum(len(by[s]) for s in mine)}")
        for s in mine:
            print(f"    {s.path.split(os.sep, 2)[2]}: {len(by[s])} of {len(s.total)}")
            if with_names:
                print("      " + ", ".join(d.name for d in s.declarations if d in library.reached))
    print("Files that also hold text that is not reached (lines reached; of theorems; of other definitions):")
    for s in sorted(by, key=lambda s: s.path):
        left = lines_left(s, by[s], library)
        if any(left):
            print(f"  {s.path}: {len(by[s])}; {left[0]}; {left[1]}")


def print_totals(library, contracts, by):
    bare = [name for name, lines in contracts.items() if not lines]
    asking = [name for name, lines in contracts.items() if any("requires" in line for line in lines)]
    for what, names in (("without a contract", bare), ("with a precondition", asking), ("not found", sorted(library.missing))):
        if names:
            print(f"{what}: {', '.join(names)}")
    print(f"contracts: {len(contracts)} public functions, {sum(len(lines) for lines in contracts.values())} lines")
    print(f"types of the code: {len(library.types)}, {sum(len(lines) for lines in library.types.values())} lines")
    print(f"names of the toolchain's library: {len(library.outside)}")
    total = sum(len(lines) for lines in by.values())
    print(f"definitions: {len(library.reached)}, {total} lines in {len(by)} files of {len({s.crate for s in by})} crates")


def main(arguments):
    parser = argparse.ArgumentParser(description=__doc__.split("\n")[0])
    parser.add_argument("--crate", default="cellang")
    parser.add_argument("--inner", action="store_true")
    parser.add_argument("--names", action="store_true")
    parser.add_argument("root", nargs="?", default=os.path.dirname(os.path.dirname(os.path.abspath(__file__))))
    given = parser.parse_args(arguments)
    library, contracts = count(given.root, given.crate, given.inner)
    by = lines_reached(library)
    print_files(library, by, given.names)
    print_totals(library, contracts, by)


if __name__ == "__main__":
    main(sys.argv[1:])
