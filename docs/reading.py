#!/usr/bin/env python3
"""Lists the definitions that a contract rests on, from the outermost in: docs/reading.py [FILE FUNCTION]

Without words it is the contract of `serve` in crates/cwr_desk/src/serving.rt. Each line is a file of definitions and,
by line number, those of its definitions that the contract names, or that one of these names. The last lines are what they use
of the toolchain's libraries, the usual signs and functions apart (`Prelude`)."""
import glob
import os
import re
import sys

TOP = os.path.dirname(os.path.dirname(os.path.abspath(__file__)))
DEFINITION = re.compile(r"^(?:abbrev |unfoldable |)pub (?:record |data |)(\w+)")
IMPORT = re.compile(r"^\s*(?:ghost )?use ([\w.]+?)\.\{(.*)\};?$")
MODULE = re.compile(r"^\s*(?:ghost )?use ([\w.]+) as (\w+);?$")
OURS = re.compile(r"^Rattle\.(\w+)\.specs\.(.+)$")


def imports_of(lines):
    """What each name stands for: a name of a module, or a module."""
    names, modules = {}, {}
    for line in lines:
        found, module = IMPORT.match(line), MODULE.match(line)
        if found:
            for word in found[2].split(","):
                name, _, local = word.strip().partition(" as ")
                names[local or name] = (found[1], name)
        elif module:
            modules[module[2]] = module[1]
    return names, modules


class Specs:
    """Every definition of a folder of specs: where it is, and what it says."""

    def __init__(self):
        self.text, self.line, self.path, self.uses, self.owner = {}, {}, {}, {}, {}
        for path in sorted(glob.glob(os.path.join(TOP, "crates/*/specs/*.antt"))):
            crate, module = path.split(os.sep)[-3], os.path.basename(path)[:-5]
            here = f"Rattle.{crate}.specs.{module}"
            lines = open(path, encoding="utf-8").read().split("\n")
            self.uses[here] = imports_of(lines)
            self.path[here] = os.path.relpath(path, TOP)
            current = None
            for number, line in enumerate(lines, 1):
                start = DEFINITION.match(line)
                if start:
                    current = (here, start[1])
                    self.line[current], self.text[current] = number, line[start.end():]
                elif current and not line.startswith(("--", "use ")):
                    self.text[current] += "\n" + line.split("--")[0]
            for definition in [d for d in self.text if d[0] == here]:
                for word in re.findall(r"^  (\w+) :", self.text[definition], re.M):
                    self.owner.setdefault((here, word), definition)

    def named_in(self, text, here, names, modules):
        """The definitions that a text names, in its order, and what it names of the toolchain's libraries."""
        ours, others = [], []
        for module, name in re.findall(r"(?:(\w+)\.)?([A-Za-z_]\w*)", text):
            if module in modules:
                target = (modules[module], name)
            elif (here, name) in self.text or (here, name) in self.owner:
                target = (here, name)
            elif name in names:
                target = names[name]
            else:
                continue
            target = target if target in self.text else self.owner.get(target, target)
            if target in self.text:
                ours.append(target)
            elif not OURS.match(target[0]) or target[0].startswith("Rattle.std."):
                others.append(target)
        return ours, others


def contract_of(path, function):
    """A function's head, up to its body, and what its file imports."""
    lines = open(os.path.join(TOP, path), encoding="utf-8").read().split("\n")
    for number, line in enumerate(lines):
        if re.match(rf"^\s*pub fn {function}\b", line):
            body = next(n for n in range(number, len(lines)) if lines[n].strip() == "{")
            return "\n".join(lines[number:body]), imports_of(lines)
    sys.exit(f"{path} has no pub fn {function}")


def main(path="crates/cwr_desk/src/serving.rt", function="serve"):
    specs = Specs()
    text, uses = contract_of(path, function)
    todo, library = specs.named_in(text, None, *uses)
    seen, files = set(), {}
    while todo:
        definition = todo.pop(0)
        if definition in seen:
            continue
        seen.add(definition)
        files.setdefault(definition[0], []).append(definition)
        more, others = specs.named_in(specs.text[definition], definition[0], *specs.uses[definition[0]])
        todo += more
        library += others
    for module, found in files.items():
        by_line = sorted(found, key=specs.line.get)
        print(f"{specs.path[module]}: " + ", ".join(f"{specs.line[d]} {d[1]}" for d in by_line))
    print(f"{len(seen)} definitions in {len(files)} files")
    used = {}
    for module, name in library:
        if not module.endswith(".Prelude"):
            used.setdefault(re.sub(r"^Rattle\.|\.specs(?=\.)", "", module), set()).add(name)
    for module in sorted(used):
        print(f"{module}: " + ", ".join(sorted(used[module])))


main(*sys.argv[1:])
