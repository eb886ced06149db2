#!/usr/bin/env python3
"""Tries what the pages show: docs/pages.py [--program FILE] [--lines] [PAGE..]

    --program FILE   the built program; else crates/purvilgo/out/purvilgo
    --lines          first writes the line numbers of definitions anew, in links and in what docs/reading.py prints, for
                     files that have moved them
    PAGE..           these pages alone; else README.md, CONTRIBUTING.md, and each page of docs, docs/guide, examples, bench
                     and trials

What is tried of a page:

- A block marked `console` is what a terminal shows. A line that begins with `$ ` is a command, lines that begin with
  `> ` go on with it, and what follows is what it prints, on standard output and standard error together. The commands
  of a page are run in order by one bash, in a fresh folder that holds docs, examples, bench, trials, and of the crates the
  code and the definitions, with the program as `purvilgo`. Each must print what the page says, byte for byte.
- A block after a line `<!-- file: PATH -->` is that file of the repository, byte for byte.
- Any other block of commands (`sh`, `bash`) must say why nobody runs it: `<!-- not run: REASON -->`.
- A link leads to a file that is there; one with `#L20` to a line that has its text, and any other `#` to a heading.
- The tables of rules and answers in the guides have a row for each, with what `purvilgo explain` prints of it.
- The manual page docs/purvilgo.1 is the one that docs/manual.py makes of what `purvilgo help` and `purvilgo help COMMAND` print.

It says what differs, and the status is 1 then; 2 where there is nothing to try with; else 0."""
import argparse
import difflib
import glob
import os
import re
import shutil
import subprocess
import sys
import tempfile

TOP = os.path.dirname(os.path.dirname(os.path.abspath(__file__)))
# The profile: layouts and rules, with commands whose files are left open.
UNTRIED = {"docs/PROFILE.md"}
FENCE = re.compile(r"^```(\w*)\s*$")
NOTE = re.compile(r"^<!-- (file|not run): (.*) -->$")
LINK = re.compile(r"\[((?:[^\[\]]|\[[^\]]*\])*)\]\(([^()\s]+)\)")
COMMAND = re.compile(r"^(\$|purvilgo|rt|\(cd) ")
RULE_ROW = re.compile(r"^\| ([FJG]\d+|AS|DU|CO|RJ) \| (.*) \| (.*) \| (.*) \|$")
RULE_PAGES = ("docs/guide/checking.md", "docs/guide/auditing.md")
END = "\x01"


class Block:
    def __init__(self, language, note, line):
        self.language, self.note, self.line, self.lines = language, note, line, []

    def text(self):
        return "".join(line + "\n" for line in self.lines)


def blocks_of(text):
    """The fenced blocks of a page, each with the note before it."""
    blocks, inside, note = [], None, None
    for number, line in enumerate(text.split("\n"), 1):
        fence = FENCE.match(line)
        if inside is not None:
            if line.rstrip() == "```":
                blocks.append(inside)
                inside, note = None, None
            else:
                inside.lines.append(line)
        elif fence:
            inside = Block(fence[1], note, number)
        elif NOTE.match(line):
            note = NOTE.match(line).groups()
        elif line.strip():
            note = None
    if inside is not None:
        raise ValueError(f"the block of line {inside.line} has no end")
    return blocks


def commands_of(block):
    """The commands of a terminal block, each with its line and what it prints."""
    commands = []
    for number, line in enumerate(block.lines, block.line + 1):
        if line.startswith("$ "):
            commands.append([number, line[2:], ""])
        elif not commands:
            raise ValueError(f"line {number} is printed by no command")
        elif line.startswith("> ") and not commands[-1][2]:
            commands[-1][1] += "\n" + line[2:]
        else:
            commands[-1][2] += line + "\n"
    return commands


def run_all(commands, folder, tools):
    """What each command prints; None for those that were not reached."""
    with open(os.path.join(tools, "script"), "w") as script:
        for _, command, _ in commands:
            script.write(f"{command}\n{{ __status=$?; printf '{END}'; (exit $__status); }} 2>&1\n")
    environment = dict(os.environ, PATH=tools + os.pathsep + os.environ["PATH"], LC_ALL="C", PS4="+ ")
    environment.pop("PURVILGO", None)
    ran = subprocess.run(["bash", "--noprofile", "--norc", os.path.join(tools, "script")], cwd=folder, env=environment,
                         stdin=subprocess.DEVNULL, stdout=subprocess.PIPE, stderr=subprocess.STDOUT, timeout=600)
    printed = ran.stdout.decode("utf-8", "backslashreplace").split(END)[:-1]
    return printed + [None] * (len(commands) - len(printed))


def without_blocks(text):
    """The page's lines outside of blocks."""
    lines, inside = [], False
    for line in text.split("\n"):
        if line.startswith("```"):
            inside = not inside
        elif not inside:
            lines.append(line)
    return lines


def anchors_of(text):
    """What `#` may name in a page."""
    anchors = set()
    for line in without_blocks(text):
        if re.match(r"^#+ ", line):
            name = re.sub(r"[^\w\- ]", "", line.lstrip("#").strip().lower()).replace(" ", "-")
            same, count = name, 0
            while same in anchors:
                count += 1
                same = f"{name}-{count}"
            anchors.add(same)
    return anchors


def link_faults(page, text):
    """The links of a page that lead nowhere."""
    links = 0
    faults = []
    for shown, target in LINK.findall("\n".join(without_blocks(text))):
        if re.match(r"^[a-z]+:", target):
            continue
        links += 1
        path, _, place = target.partition("#")
        file = os.path.normpath(os.path.join(TOP, os.path.dirname(page), path)) if path else os.path.join(TOP, page)
        if not os.path.exists(file):
            faults.append(f"{page}: no such file: {target}")
        elif re.fullmatch(r"L\d+", place):
            lines = open(file, encoding="utf-8").read().split("\n")
            number, name = int(place[1:]), shown.strip("`")
            line = lines[number - 1] if number <= len(lines) else ""
            if not has_name(line, name):
                faults.append(f"{page}: {target} has no {name}: {line[:60]}")
        elif place and place not in anchors_of(open(file, encoding="utf-8").read()):
            faults.append(f"{page}: no such heading: {target}")
    return links, faults


def difference(page, what, wanted, found):
    lines = difflib.unified_diff(wanted.splitlines(True), found.splitlines(True), f"{page}: {what}", "found")
    return "".join(line if line.endswith("\n") else line + "\n\\ no LF at the end\n" for line in lines).rstrip("\n")


def try_page(page, program):
    """Tries a page: how many commands, files and links it has, what is not run and why, and its faults."""
    text = open(os.path.join(TOP, page), encoding="utf-8").read()
    links, faults = link_faults(page, text)
    commands, files, untried = [], 0, []
    for block in blocks_of(text):
        kind, of = block.note or (None, None)
        if block.language == "console":
            commands += commands_of(block)
        elif kind == "file":
            files += 1
            wanted = open(os.path.join(TOP, of), encoding="utf-8").read()
            if wanted != block.text():
                faults.append(difference(page, of, block.text(), wanted))
        elif kind == "not run":
            untried.append(of)
        elif page not in UNTRIED and (block.language in ("sh", "bash") or any(COMMAND.match(line) for line in block.lines)):
            faults.append(f"{page}: line {block.line}: commands that nobody runs")
    for number, line in enumerate(without_blocks(text), 1):
        if page not in UNTRIED and line.startswith("    ") and COMMAND.match(line.strip()):
            faults.append(f"{page}: commands that nobody runs: {line.strip()}")
    if commands:
        with tempfile.TemporaryDirectory() as folder, tempfile.TemporaryDirectory() as tools:
            shutil.copy2(program, os.path.join(tools, "purvilgo"))
            for part in ("docs", "examples", "bench", "trials", "crates"):
                unneeded = shutil.ignore_patterns("out", "proofs", "must-fail", "__pycache__")
                shutil.copytree(os.path.join(TOP, part), os.path.join(folder, part), ignore=unneeded)
            for (number, command, wanted), found in zip(commands, run_all(commands, folder, tools)):
                if found is None:
                    faults.append(f"{page}: line {number}: not reached: {command}")
                elif found != wanted:
                    faults.append(difference(page, f"line {number}: {command}", wanted, found))
    return len(commands), files, links, untried, faults


def has_name(line, name):
    return re.search(rf"(?<![\w.]){re.escape(name)}(?![\w.])", line) and "use " not in line


def mend_lines(page):
    """Writes the line numbers of a page's links to definitions anew, and what docs/reading.py prints."""
    path = os.path.join(TOP, page)
    text = open(path, encoding="utf-8").read()

    def mended(link):
        file = os.path.join(os.path.dirname(path), link[2])
        lines = open(file, encoding="utf-8").read().split("\n") if os.path.exists(file) else []
        define = re.compile(rf"^(abbrev |unfoldable |)pub (record |data |fn |trait |struct |){re.escape(link[1])}\b")
        for number, line in enumerate(lines, 1):
            if define.match(line):
                return f"[`{link[1]}`]({link[2]}#L{number})"
        return link[0]

    text = re.sub(r"\[`(\w+)`\]\(([^()\s#]+)#L\d+\)", mended, text)
    for block in blocks_of(text):
        for _, command, printed in commands_of(block) if block.language == "console" else []:
            if command.startswith("docs/reading.py"):
                found = subprocess.run(["bash", "-c", command], cwd=TOP, stdout=subprocess.PIPE, check=True).stdout.decode()
                text = text.replace(f"$ {command}\n{printed}", f"$ {command}\n{found}")
    with open(path, "w", encoding="utf-8") as out:
        out.write(text)


def manual_faults(program):
    """How the manual page docs/purvilgo.1 differs from the one that docs/manual.py makes of what the program prints as help."""
    made = subprocess.run([os.path.join(TOP, "docs/manual.py"), "--program", program], stdout=subprocess.PIPE, check=True).stdout.decode()
    kept = open(os.path.join(TOP, "docs/purvilgo.1"), encoding="utf-8").read()
    differing = [line for line in difflib.ndiff(kept.splitlines(), made.splitlines()) if line[0] in "-+"]
    return made.count("\n"), [f"docs/purvilgo.1, and docs/manual.py: {line}" for line in differing]


def rule_faults(program):
    """The rules and answers of which the guides' tables have no row, more than one, or another than `purvilgo explain` prints."""
    told, rows, rule = {}, {}, None
    pages = subprocess.run([program, "explain"], stdout=subprocess.PIPE, stderr=subprocess.STDOUT).stdout.decode()
    for line in pages.splitlines():
        if line.startswith("  "):
            told[rule].append(line.partition(": ")[2])
        else:
            rule = line.split(" ")[0]
            told[rule] = []
    for page in RULE_PAGES:
        for line in open(os.path.join(TOP, page), encoding="utf-8").read().split("\n"):
            row = RULE_ROW.match(line)
            if row:
                cells = [LINK.sub(r"\1", cell).replace("`", "") for cell in row.groups()[1:]]
                rows.setdefault(row[1], []).append(cells)
    names = sorted(set(told) | set(rows))
    faults = [f"the tables of the guides have {rows.get(name)} of {name}, and purvilgo explain prints {told.get(name)}"
              for name in names if rows.get(name) != [told.get(name)]]
    return told, faults


def main():
    parser = argparse.ArgumentParser(description=__doc__, formatter_class=argparse.RawDescriptionHelpFormatter)
    parser.add_argument("--program", default=os.path.join(TOP, "crates/purvilgo/out/purvilgo"))
    parser.add_argument("--lines", action="store_true")
    parser.add_argument("pages", nargs="*", metavar="PAGE")
    words = parser.parse_args()
    if not os.access(words.program, os.X_OK):
        print(f"no program {words.program}: README.md says how to build it", file=sys.stderr)
        return 2
    pages = [os.path.relpath(os.path.abspath(page), TOP) for page in words.pages]
    if not pages:
        pages = ["README.md", "CONTRIBUTING.md"]
        for place in ("docs", "docs/guide", "examples", "bench", "trials"):
            pages += sorted(os.path.relpath(page, TOP) for page in glob.glob(os.path.join(TOP, place, "*.md")))
    every_fault, all_commands = [], 0
    for page in pages:
        if words.lines:
            mend_lines(page)
        try:
            commands, files, links, untried, faults = try_page(page, words.program)
        except ValueError as error:
            commands, files, links, untried, faults = 0, 0, 0, [], [f"{page}: {error}"]
        all_commands += commands
        every_fault += faults
        print(f"{page}: {commands} commands, {files} files, {links} links" + "".join(f"; not run: {why}" for why in untried))
    if not words.pages:
        lines, faults = manual_faults(words.program)
        every_fault += faults
        print(f"docs/purvilgo.1: {lines} lines of help")
        told, faults = rule_faults(words.program)
        every_fault += faults
        print(f"{', '.join(RULE_PAGES)}: {len(told)} rules and answers")
    for fault in every_fault:
        print(fault)
    if not words.pages and not all_commands:
        print("no page has a command", file=sys.stderr)
        return 2
    print(f"{len(pages)} pages, {all_commands} commands, {len(every_fault)} faults")
    return 1 if every_fault else 0


sys.exit(main())
