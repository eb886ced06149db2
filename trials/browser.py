#!/usr/bin/env python3
"""Looks at the pages of `check --html` and `summary --html` in headless Chromium: trials/browser.py [OPTION..]

    --program FILE     the built program; else crates/purvilgo/out/purvilgo
    --made COMMAND     a command that makes the pages in the program's place: `COMMAND check --html FILE` and the like
    --browser FILE     Chromium; else the first of chromium, chromium-browser and google-chrome on the path
    --no-tidy          leaves out `tidy -e`, which is also left out where it is not at hand
    --only WORD        only the pages of files with this word in their names
    --selftest         alters pages, and fails where that is not noticed
    --large            a page of 300,000 faults instead; counts them, and reads some
    --pictures         makes docs/check-page.png and docs/summary-page.png again, and looks at nothing

Each page is opened from the disk. What the document shows, and where on the screen, is compared with `check --json`,
`summary --json`, `history --json` and `explain` of the program, and with the bytes of the file. It says what differs. The
status is 1 then; 2 where there is nothing to try with; else 0."""
import argparse
import collections
import glob
import json
import os
import re
import shlex
import shutil
import subprocess
import sys
import tempfile
import time

import chromium
import page_expected
import page_files

HERE = os.path.dirname(os.path.abspath(__file__))
TOP = os.path.dirname(HERE)
EXAMPLES = os.path.join(TOP, "examples")
WIDE, NARROW, PAPER = 1200, 420, 718  # pixels; the last is A4 within margins of a centimetre
# What a page may consist of: elements, and the attributes of each.
ELEMENTS = {"html": "lang", "head": "", "meta": "charset name content http-equiv", "title": "", "style": "", "body": "", "main": "", "h1": "", "h2": "id",
            "h3": "", "h4": "id", "p": "class", "span": "class", "a": "href", "dl": "id", "dt": "", "dd": "", "table": "", "thead": "", "tbody": "",
            "tr": "", "th": "scope class", "td": "class", "details": "open", "summary": "", "section": "", "pre": "class tabindex", "code": "", "mark": "id",
            "b": "", "small": "", "svg": "viewbox preserveaspectratio role aria-label", "rect": "width height"}

# What the document shows. A byte that stands by its number is told as ‹C3›, so that no text is taken for it.
SEE = r"""
(() => {
  const all = (e, s) => [...e.querySelectorAll(s)], text = e => e && e.textContent;
  const cells = n => n.nodeType === 3 ? [...n.data] : n.localName === 'b' ? ['‹' + n.textContent + '›'] : [...n.childNodes].flatMap(cells);
  const told = e => e && cells(e).join('');
  const links = e => all(e, 'a').map(a => [text(a), a.getAttribute('href')]);
  const pairs = e => all(e, ':scope > dt').map(t => [text(t), told(t.nextElementSibling)]);
  const whole = new CSSStyleSheet(); whole.replaceSync('section { content-visibility: visible !important }');
  document.adoptedStyleSheets = [whole];
  const ids = new Map(); for (const e of all(document, '[id]')) ids.set(e.id, (ids.get(e.id) || 0) + 1);
  const lines = code => {
    const seen = {line: told(code), marks: [], bytes: []}; let place = 1;
    const walk = (n, mark) => {
      if (n.nodeType === 3) { place += [...n.data].length; return }
      if (n.localName === 'b') { seen.bytes.push([place, n.textContent]); place++; return }
      const from = place; for (const m of n.childNodes) walk(m);
      if (n.localName === 'mark') seen.marks.push([from, place - from, told(n), n.id]); };
    walk(code); return seen; };
  const items = s => all(s, 'h4, p').map(e => [e.localName, e.id, told(e), links(e)]);
  const bars = t => all(t, 'tbody tr').map(r => [told(r.querySelector('th')), text(r.querySelector('td.number')),
    r.querySelector('svg').getAttribute('aria-label'), r.querySelector('svg').getAttribute('viewBox'), r.querySelector('rect').getAttribute('width')]);
  const foreign = all(document, '*').flatMap(e => [...e.attributes].map(a => [e.localName, a.name.toLowerCase(), a.value]).concat([[e.localName, '', '']]));
  return {
    title: document.title, language: document.documentElement.lang, mode: document.compatMode, characters: document.characterSet,
    policy: all(document, 'meta[http-equiv]').map(m => m.content), h1: told(document.querySelector('h1')),
    outcome: told(document.querySelector('.outcome')), facts: pairs(document.querySelector('main > dl')),
    headings: all(document, 'h2').map(h => [text(h), h.id]),
    rules: all(document, 'tr').filter(r => r.querySelector('details')).map(r => [text(r.querySelector('th')), text(r.querySelector('summary')),
      pairs(r.querySelector('dl')), r.querySelector('dl').id, links(r)]),
    sections: all(document, 'section').map(s => [told(s.querySelector('h3')), 
      s.querySelector('pre code') ? lines(s.querySelector('pre code')) : null, items(s)]),
    tables: all(document, 'table').filter(t => !t.querySelector('details')).map(t => [all(t, 'thead th').map(text), bars(t)]),
    links_to_nothing: all(document, 'a').map(a => a.getAttribute('href')).filter(h => !h || h[0] !== '#' || !ids.has(h.slice(1))),
    names_twice: [...ids].filter(i => i[1] > 1).map(i => i[0]),
    elements: [...new Set(foreign.map(f => f[0] + ' ' + f[1]))], values: [...new Set(foreign.map(f => f[2]))].filter(v => !/^[ -~]*$/.test(v)),
    styles: all(document, 'style').length, notes: all(document, 'main > p.dim').map(told).join(' '),
    body: [...document.querySelector('main').childNodes].filter(n => n.nodeType !== 3 || n.data.trim()).map(n => n.localName || n.data) };
})()
"""
# Where it stands on the screen: marks and bytes by row and column, bars by their width.
MEASURE = r"""
(() => {
  const all = (e, s) => [...e.querySelectorAll(s)];
  const boxes = all(document, 'pre code').map(code => {
    const probe = document.createElement('span'); probe.textContent = '0'.repeat(40); probe.style.position = 'absolute'; probe.style.whiteSpace = 'pre';
    code.append(probe); const column = probe.getBoundingClientRect().width / 40; probe.remove();
    const box = code.getBoundingClientRect(), row = parseFloat(getComputedStyle(code).lineHeight), ruler = getComputedStyle(code, '::before');
    let off = 0;
    const place = r => { const x = (r.left - box.left) / column; off = Math.max(off, Math.abs(x - Math.round(x)));
      return Math.floor((r.top + r.height / 2 - box.top) / row) * 80 + Math.round(x) + 1 };
    const marks = all(code, 'mark').map(m => { const parts = [...m.getClientRects()].filter(r => r.width >= 1).map(r => [place(r), r.width / column]);
      return parts.length ? [parts[0][0], Math.round(parts.reduce((sum, p) => sum + p[1], 0))] : null });
    const bytes = all(code, 'b').map(b => { const r = b.getBoundingClientRect(); return [place(r), 5 * Math.round(20 * r.width / column)] });
    return {rows: Math.round(box.height / row), marks, bytes, straight: off < 0.12,
      ruler: ruler.content.split('" /')[0].replaceAll('"', '').replaceAll('\\a ', '\n'),
      same_letters: ruler.font === getComputedStyle(code).font} });
  const bars = all(document, 'svg').map(s => { const r = s.querySelector('rect');
    return [r.getAttribute('width'), Math.round(BAR * r.getBoundingClientRect().width / s.clientWidth)] }).filter(b => Math.abs(b[0] - b[1]) > 4);
  return {boxes, bars, wider_than_the_window: document.documentElement.scrollWidth > innerWidth};
})()
""".replace("BAR", str(page_expected.BAR))
# Rows that paper would cut off.
CUT_OFF = """[...document.querySelectorAll('pre code')].filter(c => c.getBoundingClientRect().right > document.documentElement.clientWidth
  || c.getBoundingClientRect().bottom > c.parentNode.getBoundingClientRect().bottom + 1).length"""
# Whether what a link leads to is unfolded, and in the window and in its box, once the browser has drawn it.
IN_VIEW = """(async id => { location.hash = ''; location.hash = '#' + id;
  for (let drawn = 0; drawn < 3; drawn++) await new Promise(requestAnimationFrame);
  const e = document.getElementById(id), r = e.getBoundingClientRect(), d = e.closest('details'), p = e.closest('pre');
  const b = p ? p.getBoundingClientRect() : {top: 0, left: 0, bottom: innerHeight, right: innerWidth};
  return (!d || d.open) && r.height > 0 && r.top >= Math.max(0, b.top) && r.bottom <= Math.min(innerHeight, b.bottom)
    && r.left >= b.left && r.right <= b.right })"""


class Makers:
    """The program, and what makes the pages."""

    def __init__(self, program, made):
        self.program, self.made = os.path.abspath(program), shlex.split(made) if made else None

    def answer(self, folder, *words):
        """Status and standard output of the program."""
        ran = subprocess.run([self.program, *words], cwd=folder, stdin=subprocess.DEVNULL, stdout=subprocess.PIPE, stderr=subprocess.PIPE)
        return ran.returncode, ran.stdout

    def page(self, folder, command, name):
        """The status of the command, and its page."""
        ran = subprocess.run([*(self.made or [self.program]), command, "--html", name], cwd=folder, stdin=subprocess.DEVNULL,
                             stdout=subprocess.PIPE, stderr=subprocess.PIPE)
        if not ran.stdout:
            raise SystemExit(f"{command} --html {name}: status {ran.returncode}, and no page: {ran.stderr.decode()[-500:]}")
        return ran.returncode, ran.stdout

    def rules(self):
        """Of each rule its title, and what `explain` prints of it, as pairs."""
        pages = {}
        for line in self.answer(None, "explain")[1].decode().splitlines():
            if line.startswith("  "):
                pages[rule][1].append(line.strip().split(": ", 1))
            else:
                rule, title = line.split(" ", 1)
                pages[rule] = title, []
        return pages


# ---- What a page shows

def differences(wanted, found, where=""):
    """The places where two values of JSON differ, with what stands there."""
    if isinstance(wanted, dict) and isinstance(found, dict):
        return [text for key in wanted for text in differences(wanted[key], found.get(key), f"{where} {key}")]
    if isinstance(wanted, list) and isinstance(found, list):
        texts = [text for at, pair in enumerate(zip(wanted, found), 1) for text in differences(*pair, f"{where} {at}")]
        return texts + ([f"{where}: {len(found)} of them, expected {len(wanted)}"] if len(wanted) != len(found) else [])
    if wanted == found:
        return []
    if isinstance(wanted, str) and isinstance(found, str) and len(wanted) > 200:
        at = next((at for at, pair in enumerate(zip(wanted, found)) if pair[0] != pair[1]), min(len(wanted), len(found)))
        return [f"{where}: behind {at} characters {found[at:at + 60]!r}, expected {wanted[at:at + 60]!r}"]
    return [f"{where}: {found!r}, expected {wanted!r}"]


class Looker:
    """Looks at pages in the browser."""

    def __init__(self, browser, folder, tidy):
        self.browser, self.tidy, self.path = browser, tidy, os.path.join(folder, "page.html")

    def open(self, page):
        with open(self.path, "wb") as file:
            file.write(page)
        self.browser.width(WIDE)
        return self.browser.open(self.path)

    def see(self):
        """What the document shows; of elements and attributes those that no page has, and of the signs those that are explained."""
        seen = self.browser.evaluate(SEE)
        known = {f"{element} {attribute}" for element, attributes in ELEMENTS.items() for attribute in ["", *attributes.split()]}
        return {**seen, "elements": sorted(set(seen["elements"]) - known), "signs": [sign for sign in page_expected.SIGNS if sign in seen["notes"]]}

    def look(self, page, expected, boxes=(), tidied=True):
        """What is wrong with a page, as texts."""
        self.open(page)
        faults = ["on the console: " + text for text in self.browser.complaints()]
        faults += ["asks for " + url for url in self.browser.requests()[1:]]
        faults += tidy_faults(self.path) if self.tidy and tidied else []
        if not (page.startswith(b"<!DOCTYPE html>\n") and page.endswith(b"</html>\n")):
            faults.append("does not begin and end as a page")
        faults += differences(expected, self.see(), "shown,")
        if faults:
            return faults
        for pixels in (WIDE, NARROW):
            self.browser.width(pixels)
            measured = {"boxes": page_expected.boxes_measured(boxes), "bars": [], "wider_than_the_window": False}
            faults += differences(measured, self.browser.evaluate(MEASURE), f"{pixels} pixels wide,")
        self.browser.width(WIDE)
        faults += self.heard(expected) + self.linked(expected)
        self.browser.width(PAPER, "print")
        cut = self.browser.evaluate(CUT_OFF)
        return faults + ([f"on paper {cut} boxes are cut off"] if cut else [])

    def linked(self, expected):
        """Links that do not show what they lead to: to rules, to the last faults, and to a byte."""
        names = [row[3] for row in expected["rules"][:3]] + [item[1] for section in expected["sections"] for item in section[2] if item[1]][-2:]
        if any(mark[3] for section in expected["sections"] if section[1] for mark in section[1]["marks"]):
            names.append("byte")
        self.browser.evaluate("document.adoptedStyleSheets = []")  # what is out of view is not laid out again
        return [f"#{name} is not in view" for name in names if not self.browser.evaluate(f"{IN_VIEW}({name!r})")]

    def heard(self, expected):
        """What a screen reader is given: each mark told, and no ruler."""
        nodes = self.browser.read_aloud()
        marks = sum(len(section[1]["marks"]) for section in expected["sections"] if section[1])
        marks += bool(expected["sections"])  # the one that explains the signs
        told = sum(role == "StaticText" and text.strip() == "from here:" for role, text in nodes)
        return [f"{told} marks are read aloud, and not {marks}"] * (told != marks) + ["the ruler is read aloud"] * any("....:" in text for _, text in nodes)


def tidy_faults(path):
    ran = subprocess.run(["tidy", "-e", "-q", "-utf8", path], stdout=subprocess.PIPE, stderr=subprocess.STDOUT)
    return [f"tidy: {line}" for line in ran.stdout.decode("utf-8", "replace").splitlines()[:5] or ["no text"]] if ran.returncode else []


# ---- The trials

Page = collections.namedtuple("Page", "name status wanted_status page expected boxes")


def check_page(makers, rules, folder, name):
    with open(os.path.join(folder, name), "rb") as file:
        text = file.read()
    wanted, report = makers.answer(folder, "check", "--json", name)
    status, page = makers.page(folder, "check", name)
    return Page(name, status, wanted, page, *page_expected.check_expected(name, text, json.loads(report), rules))


def summary_page(makers, folder, name):
    """The page of a register, and how its member `most_entries` differs from the entries themselves."""
    wanted, counts = makers.answer(folder, "summary", "--json", name)
    counts, most = json.loads(counts), page_expected.most_entries_of(makers.answer(folder, "history", "--json", name)[1])
    status, page = makers.page(folder, "summary", name)
    told = counts.get("most_entries", most if makers.made else None)
    return Page(name, status, wanted, page, page_expected.summary_expected(name, counts, most), []), differences(most, told, "summary --json, most_entries")


def samples(folder):
    """Copies the sample files and registers, and gives their names."""
    names = []
    for place in (EXAMPLES, os.path.join(TOP, "docs")):
        for path in sorted(glob.glob(place + "/**/*.v22", recursive=True) + glob.glob(place + "/**/*.register", recursive=True)):
            names.append(os.path.relpath(path, place).replace(os.sep, "-"))
            shutil.copy(path, os.path.join(folder, names[-1]))
    return names


def every_file(makers, folder):
    """Copies and makes all files, and gives their names."""
    names = samples(folder)
    for name, text in page_files.made_files(EXAMPLES).items():
        with open(os.path.join(folder, name), "wb") as file:
            file.write(text)
        names.append(name)
    return names + page_files.make_registers(makers.program, folder, page_files.nights())


def refused_register(makers, folder):
    """A register with a fault is reported as without the option."""
    with open(os.path.join(EXAMPLES, "claims.register"), "rb") as file, open(os.path.join(folder, "changed"), "wb") as changed:
        changed.write(file.read().replace(b"CO", b"AS", 1))
    wanted, found = makers.answer(folder, "summary", "changed"), makers.page(folder, "summary", "changed")
    return differences(str(wanted), str(found), "a refused register, status and text")


def try_all(makers, looker, folder, only):
    rules, faults, pages = makers.rules(), 0, 0
    for name in every_file(makers, folder):
        if only not in name:
            continue
        began = time.monotonic()
        page, wrong = summary_page(makers, folder, name) if name.endswith(".register") else (check_page(makers, rules, folder, name), [])
        wrong += differences(page.wanted_status, page.status, "status")
        wrong += looker.look(page.page, page.expected, page.boxes)
        print(f"{page_expected.name_shown(name)}: {len(page.page)} bytes, {time.monotonic() - began:.1f} s", flush=True)
        for text in wrong[:20]:
            print(f"  {text}")
        faults, pages = faults + len(wrong), pages + 1
    wrong = refused_register(makers, folder)
    print("\n".join(wrong), end="\n" * bool(wrong))
    return pages, faults + len(wrong)


# The change that a browser mends, so that tidy alone sees it.
NOT_CLOSED = "an element is not closed"
# Changes of a page: what they do, the file, what is searched, and what is put there.
ALTERED = [
    ("a byte that is markup stands as it is", "marked-up.v22", "&lt;script&gt;alert\\(1\\)&lt;/script&gt;", "<script>alert(1)</script>"),
    ("an element of the file is let in", "marked-up.v22", "&lt;mark&gt;", "<mark>"),
    ("an escaped text of the file is not escaped again", "marked-up.v22", "&amp;amp;", "&amp;"),
    ("a quote of the file ends an attribute", "marked-up.v22", "<mark>", "<mark title=\"\" onmouseover=\"alert(2)\">"),
    ("a mark begins one column early", "marked-up.v22", "<mark>T0345246802</mark>", "T<mark>0345246802</mark>"),
    ("a mark ends one column late", "marked-up.v22", "T0345246802</mark>(.)", r"T0345246802\1</mark>"),
    ("two fields that touch have one mark", "marked-up.v22", "T0345246802</mark><mark>20240230", "T034524680220240230"),
    ("a byte is left out", "marked-up.v22", "<b>89</b>", ""),
    ("a byte has another number", "marked-up.v22", "<b>C3</b>", "<b>C2</b>"),
    ("a number of the file is shown as a byte", "marked-up.v22", "C3 09", "C3 <b>09</b>"),
    ("a blank of a field is a blank", "marked-up.v22", "··", "  "),
    ("a sign is not explained", "marked-up.v22", "<code>¬</code>", "<code></code>"),
    ("a column is another", "marked-up.v22", "start 96,", "start 97,"),
    ("the index has another number", "marked-up.v22", r'href="#J4\.1">\d+', 'href="#J4.1">2'),
    ("the index explains another rule", "marked-up.v22", r'<dl id="J4">', '<dl id="J40">'),
    ("a rule is left out of the index", "marked-up.v22", r'<tr><th scope="row">J5</th>.*</tr>\n', ""),
    ("the next fault is another", "marked-up.v22", r'href="#J4\.2"', 'href="#J4.3"'),
    ("what was expected is something else", "marked-up.v22", "check digit 1<", "check digit 2<"),
    ("the number of faulty transactions is another", "marked-up.v22", r"</span> in \d", "</span> in 1"),
    ("the number of remarks is another", "marked-up.v22", r'href="#remarks">\d+', 'href="#remarks">0'),
    ("a fault is left out", "marked-up.v22", r"<section>\n(?:(?!</section>).|\n)*</section>\n", ""),
    ("a remark is left out", "marked-up.v22", '<p><span class="dim">remark:.*</p>\n', ""),
    ("a script is let in", "marked-up.v22", "</body>", "<script>document.title = 1</script></body>"),
    ("a script runs", "marked-up.v22", r"<meta http-equiv=.*>\n((?:.|\n)*)</body>", r"\1<script>alert(1)</script></body>"),
    ("nothing forbids scripts", "marked-up.v22", r"<meta http-equiv=.*>\n", ""),
    ("something is loaded", "marked-up.v22", "</head>", '<link rel="icon" href="http://127.0.0.1:9/icon"></head>'),
    ("the rows have 79 places", "marked-up.v22", "width: 80.5ch", "width: 79.5ch"),
    ("a byte by its number is wider than a letter", "marked-up.v22", "width: 1.6ch", "width: 1.8ch"),
    ("the ruler is one column off", "marked-up.v22", r"\.\.\.\.:\.\.\.90", "....:..90."),
    ("the ruler is read aloud", "marked-up.v22", r'content: var\(--ruler\) / "";', "content: var(--ruler);"),
    ("marks are not read aloud", "marked-up.v22", 'content: " from here: "', "content: none"),
    (NOT_CLOSED, "marked-up.v22", "</section>\n</main>", "</main>"),
    ("a long line has the ruler of a short one", "long-lines.v22", '<pre class="long" tabindex="0">', "<pre>"),
    ("the byte is not named", "F2-tabs.v22", '<mark id="byte">', "<mark>"),
    ("the position of the byte is another", "F2-tabs.v22", r"byte 9, position <a href=\"#byte\">\d+", 'byte 9, position <a href="#byte">7'),
    ("the refusing rule is another", "F2-tabs.v22", r'Refused</span> by <a href="#F2\.1">F2', 'Refused</span> by <a href="#F2.1">F3'),
    ("a bar is one too long", "every-status.register", r'width="(\d*)(\d)"', lambda found: f'width="{int(found[1] + found[2]) + 1}"'),
    ("a bar is told by another number", "every-status.register", r'aria-label="\d+', 'aria-label="0'),
    ("a number of a table is another", "every-status.register", r'class="number">\d+<', 'class="number">1<'),
    ("two submitters are in the other order", "every-status.register", r"(<tr><th scope=\"row\"><code>.*\n)(<tr><th scope=\"row\"><code>.*\n)", r"\2\1"),
    ("a submitter's markup stands as it is", "every-status.register", "&lt;b&gt;&amp;", "<b>&amp;</b>"),
    ("the whole bar is another", "every-status.register", r"whole bar: \d+", "whole bar: 1"),
]


def try_altered(makers, looker, folder):
    """How many changes there are, and how many of them are not noticed. What tidy says counts only of an element that is not closed."""
    rules, missed, pages = makers.rules(), 0, {}
    every_file(makers, folder)
    for what, name, old, new in ALTERED:
        if name not in pages:
            pages[name] = summary_page(makers, folder, name)[0] if name.endswith(".register") else check_page(makers, rules, folder, name)
            wrong = looker.look(pages[name].page, pages[name].expected, pages[name].boxes)
            if wrong:
                raise SystemExit(f"{name}, as it is: {wrong[0]}")
        text = pages[name].page.decode()
        altered = re.sub(old, new, text, count=0 if "ruler" in what else 1)
        if what == NOT_CLOSED and not looker.tidy:
            print(f"{what}: tidy was left out")
            continue
        wrong = looker.look(altered.encode(), pages[name].expected, pages[name].boxes, what == NOT_CLOSED) if altered != text else []
        missed += not wrong
        print(f"{what}: {wrong[0] if wrong else 'NO SUCH PLACE' if altered == text else 'NOT NOTICED'}"[:200], flush=True)
    return len(ALTERED), missed


# A large page, by counts.
COUNTS = r"""
(() => {
  const count = s => document.querySelectorAll(s).length, rules = {}; let wrong = 0;
  for (const h of document.querySelectorAll('h4')) {
    const [rule, number] = h.id.split('.'); rules[rule] = (rules[rule] || 0) + 1; if (+number !== rules[rule]) wrong++; }
  for (const a of document.querySelectorAll('a')) if (!document.getElementById(a.getAttribute('href').slice(1))) wrong++;
  return {sections: count('section'), boxes: count('pre'), faults: count('h4'), marks: count('mark'), scripts: document.scripts.length, wrong, rules,
    facts: [...document.querySelectorAll('main > dl > dd')].slice(2).map(e => e.textContent),
    index: [...document.querySelectorAll('td.number')].map(e => e.textContent)};
})()
"""
ONE = """(id => { const s = document.getElementById(id).closest('section');
  return [s.querySelector('h3').textContent, [...s.querySelectorAll('mark')].map(m => m.textContent)] })"""


def try_large(makers, looker, folder, works=100_000):
    name = "large.v22"
    with open(os.path.join(folder, name), "wb") as file:
        file.write(page_files.faulty_works(works))
    began = time.monotonic()
    status, page = makers.page(folder, "check", name)
    print(f"{name}: a page of {len(page)} bytes in {time.monotonic() - began:.1f} s", flush=True)
    took = looker.open(page)
    print(f"opened in {took:.1f} s", flush=True)
    began = time.monotonic()
    faults = differences(1, status, "status") + ["on the console: " + text for text in looker.browser.complaints()]
    numbers = {"J2": works, "J4": works, "J7": works}
    wanted = {"sections": 2 * works, "boxes": 2 * works, "faults": 3 * works, "marks": 3 * works + 1, "scripts": 0, "wrong": 0, "rules": numbers,
              "facts": ["1", str(works), str(3 * works)], "index": [str(works)] * 3}
    faults += differences(wanted, looker.browser.evaluate(COUNTS), "counted,")
    for at in (1, works // 2, works):
        heads = [f"Line {2 * at + 1}: NWR 0 of transaction {at - 1} in group 1", ["·" * 60, "T0345246802"]]
        faults += differences(heads, looker.browser.evaluate(f"{ONE}('J4.{at}')"), f"J4.{at}")
        writers = [f"Line {2 * at + 2}: SWR 1 of transaction {at - 1} in group 1", ["¬" * 9]]
        faults += differences(writers, looker.browser.evaluate(f"{ONE}('J7.{at}')"), f"J7.{at}")
        if not looker.browser.evaluate(f"{IN_VIEW}('J7.{at}')"):
            height = looker.browser.evaluate("document.documentElement.scrollHeight")
            faults.append(f"#J7.{at} is not in view: the browser lays out {height} pixels")
    print(f"counted in {time.monotonic() - began:.1f} s")
    print("\n".join(faults), end="\n" * bool(faults))
    return 1, len(faults)


# ---- The pictures of the guides

def pictures(makers, looker, folder):
    """A check of to-mend.v22 once its record count is right, and a register of some nights, to the end of the second box or table."""
    with open(os.path.join(EXAMPLES, "to-mend.v22"), "rb") as file:
        text = page_files.replaced(file.read(), b"GRT000010000000200000010", b"GRT000010000000200000011")
    with open(os.path.join(folder, "marked.v22"), "wb") as file:
        file.write(text)
    page_files.make_registers(makers.program, folder, page_files.plain_nights())
    for command, name, part in ("check", "marked.v22", "section"), ("summary", "0042.register", "table"):
        looker.open(makers.page(folder, command, name)[1])
        height = looker.browser.evaluate(f"Math.ceil(document.querySelectorAll('{part}')[1].getBoundingClientRect().bottom + 12)")
        picture = looker.browser.picture(height)
        with open(os.path.join(TOP, "docs", f"{command}-page.png"), "wb") as file:
            file.write(picture)
        print(f"docs/{command}-page.png: {WIDE} by {height} pixels, {len(picture)} bytes")


def main():
    parser = argparse.ArgumentParser(description=__doc__, formatter_class=argparse.RawDescriptionHelpFormatter)
    parser.add_argument("--program", default=os.path.join(TOP, "crates/purvilgo/out/purvilgo"))
    parser.add_argument("--made")
    parser.add_argument("--browser")
    parser.add_argument("--no-tidy", action="store_true")
    parser.add_argument("--only", default="")
    parser.add_argument("--selftest", action="store_true")
    parser.add_argument("--large", action="store_true")
    parser.add_argument("--pictures", action="store_true")
    words = parser.parse_args()
    browser = chromium.found(words.browser)
    if not os.access(words.program, os.X_OK) or not browser:
        print(f"no program {words.program}: README.md says how to build it" if browser else "no Chromium: name it by --browser", file=sys.stderr)
        return 2
    tidy = not words.no_tidy and shutil.which("tidy")
    makers = Makers(words.program, words.made)
    with tempfile.TemporaryDirectory() as folder, chromium.Browser(browser, 900 if words.large else 60) as window:
        looker = Looker(window, folder, tidy)
        if words.pictures:
            pictures(makers, looker, folder)
            return 0
        if words.selftest:
            count, missed = try_altered(makers, looker, folder)
            print(f"{count} changes, {missed} not noticed")
            return 1 if missed else 0
        count, faults = try_large(makers, looker, folder) if words.large else try_all(makers, looker, folder, words.only)
        print(f"{count} pages, {faults} faults" + ("" if tidy or words.large else "; tidy was left out"))
        return 1 if faults or not count else 0


if __name__ == "__main__":
    sys.exit(main())
