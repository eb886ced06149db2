"""What a page of `check --html` and of `summary --html` must show, by the bytes of the file and what the program says of it
as JSON: in the form in which `browser.py` reads it from the document and from the screen."""
import collections
import json
import re

LONGEST = 4096  # bytes of a line that a page shows
ROW = 80
BAR = 320
SIGNS = ["·", "¬", "‹09›", "‹C3›‹89›"]
POLICY = "default-src 'none'; style-src 'unsafe-inline'"


def cell(byte):
    return chr(byte) if 31 < byte < 127 else "‹%02X›" % byte


def shown(text):
    """Bytes, or a text of JSON that stands for bytes."""
    return "".join(map(cell, text.encode("latin-1") if isinstance(text, str) else text))


def in_field(byte):
    return "·" if byte == 32 else cell(byte)


def name_shown(name):
    return re.sub(r"[\0-\x1f\x7f]", lambda found: "\\x%02X" % ord(found[0]), name)


def lines_of(text):
    """The lines of a file; one CR before an LF belongs to the line's end."""
    *ended, last = text.split(b"\n")
    return [line.removesuffix(b"\r") for line in ended] + [last] * (last != b"")


def spots_of(finding):
    """Start and length of what a fault or a remark marks in its line."""
    if "rule" in finding:
        byte = finding["byte"]
        return [(field["start"], field["length"]) for field in finding["fields"]] + ([(byte["in_line"], 1)] if byte else [])
    kind = finding["kind"]
    if kind == "high bytes":
        return [(finding["first"], 1)]
    if kind == "past layout":
        return [(finding["layout"] + 1, finding["length"] - finding["layout"])]
    return {"only exclusions": [], "CWR version": [(102, 3)], "sender type": [(4, 2)], "UTF-16": [(1, 2)], "gzip": [(1, 2)]}.get(kind, [(1, 3)])


def line_expected(line, spots, byte):
    """The line in its box: its places, its marks, and its bytes that stand by their numbers."""
    places = min(LONGEST, max([len(line) + 1] + [start + length - 1 for start, length in spots]))
    starts = {start for start, length in spots}
    inside = {place for start, length in spots for place in range(start, start + length)}
    told, marks, bytes_told = [], [], []
    for place in range(1, places + 1):
        number = line[place - 1] if place <= len(line) else None
        told.append("¬" if number is None else in_field(number) if place in inside else cell(number))
        if number is not None and not 31 < number < 127:
            bytes_told.append([place, "%02X" % number])
        if place in inside:
            if place in starts or place - 1 not in inside:
                marks.append([place, 0, "", "byte" if byte else ""])
            marks[-1][1] += 1
            marks[-1][2] += told[-1]
    return {"line": "".join(told), "marks": marks, "bytes": bytes_told}, places


def place_of(fault):
    """Where a fault is, as `check --long` says it."""
    if fault["record"] is None:
        return "after TRL" if fault["byte"] else "no record type" if fault["fields"] else "end of the file"
    if fault["sequence"] is not None:
        return "{record} {sequence} of transaction {transaction} in group {group}".format(**fault)
    return fault["record"] + (f" of group {fault['group']}" if fault["group"] is not None else "")


def fault_items(fault, at, total):
    """The heading of a fault, the at-th of its rule, and the lines below it."""
    rule, text, links = fault["rule"], f"{fault['rule']} {fault['text']}", [[fault["rule"], "#" + fault["rule"]]]
    text += f" {at} of {total}" if total > 1 else ""
    if at < total:
        text += f", next {rule}"
        links.append(["next " + rule, f"#{rule}.{at + 1}"])
    items = [["h4", f"{rule}.{at}", text, links]]
    if fault["byte"]:
        told = "byte {byte}, position {in_line} of the line, {in_file} of the file".format(**fault["byte"])
        place = fault["byte"]["in_line"]
        items.append(["p", "", told, [[str(place), "#byte"]] if place <= LONGEST else []])
    for field in fault["fields"]:
        stands = field["bytes"].encode("latin-1")
        told = "".join(map(in_field, stands)) + "¬" * (field["length"] - len(stands))
        items.append(["p", "", "{name}, start {start}, length {length}: ".format(**field) + told, []])
    return items + [["p", "", "expected: " + shown(fault["expected"]), []]]


def runs_of(findings):
    """Findings in a row that are of one line."""
    runs = []
    for finding in findings:
        if not runs or runs[-1][0]["line"] != finding["line"]:
            runs.append([])
        runs[-1].append(finding)
    return runs


def header_facts(line):
    line = line.ljust(78)
    day = [shown(line[start:end]) for start, end in ((64, 68), (68, 70), (70, 72), (72, 74), (74, 76), (76, 78))]
    return [["submitter", f"{shown(line[3:5])} {shown(line[5:14])} {shown(line[14:59].rstrip(b' '))}"], ["created", "{}-{}-{} {}:{}:{}".format(*day)]]


def common(name, kind):
    """What every page has, whatever it is of."""
    return {"title": f"{name_shown(name)}: purvilgo {kind}", "h1": f"{kind.capitalize()} of {name_shown(name)}", "language": "en", "mode": "CSS1Compat",
            "characters": "UTF-8", "policy": [POLICY], "links_to_nothing": [], "names_twice": [], "elements": [], "values": [], "styles": 1}


def check_expected(name, text, report, rules):
    """What the page of a check shows; and of each box its places, and whether it has a ruler for long lines."""
    lines, faults, remarks = lines_of(text), report["faults"], report["remarks"]
    totals = collections.Counter(fault["rule"] for fault in faults)
    refused = report["refused"]
    facts = header_facts(lines[0]) if not refused or faults[0]["line"] > 1 else []
    if refused:
        outcome = "Refused by {rule}: {text}, at line {line}.".format(**faults[0])
    else:
        outcome = f"Faults in {report['faulty']} of" if faults else "No faults in"
        outcome += f" {report['transactions']} transactions."
        facts += [["groups", str(sum(line[:3] == b"GRH" for line in lines))], ["transactions", str(report["transactions"])]]
    facts += [[what, str(len(them))] for what, them in (("faults", faults), ("remarks", remarks)) if them]
    index = [[rule, title, pairs, rule, [[str(totals[rule]), f"#{rule}.1"]]] for rule, (title, pairs) in rules.items() if totals[rule]]
    sections, boxes, seen = [], [], collections.Counter()
    for run in runs_of(faults) + runs_of(remarks):
        first, is_fault = run[0], "rule" in run[0]
        where = place_of(first) if is_fault else shown(first["record"] or "")
        line, items = None, []
        if first["line"] <= len(lines):
            bytes_of_line = lines[first["line"] - 1]
            line, places = line_expected(bytes_of_line, [spot for finding in run for spot in spots_of(finding)], is_fault and first["byte"])
            boxes.append((line, places))
            if len(bytes_of_line) > LONGEST:
                items.append(["p", "", f"{LONGEST} bytes are shown; the line has {len(bytes_of_line)}", []])
        for finding in run:
            if is_fault:
                seen[finding["rule"]] += 1
                items += fault_items(finding, seen[finding["rule"]], totals[finding["rule"]])
            else:
                items.append(["p", "", "remark: " + shown(finding["text"]), []])
        sections.append([f"Line {first['line']}" + (": " + where if where else ""), line, items])
    headings = [["By rule", "rules"], ["Faults", "faults"]] * bool(faults) + [["Remarks: these break no rule", "remarks"]] * bool(remarks)
    parts = [len(runs_of(findings)) for findings in (faults, remarks)]
    body = ["h1", "p"] + ["p"] * refused + ["dl"]  # then the index, and of the two lists the first with what its signs mean
    body += ["h2", "table", "h2", "p"] + ["section"] * parts[0] if faults else []
    body += ["h2"] + ["p"] * (not faults) + ["section"] * parts[1] if remarks else []
    return {**common(name, "check"), "outcome": outcome, "facts": facts, "headings": headings, "rules": index, "sections": sections, "tables": [],
            "signs": SIGNS if sections else [], "body": body}, boxes


def ruler(rows):
    tens = (f"....:{ten:.>5}" for ten in range(10, ROW * rows + 1, 10))
    return "\n".join("".join(next(tens) for _ in range(ROW // 10)) for _ in range(rows))


SHORT, LONG = ruler(3), ruler(-(-LONGEST // ROW))


def boxes_measured(boxes):
    """Where the marks and bytes of these boxes stand on the screen, if each row has 80 places of one width."""
    return [{"rows": -(-places // ROW), "marks": [mark[:2] for mark in line["marks"]], "bytes": [[place, 100] for place, _ in line["bytes"]],
             "straight": True, "ruler": SHORT if places <= 3 * ROW else LONG, "same_letters": True} for line, places in boxes]


STATUSES = (("accepted (AS)", "accepted"), ("duplicates (DU)", "duplicates"), ("conflicts (CO)", "conflicts"), ("rejected (RJ)", "rejected"))
BANDS = (("none", "none"), ("up to a quarter", "up_to_quarter"), ("up to a half", "up_to_half"), ("more than a half", "more_than_half"), ("all", "all"))


def summary_expected(name, counts, most_entries):
    def rows(pairs, whole):
        return [[label, str(number), f"{number} of {whole}", f"0 0 {BAR} 10", str(-(-BAR * number // whole) if whole else 0)] for label, number in pairs]

    tables = [("Entries by status", "status", "entries", [(label, counts[key]) for label, key in STATUSES], counts["entries"])]
    for right in ("performing", "mechanical", "synchronization"):
        left = counts["left"][right]
        tables.append((f"Works by what is left of the {right} right", "left", "works", [(label, left[key]) for label, key in BANDS], counts["works"]))
    if most_entries:
        submitters = [(shown(row["submitter"]), row["entries"]) for row in most_entries]
        tables.append(("Submitters with the most entries, ten at most", "submitter", "entries", submitters, submitters[0][1]))
    if counts["largest_conflicts"]:
        works = [(str(row["work"]), row["conflicts"]) for row in counts["largest_conflicts"]]
        tables.append(("Works with the most conflicts, ten at most", "work", "conflicts", works, works[0][1]))
    facts = [[label, str(counts[key])] for label, key in (("entries",) * 2, ("works",) * 2, ("current claims", "current_claims"), ("submitters",) * 2)]
    return {**common(name, "summary"), "outcome": None, "facts": facts, "headings": [[table[0], ""] for table in tables], "rules": [], "sections": [],
            "signs": [], "body": ["h1", "dl"] + ["h2", "table"] * len(tables),
            "tables": [[[first, counted, f"whole bar: {whole}"], rows(pairs, whole)] for _, first, counted, pairs, whole in tables]}


def most_entries_of(history):
    """The ten submitters with the most entries, counted from the lines of `history --json`; of as many the lesser bytes first."""
    counts = collections.Counter(json.loads(line)["submitter"] for line in history.splitlines())
    ordered = sorted(counts.items(), key=lambda item: (-item[1], item[0].encode("latin-1")))
    return [{"entries": number, "submitter": submitter} for submitter, number in ordered[:10]]
