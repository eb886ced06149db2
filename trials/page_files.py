"""Files and registers whose pages `browser.py` looks at, beside the samples: what could break a page, or be shown wrong."""
import os
import subprocess

TAB, ACCENT, LATIN = b"\t", "É".encode(), b"\xc9"
STAMP = ["--society", "007", "--name", "MY SOCIETY", "--date", "20240601", "--time", "090000"]


def header(submitter=b"PB000000123", name=b"PUBLISHER A", version=b""):
    return b"HDR%-11s%-45s01.102024050112000020240501%15s%-3s" % (submitter, name, b"", version)


def work(sequence, title, number=b"", iswc=b"", date=b"", duration=b""):
    fields = title, number or b"W%d" % sequence, iswc, date, b"", duration
    return b"NWR%08d00000000" % sequence + b"%-60sEN%-14s%-11s%-8s%15s%-6sU" % fields


def writer(sequence, record, party=b"000000001", name=b"DOE", shares=(10000, 10000, 10000), kind=b"SWR"):
    """Its shares are numbers, or five bytes each."""
    given = [share if isinstance(share, bytes) else b"%05d" % share for share in shares]
    return b"%s%08d%08d%-9s%-45s%30s CA%20s   %s   %s   %s" % (kind, sequence, record, party, name, b"", b"", *given)


def publisher(sequence, record, party=b"000000002"):
    return b"SPU%08d%08d01%-9s%-45s E %34s   00000   00000   00000" % (sequence, record, party, b"PUBLISHER A", b"")


def file_of(works, head=None, end=b"\r\n"):
    """A file of one group; each work is a list of lines."""
    lines = [line for lines in works for line in lines]
    counts = len(works), len(lines) + 2, len(works), len(lines) + 4
    lines = [head or header(), b"GRHNWR0000102.200000000001  ", *lines]
    lines += [b"GRT00001%08d%08d" % counts[:2], b"TRL00001%08d%08d" % counts[2:]]
    return b"".join(line + end for line in lines)


def replaced(text, old, new):
    assert text.count(old) == 1, old
    return text.replace(old, new)


def marked_up():
    """Texts that are markup, in every field that a page shows, and bytes that are no printable ASCII."""
    return file_of([
        [work(0, b"</pre><script>alert(1)</script>", iswc=b"T0345246802"), writer(0, 1)],
        [work(1, b"&amp; &lt; \" onmouseover=\"alert(2)\" x='", number=b"&amp;", iswc=b"<b>T&#0345>", date=b"&nbsp;<i"), writer(1, 1, party=b"")],
        [work(2, ACCENT + b"T" + ACCENT + b" <mark>", iswc=ACCENT + b" T 034 \xff"), writer(2, 1, shares=(ACCENT + b"<&\"", b"'''''", b"1000" + LATIN))],
        [work(3, b"", number=b" "), writer(3, 1, party=b" ")],
        [b"NWR0000000400000000SHORT", b"SWR0000000400000001"],
        [work(5, b"--> ]]> <!-- \x7f </code></pre></section></body></html>", iswc=b"</mark></b>"), writer(5, 1)],
        [work(6, b"PARTY"), publisher(6, 1), b"SPT0000000600000002%-9s      000000000000000X21A6" % (b"<&>\"'   " + LATIN), writer(6, 3)],
        [work(7, b"TWO FIELDS THAT TOUCH", iswc=b"T0345246802", date=b"20240230", duration=b"006100"), writer(7, 1)],
        [work(8, b"\xc2\xb7 \xc2\xac C3 <b>C3</b>", iswc=b"\xc2\xb7 \xc2\xac C3 09"), writer(8, 1)],
    ], header(b"XX<00000&12", ACCENT + b"DITIONS <A> & \"B\" 'C'", b"2.1"))


def remarked():
    """Remarks of every kind that a file without a fault can have, some of them on one line."""
    extra = b"SWX0000000000000003" + b"<&\"'" + ACCENT
    excluded = b"SPT0000000000000002000000002      000000000000000E2136"
    works = [[work(0, ACCENT * 3 + b" <b>").ljust(250), publisher(0, 1), excluded, extra, writer(0, 4).ljust(400) + LATIN]]
    return file_of(works, header(b"X<000000123", version=b"3.0").ljust(170) + LATIN, b"\n")


def long_lines():
    """Lines of 4,096 bytes: with a fault in front, filled with letters, and with a byte above 126 near the end."""
    ruled = b"".join(b"%09d." % number for number in range(15, 500))
    return file_of([
        [work(0, b"BLANKS", iswc=b"T0345246802").ljust(4096), writer(0, 1)],
        [(work(1, b"LETTERS", iswc=b"T0345246802") + ruled)[:4096], writer(1, 1).ljust(512)],
        [work(2, b"A BYTE BEHIND").ljust(4000) + ACCENT + b" " * 94, writer(2, 1)],
        [work(3, b"240 PLACES").ljust(239) + LATIN, writer(3, 1)],
        [work(4, b"THE LAST BYTE").ljust(4095) + LATIN, writer(4, 1)]])


def repeated():
    """Many faults of few rules, so that their numbers have more digits."""
    return file_of([[work(at, b"SONG %d" % at, iswc=b"T034524680%d" % (at % 10), duration=b"006100" if at % 3 == 0 else b""),
                     writer(at, 1, shares=(b"1000 " if at % 4 == 0 else 10000, 10000, 10000))] for at in range(130)])


def many():
    """More than a thousand faults: the page lays out its boxes as they come into view."""
    return file_of([[work(at, b"SONG %d" % at, iswc=b"T0345246802"), writer(at, 1)] for at in range(1001)])


def refused(good):
    """Of each fault of a file that shows a field or a byte one more file, made from a good one, and some without."""
    head, trailer = good.split(b"\r\n")[0], good.split(b"\r\n")[-2]
    title = b"SONG ONE" + b" " * 52
    return {
        "F1-markup": b"<!" + good, "F1-empty": b"", "F1-mark": b"\xef\xbb\xbf" + good, "F1-two-bytes": good.decode().encode("utf-16"),
        "F1-packed": bytes([31, 139, 8, 0]) + bytes(range(256)) * 2,
        "F2-tabs": replaced(good, title, b"A" + TAB + b"B" + TAB + b" " * 56),
        "F2-zero": replaced(good, title, b"<\0>" + b" " * 57),
        "F2-far": replaced(good, title, title + b" " * 2900 + TAB + b"<&\"'" * 20),
        "F2-behind": replaced(good, title, title + b" " * 5000 + TAB),
        "F3-dates": replaced(good, head, head[:64] + b"<b>&\"'20" + b"2460<9" + b"2024" + ACCENT + b"30" + head[86:]),
        "F3-type": replaced(good, b"\r\nSWR", b"\r\n<s>"), "F3-short": replaced(good, trailer, b"T"),
        "F3-nothing": replaced(good, trailer, b""),
        "F4-place": replaced(good, b"GRHNWR", b"SWRNWR"), "F5-kind": replaced(good, b"GRHNWR", b"GRH<&\""),
        "F6-type": replaced(good, b"\r\nNWR", b"\r\nREV"), "F7-group": replaced(good, b"GRHNWR00001", b"GRHNWR<'\"&>"),
        "F8-sequences": replaced(good, b"SWR0000000000000001", b"SWR<b>00000 0000" + ACCENT + b"9"),
        "F9-counts": replaced(good, b"GRT000010000000100000004", b"GRT0000100<&>01 0000004"),
        "F10-counts": replaced(good, trailer, b"TRL<'\"&>0000000200"),
        "F11-behind": good + b"   <script>", "F11-accent": good + b"  " + ACCENT, "F11-two": good + good,
        "F11-cut": good[:good.index(b"TRL")], "F12-long": replaced(good, title, b"<" * 5000),
    }


def made_files(examples):
    """Names and bytes."""
    with open(os.path.join(examples, "accepted.v22"), "rb") as file:
        good = file.read()
    files = {"marked-up": marked_up(), "remarked": remarked(), "long-lines": long_lines(), "repeated": repeated(), "many": many(),
             "no-work": file_of([]), "LF alone": file_of([[work(0, b"ONE"), writer(0, 1)]], end=b"\n"), "no end": good.rstrip(b"\r\n")}
    files.update(refused(good))
    files = {name + ".v22": text for name, text in files.items()}
    files["Été <b> & \"so\" 'x' &amp;.v22"] = marked_up()
    files["a\nb\t</title><script>alert(3)</script>".replace("/", "\\") + ".v22"] = good
    return files


def faulty_works(count):
    """Three faults of each work, on two lines: no title (J2), a wrong ISWC (J4), and a writer without a party (J7)."""
    return file_of([[work(at, b"", iswc=b"T0345246802")[:106], b"SWR%08d00000001" % at] for at in range(count)], end=b"\n")


def controlled(sequence, share, number=b"", title=b"", iswc=b""):
    """A work of which the submitter has so much of the performing right, in hundredths of one per cent, half as much of the
    mechanical and all of the synchronization right. Others have the rest. With 0 nobody has any."""
    number = number or b"W%d" % sequence
    shares = (share, share // 2, 10000) if share else (0, 0, 0)
    rests = [10000 - own if share else 0 for own in shares]
    return [work(sequence, title or b"SONG " + number, number, iswc), writer(sequence, 1, shares=shares), writer(sequence, 2, kind=b"OWR", shares=rests)]


def nights():
    """The files of registers, by the name of the register, in the order in which they are run."""
    iswcs = [b"T0000000010", b"T0345246801"]
    shared = [controlled(0, 6000, iswc=iswcs[1])]
    large = [controlled(at, (10000, 9999, 7500, 5001, 5000, 4999, 2500, 0)[at % 8]) for at in range(401)]
    large += [controlled(401 + at, 5000, number=b"W%d" % at) for at in range(7)]
    large += [[work(408 + at, b"", number=b"R%d" % at), writer(408 + at, 1)] for at in range(3)]
    files = [file_of(shared, header(b"PB000000123")), file_of(large, header(b"PB000000200"))]
    for at, name in enumerate((b"PB000000460", b"PB000000459", b"PB000000458", b"PB000000457", b"PB000000456", b"WR000000001", b"SO000000001",
                               b"AA000000007", b"AA000000006", b"</td></tr>.", b"<b>&\"'\xc3\xa9&  ", b"\xc2\xb7\xc2\xac C3   ")):
        works = [controlled(place, 5000, number=b"%d-%d" % (at, place)) for place in range(at // 2)]
        works += [controlled(len(works) + place, 6000, number=b"C%d" % place, iswc=iswcs[1]) for place in range(at % 4 + 1)]
        files.append(file_of(works, header(name)))
    contended = [controlled(at, 6000, title=b"CONTENDED", iswc=iswc_of(at)) for at in range(12)]
    files.append(file_of(contended, header(b"PB000000700")))
    for at in range(4):
        files.append(file_of([controlled(place, 6000, title=b"CONTENDED", iswc=iswc_of(number)) for place, number in enumerate(range(at * 3, 12))],
                             header(b"PB00000070%d" % (at + 1))))
    return {"every-status.register": files, "no-entry.register": [b""], "one-entry.register": files[:1], "no-conflict.register": files[1:2],
            "Été <b> & \"so\" 'x'.register": files[:3]}


def plain_nights():
    """The files of one register as a society may have it, for a picture."""
    shares = 5000, 10000, 2500, 5000, 7500, 10000, 3333, 6000, 5000, 1250, 0, 10000
    files = []
    for at, count in enumerate((61, 44, 40, 29, 23, 17, 12, 12, 9, 7, 4, 2)):
        works = [controlled(place, shares[(place + at) % 12], iswc=iswc_of(1000 * at + place)) for place in range(count)]
        works += [controlled(count + place, 6000, number=b"S%d" % place, iswc=iswc_of(7 * place)) for place in range(at % 5 * 2)]
        works += [controlled(len(works) + place, 5000, number=b"W%d" % place) for place in range(at % 3)]
        works += [[work(len(works), b"", number=b"X"), writer(len(works), 1)]] * (at % 4 == 1)
        files.append(file_of(works, header(b"PB%09d" % (120 + 37 * at), b"PUBLISHER %c" % (65 + at))))
    return {"0042.register": files}


def iswc_of(number):
    """The ISWC of these nine digits, with its check digit."""
    nine = b"%09d" % (number + 100)
    return b"T" + nine + b"%d" % (-(1 + sum(place * int(chr(digit)) for place, digit in enumerate(nine, 1))) % 10)


def make_registers(program, folder, nights):
    """Has the program make the registers of these files, and gives their names."""
    for register, files in nights.items():
        names = []
        for at, text in enumerate(files):
            names.append("night%02d.v22" % at)
            with open(os.path.join(folder, names[-1]), "wb") as file:
                file.write(text)
        ran = subprocess.run([program, "run", "--in-turn", *STAMP, "--to", register, *names], cwd=folder, capture_output=True)
        if b"stopped" in ran.stdout + ran.stderr or not os.path.exists(os.path.join(folder, register)):
            raise SystemExit(f"{register}: {ran.stdout.decode()}{ran.stderr.decode()}")
    return list(nights)
