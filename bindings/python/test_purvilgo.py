"""Tests of the Python binding, beside the comparison with the program that `bindings/test` makes.

    python3 test_purvilgo.py
"""

import contextlib
import copy
import ctypes.util
import datetime
import io
import os
import pathlib
import pickle
import shutil
import subprocess
import sys
import tempfile
import threading
import unittest
from unittest import mock

import day
import purvilgo

EXAMPLES = pathlib.Path(__file__).resolve().parents[2] / "examples"
STAMP = purvilgo.Stamp(0, "CWR REGISTRY", datetime.datetime(2024, 6, 1, 9))


def example(name: str) -> bytes:
    return (EXAMPLES / name).read_bytes()


def file_of_works(count: int, first: int = 0) -> bytes:
    """A submission of `count` works, each with a number of its own, from `first` on, and a writer who holds all rights."""
    header, group, work, writer, _, _ = example("accepted.v22").splitlines(keepends=True)
    lines = [header, group]
    for i in range(count):
        sequence = b"%08d" % i
        number = (b"W%d" % (first + i)).ljust(len(work) - 2 - work.index(b"W1"))
        lines.append(work[:3] + sequence + work[11 : work.index(b"W1")] + number + work[-2:])
        lines.append(writer[:3] + sequence + writer[11:])
    records = b"%08d" % (2 * count + 2)
    lines.append(b"GRT00001%08d" % count + records + b"\r\n")
    lines.append(b"TRL00001%08d" % count + b"%08d" % (2 * count + 4) + b"\r\n")
    return b"".join(lines)


class Check(unittest.TestCase):
    def test_clean(self) -> None:
        told = purvilgo.check(example("accepted.v22"))
        self.assertTrue(told)
        self.assertEqual(told.text, "00001 00000000 NWR ok\n1 transactions, 0 with faults\n")

    def test_faults(self) -> None:
        self.assertEqual(purvilgo.check(example("file-fault.v22")), purvilgo.Check("refused F9 at line 5\n", False))

    def test_no_bytes(self) -> None:
        self.assertFalse(purvilgo.check(b""))

    def test_other_bytes(self) -> None:
        file = example("rejected.v22")
        self.assertEqual(purvilgo.check(bytearray(file)), purvilgo.check(memoryview(file)))

    def test_no_bytes_at_all(self) -> None:
        empty = purvilgo.Registry()
        for given in (EXAMPLES / "accepted.v22", str(EXAMPLES / "accepted.v22"), 5, None, [72, 68]):
            for call in (
                purvilgo.check, purvilgo.check_long, purvilgo.check_json, purvilgo.findings, purvilgo.audit, purvilgo.claims,
                purvilgo.Registry.open, lambda file: purvilgo.acknowledge(file, STAMP), lambda file: empty.run(file, STAMP),
                lambda file: purvilgo.verify(file, []), lambda file: purvilgo.verify(b"REG00000000\n", [(b"", file)]),
            ):
                with self.assertRaisesRegex(TypeError, r"pathlib\.Path\(\.\.\)\.read_bytes\(\)"):
                    call(given)  # type: ignore[arg-type]

    def test_no_limit(self) -> None:
        self.assertEqual(purvilgo.check(bytes(16_777_217)).text, purvilgo.check(bytes(3)).text)

    def test_text_longer_than_the_first_room(self) -> None:
        told = purvilgo.check(file_of_works(1000))
        self.assertEqual(told.text.count("\n"), 1001)
        self.assertTrue(told.clean)


class Findings(unittest.TestCase):
    def test_faults(self) -> None:
        found = purvilgo.findings(example("file-fault.v22"))
        self.assertEqual((found.clean, found.refused, found.transactions, found.faulty, found.remarks), (False, True, 0, 0, ()))
        (fault,) = found.faults
        self.assertEqual((fault.rule, fault.line, fault.record, fault.group), ("F9", 5, "GRT", 1))
        self.assertEqual((fault.transaction, fault.sequence, fault.byte), (None, None, None))
        self.assertEqual(fault.fields, (purvilgo.Field("record count", 17, 8, b"00000002"),))
        self.assertEqual(fault.expected, "transaction count 1, record count 4")

    def test_wrong_byte(self) -> None:
        (fault,) = purvilgo.findings(example("accepted.v22").replace(b"SONG", b"SO\tG", 1)).faults
        self.assertEqual((fault.rule, fault.byte), ("F2", purvilgo.WrongByte(9, 22, example("accepted.v22").index(b"SONG") + 3)))

    def test_remarks(self) -> None:
        found = purvilgo.findings(example("remarks.v22"))
        self.assertTrue(found)
        kinds = {remark.line: (remark.record, remark.kind) for remark in found.remarks}
        self.assertEqual(kinds[3], ("NWR", "high bytes"))
        self.assertEqual(kinds[7], ("SWR", "past layout"))
        past = next(remark for remark in found.remarks if remark.kind == "past layout")
        self.assertEqual((past.length, past.layout, past.first, past.count), (151, 150, None, None))

    def test_texts(self) -> None:
        file = example("mistakes.v22")
        told = purvilgo.check_long(file)
        self.assertEqual(told.text, example("mistakes.long").decode("latin-1"))
        self.assertFalse(told.clean)
        self.assertEqual(purvilgo.check_json(example("remarks.v22")), purvilgo.Check(example("remarks.json").decode(), True))


class Explain(unittest.TestCase):
    def test_rules(self) -> None:
        page = purvilgo.explain("F9")
        self.assertTrue(page.startswith("F9 the counts of GRT are not those of the group\n  requires: "))
        self.assertEqual(page.count("\n"), 4)
        self.assertIn(page, purvilgo.explain())

    def test_no_rule(self) -> None:
        with self.assertRaises(ValueError) as caught:
            purvilgo.explain("F13")
        self.assertEqual(str(caught.exception), "F13: the word names no rule and no answer")


class Tables(unittest.TestCase):
    def test_rows(self) -> None:
        register = example("claims.register")
        (claim,) = purvilgo.claims(register)
        self.assertEqual((claim["submitter"], claim["number"].rstrip(" "), claim["work"]), ("PB000000123", "W1", "1"))
        self.assertEqual([entry["status"] for entry in purvilgo.history(register)], ["AS", "CO"])
        (work,) = purvilgo.works(register)
        self.assertEqual((work["work"], work["claims"]), ("1", "1"))
        self.assertIn("entries: 2\n", purvilgo.summary(register))

    def test_no_register(self) -> None:
        for table in (purvilgo.claims, purvilgo.works, purvilgo.history, purvilgo.summary, purvilgo.history_csv):
            with self.assertRaises(purvilgo.RegisterError) as caught:
                table(b"REG00000001\n")
            self.assertEqual((caught.exception.number, caught.exception.line), (2, 2))


class Verify(unittest.TestCase):
    register = example("claims.register")
    pairs = [(example(name), example(name + ".ack")) for name in ("conflict-1.v22", "conflict-2.v22")]

    def misfit(self, *pairs: "tuple[bytes, bytes]") -> purvilgo.MisfitError:
        with self.assertRaises(purvilgo.MisfitError) as caught:
            purvilgo.verify(self.register, pairs)
        return caught.exception

    def test_verified(self) -> None:
        self.assertEqual(purvilgo.verify(self.register, self.pairs), 2)
        self.assertEqual(purvilgo.verify(bytearray(self.register), iter(self.pairs[1:])), 1)
        self.assertEqual(purvilgo.verify(self.register, []), 0)

    def test_misfits(self) -> None:
        (file, answer), other = self.pairs
        told = self.misfit(other, (file, other[1]))
        self.assertEqual((told.kind, told.file, told.group, told.transaction), (purvilgo.Misfit.TRANSACTION, 1, 1, 0))
        told = self.misfit((file, answer[:-2]))
        self.assertEqual((told.kind, told.file, told.line), (purvilgo.Misfit.LINE, 0, answer.count(b"\n")))
        told = self.misfit((example("file-fault.v22"), answer))
        self.assertEqual((told.kind, told.fault, told.line), (purvilgo.Misfit.REFUSED, 9, 5))
        self.assertEqual(str(told), "file 0: refused F9 at line 5")
        self.assertEqual(self.misfit((bytes(16_777_217), answer)).kind, purvilgo.Misfit.TOO_LONG)

    def test_no_register(self) -> None:
        with self.assertRaises(purvilgo.RegisterError):
            purvilgo.verify(b"", self.pairs)


class Errors(unittest.TestCase):
    def test_pickled(self) -> None:
        outcome = purvilgo.Outcome(purvilgo.Kind.STOPPED, 0, 0, 3, purvilgo.Cause.MEMORY, 0)
        for error in (
            purvilgo.RegisterError(3, 7),
            purvilgo.MisfitError(purvilgo.Misfit.TRANSACTION, 1, 0, 0, 2, 4),
            purvilgo.StoppedError(outcome),
        ):
            again = pickle.loads(pickle.dumps(error))
            self.assertEqual((type(again), str(again), vars(again)), (type(error), str(error), vars(error)))

    def test_want_of_memory_has_a_text(self) -> None:
        outcome = purvilgo.Outcome(purvilgo.Kind.STOPPED, 0, 0, 0, purvilgo.Cause.MEMORY, 0)
        with mock.patch.object(purvilgo, "_outcome", lambda numbers: outcome):
            with self.assertRaisesRegex(MemoryError, "^stopped after 0: memory$"):
                purvilgo.acknowledge(example("accepted.v22"), STAMP)

    def test_no_library(self) -> None:
        other = ctypes.util.find_library("c")
        for path in ("absent.so", str(EXAMPLES / "accepted.v22"), other):
            environment = {**os.environ, "PURVILGO_LIBRARY": str(path)}
            told = subprocess.run([sys.executable, "-c", "import purvilgo"], env=environment, stderr=subprocess.PIPE)
            self.assertIn(f"ImportError: {path} is not the library of purvilgo", told.stderr.decode())


class Stamps(unittest.TestCase):
    def test_bad_ones(self) -> None:
        when = STAMP.when
        for society, name, error, text in (
            (1000, "A", ValueError, "the society is not from 0 to 999"),
            (-1, "A", ValueError, "the society is not from 0 to 999"),
            ("7", "A", TypeError, "the society is a number, and not str"),
            (0, "A" * 46, ValueError, "the name has more than 45 bytes"),
            (0, "A\n", ValueError, "the name has a byte below 32"),
            (0, "\u0141", ValueError, "the name has a character that Latin-1 does not have"),
            (0, None, TypeError, "the name is a text or bytes, and not NoneType"),
        ):
            with self.assertRaises(error) as caught:
                purvilgo.Stamp(society, name, when)  # type: ignore[arg-type]
            self.assertEqual(str(caught.exception), text)
        with self.assertRaises(TypeError):
            purvilgo.Stamp(0, "A", when.date())  # type: ignore[arg-type]

    def test_names(self) -> None:
        for name in ("S\u00c9 45".ljust(45, "A"), b"\xc9"):
            purvilgo.acknowledge(example("accepted.v22"), purvilgo.Stamp(999, name, STAMP.when))

    def test_told_by_the_library(self) -> None:
        stamp = copy.copy(STAMP)
        object.__setattr__(stamp, "society", 1000)
        with self.assertRaisesRegex(ValueError, "^not a stamp$"):
            purvilgo.acknowledge(example("accepted.v22"), stamp)


class About(unittest.TestCase):
    def test_version(self) -> None:
        self.assertRegex(purvilgo.__version__, r"^\d+\.\d+\.\d+$")

    def test_texts_of_statuses(self) -> None:
        registry = purvilgo.Registry()
        registry.close()
        with self.assertRaises(ValueError) as caught:
            registry.register()
        self.assertEqual(str(caught.exception), "the registry is closed")


class Acknowledge(unittest.TestCase):
    def test_acknowledged(self) -> None:
        answer = purvilgo.acknowledge(example("duplicate.v22"), STAMP)
        self.assertEqual(answer.file, example("duplicate.v22.ack"))
        self.assertEqual((answer.outcome.kind, answer.outcome.transactions), (purvilgo.Kind.ACKNOWLEDGED, 2))
        self.assertEqual(str(answer.outcome), "acknowledged 2")
        self.assertTrue(answer)

    def test_many_works(self) -> None:
        answer = purvilgo.acknowledge(file_of_works(10_000), STAMP)
        self.assertEqual(answer.outcome.transactions, 10_000)
        self.assertEqual(answer.file.count(b"20240601AS"), 10_000)

    def test_refused(self) -> None:
        answer = purvilgo.acknowledge(example("file-fault.v22"), STAMP)
        self.assertFalse(answer.outcome)
        self.assertFalse(answer)
        self.assertEqual((answer.outcome.fault, answer.outcome.line, answer.file), (9, 5, b""))
        self.assertEqual(answer.outcome.line_for("a.v22"), b"a.v22: refused F9 at line 5\n")

    def test_too_long(self) -> None:
        answer = purvilgo.acknowledge(bytes(16_777_217), STAMP)
        self.assertEqual(answer.outcome.cause, purvilgo.Cause.LENGTH)
        self.assertEqual(str(answer.outcome), "stopped after 0: too long")

    def test_no_outcome(self) -> None:
        outcome = purvilgo.Outcome(purvilgo.Kind.STOPPED, 0, 0, 1, purvilgo.Cause.NONE, 0)
        with self.assertRaises(ValueError):
            outcome.line_for("a.v22")


class Audit(unittest.TestCase):
    def test_register(self) -> None:
        whole = example("claims.register")
        self.assertEqual(purvilgo.audit(whole), 2)
        self.assertEqual(purvilgo.audit(memoryview(whole)), 2)
        self.assertEqual(purvilgo.audit(b"REG00000000\n"), 0)

    def test_faults(self) -> None:
        whole = example("claims.register")
        for text, number, line in ((b"", 2, 1), (b"no register", 1, 1), (b"REG00000001\n", 2, 2), (whole + b"\n", 2, 4)):
            with self.assertRaises(purvilgo.RegisterError) as caught:
                purvilgo.audit(text)
            self.assertEqual((caught.exception.number, caught.exception.line), (number, line))
            self.assertEqual(str(caught.exception), f"refused G{number} at line {line}")


class Registry(unittest.TestCase):
    def run_conflict(self, registry: purvilgo.Registry) -> None:
        """Two claims on one work, from two files, one after the other."""
        for name in ("conflict-1.v22", "conflict-2.v22"):
            answer = registry.run(example(name), STAMP)
            self.assertTrue(answer.outcome)
            self.assertEqual(answer.file, example(name + ".ack"))

    def test_files_one_after_the_other(self) -> None:
        with purvilgo.Registry() as registry:
            self.assertEqual((registry.entries, registry.register()), (0, b"REG00000000\n"))
            self.run_conflict(registry)
            self.assertEqual((registry.entries, registry.register()), (2, example("claims.register")))

    def test_carried_on(self) -> None:
        with purvilgo.Registry() as registry:
            registry.run(example("conflict-1.v22"), STAMP)
            kept = registry.register()
        with purvilgo.Registry.open(bytearray(kept)) as registry:
            self.assertEqual((registry.entries, registry.register()), (1, kept))
            answer = registry.run(memoryview(example("conflict-2.v22")), STAMP)
            self.assertEqual(answer.file, example("conflict-2.v22.ack"))
            self.assertEqual(registry.register(), example("claims.register"))

    def test_refused_files_leave_it(self) -> None:
        with purvilgo.Registry() as registry:
            self.run_conflict(registry)
            answer = registry.run(example("file-fault.v22"), STAMP)
            self.assertEqual((answer.outcome.fault, answer.outcome.line, answer.file), (9, 5, b""))
            answer = registry.run(bytes(16_777_217), STAMP)
            self.assertEqual((answer.outcome.cause, answer.file), (purvilgo.Cause.LENGTH, b""))
            self.assertEqual(registry.register(), example("claims.register"))

    def test_bad_stamps_leave_it(self) -> None:
        with purvilgo.Registry() as registry:
            self.run_conflict(registry)
            stamp = copy.copy(STAMP)
            object.__setattr__(stamp, "society", 1000)
            with self.assertRaises(ValueError):
                registry.run(example("accepted.v22"), stamp)
            self.assertEqual(registry.register(), example("claims.register"))

    def test_no_register(self) -> None:
        for text, number, line in ((b"", 2, 1), (b"no register", 1, 1), (b"REG00000001\n", 2, 2)):
            with self.assertRaises(purvilgo.RegisterError) as caught:
                purvilgo.Registry.open(text)
            self.assertEqual((caught.exception.number, caught.exception.line), (number, line))

    def test_closed(self) -> None:
        registry = purvilgo.Registry()
        registry.close()
        registry.close()
        for call in (lambda: registry.entries, registry.register, lambda: registry.run(b"", STAMP)):
            with self.assertRaises(ValueError):
                call()

    def test_no_copies(self) -> None:
        with purvilgo.Registry() as registry:
            for call in (copy.copy, copy.deepcopy, pickle.dumps):
                with self.assertRaisesRegex(TypeError, "^a registry is not copied: "):
                    call(registry)
            self.assertEqual(registry.entries, 0)

    def test_closed_by_an_exception(self) -> None:
        with self.assertRaises(KeyError):
            with purvilgo.Registry() as registry:
                raise KeyError
        with self.assertRaises(ValueError):
            registry.register()

    def test_stopped(self) -> None:
        outcome = purvilgo.Outcome(purvilgo.Kind.STOPPED, 0, 0, 3, purvilgo.Cause.MEMORY, 0)
        error = purvilgo.StoppedError(outcome)
        self.assertIsInstance(error, MemoryError)
        self.assertEqual((error.outcome, str(error)), (outcome, "stopped after 3: memory"))

    def test_many_runs(self) -> None:
        with purvilgo.Registry() as registry:
            for i in range(20):
                answer = registry.run(file_of_works(500, 500 * i), STAMP)
                self.assertEqual(answer.file.count(b"20240601AS"), 500)
            again = registry.run(file_of_works(500), STAMP)
            self.assertEqual(again.file.count(b"20240601DU"), 500)
            self.assertEqual(registry.entries, 10_500)
            self.assertEqual(purvilgo.audit(registry.register()), 10_500)

    def test_threads(self) -> None:
        with purvilgo.Registry() as registry:

            def run(first: int) -> None:
                for i in range(10):
                    registry.run(file_of_works(20, first + 20 * i), STAMP)

            threads = [threading.Thread(target=run, args=(1000 * i,)) for i in range(4)]
            for thread in threads:
                thread.start()
            for thread in threads:
                thread.join()
            self.assertEqual(purvilgo.audit(registry.register()), 800)


class Day(unittest.TestCase):
    """What `day.py` leaves if an allocation of the library fails, in a folder of its own."""

    def setUp(self) -> None:
        folder = tempfile.TemporaryDirectory()
        self.addCleanup(folder.cleanup)
        self.folder = pathlib.Path(folder.name)
        for name in ("accepted.v22", "duplicate.v22"):
            shutil.copy(EXAMPLES / name, self.folder)

    def day(self) -> "tuple[int, str, str]":
        """The status, standard output and standard error for two files."""
        files = [str(self.folder / name) for name in ("accepted.v22", "duplicate.v22")]
        out, error = io.TextIOWrapper(io.BytesIO()), io.StringIO()
        with contextlib.redirect_stdout(out), contextlib.redirect_stderr(error):
            status = day.main("--begin", str(self.folder / "kept"), "0", "A", "20240601", "090000", *files)
        told = out.buffer.getvalue().decode()  # type: ignore[attr-defined]
        return status, told.replace(f"{self.folder}/", ""), error.getvalue().replace(f"{self.folder}/", "")

    def names(self) -> "list[str]":
        return sorted(path.name for path in self.folder.iterdir())

    def test_stopped(self) -> None:
        run, stopped = purvilgo.Registry.run, purvilgo.Outcome(purvilgo.Kind.STOPPED, 0, 0, 1, purvilgo.Cause.MEMORY, 0)

        def run_or_stop(registry: purvilgo.Registry, file: bytes, stamp: purvilgo.Stamp) -> purvilgo.Acknowledgement:
            if file == example("duplicate.v22"):
                raise purvilgo.StoppedError(stopped)
            return run(registry, file, stamp)

        with mock.patch.object(purvilgo.Registry, "run", run_or_stop):
            told = self.day()
        self.assertEqual(told, (1, "accepted.v22: acknowledged 1\nduplicate.v22: stopped after 1: memory\n", ""))
        self.assertEqual(self.names(), ["accepted.v22", "accepted.v22.ack", "duplicate.v22", "kept", "kept.lock"])

    def test_no_memory(self) -> None:
        for call, text in (("register", "kept: not kept\n"), ("__init__", "kept: memory was refused\n")):
            with mock.patch.object(purvilgo.Registry, call, side_effect=MemoryError("memory was refused")):
                told = self.day()
            self.assertEqual((told[0], told[2]), (1, text))
            self.assertEqual(self.names(), ["accepted.v22", "duplicate.v22", "kept.lock"])


if __name__ == "__main__":
    unittest.main()
