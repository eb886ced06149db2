"""The registry of musical works, for Python: checks, acknowledgements, audits, tables, and a registry that goes on from
file to file. Bytes in, bytes out.

    >>> import purvilgo
    >>> told = purvilgo.check(open("works.v22", "rb").read())
    >>> told.clean, told.text
    >>> for fault in purvilgo.findings(open("works.v22", "rb").read()).faults:
    ...     print(fault.line, fault.rule, fault.text, purvilgo.explain(fault.rule))
    >>> answer = purvilgo.acknowledge(open("works.v22", "rb").read(), stamp)
    >>> answer.outcome, answer.file
    >>> with purvilgo.Registry.open(open("old.register", "rb").read()) as registry:
    ...     answer = registry.run(open("works.v22", "rb").read(), stamp)
    ...     open("new.register", "wb").write(registry.register())
    >>> purvilgo.audit(open("new.register", "rb").read())
    >>> purvilgo.verify(open("new.register", "rb").read(), [(open("works.v22", "rb").read(), answer.file)])
    >>> [claim["title"].rstrip(" ") for claim in purvilgo.claims(open("new.register", "rb").read())]

All of it is done by the library `libpurvilgo.so`, which is looked for at the path in the environment variable
`PURVILGO_LIBRARY`, then beside this file, then in `bindings/out`, and then where the system keeps libraries. Calls on
different data may run in different threads at once, and calls of one registry one after the other. An allocation that
fails is a `MemoryError`, whatever it was for.

Texts of a register have each byte as the character with its number, and blanks behind them, which `rstrip(" ")`
removes: `rstrip()` would remove the bytes 85 and A0 too, which may belong to a letter of the text.
"""

from __future__ import annotations

import csv
import ctypes
import ctypes.util
import datetime
import enum
import io
import json
import os
import pathlib
import threading
from dataclasses import dataclass
from types import TracebackType
from typing import Any, Callable, Dict, Iterable, List, Optional, Tuple, Type, Union

__all__ = [
    "Acknowledgement", "Cause", "Check", "Fault", "Field", "Findings", "Kind", "Misfit", "MisfitError", "Outcome",
    "RegisterError", "Registry", "Remark", "Stamp", "StoppedError", "WrongByte", "acknowledge", "audit", "check",
    "check_json", "check_long", "claims", "claims_csv", "explain", "findings", "history", "history_csv", "summary",
    "verify", "works", "works_csv",
]

Bytes = Union[bytes, bytearray, memoryview]

_DONE, _NO_ROOM, _NO_MEMORY, _BAD_STAMP, _FAULTY, _NO_OUTCOME, _SHUT, _ALREADY_OPEN, _NO_RULE, _UNVERIFIED = range(10)


class Kind(enum.IntEnum):
    """How the work on a file ended."""

    ACKNOWLEDGED = 0
    REFUSED = 1
    STOPPED = 2


class Cause(enum.IntEnum):
    """Why a file was stopped; `NONE` for any other file."""

    NONE = 0
    MEMORY = 1
    FULL_BOOK = 2
    READ = 3
    LENGTH = 4
    GATE = 5
    WRITE = 6


class Misfit(enum.IntEnum):
    """What does not fit between a file and a register."""

    TOO_LONG = 1
    REFUSED = 2
    TRANSACTION = 3
    LINE = 4


class RegisterError(ValueError):
    """A text that is no register of one registry. `number` is its first fault, 1 to 4 for G1 to G4, at `line`, from 1."""

    def __init__(self, number: int, line: int) -> None:
        super().__init__(f"refused G{number} at line {line}")
        self.number = number
        self.line = line

    def __reduce__(self) -> Tuple[Any, ...]:
        return type(self), (self.number, self.line)


class StoppedError(MemoryError):
    """An allocation failed before a file was run to its end. `outcome` has the number of its transactions that were
    decided: these stay in the registry, and there is no acknowledgement of them."""

    def __init__(self, outcome: Outcome) -> None:
        super().__init__(str(outcome))
        self.outcome = outcome

    def __reduce__(self) -> Tuple[Any, ...]:
        return type(self), (self.outcome,)


class _Stamp(ctypes.Structure):
    _fields_ = [
        ("society", ctypes.c_uint16),
        ("name", ctypes.c_uint8 * 45),
        ("date", ctypes.c_uint8 * 8),
        ("time", ctypes.c_uint8 * 6),
    ]


class _Outcome(ctypes.Structure):
    _fields_ = [
        ("kind", ctypes.c_uint32),
        ("fault", ctypes.c_uint32),
        ("line", ctypes.c_uint64),
        ("transactions", ctypes.c_uint32),
        ("cause", ctypes.c_uint32),
        ("sent", ctypes.c_uint64),
    ]


class _RegisterFault(ctypes.Structure):
    _fields_ = [("number", ctypes.c_uint32), ("line", ctypes.c_uint64)]


class _Sent(ctypes.Structure):
    _fields_ = [
        ("file", ctypes.c_char_p),
        ("file_length", ctypes.c_size_t),
        ("acknowledgement", ctypes.c_char_p),
        ("acknowledgement_length", ctypes.c_size_t),
    ]


class _Misfit(ctypes.Structure):
    _fields_ = [
        ("kind", ctypes.c_uint32),
        ("fault", ctypes.c_uint32),
        ("file", ctypes.c_uint64),
        ("line", ctypes.c_uint64),
        ("group", ctypes.c_uint32),
        ("transaction", ctypes.c_uint32),
    ]


class MisfitError(ValueError):
    """Files that a register does not hold as they were answered. `file` is the number of the first such file, from 0, and
    `kind` what of it does not fit. `REFUSED`: its first fault, 1 to 12 for F1 to F12, at `line`. `TRANSACTION`: the
    register has no entry for it, with the reply that the acknowledgement has: its group's ID and its number in the group,
    from 0. `LINE`: `line` of the acknowledgement is another. An acknowledgement whose first line is not that of one is
    reported as this before anything else of its file. What does not belong to a kind is 0."""

    def __init__(self, kind: Misfit, file: int, fault: int, line: int, group: int, transaction: int) -> None:
        told = {
            Misfit.TOO_LONG: "too long",
            Misfit.REFUSED: f"refused F{fault} at line {line}",
            Misfit.TRANSACTION: f"group {group}, transaction {transaction}: not in the register as it was answered",
            Misfit.LINE: f"line {line} of the acknowledgement is another in the register",
        }
        super().__init__(f"file {file}: {told[kind]}")
        self.kind = kind
        self.file = file
        self.fault = fault
        self.line = line
        self.group = group
        self.transaction = transaction

    def __reduce__(self) -> Tuple[Any, ...]:
        return type(self), (self.kind, self.file, self.fault, self.line, self.group, self.transaction)


class _Registry(ctypes.Structure):
    _fields_ = [("at", ctypes.c_void_p)]


def _find() -> str:
    """The path of the library."""
    here = pathlib.Path(__file__).resolve().parent
    named = os.environ.get("PURVILGO_LIBRARY")
    if named:
        return named
    for place in (here / "libpurvilgo.so", here.parent / "out" / "libpurvilgo.so"):
        if place.exists():
            return str(place)
    found = ctypes.util.find_library("purvilgo")
    if found is None:
        raise ImportError("libpurvilgo.so is not found: make it in bindings/, or name it in PURVILGO_LIBRARY")
    return found


def _load() -> ctypes.CDLL:
    """The library; `ImportError` names a file that is not the library, or does not have all of its calls."""
    path = _find()
    try:
        return _typed(ctypes.CDLL(path))
    except (OSError, AttributeError) as error:
        raise ImportError(f"{path} is not the library of purvilgo, or another version of it: {error}", path=path) from None


def _typed(library: ctypes.CDLL) -> ctypes.CDLL:
    """The library with the types of its calls."""
    text = [ctypes.c_char_p, ctypes.c_size_t]
    room = [ctypes.c_void_p, ctypes.c_size_t, ctypes.POINTER(ctypes.c_size_t)]
    outcome = ctypes.POINTER(_Outcome)
    library.purvilgo_version.argtypes = room
    library.purvilgo_status_text.argtypes = [ctypes.c_uint32, *room]
    library.purvilgo_explain.argtypes = [*text, *room]
    for call in ("check", "check_long", "check_json"):
        getattr(library, "purvilgo_" + call).argtypes = [*text, *room, ctypes.POINTER(ctypes.c_bool)]
    for call in ("claims", "works", "history", "summary"):
        getattr(library, "purvilgo_" + call).argtypes = [*text, *room, ctypes.POINTER(_RegisterFault)]
    library.purvilgo_verify.argtypes = [
        *text, ctypes.POINTER(_Sent), ctypes.c_size_t, ctypes.POINTER(ctypes.c_uint64),
        ctypes.POINTER(_RegisterFault), ctypes.POINTER(_Misfit),
    ]
    library.purvilgo_acknowledge.argtypes = [*text, ctypes.POINTER(_Stamp), *room, outcome]
    library.purvilgo_audit.argtypes = [*text, ctypes.POINTER(ctypes.c_uint64), ctypes.POINTER(_RegisterFault)]
    library.purvilgo_outcome_line.argtypes = [*text, outcome, *room]
    handle = ctypes.POINTER(_Registry)
    library.purvilgo_registry_open.argtypes = [handle]
    library.purvilgo_registry_read.argtypes = [handle, *text, ctypes.POINTER(_RegisterFault)]
    library.purvilgo_registry_run.argtypes = [handle, *text, ctypes.POINTER(_Stamp), outcome]
    library.purvilgo_registry_acknowledgement.argtypes = [handle, *room]
    library.purvilgo_registry_entries.argtypes = [handle, ctypes.POINTER(ctypes.c_uint64)]
    library.purvilgo_registry_register.argtypes = [handle, *room]
    library.purvilgo_registry_close.argtypes = [handle]
    for call in (
        "version", "status_text", "check", "check_long", "check_json", "explain", "claims", "works", "history", "summary",
        "verify", "acknowledge", "audit", "outcome_line", "registry_open", "registry_read", "registry_run",
        "registry_acknowledgement", "registry_entries", "registry_register",
    ):
        getattr(library, "purvilgo_" + call).restype = ctypes.c_uint32
    library.purvilgo_registry_close.restype = None
    return library


_library = _load()


def _answered(status: int) -> None:
    """Raises what a status stands for, with its text. The caller adds more to a fault or a misfit."""
    if status == _NO_MEMORY:
        raise MemoryError(_status_text(status))
    if status not in (_DONE, _FAULTY, _UNVERIFIED):
        raise ValueError(_status_text(status))


def _given(given: Bytes) -> bytes:
    """The bytes of what is given. `bytes(given)` alone would make a path its name, and a number that many zeros."""
    if isinstance(given, (bytes, bytearray, memoryview)):
        return bytes(given)
    raise TypeError(f"bytes are wanted, as pathlib.Path(..).read_bytes() gives them, and not {type(given).__name__}")


def _told(size: int, call: Callable[..., int]) -> bytes:
    """The text of a call, which is given a buffer of `size` bytes and, if that is too small, one that suffices."""
    length = ctypes.c_size_t()
    while True:
        room = ctypes.create_string_buffer(max(size, 1))
        status = call(room, size, ctypes.byref(length))
        if status != _NO_ROOM:
            _answered(status)
            return room.raw[: length.value]
        size = length.value


def _status_text(status: int) -> str:
    """What a status means, in a few words."""
    return _told(64, lambda *room: _library.purvilgo_status_text(status, *room)).decode("ascii")


#: the version of the library
__version__ = _told(16, _library.purvilgo_version).decode("ascii")


@dataclass(frozen=True)
class Check:
    """The check of a file before it is sent: the text of `purvilgo check`, of `--long` or of `--json`, and whether the file
    has no fault."""

    text: str
    clean: bool

    def __bool__(self) -> bool:
        return self.clean


@dataclass(frozen=True)
class Field:
    """A field that breaks a rule: its name, where it begins in its line, from 1, how long it is, and the bytes there."""

    name: str
    start: int
    length: int
    bytes: bytes


@dataclass(frozen=True)
class WrongByte:
    """A byte that breaks a rule, and its positions in its line and in the file, from 1."""

    byte: int
    in_line: int
    in_file: int


@dataclass(frozen=True)
class Fault:
    """A fault: the rule that is broken, as J4 or F9, and its text; the line, from 1, and its record; and what was expected.
    `group`, `transaction` and `sequence` are `None` if the line is in none."""

    rule: str
    text: str
    line: int
    record: Optional[str]
    group: Optional[int]
    transaction: Optional[int]
    sequence: Optional[int]
    fields: Tuple[Field, ...]
    #: of F2 and F11, else `None`
    byte: Optional[WrongByte]
    expected: str


@dataclass(frozen=True)
class Remark:
    """What is no fault, and is seldom meant: its kind, as `high bytes`, its text, the line, from 1, and its record. The
    numbers are those of its kind, and else `None`."""

    kind: str
    text: str
    line: int
    record: Optional[str]
    first: Optional[int]
    count: Optional[int]
    length: Optional[int]
    layout: Optional[int]


@dataclass(frozen=True)
class Findings:
    """What a check finds in a file: its faults, or the first one alone if the file is refused, and its remarks; whether it
    is refused; the number of its transactions, and of those with faults, 0 if it is refused."""

    faults: Tuple[Fault, ...]
    remarks: Tuple[Remark, ...]
    refused: bool
    transactions: int
    faulty: int

    @property
    def clean(self) -> bool:
        """Whether the file has no fault."""
        return not self.faults

    def __bool__(self) -> bool:
        return self.clean


@dataclass(frozen=True)
class Stamp:
    """Who acknowledges, and when: a society's number (CISAC), at most 999, its name, and a date and a time. A name that is
    a `str` is written in Latin-1. `TypeError` and `ValueError` say which of them is not valid."""

    society: int
    name: Union[str, bytes]
    when: datetime.datetime

    def __post_init__(self) -> None:
        if not isinstance(self.society, int):
            raise TypeError(f"the society is a number, and not {type(self.society).__name__}")
        if not 0 <= self.society <= 999:
            raise ValueError("the society is not from 0 to 999")
        if not isinstance(self.name, (str, bytes)):
            raise TypeError(f"the name is a text or bytes, and not {type(self.name).__name__}")
        name = self._name()
        if len(name) > 45:
            raise ValueError("the name has more than 45 bytes")
        if any(byte < 32 for byte in name):
            raise ValueError("the name has a byte below 32")
        if not isinstance(self.when, datetime.datetime):
            raise TypeError(f"the date and the time are a datetime.datetime, and not {type(self.when).__name__}")

    def _name(self) -> bytes:
        try:
            return self.name.encode("latin-1") if isinstance(self.name, str) else self.name
        except UnicodeEncodeError:
            raise ValueError("the name has a character that Latin-1 does not have") from None

    def _bytes(self) -> _Stamp:
        stamp = _Stamp(society=self.society)
        stamp.name[:] = self._name().ljust(45)
        stamp.date[:] = f"{self.when.year:04}{self.when.month:02}{self.when.day:02}".encode()
        stamp.time[:] = f"{self.when.hour:02}{self.when.minute:02}{self.when.second:02}".encode()
        return stamp


@dataclass(frozen=True)
class Outcome:
    """How the work on a file ended. What does not belong to its kind is 0."""

    kind: Kind
    #: refused: the first fault, 1 to 12 for F1 to F12, and its line, from 1
    fault: int
    line: int
    #: acknowledged: the number of transactions of the file; stopped: the number of those that were decided
    transactions: int
    #: stopped: why, and for a write the number of bytes of the acknowledgement that were written
    cause: Cause
    sent: int

    def __bool__(self) -> bool:
        return self.kind is Kind.ACKNOWLEDGED

    def line_for(self, name: Union[str, bytes]) -> bytes:
        """The line that `purvilgo run` prints for a file of this name, with LF at its end."""
        written = os.fsencode(name)
        numbers = _Outcome(self.kind, self.fault, self.line, self.transactions, self.cause, self.sent)
        return _told(
            len(written) + 64,
            lambda *room: _library.purvilgo_outcome_line(written, len(written), ctypes.byref(numbers), *room),
        )

    def __str__(self) -> str:
        return self.line_for(b"")[2:-1].decode()


@dataclass(frozen=True)
class Acknowledgement:
    """How the work on a file ended, and its acknowledgement file. The bytes are empty if it was not acknowledged, and the
    object is false then."""

    outcome: Outcome
    file: bytes

    def __bool__(self) -> bool:
        return bool(self.outcome)


def _outcome(numbers: _Outcome) -> Outcome:
    return Outcome(
        Kind(numbers.kind), numbers.fault, numbers.line, numbers.transactions, Cause(numbers.cause), numbers.sent
    )


def _checked(call: Callable[..., int], file: Bytes, bytes_of_one: int, encoding: str) -> Check:
    """The result of a call that checks a file. Its text mostly has a byte for each `bytes_of_one` bytes of the file."""
    file = _given(file)
    clean = ctypes.c_bool()
    text = _told(4096 + len(file) // bytes_of_one, lambda *room: call(file, len(file), *room, ctypes.byref(clean)))
    return Check(text.decode(encoding), clean.value)


def check(file: Bytes) -> Check:
    """Checks a submission file, without a registry, also one that is too long for a run, of more than 16,777,216 bytes."""
    return _checked(_library.purvilgo_check, file, 4, "ascii")


def check_long(file: Bytes) -> Check:
    """The same for a person: for each fault its line, its field, what stands there and what was expected, and then the
    remarks. Each byte of the file that the text shows is the character with its number."""
    return _checked(_library.purvilgo_check_long, file, 1, "latin-1")


def check_json(file: Bytes) -> Check:
    """The same for a program: one JSON object."""
    return _checked(_library.purvilgo_check_json, file, 1, "utf-8")


def findings(file: Bytes) -> Findings:
    """What a check finds in a file, as objects. In their texts each byte of the file is the character with its number."""
    told = json.loads(check_json(file).text)
    return Findings(
        tuple(map(_fault, told["faults"])),
        tuple(_made(Remark, remark) for remark in told["remarks"]),
        told["refused"], told["transactions"], told["faulty"],
    )


def _made(kind: Type[Any], members: Dict[str, Any]) -> Any:
    """An object of these members. Those that it has no place for are skipped: later versions may have more."""
    return kind(**{name: members[name] for name in kind.__dataclass_fields__})


def _fault(members: Dict[str, Any]) -> Fault:
    fields = tuple(_made(Field, {**field, "bytes": field["bytes"].encode("latin-1")}) for field in members["fields"])
    byte = members["byte"] and _made(WrongByte, members["byte"])
    return _made(Fault, {**members, "fields": fields, "byte": byte})


def explain(word: str = "") -> str:
    """For a rule as F9, J11 or 011: what it requires, an example that breaks it, and how to fix that. For an answer,
    AS, DU, CO or RJ: what it means, and what a publisher does then. Without a word, all of them. `ValueError` if a word
    names neither."""
    name = word.encode("utf-8")
    try:
        text = _told(2048 if word else 16384, lambda *room: _library.purvilgo_explain(name, len(name), *room))
    except ValueError as error:
        raise ValueError(f"{word}: {error}") from None
    return text.decode("ascii")


def acknowledge(file: Bytes, stamp: Stamp) -> Acknowledgement:
    """Acknowledges one file into an empty registry.

    A file that is not well-formed is no error: the outcome has its fault. `ValueError` for a stamp that is not valid.
    """
    file = _given(file)
    who = stamp._bytes()
    numbers = _Outcome()
    text = _told(
        4096 + 2 * len(file),
        lambda *room: _library.purvilgo_acknowledge(
            file, len(file), ctypes.byref(who), *room, ctypes.byref(numbers)
        ),
    )
    outcome = _outcome(numbers)
    if outcome.cause in (Cause.MEMORY, Cause.WRITE):
        raise MemoryError(str(outcome))
    return Acknowledgement(outcome, text)


def audit(register: Bytes) -> int:
    """The number of entries of a register, after each of its decisions was made again; `RegisterError` if it is no
    register."""
    register = _given(register)
    entries = ctypes.c_uint64()
    fault = _RegisterFault()
    status = _library.purvilgo_audit(register, len(register), ctypes.byref(entries), ctypes.byref(fault))
    _answered(status)
    if status == _FAULTY:
        raise RegisterError(fault.number, fault.line)
    return entries.value


def verify(register: Bytes, files: Iterable[Tuple[Bytes, Bytes]]) -> int:
    """Checks a register against files that were sent and their acknowledgements, each a pair, in the order in which they
    were run. Returns the number of their transactions, after each of them was judged again, and its entry found with the
    reply that was acknowledged. `MisfitError` has the first file that does not fit; `RegisterError` if the register is no
    register."""
    register = _given(register)
    pairs = [(_given(file), _given(acknowledgement)) for file, acknowledgement in files]
    sent = (_Sent * max(len(pairs), 1))(*((file, len(file), answer, len(answer)) for file, answer in pairs))
    transactions = ctypes.c_uint64()
    fault = _RegisterFault()
    misfit = _Misfit()
    status = _library.purvilgo_verify(
        register, len(register), sent, len(pairs), ctypes.byref(transactions), ctypes.byref(fault), ctypes.byref(misfit)
    )
    _answered(status)
    if status == _FAULTY:
        raise RegisterError(fault.number, fault.line)
    if status == _UNVERIFIED:
        raise MisfitError(
            Misfit(misfit.kind), misfit.file, misfit.fault, misfit.line, misfit.group, misfit.transaction
        )
    return transactions.value


def _table(call: Callable[..., int], register: Bytes) -> bytes:
    """The text that a call gives of a register; `RegisterError` if it is no register."""
    register = _given(register)
    fault = _RegisterFault()

    def ask(*room: Any) -> int:
        status: int = call(register, len(register), *room, ctypes.byref(fault))
        if status == _FAULTY:
            raise RegisterError(fault.number, fault.line)
        return status

    return _told(4096 + len(register), ask)


def _rows(table: bytes) -> List[Dict[str, str]]:
    """The rows of a table, by the names of its columns. Each byte of the register is the character with its number."""
    return list(csv.DictReader(io.StringIO(table.decode("latin-1"), newline="")))


def claims_csv(register: Bytes) -> bytes:
    """The current claims of a register, as `purvilgo claims` prints them; `RegisterError` if it is no register."""
    return _table(_library.purvilgo_claims, register)


def works_csv(register: Bytes) -> bytes:
    """The works of a register, as `purvilgo works` prints them; `RegisterError` if it is no register."""
    return _table(_library.purvilgo_works, register)


def history_csv(register: Bytes) -> bytes:
    """Every entry of a register, as `purvilgo history` prints them; `RegisterError` if it is no register."""
    return _table(_library.purvilgo_history, register)


def claims(register: Bytes) -> List[Dict[str, str]]:
    """The current claims of a register, each as its columns by name. Texts have the register's blanks behind them."""
    return _rows(claims_csv(register))


def works(register: Bytes) -> List[Dict[str, str]]:
    """The works of a register, each as its columns by name."""
    return _rows(works_csv(register))


def history(register: Bytes) -> List[Dict[str, str]]:
    """Every entry of a register, each as its columns by name. Texts have the register's blanks behind them."""
    return _rows(history_csv(register))


def summary(register: Bytes) -> str:
    """A summary of a register, as `purvilgo summary` prints it; `RegisterError` if it is no register."""
    return _table(_library.purvilgo_summary, register).decode("ascii")


class Registry:
    """A registry of musical works, which goes on from file to file: `Registry()` is an empty one, `Registry.open(register)`
    the one of a register.

    It holds all that was decided, in memory, until `close`; as a context manager it closes itself. A call of one that is
    closed is a `ValueError`. Threads may share it: their calls wait for one another. It is not copied or pickled: the copy
    would be the same registry, and be closed with it.
    """

    def __init__(self) -> None:
        self._lock = threading.Lock()
        self._handle = _Registry()
        _answered(_library.purvilgo_registry_open(ctypes.byref(self._handle)))

    @classmethod
    def open(cls, register: Bytes) -> Registry:
        """The registry of a register, after each of its decisions was made again; `RegisterError` if it is no register.

        A program that writes its register back, in place of that one, has to keep others from it meanwhile: the library
        locks nothing.
        `purvilgo run --to` holds an exclusive `flock` on the empty file REGISTER.lock, and so does `day.py`.
        """
        register = _given(register)
        opened = cls.__new__(cls)
        opened._lock = threading.Lock()
        opened._handle = _Registry()
        fault = _RegisterFault()
        status = _library.purvilgo_registry_read(
            ctypes.byref(opened._handle), register, len(register), ctypes.byref(fault)
        )
        _answered(status)
        if status == _FAULTY:
            raise RegisterError(fault.number, fault.line)
        return opened

    def run(self, file: Bytes, stamp: Stamp) -> Acknowledgement:
        """Runs one file: decides its transactions, in file order, after all that was decided before.

        A file that is not well-formed is no error: the outcome has its fault. `ValueError` for a stamp that is not valid,
        `StoppedError` if an allocation fails, which is a `MemoryError`.
        """
        file = _given(file)
        who = stamp._bytes()
        numbers = _Outcome()
        with self._lock:
            handle = ctypes.byref(self._handle)
            _answered(
                _library.purvilgo_registry_run(handle, file, len(file), ctypes.byref(who), ctypes.byref(numbers))
            )
            outcome = _outcome(numbers)
            if outcome.cause in (Cause.MEMORY, Cause.WRITE):
                raise StoppedError(outcome)
            text = _told(0, lambda *room: _library.purvilgo_registry_acknowledgement(handle, *room))
        return Acknowledgement(outcome, text)

    @property
    def entries(self) -> int:
        """The number of decided transactions, those of the register that it was opened from included."""
        with self._lock:
            return self._entries()

    def _entries(self) -> int:
        entries = ctypes.c_uint64()
        _answered(_library.purvilgo_registry_entries(ctypes.byref(self._handle), ctypes.byref(entries)))
        return entries.value

    def register(self) -> bytes:
        """The register: all that was decided, as `purvilgo run --to` writes it."""
        with self._lock:
            size = 12 + 192 * self._entries()
            handle = ctypes.byref(self._handle)
            return _told(size, lambda *room: _library.purvilgo_registry_register(handle, *room))

    def close(self) -> None:
        """Frees all that it holds. Nothing happens to one that is closed."""
        with self._lock:
            _library.purvilgo_registry_close(ctypes.byref(self._handle))

    def __reduce__(self) -> Tuple[Any, ...]:
        # `copy` and `pickle` ask for this.
        raise TypeError("a registry is not copied: Registry.open(registry.register()) makes another")

    def __enter__(self) -> Registry:
        return self

    def __exit__(
        self,
        kind: Optional[Type[BaseException]],
        error: Optional[BaseException],
        trace: Optional[TracebackType],
    ) -> None:
        self.close()

    def __del__(self) -> None:
        if hasattr(self, "_handle"):
            self.close()
