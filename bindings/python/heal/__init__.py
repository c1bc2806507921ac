"""heal for Python: the name registry of two halves of a cluster, over the C library.

    with Side("a") as side:
        side.register("db", Registration(Owner(1, 10), stamp=5))
        offer = side.begin(number=1, seed=7, uptime=3600)

`bindings/c/heal.h` describes each call. Each raises `Refused`, with the number and words of the refusal, and changes nothing then. After any
other exception, as that of a signal handler, the call may have been made and its outcome or entry be lost: let no handler raise during `finish`,
and let a replica `lead` and start a new log then.
The library is the file that the environment variable HEAL_LIBRARY names, else `libheal.so` beside this file, where a wheel has
it, else `bindings/c/out/libheal.so`.

Threads may share a `Side` or a `Program`. Each has a lock, so calls on one object take turns, and `close` waits for the call
that runs. `rows` holds the lock for the whole list. Calls release the interpreter lock (GIL), so other threads run while a side
hears a large offer, and calls on different objects run in parallel.

After `os.fork` in a program with threads the child must not use or close objects that exist, since a call of another thread may hold the lock
for ever: end it by `os._exit`, or start processes by "spawn".
"""

from __future__ import annotations

import ctypes
import os
import threading
from array import array
from ctypes import POINTER, byref, c_size_t, c_uint8, c_uint32, c_uint64, c_void_p
from dataclasses import dataclass
from enum import IntEnum
from typing import Any, Literal, TypeVar, Union

from heal.refusal import Refusal

__all__ = [
    "ID_LEN",
    "MAX_NAMES",
    "RECORD_LEN",
    "Buffer",
    "Builtin",
    "Clash",
    "Ended",
    "Facts",
    "Fault",
    "Head",
    "Missing",
    "Notice",
    "NoticeKind",
    "Outcome",
    "Owner",
    "Program",
    "Refusal",
    "Refused",
    "Registration",
    "Sandbox",
    "Side",
    "State",
    "Verdict",
    "list_fault",
    "offer_fault",
    "peek",
    "record",
    "refusal_words",
    "version",
]

# Bytes, or an object whose bytes can be read: any item size will do.
Buffer = Union[bytes, bytearray, memoryview, "array[Any]"]

RECORD_LEN = 160
ID_LEN = 32
MAX_NAMES = 4096
# The refusal after the last row or name of a walk.
_NO_ROW = 92


class Builtin(IntEnum):
    """A resolver without a program."""

    EXIT = 0
    NOTIFY = 1
    NOTIFY_ALL = 2


class Verdict(IntEnum):
    """Who keeps the name of a clash."""

    NEITHER = 0
    FIRST = 1
    SECOND = 2


class NoticeKind(IntEnum):
    """What an owner is notified of."""

    EXIT = 0
    CONFLICT = 1
    CONFLICT_WITH = 2


class Refused(Exception):
    """A refused call. `slot` is set if the refusal concerns a slot of a program, and `refusal` unless its number has no name."""

    def __init__(self, number: int, slot: int | None = None) -> None:
        super().__init__(number, slot)
        self.number: int = number
        self.slot: int | None = slot
        self.words: str = refusal_words(number)

    @property
    def refusal(self) -> Refusal | None:
        """The refusal by name."""
        try:
            return Refusal(self.number)
        except ValueError:
            return None

    def __str__(self) -> str:
        at = "" if self.slot is None else f" at slot {self.slot}"
        return f"refused {self.number}{at}: {self.words}"


@dataclass(frozen=True, order=True)
class Owner:
    """The owner of a name: a number on a node."""

    node: int
    serial: int


@dataclass(frozen=True)
class Registration:
    """A name's entry. The resolver is a `Builtin`, or the 32 bytes of a program's id."""

    owner: Owner
    stamp: int = 0
    weight: int = 0
    extra: bytes = bytes(16)
    resolver: Builtin | bytes = Builtin.EXIT


@dataclass(frozen=True)
class Facts:
    """The number of names in a half's table, and the half's uptime."""

    size: int
    uptime: int


@dataclass(frozen=True)
class Ended:
    """The outcome of a run: the answer in R0, and the number of steps."""

    r0: int
    steps: int


@dataclass(frozen=True)
class Notice:
    """A notice to an owner. `other` is set for CONFLICT_WITH."""

    kind: NoticeKind
    to: Owner
    other: Owner | None = None


@dataclass(frozen=True)
class Clash:
    """A clash of a finished exchange, with its ruling and the notices to deliver."""

    name: bytes
    first: Registration
    second: Registration
    word: int
    verdict: Verdict
    #: Who keeps the name: the verdict, or NEITHER if the winner was withdrawn. Then nobody is notified, and the half of the
    #: other owner registers it again, unless it withdrew the name too.
    keeps: Verdict
    #: The half that registered `first`.
    first_half: Literal["a", "b"]
    notices: tuple[Notice, ...]


@dataclass(frozen=True)
class Outcome:
    """A finished exchange: its number, the number of names in the merged table, and the clashes in the order of names."""

    number: int
    merged: int
    #: The names that half A withdrew, and those that half B did, the earliest first.
    withdrawn: tuple[tuple[bytes, ...], tuple[bytes, ...]]
    clashes: tuple[Clash, ...]


@dataclass(frozen=True)
class Fault:
    """What is wrong with a message. `byte` is where the faulty field begins, or `item` is the faulty row or name; both count from 0.
    `code` is the refusal of a row's code, with its slot."""

    number: int
    byte: int | None = None
    item: int | None = None
    code: Refused | None = None


class Missing(IntEnum):
    """What an open exchange lacks before `finish`."""

    NOTHING = 0
    OFFER = 1
    RULING = 2
    OWN_LIST = 3
    LIST = 4


@dataclass(frozen=True)
class State:
    """What a side knows. `number` is that of the open exchange, and `latest` the greatest that the side began."""

    number: int | None
    latest: int | None
    has_heard: bool
    has_closed: bool
    has_heard_list: bool
    missing: Missing


@dataclass(frozen=True)
class Head:
    """The first fields of a message. `seed` is set for an offer and None for a list."""

    side: Literal["a", "b"]
    number: int
    seed: int | None


class _Handle(ctypes.Structure):
    _fields_ = [("at", c_void_p)]


class _Owner(ctypes.Structure):
    _fields_ = [("node", c_uint32), ("serial", c_uint32)]


class _Registration(ctypes.Structure):
    _fields_ = [
        ("owner", _Owner),
        ("stamp", c_uint64),
        ("weight", c_uint64),
        ("extra", c_uint8 * 16),
        ("resolver", c_uint32),
        ("program", c_uint8 * ID_LEN),
        ("reserved", c_uint32),
    ]


class _Name(ctypes.Structure):
    _fields_ = [("len", c_uint32), ("bytes", c_uint8 * 32), ("reserved", c_uint32)]


class _Row(ctypes.Structure):
    _fields_ = [("name", _Name), ("registration", _Registration), ("reserved", c_uint64)]


class _Span(ctypes.Structure):
    _fields_ = [("data", POINTER(c_uint8)), ("len", c_size_t), ("reserved", c_uint64)]


class _Facts(ctypes.Structure):
    _fields_ = [("size", c_uint64), ("uptime", c_uint64), ("reserved", c_uint64)]


class _Ended(ctypes.Structure):
    _fields_ = [("r0", c_uint64), ("steps", c_uint32), ("reserved", c_uint32)]


class _Clash(ctypes.Structure):
    _fields_ = [
        ("name", _Name),
        ("first", _Registration),
        ("second", _Registration),
        ("word", c_uint64),
        ("verdict", c_uint32),
        ("keeps", c_uint32),
        ("first_half", c_uint32),
        ("notices", c_uint32),
        ("reserved", c_uint64),
    ]


class _Notice(ctypes.Structure):
    _fields_ = [("kind", c_uint32), ("to", _Owner), ("other", _Owner), ("reserved", c_uint32)]


class _State(ctypes.Structure):
    _fields_ = [
        *[(name, c_uint32) for name in ("side", "is_open", "has_heard", "has_closed", "has_heard_list")],
        *[(name, c_uint32) for name in ("missing", "has_begun", "reserved")],
        *[(name, c_uint64) for name in ("number", "latest", "missing_clash", "withdrawn")],
    ]


class _Head(ctypes.Structure):
    _fields_ = [
        *[(name, c_uint32) for name in ("kind", "version", "side", "reserved")],
        *[(name, c_uint64) for name in ("number", "seed")],
    ]


class _Fault(ctypes.Structure):
    _fields_ = [
        *[("number", c_uint32), ("place", c_uint32), ("at", c_uint64)],
        *[("reason", c_uint32), ("slot", c_uint32), ("reserved", c_uint64)],
    ]


_BYTES = POINTER(c_uint8)
_HANDLE = POINTER(_Handle)
_NAMED = [_HANDLE, _BYTES, c_size_t]

# The arguments of each function that returns 0 or the number of a refusal.
_ARGUMENTS = {
    "heal_program_load": [_BYTES, c_size_t, _HANDLE, POINTER(c_uint32)],
    "heal_program_judge": [_HANDLE, _BYTES, POINTER(_Ended)],
    "heal_program_id": [_HANDLE, _BYTES],
    "heal_bpf_load": [_BYTES, c_size_t, c_uint32, _HANDLE, POINTER(c_uint32)],
    "heal_bpf_run": [_HANDLE, _BYTES, c_size_t, POINTER(_Ended)],
    "heal_record": [
        _BYTES,
        c_size_t,
        POINTER(_Registration),
        POINTER(_Registration),
        c_uint64,
        POINTER(_Facts),
        POINTER(_Facts),
        _BYTES,
    ],
    "heal_side_new_within": [c_uint32, c_size_t, _HANDLE],
    "heal_side_upload": [_HANDLE, _BYTES, c_size_t, _BYTES, POINTER(c_uint32)],
    "heal_side_forget": [_HANDLE, _BYTES],
    "heal_side_program": [_HANDLE, c_size_t, _BYTES],
    "heal_side_code": [_HANDLE, _BYTES, _HANDLE],
    "heal_side_register": [*_NAMED, POINTER(_Registration)],
    "heal_side_unregister": _NAMED,
    "heal_side_whereis": [*_NAMED, POINTER(_Registration)],
    "heal_side_count": [_HANDLE, POINTER(c_size_t)],
    "heal_side_row": [_HANDLE, c_size_t, POINTER(_Row)],
    "heal_side_row_after": [*_NAMED, POINTER(_Row)],
    "heal_side_begin": [_HANDLE, c_uint64, c_uint64, c_uint64, _HANDLE],
    "heal_side_hear": [_HANDLE, _BYTES, c_size_t],
    "heal_side_settle": [_HANDLE],
    "heal_side_withdraw": _NAMED,
    "heal_side_close_list": [_HANDLE, _HANDLE],
    "heal_side_hear_list": [_HANDLE, _BYTES, c_size_t],
    "heal_side_finish": [_HANDLE, _HANDLE],
    "heal_side_abandon": [_HANDLE],
    "heal_side_events": [_HANDLE, POINTER(c_size_t)],
    "heal_side_renew": [_HANDLE],
    "heal_side_give_up": [_HANDLE],
    "heal_side_query": [_HANDLE, POINTER(_State)],
    "heal_message_peek": [_BYTES, c_size_t, POINTER(_Head)],
    "heal_offer_fault": [_BYTES, c_size_t, POINTER(_Fault)],
    "heal_list_fault": [_BYTES, c_size_t, POINTER(_Fault)],
    "heal_bytes_lend": [_HANDLE, POINTER(_Span)],
    "heal_side_live": [_HANDLE, c_size_t, POINTER(_Row)],
    "heal_side_live_after": [*_NAMED, POINTER(_Row)],
    "heal_side_withdrawn": [_HANDLE, c_size_t, POINTER(_Name)],
    "heal_outcome_number": [_HANDLE, POINTER(c_uint64)],
    "heal_outcome_withdrawn": [_HANDLE, c_uint32, c_size_t, POINTER(_Name)],
    "heal_outcome_merged": [_HANDLE, POINTER(c_size_t)],
    "heal_outcome_clashes": [_HANDLE, POINTER(c_size_t)],
    "heal_outcome_clash": [_HANDLE, c_size_t, POINTER(_Clash)],
    "heal_outcome_notice": [_HANDLE, c_size_t, c_size_t, POINTER(_Notice)],
}


def _load() -> ctypes.CDLL:
    """Opens the library."""
    here = os.path.dirname(os.path.realpath(__file__))
    beside = os.path.join(here, "libheal.so")
    built = beside if os.path.exists(beside) else os.path.join(here, "..", "..", "c", "out", "libheal.so")
    library = ctypes.CDLL(os.environ.get("HEAL_LIBRARY", built))
    library.heal_refusal_words.argtypes = [c_uint32, _BYTES, c_size_t]
    library.heal_refusal_words.restype = c_size_t
    library.heal_version.argtypes, library.heal_version.restype = [], c_uint32
    return library


_LIBRARY = _load()


def _declare(arguments: dict[str, list[Any]]) -> None:
    """Declares functions that return 0 or the number of a refusal."""
    for name, types in arguments.items():
        getattr(_LIBRARY, name).argtypes = types
        getattr(_LIBRARY, name).restype = c_uint32


def _declare_free(name: str) -> None:
    """Declares a function that frees an object."""
    free = getattr(_LIBRARY, name)
    free.argtypes, free.restype = [_HANDLE], None


_declare(_ARGUMENTS)
for _free in ("heal_program_free", "heal_bpf_free", "heal_side_free", "heal_bytes_free", "heal_outcome_free"):
    _declare_free(_free)


def _call(name: str, *arguments: Any) -> None:
    """Calls a function that returns 0 or the number of a refusal."""
    number = getattr(_LIBRARY, name)(*arguments)
    if number != 0:
        raise Refused(number)


def _in(data: Buffer) -> tuple[Any, int]:
    """Returns a copy of a buffer of any item size as an argument, an array of bytes, and the number of these."""
    view = memoryview(data)
    size = view.nbytes
    if not view.c_contiguous:
        view = view.tobytes()
    return (c_uint8 * size).from_buffer_copy(view) if size else None, size


def _fixed(data: Buffer, size: int, what: str) -> Any:
    """Returns a copy of a buffer of this many bytes as an array."""
    copy, length = _in(data)
    if length != size:
        raise ValueError(f"{what} has {size} bytes, not {length}")
    return copy


def _name(name: str | Buffer) -> tuple[Any, int]:
    """Returns a name, text or bytes, as two arguments."""
    return _in(name.encode() if isinstance(name, str) else name)


def _number(value: int, bits: int) -> int:
    """Returns the number if it is unsigned and has at most so many bits: ctypes would cut it off."""
    if not 0 <= value < 1 << bits:
        raise OverflowError(f"{value} is not an unsigned number of {bits} bits")
    return value


def _expect(kind: type, value: object) -> None:
    """Rejects an object of another type: the library would read its handle as one of this type."""
    if not isinstance(value, kind):
        raise TypeError(f"a {kind.__name__} is required, not {type(value).__name__!r}")


def _owner(owner: Owner) -> _Owner:
    return _Owner(_number(owner.node, 32), _number(owner.serial, 32))


def _to_c(registration: Registration) -> _Registration:
    """Returns a registration as the library reads it."""
    made = _Registration(
        owner=_owner(registration.owner),
        stamp=_number(registration.stamp, 64),
        weight=_number(registration.weight, 64),
        extra=_fixed(registration.extra, 16, "extra"),
    )
    if isinstance(registration.resolver, int):
        made.resolver = _number(registration.resolver, 32)
    else:
        made.resolver = 3
        made.program = _fixed(registration.resolver, ID_LEN, "the id of a program")
    return made


def _from_c(registration: _Registration) -> Registration:
    """Returns a registration that the library wrote."""
    resolver = registration.resolver
    return Registration(
        owner=Owner(registration.owner.node, registration.owner.serial),
        stamp=registration.stamp,
        weight=registration.weight,
        extra=bytes(registration.extra),
        resolver=bytes(registration.program) if resolver == 3 else Builtin(resolver),
    )


def _text(name: _Name) -> bytes:
    return bytes(name.bytes[: name.len])


def version() -> tuple[int, int, int]:
    """Returns the version of the library: its major, minor and patch numbers."""
    number = _LIBRARY.heal_version()
    return number >> 16, number >> 8 & 0xFF, number & 0xFF


def refusal_words(number: int) -> str:
    """Returns the words of a refusal."""
    words = (c_uint8 * 256)()
    return bytes(words[: _LIBRARY.heal_refusal_words(_number(number, 32), words, len(words))]).decode("ascii")


def _slot_of(number: int, slot: int) -> int | None:
    """Returns the slot if the refusal is one of a slot."""
    return slot if 4 <= number <= 26 else None


def _fault(name: str, message: Buffer) -> Fault | None:
    found = _Fault()
    number = getattr(_LIBRARY, name)(*_in(message), byref(found))
    if number == 0:
        return None
    if number == Refusal.OUT_OF_MEMORY:
        raise Refused(number)
    code = Refused(found.reason, _slot_of(found.reason, found.slot)) if found.reason else None
    return Fault(number, found.at if found.place == 1 else None, found.at if found.place == 2 else None, code)


def peek(message: Buffer) -> Head:
    """Returns the first fields of a message, without looking at the rest."""
    head = _Head()
    _call("heal_message_peek", *_in(message), byref(head))
    return Head("b" if head.side else "a", head.number, head.seed if head.kind == 1 else None)


def offer_fault(offer: Buffer) -> Fault | None:
    """Returns what is wrong with the bytes of an offer, or None."""
    return _fault("heal_offer_fault", offer)


def list_fault(sent: Buffer) -> Fault | None:
    """Returns what is wrong with the bytes of a list of withdrawn names, or None."""
    return _fault("heal_list_fault", sent)


def record(
    name: str | Buffer, first: Registration, second: Registration, word: int, of_first: Facts, of_second: Facts
) -> bytes:
    """Returns the record of a clash of two registrations of a name at a word: 160 bytes."""
    made = (c_uint8 * RECORD_LEN)()
    facts = [_Facts(_number(it.size, 64), _number(it.uptime, 64)) for it in (of_first, of_second)]
    ends = [_to_c(first), _to_c(second)]
    word = _number(word, 64)
    _call("heal_record", *_name(name), *map(byref, ends), word, *map(byref, facts), made)
    return bytes(made)


_Self = TypeVar("_Self", bound="_Owned")


class _Owned:
    """An object of the library. It is freed by `close`, at the end of a `with` block, or with the Python object."""

    _kind = ""

    def __init__(self) -> None:
        # A call that changes the object must be the only one on it. The lock is one that its own thread may take again: a
        # signal handler may call between two steps of `rows`.
        self._lock = threading.RLock()
        self._handle = _Handle()

    def close(self) -> None:
        """Frees the object, after the call that another thread makes. Later calls raise `Refused` with number 91."""
        with self._lock:
            getattr(_LIBRARY, f"heal_{self._kind}_free")(byref(self._handle))

    def __reduce__(self) -> str | tuple[Any, ...]:
        """An object is neither copied nor pickled: the copy would free what the object holds."""
        raise TypeError(f"a {type(self).__name__} can't be copied or pickled")

    def __enter__(self: _Self) -> _Self:
        return self

    def __exit__(self, *_: object) -> None:
        self.close()

    def __del__(self) -> None:
        if _LIBRARY is not None and hasattr(self, "_handle"):
            self.close()

    def _call(self, name: str, *arguments: Any) -> None:
        with self._lock:
            _call(f"heal_{self._kind}_{name}", byref(self._handle), *arguments)

    def _number(self, name: str) -> int:
        """Calls a function that returns a number."""
        number = c_size_t()
        self._call(name, byref(number))
        return number.value


class Program(_Owned):
    """A verified program."""

    _kind = "program"

    def __init__(self, code: Buffer) -> None:
        super().__init__()
        slot = c_uint32()
        number = _LIBRARY.heal_program_load(*_in(code), byref(self._handle), byref(slot))
        if number != 0:
            raise Refused(number, _slot_of(number, slot.value))

    @property
    def id(self) -> bytes:
        """The SHA-256 digest of the program's bytes."""
        found = (c_uint8 * ID_LEN)()
        self._call("id", found)
        return bytes(found)

    def judge(self, of_clash: Buffer) -> Ended:
        """Runs the program on the record of a clash."""
        ended = _Ended()
        self._call("judge", _fixed(of_clash, RECORD_LEN, "a record"), byref(ended))
        return Ended(ended.r0, ended.steps)


class Sandbox(_Owned):
    """A verified program for contexts of one length, from 0 to 65,535 bytes, which needs no registry."""

    _kind = "bpf"

    def __init__(self, code: Buffer, context_len: int) -> None:
        super().__init__()
        slot = c_uint32()
        number = _LIBRARY.heal_bpf_load(*_in(code), _number(context_len, 32), byref(self._handle), byref(slot))
        if number != 0:
            raise Refused(number, _slot_of(number, slot.value))

    def run(self, context: Buffer) -> Ended:
        """Runs the program on a context of its length."""
        ended = _Ended()
        self._call("run", *_in(context), byref(ended))
        return Ended(ended.r0, ended.steps)


class _Message(_Owned):
    """A message that a side sends."""

    _kind = "bytes"

    def take(self) -> bytes:
        """Returns the bytes and frees the message."""
        with self:
            lent = _Span((c_uint8 * 1)())
            self._call("lend", byref(lent))
            return ctypes.string_at(lent.data, lent.len)


class _Finished(_Owned):
    """The outcome of an exchange, in the library."""

    _kind = "outcome"

    def take(self) -> Outcome:
        """Returns the outcome and frees it."""
        with self:
            clashes = tuple(self._clash(i) for i in range(self._number("clashes")))
            number = c_uint64()
            self._call("number", byref(number))
            gone = self._withdrawn(0), self._withdrawn(1)
            return Outcome(number.value, self._number("merged"), gone, clashes)

    def _withdrawn(self, half: int) -> tuple[bytes, ...]:
        names: list[bytes] = []
        found = _Name()
        try:
            while True:
                self._call("withdrawn", half, len(names), byref(found))
                names.append(_text(found))
        except Refused as refused:
            if refused.number != _NO_ROW:
                raise
        return tuple(names)

    def _clash(self, i: int) -> Clash:
        found = _Clash()
        self._call("clash", i, byref(found))
        notices = tuple(self._notice(i, n) for n in range(found.notices))
        ends = _from_c(found.first), _from_c(found.second)
        keeps, half = Verdict(found.keeps), "b" if found.first_half else "a"
        return Clash(_text(found.name), *ends, found.word, Verdict(found.verdict), keeps, half, notices)

    def _notice(self, i: int, n: int) -> Notice:
        found = _Notice()
        self._call("notice", i, n, byref(found))
        kind = NoticeKind(found.kind)
        other = Owner(found.other.node, found.other.serial) if kind is NoticeKind.CONFLICT_WITH else None
        return Notice(kind, Owner(found.to.node, found.to.serial), other)


class Side(_Owned):
    """One half's side of exchanges, with its table and its uploads. `which` is "a" or "b"; `names` is the most names that it
    may have, from 1 to 1,048,576."""

    _kind = "side"

    def __init__(self, which: Literal["a", "b"], names: int = 4096) -> None:
        super().__init__()
        if which not in ("a", "b"):
            raise ValueError('a side is "a" or "b"')
        if not 0 < names < 1 << 32:
            raise Refused(92)
        _call("heal_side_new_within", 1 if which == "b" else 0, names, byref(self._handle))

    def upload(self, code: Buffer) -> bytes:
        """Verifies and keeps a program, and returns its id."""
        found = (c_uint8 * ID_LEN)()
        slot = c_uint32()
        with self._lock:
            number = _LIBRARY.heal_side_upload(byref(self._handle), *_in(code), found, byref(slot))
        if number != 0:
            raise Refused(number, _slot_of(number, slot.value))
        return bytes(found)

    def forget(self, program: Buffer) -> None:
        """Forgets an uploaded program, by its id, that no row names."""
        self._call("forget", _fixed(program, ID_LEN, "the id of a program"))

    def code(self, program: Buffer) -> bytes:
        """Returns the code of an uploaded program, by its id, or of one that a row names."""
        code = _Message()
        self._call("code", _fixed(program, ID_LEN, "the id of a program"), byref(code._handle))
        return code.take()

    @property
    def programs(self) -> list[bytes]:
        """The ids of the uploaded programs, in order."""
        ids: list[bytes] = []
        found = (c_uint8 * ID_LEN)()
        with self._lock:
            try:
                while True:
                    self._call("program", len(ids), found)
                    ids.append(bytes(found))
            except Refused as refused:
                if refused.number != _NO_ROW:
                    raise
        return ids

    def register(self, name: str | Buffer, registration: Registration) -> None:
        """Registers a name on an idle side."""
        self._call("register", *_name(name), byref(_to_c(registration)))

    def unregister(self, name: str | Buffer) -> None:
        """Unregisters a name on an idle side."""
        self._call("unregister", *_name(name))

    def whereis(self, name: str | Buffer) -> Registration | None:
        """Returns the registration of a name, or None."""
        found = _Registration()
        try:
            self._call("whereis", *_name(name), byref(found))
        except Refused as refused:
            if refused.number == 31:
                return None
            raise
        return _from_c(found)

    def __len__(self) -> int:
        """Returns the number of names in the table."""
        return self._number("count")

    def __bool__(self) -> bool:
        """A side is true, also without names."""
        return True

    def rows(self) -> list[tuple[bytes, Registration]]:
        """Returns the names and registrations of the table, in the order of names; in an open exchange, with the withdrawn ones."""
        return self._rows("row")

    def live_rows(self) -> list[tuple[bytes, Registration]]:
        """Returns the same without the names that the side withdrew in the open exchange."""
        return self._rows("live")

    def _rows(self, call: str) -> list[tuple[bytes, Registration]]:
        rows = []
        found = _Row()
        with self._lock:
            try:
                self._call(call, 0, byref(found))
                while True:
                    name = _text(found.name)
                    rows.append((name, _from_c(found.registration)))
                    self._call(f"{call}_after", *_in(name), byref(found))
            except Refused as refused:
                if refused.number != _NO_ROW:
                    raise
        return rows

    @property
    def state(self) -> State:
        """What the side knows."""
        found = _State()
        self._call("query", byref(found))
        return State(
            number=found.number if found.is_open else None,
            latest=found.latest if found.has_begun else None,
            has_heard=bool(found.has_heard),
            has_closed=bool(found.has_closed),
            has_heard_list=bool(found.has_heard_list),
            missing=Missing(found.missing),
        )

    @property
    def withdrawn(self) -> list[bytes]:
        """The names that the side withdrew in the open exchange, the earliest first."""
        names: list[bytes] = []
        found = _Name()
        with self._lock:
            try:
                while True:
                    self._call("withdrawn", len(names), byref(found))
                    names.append(_text(found))
            except Refused as refused:
                if refused.number != _NO_ROW:
                    raise
        return names

    def begin(self, number: int, seed: int, uptime: int) -> bytes:
        """Opens an exchange, and returns the offer to be sent."""
        message = _Message()
        numbers = [_number(it, 64) for it in (number, seed, uptime)]
        self._call("begin", *numbers, byref(message._handle))
        return message.take()

    def hear(self, offer: Buffer) -> None:
        """Hears the other side's offer."""
        self._call("hear", *_in(offer))

    def settle(self) -> None:
        """Judges every clash that has no ruling, at the word that the other half judges it at too."""
        self._call("settle")

    def withdraw(self, name: str | Buffer) -> None:
        """Withdraws a name in the open exchange."""
        self._call("withdraw", *_name(name))

    def close_list(self) -> bytes:
        """Closes the list of withdrawn names, and returns the list to be sent."""
        message = _Message()
        self._call("close_list", byref(message._handle))
        return message.take()

    def hear_list(self, sent: Buffer) -> None:
        """Hears the other side's list of withdrawn names."""
        self._call("hear_list", *_in(sent))

    def finish(self) -> Outcome:
        """Replaces the table by the merge, and returns the outcome."""
        finished = _Finished()
        self._call("finish", byref(finished._handle))
        return finished.take()

    def abandon(self) -> None:
        """Closes the exchange and keeps the table, without the withdrawn names."""
        self._call("abandon")

    @property
    def events(self) -> int:
        """The number of events in the journal."""
        return self._number("events")

    def renew(self) -> None:
        """Starts a fresh journal on an idle side."""
        self._call("renew")

    def give_up(self) -> None:
        """Closes the open exchange, if there is one, and starts a fresh journal, also if the journal is full."""
        self._call("give_up")
