"""Replicas: a half of many nodes.

    primary = Replica(node=1, incarnation=1)
    backup = Replica(node=2, incarnation=1)
    backup.follow(primary.snapshot())
    backup.apply(primary.register("db", Registration(Owner(1, 10))))

`bindings/c/heal.h` describes each call, and what to write to disk before what is sent.
"""

from __future__ import annotations

import ctypes
from collections.abc import Iterator
from ctypes import POINTER, byref, c_size_t, c_uint8, c_uint32, c_uint64
from dataclasses import dataclass
from enum import IntEnum
from typing import Literal

import heal
from heal import Buffer, Program, Refused, Registration, Side

__all__ = ["Kind", "Life", "LogFront", "Position", "Replica", "ReplicaState", "log_front", "messages"]


@dataclass(frozen=True)
class Life:
    """One life of a node. A node that restarts takes an incarnation that it never had."""

    node: int
    incarnation: int


@dataclass(frozen=True)
class Position:
    """A view, by its primary and a number, and how many entries of the view led here."""

    primary: Life
    view: int
    op: int


@dataclass(frozen=True)
class ReplicaState:
    """What a replica knows. `latest` is the greatest number of an exchange that the half began."""

    at: Position
    names: int
    limit: int
    latest: int | None
    is_primary: bool


class Kind(IntEnum):
    """What a log begins with."""

    END = 0
    CUT = 1
    ENTRY = 3
    SNAPSHOT = 4


@dataclass(frozen=True)
class LogFront:
    """What a log begins with, and the number of bytes of an entry or a snapshot."""

    kind: Kind
    size: int


class _Life(ctypes.Structure):
    _fields_ = [("incarnation", c_uint64), ("node", c_uint32), ("reserved", c_uint32)]


class _Position(ctypes.Structure):
    _fields_ = [("primary", _Life), *[(name, c_uint64) for name in ("view", "op", "reserved")]]


class _ReplicaState(ctypes.Structure):
    _fields_ = [
        ("at", _Position),
        *[(name, c_uint64) for name in ("names", "limit", "latest")],
        *[(name, c_uint32) for name in ("has_begun", "is_primary")],
        ("reserved", c_uint64),
    ]


class _Front(ctypes.Structure):
    _fields_ = [("kind", c_uint32), ("reserved", c_uint32), ("size", c_uint64)]


_BYTES, _HANDLE, _NAMED = heal._BYTES, heal._HANDLE, heal._NAMED

heal._declare(
    {
        "heal_replica_start": [POINTER(_Life), _HANDLE],
        "heal_replica_query": [_HANDLE, POINTER(_ReplicaState)],
        "heal_replica_register": [*_NAMED, POINTER(heal._Registration), _HANDLE],
        "heal_replica_unregister": [*_NAMED, _HANDLE],
        "heal_replica_upload": [_HANDLE, _HANDLE, _HANDLE],
        "heal_replica_limit": [_HANDLE, c_size_t, _HANDLE],
        "heal_replica_begin": [_HANDLE, c_uint64, _HANDLE],
        "heal_replica_lead": [_HANDLE],
        "heal_replica_snapshot": [_HANDLE, _HANDLE],
        "heal_replica_follow": [_HANDLE, _BYTES, c_size_t],
        "heal_replica_apply": [_HANDLE, _BYTES, c_size_t],
        "heal_replica_whereis": [*_NAMED, POINTER(heal._Registration)],
        "heal_replica_row": [_HANDLE, c_size_t, POINTER(heal._Row)],
        "heal_replica_row_after": [*_NAMED, POINTER(heal._Row)],
        "heal_replica_side": [_HANDLE, c_uint32, _HANDLE],
        "heal_replica_change": [_HANDLE, POINTER(_Position), _HANDLE],
        "heal_log_front": [_BYTES, c_size_t, POINTER(_Front)],
    }
)
heal._declare_free("heal_replica_free")


def _front(log: object, size: int) -> LogFront:
    """Returns what a log of so many bytes begins with."""
    found = _Front()
    heal._call("heal_log_front", log, size, byref(found))
    return LogFront(Kind(found.kind), found.size)


def log_front(log: Buffer) -> LogFront:
    """Returns what a log begins with, without looking behind it."""
    return _front(*heal._in(log))


def messages(log: Buffer) -> Iterator[tuple[Kind, bytes]]:
    """Yields the snapshots and entries of a log, up to the last whole one."""
    whole = bytearray(memoryview(log))
    at = 0
    while at < len(whole):
        # The rest of the log is read in its place: a copy for each message would take quadratic time.
        front = _front(byref(c_uint8.from_buffer(whole, at)), len(whole) - at)
        if front.kind not in (Kind.ENTRY, Kind.SNAPSHOT):
            return
        yield front.kind, bytes(whole[at : at + front.size])
        at += front.size


class Replica(heal._Owned):
    """A node's copy of a half. It starts empty, as the primary of its first view.

    Each edit returns its entry, for the log and for the backups.
    """

    _kind = "replica"

    def __init__(self, node: int, incarnation: int) -> None:
        super().__init__()
        life = _Life(incarnation=heal._number(incarnation, 64), node=heal._number(node, 32))
        heal._call("heal_replica_start", byref(life), byref(self._handle))

    def _made(self, name: str, *arguments: object) -> bytes:
        """Makes a call that fills a message."""
        message = heal._Message()
        self._call(name, *arguments, byref(message._handle))
        return message.take()

    @property
    def state(self) -> ReplicaState:
        """What the replica knows."""
        found = _ReplicaState()
        self._call("query", byref(found))
        primary = Life(found.at.primary.node, found.at.primary.incarnation)
        at = Position(primary, found.at.view, found.at.op)
        latest = found.latest if found.has_begun else None
        return ReplicaState(at, found.names, found.limit, latest, bool(found.is_primary))

    def register(self, name: str | Buffer, registration: Registration) -> bytes:
        """Registers a name, as the primary."""
        return self._made("register", *heal._name(name), byref(heal._to_c(registration)))

    def unregister(self, name: str | Buffer) -> bytes:
        """Unregisters a name, as the primary."""
        return self._made("unregister", *heal._name(name))

    def upload(self, program: Program) -> bytes:
        """Keeps a program for registrations, as the primary."""
        heal._expect(Program, program)
        with program._lock:
            return self._made("upload", byref(program._handle))

    def set_limit(self, names: int) -> bytes:
        """Sets how many names registrations may bring the table to, as the primary."""
        return self._made("limit", heal._number(names, 64))

    def begin(self, number: int) -> bytes:
        """Records the number of the next exchange, as the primary: after `side`, and before the side begins."""
        return self._made("begin", heal._number(number, 64))

    def lead(self) -> None:
        """Starts a view with the half as it is."""
        self._call("lead")

    def snapshot(self) -> bytes:
        """Returns the position and the half, for the other nodes and for the log."""
        return self._made("snapshot")

    def follow(self, snapshot: Buffer) -> None:
        """Takes the position and the half of a snapshot."""
        self._call("follow", *heal._in(snapshot))

    def apply(self, entry: Buffer) -> None:
        """Carries the edit of an entry out, unless the replica has it already."""
        self._call("apply", *heal._in(entry))

    def whereis(self, name: str | Buffer) -> Registration | None:
        """Returns the registration of a name, or None."""
        found = heal._Registration()
        try:
            self._call("whereis", *heal._name(name), byref(found))
        except Refused as refused:
            if refused.number == heal.Refusal.NO_SUCH_NAME:
                return None
            raise
        return heal._from_c(found)

    def rows(self) -> list[tuple[bytes, Registration]]:
        """Returns the table in the order of names."""
        found, rows = heal._Row(), []
        with self._lock:
            try:
                self._call("row", 0, byref(found))
                while True:
                    rows.append((heal._text(found.name), heal._from_c(found.registration)))
                    name = (c_uint8 * found.name.len).from_buffer_copy(found.name.bytes)
                    self._call("row_after", name, len(name), byref(found))
            except Refused as refused:
                if refused.number != heal._NO_ROW:
                    raise
        return rows

    def side(self, which: Literal["a", "b"]) -> Side:
        """Returns an idle side with what the replica has, for an exchange with the other half's primary."""
        side = Side(which)
        self._call("side", 1 if which == "b" else 0, byref(side._handle))
        return side

    def change(self, at: Position, side: Side) -> None:
        """Starts a view with what an exchange left in the side. `at` is the position after `begin`."""
        heal._expect(Side, side)
        primary = _Life(heal._number(at.primary.incarnation, 64), heal._number(at.primary.node, 32))
        position = _Position(primary, heal._number(at.view, 64), heal._number(at.op, 64))
        with side._lock:
            self._call("change", byref(position), byref(side._handle))
