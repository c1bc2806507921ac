#!/usr/bin/env python3
"""node.py FOLDER NUMBER: a node of a half, which keeps a log in the folder. bindings/c/node.c describes its requests.

It may be killed at any moment: what it answered with 0 is in its log. Only one process at a time may use the folder.
"""

import os
import struct
import sys

from heal import Owner, Refused, Registration
from heal.replica import Kind, Replica, messages


def write_all(file, data):
    """Writes all bytes. A single write may write fewer, as on a full disk, where the next one fails."""
    left = memoryview(data)
    while left:
        left = left[file.write(left):]


def read_all(name):
    """Returns the bytes of a file, or None if there is none. A file that exists and can't be read is an error."""
    try:
        with open(name, "rb") as file:
            return file.read()
    except FileNotFoundError:
        return None


class Disk:
    """The files of a node: its incarnation and its log."""

    def __init__(self, folder):
        os.chdir(folder)
        self.log = None

    def replace(self, name, data):
        """Replaces a file: after a crash it has its old bytes or these."""
        file = open("new", "wb", buffering=0)
        write_all(file, data)
        os.fsync(file.fileno())
        os.rename("new", name)
        folder = os.open(".", os.O_RDONLY)
        os.fsync(folder)
        os.close(folder)
        return file

    def next_incarnation(self):
        """Stores the next incarnation, and returns it."""
        last = read_all("incarnation")
        number = 1 if last is None else int(last) + 1
        self.replace("incarnation", str(number).encode()).close()
        return number

    def start_log(self, replica):
        """Starts a log with a snapshot."""
        if self.log:
            self.log.close()
        self.log = self.replace("log", replica.snapshot())

    def append(self, entry):
        write_all(self.log, entry)
        os.fdatasync(self.log.fileno())


def restart(disk, number):
    """Starts a new life with what the log has."""
    replica = Replica(number, disk.next_incarnation())
    for kind, message in messages(read_all("log") or b""):
        (replica.follow if kind is Kind.SNAPSHOT else replica.apply)(message)
    replica.lead()
    disk.start_log(replica)
    return replica


def obey(disk, replica, request, body):
    """Carries a request out, and returns the bytes of the answer."""
    if request in b"RU":
        edit = (body, Registration(Owner(1, 1))) if request == b"R" else (body,)
        entry = (replica.register if request == b"R" else replica.unregister)(*edit)
        disk.append(entry)
        return entry
    if request == b"A":
        replica.apply(body)
        disk.append(body)
    elif request == b"F":
        replica.follow(body)
        disk.start_log(replica)
    elif request == b"L":
        replica.lead()
        disk.start_log(replica)
        return replica.snapshot()
    elif replica.whereis(body) is None:
        raise Refused(31)
    return b""


def main():
    if len(sys.argv) != 3:
        sys.exit("usage: node.py FOLDER NUMBER")
    disk = Disk(sys.argv[1])
    replica = restart(disk, int(sys.argv[2]))
    requests, answers = sys.stdin.buffer, sys.stdout.buffer
    while len(head := requests.read(9)) == 9:
        request, size = head[:1], struct.unpack("=Q", head[1:])[0]
        body = requests.read(size)
        if len(body) < size:
            return
        try:
            number, answer = 0, obey(disk, replica, request, body)
        except Refused as refused:
            number, answer = refused.number, b""
        answers.write(struct.pack("=LQ", number, len(answer)) + answer)
        answers.flush()


if __name__ == "__main__":
    main()
