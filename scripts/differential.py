#!/usr/bin/env python3
"""Compares the built program with the second implementation in oracle/ on random and mutated inputs.

    scripts/differential.py [--seconds N] [--seed S] [--case I] [--library FILE] [PROGRAM]

Each case is made from the seed, which is printed, and its number, and is given to both: codes to check, judge and dis,
texts to asm, and scripts to run. The first difference ends the comparison with its input and both answers. Cases are tried
for N seconds, 60 by default, and on until each refusal of docs/REFUSALS.md was reached, up to case 2,000. At the end the
numbers are printed with how often each was reached; the status is 1 if one was never reached that isn't in UNREACHABLE.
`--case I` carries out case I alone. With a built libheal.so, by default that of bindings/c/out, codes are loaded and judged
through it as well, which is much faster and shows r0 whole, messages are encoded and decoded, and all calls of sides and replicas
are made through its Python package.
"""

import argparse
import ctypes
import hashlib
import importlib
import itertools
import os
import pathlib
import random
import re
import shutil
import struct
import subprocess
import sys
import tempfile
import time

ROOT = pathlib.Path(__file__).resolve().parent.parent
sys.dont_write_bytecode = True
sys.path.insert(0, str(ROOT / "oracle"))

import code_files
import machine
import messages
import oracle
import registry
import script
import text
import verifier
from random_codes import EXIT, Codes, slot

# Refusals that no input reaches, each with the reason.
UNREACHABLE = {
    38: "it takes a ruling of somebody else: the program posts its own alone, and the library takes none",
    42: "it takes two codes of one SHA-256 digest",
}
# Those of the library's calls alone.
OF_CALLS = {33, 34, 35, 36, 39, 40, 45, 46, 48, 49, *range(70, 85), *range(91, 100)}


# ---- Texts ----

# Operands, right and wrong.
REGISTERS = ["r0", "r10", "r11", "r01", "R1", "r", "r1x"]
NUMERALS = ["-0", "+0", "0", "00", "01", "0x", "0xFf", "0X1", "-0x1", "+1", "-1", "2147483647", "2147483648",
           "-2147483648", "-2147483649", "4294967295", "0xffffffff", "0x80000000", "0x100000000", "0x0000000000001",
           "18446744073709551615", "18446744073709551616", "0xffffffffffffffff", "0x10000000000000000"]
DISTANCES = ["1", "+0", "-0", "+00", "+01", "+0x1", "+32767", "+32768", "-32768", "-32769", "+2147483647",
             "+2147483648", "-2147483648", "-2147483649", "+-1", "r1", ""]
ADDRESSES = ["[r1+0]", "[r1]", "[r1 +1]", "[r10-32768]", "[r10-32769]", "[r1+32767]", "[r1+32768]", "[r1-0]",
             "[r1+01]", "[r11+1]", "[r11+32768]", "[r1+0x1]", "[r1+1]x", "[r1+1", "r1+1]", "[1+r1]", "[r1+ 1]", "[]"]


class Texts:
    def __init__(self, rng, codes):
        self.rng, self.codes = rng, codes

    def any(self):
        """The text of some code, changed in a few places."""
        lines = []
        while not lines:
            try:
                lines = text.disassemble(machine.decode(self.codes.any())).splitlines()
            except machine.Refused:
                pass
        start = self.rng.randrange(len(lines))
        lines = lines[start:start + 5]
        for _ in range(self.rng.choice([0, 1, 1, 1, 2])):
            at = self.rng.randrange(len(lines))
            lines[at] = self.changed(lines[at])
        data = "\n".join(lines).encode() + self.rng.choice([b"\n", b""])
        return data + (b"\xff" if self.rng.random() < 0.01 else b"")

    def changed(self, line):
        pick = self.rng.choice
        words = REGISTERS + NUMERALS + DISTANCES + ADDRESSES + ["", " ", "foo", "\u00e9"]
        parts = re.split(r"([ ,]+)", line)
        kind = self.rng.randrange(9)
        at = self.rng.randrange(0, len(parts), 2)
        if kind < 4:
            near = {"[": ADDRESSES, "r": REGISTERS + NUMERALS, "+": DISTANCES, "-": DISTANCES + NUMERALS}
            parts[at] = pick(near.get(parts[at][:1], NUMERALS) if kind and at else words)
        elif kind == 4:
            parts[0] = pick(sorted(machine.MNEMONICS))
        elif kind == 5:
            parts.insert(self.rng.randrange(len(parts) + 1), pick([" ", "\t", ",", ", ", ";", "\r", "\v", "; c", " 1", "\0"]))
        elif kind == 6:
            del parts[at]
        elif kind == 7:
            place = self.rng.randrange(len(line) + 1)
            return line[:place] + pick(list(" ,;+-0x9[]r\t\r\n")) + line[place:]
        else:
            return pick(["", ";", "\t ; c", " " + line + " ", line.replace(", ", "\t,  "), line + ";", line + "\r"])
        return "".join(parts)


# ---- Scripts ----

class Files:
    """A few files in a folder, written anew for each script."""

    def __init__(self, folder):
        self.folder = folder

    def word(self, rng, code):
        """Writes code to a file in some form, mostly a right one, and returns the word for the file."""
        path = os.path.join(self.folder, f"f{rng.randrange(10**9)}")
        if rng.random() < 0.05:
            return f"@{path}"
        with open(path, "wb") as file:
            file.write(self.content(rng, code))
        return f"@{path}"

    def content(self, rng, code):
        content = rng.choice([code, code.hex().encode(), code_files.spaced(code), code_files.object_file(code)])
        if rng.random() < 0.1:
            content = code_files.object_file(code, machine=rng.choice([247, 62]), relocated=rng.random() < 0.3,
                                             name=rng.choice([b".text", b".text", b".data", b".texts"]))
        return damaged(rng, content) if content and rng.random() < 0.3 else content

    def clear(self):
        for name in os.listdir(self.folder):
            os.remove(os.path.join(self.folder, name))

    def special(self):
        """A script that uploads files of each form and of each fault, a folder, and a file that isn't there."""
        code = slot(0xb7, imm=1) + EXIT
        made = code_files.object_file
        contents = [b"", code, code.hex().encode(), code_files.spaced(code), made(code), made(code, machine=62), made(code, relocated=True),
                    made(code, name=b".data"), made(b""), b"\x7fELF", b"0" * 7, b"00" * 8193, bytes(1 << 20), bytes((1 << 20) + 1)]
        lines = [f"upload folder @{self.folder}", f"upload absent @{self.folder}/absent", "upload unnamed @"]
        for index, content in enumerate(contents):
            path = pathlib.Path(self.folder, f"s{index}")
            path.write_bytes(content)
            lines.append(f"upload l{index} @{path}")
        return "\n".join(lines).encode()


class Scripts:
    def __init__(self, rng, codes, files):
        self.rng, self.codes, self.files = rng, codes, files

    def code_word(self, code):
        """The word for code: its digits, or a file that has it."""
        return self.files.word(self.rng, code) if self.rng.random() < 0.3 else code.hex()[:20_000]

    def uploads(self):
        """Uploads many codes, and has each accepted one judge clashes."""
        lines, accepted = [], []
        for index in range(60):
            code, label = self.codes.any(), f"p{index}"
            lines.append(f"upload {label} {self.code_word(code) or '0'}"[:20_000])
            if oracle.check(code.hex())[1] == 0:
                accepted.append(label)
        for index in range(2 * len(accepted)):
            name, label = f"{self.name()}{index}", accepted[index // 2]
            lines += [f"register {side} {name} {self.registration()} {label}" for side in "ab"]
        lines.append(f"heal {self.number()} {self.number()} {self.number()}")
        return "\n".join(lines + ["show a", "show b"]).encode()

    def number(self, bits=64):
        return self.codes.number(bits)

    def name(self):
        return "".join(chr(self.rng.randint(0x21, 0x7e)) for _ in range(self.rng.randint(1, 29))).replace("#", "x")

    def registration(self):
        data = self.rng.choice(["-", self.rng.getrandbits(128).to_bytes(16, "big").hex()])
        return f"{self.number(32)}.{self.number(32)} {self.number()} {self.number()} {data}"

    def any(self):
        """Lines over few names, so that they meet; many of them wrong."""
        labels = ["exit", "notify", "notify-all"] + [f"l{i}" for i in range(6)]
        lines = []
        for _ in range(self.rng.choice([5, 20, 60, 200])):
            line = self.line(labels)
            if self.rng.random() < 0.25:
                line = self.wrong(line)
            lines.append(line.encode("latin-1"))
        return b"\n".join(lines) + self.rng.choice([b"\n", b""])

    def line(self, labels):
        pick = self.rng.choice
        names = ["a", "ab", "b", "db", "web", "A" * 32, "~", "!", "c", "d"]
        side, name = pick("ab"), pick(names)
        kind = self.rng.random()
        if kind < 0.45:
            owner = f"{pick([0, 1, 1, 2])}.{pick([0, 1, 4294967295])}"
            fields = f"{pick([0, 1, self.number()])} {pick([0, 1])} {pick(['-', '-', '0' * 31 + '1', 'F' * 32])}"
            if self.rng.random() < 0.3:  # registrations that are equal, or differ in the resolver alone
                owner, fields = "1.1", "0 0 -"
            return f"register {side} {name} {owner} {fields} {pick(labels)}"
        if kind < 0.55:
            return f"unregister {side} {name}"
        if kind < 0.63:
            return f"whereis {side} {name}"
        if kind < 0.7:
            return f"show {side}"
        if kind < 0.8:
            code = pick([self.codes.any(), slot(0xb7, imm=1) + EXIT, slot(0x79, 0, 1, 40) + slot(0x57, imm=3) + EXIT])
            return f"upload {pick(labels[3:] * 3 + labels)} {self.code_word(code)}"
        if kind < 0.83:
            return pick(["", "   ", "# c \xff", "  #", "#heal 0", " \t", "\r"])
        uptimes = pick(["", "", f" {self.number()} {pick([0, 1, 7])}"])
        gone = "".join(f" gone {pick('ab')} {pick(names)}" for _ in range(pick([0, 0, 0, 1, 1, 2, 4])))
        return f"heal {pick([0, 1, self.number()])}{uptimes}{gone}"

    def wrong(self, line):
        """A line with a wrong word, mostly one that is nearly right, or with another number of words."""
        words = line.split(" ")
        at = self.rng.randrange(len(words))
        numbers = ["00", "01", "-1", "+1", "18446744073709551615", "18446744073709551616", "0x1", "1.1", "9" * 40, "1a", "-"]
        owners = ["4294967296.1", "1.", ".1", "1.1.1", "1.4294967295", "1.4294967296", "1.01", "00.1", "1", "1,1", "-1.1", "."]
        others = ["", "c", "gone", "A" * 32, "A" * 33, "exit", "notify-all", "heal", "x\ty", "\x7f", "\xe9", "\0", "ab", "~"]
        digits = ["0g" + "0" * 30, "0" * 34, "0" * 30, "0" * 31, "-", "--", "aB" * 16]
        word = words[at]
        near = (owners if "." in word else digits if word == "-" or len(word) > 30 else numbers if word.isdecimal() else others)
        change = self.rng.randrange(6)
        if change < 4:
            words[at] = self.rng.choice(near if change else numbers + owners + others + digits)
        elif change == 4:
            del words[at]
        else:
            words.insert(at, self.rng.choice(numbers + others))
        return " ".join(words) + self.rng.choice(["", "", "", "  ", "\r"])


# ---- The library and messages ----

class Handle(ctypes.Structure):
    _fields_ = [("at", ctypes.c_void_p)]


class Ended(ctypes.Structure):
    _fields_ = [("r0", ctypes.c_uint64), ("steps", ctypes.c_uint32)]


class CRegistration(ctypes.Structure):
    _fields_ = [("node", ctypes.c_uint32), ("serial", ctypes.c_uint32), ("stamp", ctypes.c_uint64),
                ("weight", ctypes.c_uint64), ("extra", ctypes.c_uint8 * 16), ("resolver", ctypes.c_uint32),
                ("program", ctypes.c_uint8 * 32)]


class Library:
    """The calls of bindings/c/heal.h that are compared."""

    def __init__(self, path):
        self.calls = ctypes.CDLL(path)
        self.program, self.ended, self.slot = Handle(), Ended(), ctypes.c_uint32()

    def load(self, code):
        """Returns 0 and 0, or the refusal with its slot; the program is kept for `judge`."""
        number = self.calls.heal_program_load(code, ctypes.c_size_t(len(code)), ctypes.byref(self.program),
                                              ctypes.byref(self.slot))
        return number, self.slot.value

    def judge(self, record):
        self.calls.heal_program_judge(ctypes.byref(self.program), record, ctypes.byref(self.ended))
        return self.ended.r0, self.ended.steps

    def messages_of(self, offer, gone):
        """The offer and the list that a side with these rows and withdrawn names gives."""
        side, message, digest, slot_ = Handle(), Handle(), ctypes.create_string_buffer(32), ctypes.c_uint32()
        at, size = ctypes.byref(side), ctypes.c_size_t
        numbers = [self.calls.heal_side_new(bool(offer.side), at)]
        for code in offer.programs.values():
            numbers.append(self.calls.heal_side_upload(at, code, size(len(code)), digest, ctypes.byref(slot_)))
        for name, r in offer.rows:
            kind, program = (r.resolver, bytes(32)) if isinstance(r.resolver, int) else (3, r.resolver)
            found = CRegistration(r.node, r.serial, r.stamp, r.weight, (ctypes.c_uint8 * 16)(*r.extra), kind,
                                  (ctypes.c_uint8 * 32)(*program))
            numbers.append(self.calls.heal_side_register(at, name, size(len(name)), ctypes.byref(found)))
        u64 = ctypes.c_uint64
        numbers.append(self.calls.heal_side_begin(at, u64(offer.number), u64(offer.seed), u64(offer.uptime),
                                                  ctypes.byref(message)))
        encoded = self.bytes_of(message)
        numbers += [self.calls.heal_side_withdraw(at, name, size(len(name))) for name in gone]
        numbers.append(self.calls.heal_side_close_list(at, ctypes.byref(message)))
        listed = self.bytes_of(message)
        self.calls.heal_side_free(at)
        return encoded, listed, [number for number in numbers if number]

    def bytes_of(self, message):
        length = ctypes.c_size_t()
        self.calls.heal_bytes_len(ctypes.byref(message), ctypes.byref(length))
        buffer = ctypes.create_string_buffer(length.value)
        self.calls.heal_bytes_copy(ctypes.byref(message), buffer, length)
        return buffer.raw


def random_offer(rng, codes):
    """An offer with a few rows and programs, and the names to withdraw."""
    programs = {}
    for _ in range(rng.randint(0, 3)):
        code = codes.any()
        if oracle.check(code.hex())[1] == 0:
            programs[hashlib.sha256(code).digest()] = code
    names = sorted({bytes(rng.choice(b"!az~") for _ in range(rng.choice([1, 2, 3, 32]))) for _ in range(rng.randint(0, 6))})
    rows = [(name, registry.Registration(codes.number(32), codes.number(32), codes.number(), codes.number(), rng.randbytes(16),
                                         rng.choice([0, 1, 2, *programs, *programs]))) for name in names]
    used = {row[1].resolver for row in rows}
    number = max(codes.number(), 1)
    offer = messages.Offer(rng.randrange(2), number, codes.number(), codes.number(), rows,
                           {digest: code for digest, code in programs.items() if digest in used})
    return offer, rng.sample(names, rng.randint(0, len(names)))


def misspelled(rng, offer):
    """An offer whose rows may be out of order or repeated, and each of which may bring its program's code again."""
    rows = list(offer.rows)
    for _ in range(rng.randint(0, 2)):
        if rows:
            rows.insert(rng.randrange(len(rows) + 1), rows.pop() if rng.random() < 0.5 else rng.choice(rows))
    alone = [messages.encode_offer(offer._replace(rows=[row]))[37:] for row in rows]
    body = b"".join(alone) if rng.random() < 0.5 else messages.encode_offer(offer._replace(rows=rows))[37:]
    return messages.encode_offer(offer)[:33] + struct.pack("<I", len(rows)) + body


def damaged(rng, data):
    """A message with a few changes."""
    data = bytearray(data)
    for _ in range(rng.choice([1, 1, 1, 2])):
        at = min(rng.choice([rng.randrange(len(data)), rng.randrange(40)]), len(data) - 1)
        change = rng.randrange(6)
        if change < 2:
            data[at] = rng.choice([0, 1, 2, 3, 4, 5, 0x20, 0x21, 0x7e, 0x7f, 33, rng.randrange(256)])
        elif change == 2:
            del data[at:]
        elif change == 3:
            data += bytes(data[at:at + rng.choice([1, 40, 80])])
        elif change == 4:
            data[at:at] = data[at:at + rng.choice([3, 41, 77])]
        else:
            del data[at:at + rng.choice([1, 3, 41])]
        if not data:
            break
    return bytes(data)


# ---- Cases that random ones seldom reach ----

def special_scripts():
    """Full tables, a full store, and long lines."""
    full = [f"register a n{i} 1.{i} 0 0 - exit" for i in range(4096)]
    yield "\n".join(full + ["register a more 1.1 0 0 - exit", "register a n7 1.1 0 0 - exit", "register b n5 2.2 0 0 - notify",
                            "register b more 2.1 0 0 - exit", "heal 3 gone b n5", "show b", "unregister a n1", "heal 1 gone b zz",
                            "heal 1 gone b n5 gone b n5", "show b"]).encode()
    store = [f"upload l{i} {slot(0xb7, imm=i).hex()}{EXIT.hex()}" for i in range(258)]
    yield "\n".join(store + ["upload again " + store[7].split()[2], "register a x 1.1 0 0 - again", "show a"]).encode()
    yield (b"#" + b"x" * 20_000 + b"\n" + b"#" + b"x" * 19_999 + b"\nshow a" + b" " * 19_994 + b"\nshow a" + b" " * 19_995
           + b"\nupload long " + (EXIT * 1025).hex().encode() + b"\nupload full " + slot(0xb7).hex().encode() * 1023
           + EXIT.hex().encode() + b"\n" + b"y" * 30_000)


def orders_of_registrations():
    """Pairs of registrations in which one field is less and a later one is greater, in each half."""
    less, more = ("1", "1", "1", "1", "0" * 31 + "1", "exit"), ("2", "2", "2", "2", "0" * 31 + "2", "notify")
    lines = []
    for first, later in itertools.combinations(range(6), 2):
        for halves in ("ab", "ba"):
            pair = list(less), list(less)
            pair[0][later], pair[1][first] = more[later], more[first]
            for half, (node, serial, *fields) in zip(halves, pair):
                lines.append(f"register {half} n{first}{later}{halves} {node}.{serial} {' '.join(fields)}")
    return "\n".join(lines + ["heal 0", "show a"]).encode()


def bytes_of_records():
    """A program for each byte of the record, which answers by two of its bits, and clashes that they judge."""
    places = range(machine.RECORD_BYTES)
    lines = [f"upload p{at} {(slot(0x71, 0, 1, at) + slot(0x77, imm=at % 3 * 2) + slot(0x57, imm=3) + EXIT).hex()}" for at in places]
    for at, half in itertools.product(places, "ab"):
        node, serial, stamp, weight = struct.unpack("<IIQQ8x", hashlib.sha256(f"{at}{half}".encode()).digest())
        lines.append(f"register {half} name{at} {node}.{serial} {stamp} {weight} {stamp ^ weight << 64:032x} p{at}")
    # The halves have unequal sizes and uptimes.
    lines += ["register a other 1.1 0 0 - exit", "heal 72623859790382856 1234605616436508552 9833440827789222417", "show a"]
    return "\n".join(lines).encode()


def each_mnemonic():
    """Two lines with each mnemonic: an operand that may be a register or a number is both."""
    operands = {"dst": "r3", "src": "r4", "imm": "-9", "value": "5000000000", "near": "+7", "far": "-70000",
                "from": "[r1+8]", "to": "[r10-8]"}
    return [f"{mnemonic} {', '.join(operands.get(kind, source) for kind in i.operands)}"
            for mnemonic, i in machine.MNEMONICS.items() for source in ("r5", "-6")]


def special_texts():
    yield "\n".join(each_mnemonic()).encode()
    yield b"exit ;" + b";" * ((1 << 20) - 6)
    yield b";" * ((1 << 20) + 1)
    yield b"\xff" * ((1 << 20) + 1)
    yield b"\xff"
    yield b"exit\n" * 1025
    yield b"exit\n" * 1023 + b"; c\nlddw r0, 1\n"
    yield b"exit\n" * 1024 + b"exit r1"
    lines = [f"{start}{word}{end}" for start, words, end in (
        ("mov64 r0, ", NUMERALS, ""), ("lddw r0, ", NUMERALS, ""), ("ja ", DISTANCES, ""), ("jal ", DISTANCES, ""),
        ("ldxb r0, ", ADDRESSES, ""), ("stb ", ADDRESSES, ", 1"), ("neg32 ", REGISTERS, "")) for word in words]
    right = [line for line in lines if oracle.asm(line.encode())[1] == 0]
    yield "\n".join(right).encode()
    yield from (line.encode() for line in lines if line not in right)
    yield from (b"", b"; c", b"mov64 r0, 1,", b"exit;", b"exit,", b"exit ,", b"ja+1", b"mov64 r0 1", b"mov64 r0, 2147483648,")


def examples_of_documents():
    """The codes in resolvers/ and in the tables of docs/REFUSALS.md, with X for EXIT."""
    codes = [bytes.fromhex(path.read_text()) for path in sorted((ROOT / "resolvers").glob("*.hex"))]
    for row in (ROOT / "docs" / "REFUSALS.md").read_text().splitlines():
        found = re.findall(r"`([0-9a-f]{16})`( X)?", row)
        if found:
            codes.append(b"".join(bytes.fromhex(digits) + (EXIT if x else b"") for digits, x in found))
    return codes


# ---- Comparing ----

class Comparison:
    def __init__(self, program, library, seed, files):
        self.program, self.library, self.seed, self.files = program, library, seed, files
        self.sides, self.replicas, self.special_calls = (
            map(importlib.import_module, ["random_sides", "random_replicas", "special_calls"]) if library else (None,) * 3)
        self.examples, self.numbers = examples_of_documents(), numbers_of_document()
        self.reached, self.counts, self.unreachable = {}, {}, dict(UNREACHABLE)

    def compare(self, command, arguments, data, expected):
        """Runs the program and compares it with the oracle's output, status and refusals."""
        done = subprocess.run([self.program, command, *arguments], input=data, stdout=subprocess.PIPE,
                              stderr=subprocess.DEVNULL, check=False)
        output, status, numbers = expected
        self.counts[command] = self.counts.get(command, 0) + 1
        for number in numbers:
            self.reached[number] = self.reached.get(number, 0) + 1
        if (done.stdout, done.returncode) == (output.encode("latin-1"), status):
            return True
        print(f"DIFFERENCE: heal {command} {' '.join(arguments)}")
        if data is not None:
            print(f"input: {data!r}")
        report(done.stdout.decode("latin-1"), output)
        print(f"statuses: program {done.returncode}, oracle {status}")
        return False

    def script(self, data):
        return self.compare("run", ["-"], data, script.run(data))

    def asm(self, data):
        return self.compare("asm", ["-"], data, oracle.asm(data))

    def dis(self, word):
        return self.compare("dis", [word], None, oracle.dis(word))

    def code(self, word, data, profile):
        """Compares the answers to code, as digits or in a file."""
        return (self.compare("check", ["--profile", str(profile), word], None, oracle.check(word, profile))
                and self.compare("judge", [word, data.hex()], None, oracle.judge(word, data.hex())) and self.dis(word))

    def special(self):
        """The cases before the random ones."""
        return (all(self.script(data) for data in special_scripts())
                and all(self.script(path.read_bytes()) for path in sorted((ROOT / "examples").glob("*.heal")))
                and all(self.asm(data) for data in special_texts())
                and self.dis(oracle.asm("\n".join(each_mnemonic()).encode())[0].strip())
                and self.script(self.files.special()) and self.script(orders_of_registrations()) and self.script(bytes_of_records())
                and self.without_memory()
                and self.uploads(self.examples) and self.uploads(list(Codes(random.Random(self.seed), self.examples).each()))
                and all(self.compare("judge", arguments, None, oracle.judge(*arguments)) for arguments in
                        [[EXIT.hex(), "00"], ["0", "0"], ["b7000000010000009500000000000000", "00" * 127], ["", "00" * 160],
                         ["B700000001000000" + EXIT.hex(), "0A" * 128]])
                and (not self.library or all(self.alike(*call) for call in self.special_calls.calls())))

    def without_memory(self):
        """Compares `judge` while every request for memory from the Nth on fails, for each N. Where it can't read its words it prints
        nothing, and later it is refused 90; its status is 3."""
        if not shutil.which("cc"):
            self.unreachable[90] = "there is no C compiler, so no request for memory fails"
            return True
        with tempfile.TemporaryDirectory() as folder:
            library, count = f"{folder}/refuse.so", pathlib.Path(folder, "count")
            subprocess.run(["cc", "-shared", "-fPIC", "-o", library, ROOT / "scripts/refuse_memory.c", "-ldl"], check=True)
            self.judged(library, REFUSE_COUNT=str(count))
            requests = int.from_bytes(count.read_bytes(), sys.byteorder)
            answers = [self.judged(library, REFUSE_FROM=str(number)) for number in range(1, requests + 1)]
        silent, refused = (b"", 3), (b"refused 90\n", 3)
        if not requests:
            self.unreachable[90] = "the program takes its memory from elsewhere than the C library, so no request fails"
        if refused in answers:
            self.reached[90] = answers.count(refused)
        wrong = [number for number, answer in enumerate(answers, 1) if answer not in (silent, refused)]
        if wrong:
            print(f"DIFFERENCE: heal judge without memory from request {wrong[0]} on: {answers[wrong[0] - 1]}")
        return not wrong

    def judged(self, library, **settings):
        """The output and the status of `judge` with refuse_memory.c and its settings."""
        done = subprocess.run([self.program, "judge", self.examples[0].hex(), "00" * machine.RECORD_BYTES],
                              env={"LD_PRELOAD": library, **settings}, capture_output=True, check=False)
        return done.stdout, done.returncode

    def uploads(self, codes):
        """Scripts that upload these codes, each as many as a store has room for."""
        lines = [f"upload l{index} {code.hex()}" for index, code in enumerate(codes)]
        size = registry.MAX_PROGRAMS
        return all(self.script("\n".join(lines[start:start + size]).encode()) for start in range(0, len(lines), size))

    def missed(self):
        """The numbers within reach that weren't reached yet."""
        return sorted(self.numbers - self.unreachable.keys() - (set() if self.library else OF_CALLS) - self.reached.keys())

    def same(self, what, given, got, wanted):
        """Compares an answer of the library."""
        self.counts[what] = self.counts.get(what, 0) + 1
        if got == wanted:
            return True
        print(f"DIFFERENCE: {what} of {given}\n  library: {got}\n  oracle:  {wanted}")
        return False

    def loaded(self, code, record):
        """Loads code through the library, and runs accepted code on a record."""
        try:
            insns = machine.decode(code)
            verifier.verify(insns)
        except machine.Refused as refused:
            self.reached[refused.number] = self.reached.get(refused.number, 0) + 1
            place = refused.place[1] if refused.place else 0
            return self.same("heal_program_load", code.hex(), self.library.load(code), (refused.number, place))
        return (self.same("heal_program_load", code.hex(), self.library.load(code), (0, 0))
                and self.same("heal_program_judge", f"{code.hex()} on {record.hex()}", self.library.judge(record),
                              machine.run(insns, record)))

    def messages(self, rng, codes):
        """Encodes an offer and a list, and decodes them and damaged ones."""
        offer, gone = random_offer(rng, codes)
        listed = messages.Withdrawals(offer.side, offer.number, gone)
        wanted = messages.encode_offer(offer), messages.encode_withdrawals(listed), []
        assert messages.decode_offer(wanted[0]) == offer and messages.decode_withdrawals(wanted[1]) == listed
        if not self.same("messages", (offer, gone), self.library.messages_of(offer, gone), wanted):
            return False
        for _ in range(30):
            again = messages.encode_withdrawals(listed._replace(names=gone + [rng.choice(gone)] if gone else []))
            for name, data, wrong in (("hear", wanted[0], misspelled(rng, offer)), ("hear_list", wanted[1], again)):
                data = rng.choice([damaged(rng, data)] * 14 + [wrong] * 6 + [wanted[0], wanted[1]])
                pair = self.sides.Pair(1 - offer.side, 40)
                calls = ("begin", offer.number, offer.seed, 0), (name, data)
                if not all(self.alike(call, pair.call(*call)) for call in calls) or not self.faults(data):
                    return False
        return True

    def faults(self, data):
        """Compares the first fault of a message, with its place, read as an offer and as a list."""
        heal = self.sides.heal
        for find, decode in ((heal.offer_fault, messages.decode_offer), (heal.list_fault, messages.decode_withdrawals)):
            found, wanted = find(data), None
            try:
                decode(data)
            except machine.Refused as refused:
                kind, at = refused.place
                wanted = refused.number, at if kind == "byte" else None, None if kind == "byte" else at
            if not self.same("faults", (decode.__name__, data), found and (found.number, found.byte, found.item), wanted):
                return False
        return True

    def walk(self, of, rng, codes):
        """Makes random calls on sides or replicas of the library and on as many of the oracle."""
        return all(self.alike(call, shown) for call, shown in of.Walk(rng, codes, damaged).calls(100))

    def alike(self, call, shown):
        """Compares what both showed after a call of a side or a replica."""
        got, wanted = shown
        if isinstance(wanted[0], tuple):
            number = wanted[0][1]
            self.reached[number] = self.reached.get(number, 0) + 1
        return self.same("calls", call, got, wanted)

    def random_case(self, index):
        rng = random.Random(f"{self.seed}/{index}")
        codes = Codes(rng, self.examples)
        if self.library and index % 2:
            if index % 8 == 1:
                return self.messages(rng, codes)
            if index % 8 in (3, 5):
                return self.walk(self.sides if index % 8 == 3 else self.replicas, rng, codes)
            return all(self.loaded(codes.any(), rng.randbytes(160)) for _ in range(100))
        kind = rng.choice(["uploads", "uploads", "script", "script", "asm", "asm", "code"])
        if kind in ("uploads", "script"):
            self.files.clear()
            scripts = Scripts(rng, codes, self.files)
            return self.script(scripts.uploads() if kind == "uploads" else scripts.any())
        if kind == "asm":
            return all(self.asm(Texts(rng, codes).any()) for _ in range(10))
        self.files.clear()
        words = [self.files.word(rng, code) if rng.random() < 0.2 else code.hex() for code in [codes.any() for _ in range(4)]]
        return all(self.code(word, rng.randbytes(rng.choice([160, 160, 160, 128, 127])), rng.choice([1, 2])) for word in words)


def report(got, wanted):
    """Prints the first line in which two outputs differ."""
    ours, theirs = wanted.splitlines() + [""], got.splitlines() + [""]
    for number, (mine, other) in enumerate(zip(ours, theirs), 1):
        if mine != other or number == min(len(ours), len(theirs)):
            print(f"line {number} of the output\n  program: {other[:300]}\n  oracle:  {mine[:300]}")
            return


def main():
    parser = argparse.ArgumentParser(description=__doc__.split("\n")[0])
    parser.add_argument("--seconds", type=float, default=60)
    parser.add_argument("--seed", type=int, default=random.randrange(1 << 32))
    parser.add_argument("--case", type=int)
    parser.add_argument("--library", default=str(ROOT / "bindings/c/out/libheal.so"))
    parser.add_argument("program", nargs="?", default=str(ROOT / "crates/heal_main/out/heal_main"))
    options = parser.parse_args()
    library = None
    if pathlib.Path(options.library).is_file():
        # The Python package loads the library that this names.
        os.environ["HEAL_LIBRARY"] = options.library
        sys.path.insert(0, str(ROOT / "bindings" / "python"))
        library = Library(options.library)
    print(f"seed {options.seed}" + ("" if library else "; no library"), flush=True)
    with tempfile.TemporaryDirectory() as folder:
        return compare_all(Comparison(options.program, library, options.seed, Files(folder)), options)


def compare_all(comparison, options):
    """Compares the case that is asked for, or the special ones and random ones. Returns the status."""
    if options.case is not None:
        return 0 if comparison.random_case(options.case) else 1
    stop, index, same = time.monotonic() + options.seconds, 0, False
    try:
        same = comparison.special()
        while same and (time.monotonic() < stop or (comparison.missed() and index < 2000)):
            index, same = index + 1, False
            same = comparison.random_case(index - 1)
    finally:  # also where the oracle itself fails
        if not same:
            print(f"seed {options.seed}, " + (f"case {index - 1}" if index else "a special case"), flush=True)
    if not same:
        return 1
    print(f"{index} random cases alike; commands: " + ", ".join(f"{n} {c}" for c, n in sorted(comparison.counts.items())))
    print("refusals: " + ", ".join(f"{number}: {n}" for number, n in sorted(comparison.reached.items())))
    # One that is reached after all doesn't belong into UNREACHABLE.
    wrong = sorted(comparison.unreachable.keys() & comparison.reached.keys())
    missed = comparison.missed()
    for number in sorted(comparison.numbers - comparison.reached.keys() - set(missed)):
        print(f"not reached: {number}: {comparison.unreachable.get(number, 'of calls of the library')}")
    if missed:
        print("FAILED: within reach, but not reached: " + ", ".join(map(str, missed)))
    if wrong:
        print("FAILED: reached, but in UNREACHABLE: " + ", ".join(map(str, wrong)))
    return 1 if missed or wrong else 0


def numbers_of_document():
    """The numbers of all refusals."""
    rows = (ROOT / "docs" / "REFUSALS.md").read_text().splitlines()
    return {int(found.group(1)) for row in rows for found in [re.match(r"\| (\d+) \|", row)] if found}


if __name__ == "__main__":
    sys.exit(main())
