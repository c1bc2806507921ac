"""Programs as text: assembling and disassembling. Follows docs/TEXT.md."""

import re
import struct

import files
from machine import FIELDS, MAX_SLOTS, MNEMONICS, U64, Refused, refuse

REGISTER = re.compile(r"r(10|[0-9])")
DECIMAL = r"(?:0|[1-9][0-9]*)"
ADDRESS = re.compile(rf"\[r(10|[0-9])([+-]{DECIMAL})\]")
# For each kind of number what may precede its decimal digits, its limits, and the greatest number in hex digits, if any.
NUMBERS = {"imm": ("-?", -1 << 31, (1 << 31) - 1, 0xffffffff), "value": ("", 0, U64, U64),
           "near": ("[+-]", -1 << 15, (1 << 15) - 1, None), "far": ("[+-]", -1 << 31, (1 << 31) - 1, None)}
# The text of each kind of operand.
WRITTEN = {"dst": "r{0.dst}", "src": "r{0.src}", "imm": "{0.imm}", "value": "{0.imm}", "near": "{0.off:+d}",
           "far": "{0.imm:+d}", "from": "[r{0.src}{0.off:+d}]", "to": "[r{0.dst}{0.off:+d}]"}


def assemble(data):
    """Returns the code of a text's bytes, or raises 57, 56, or 60 to 63, 1 or 2 with the line."""
    refuse((57, len(data) > files.MAX_FILE))
    try:
        lines, code = data.decode().split("\n"), b""
    except UnicodeDecodeError:
        raise Refused(56) from None
    for number, line in enumerate(lines, 1):
        try:
            code += assemble_line(line)
        except Refused as refused:
            raise Refused(refused.number, ("line", number)) from None
        refuse((2, len(code) > 8 * MAX_SLOTS), place=("line", number))
    refuse((1, not code), place=("line", 1))
    return code


def assemble_line(line):
    rest = line.split(";", 1)[0].strip(" \t")
    if not rest:
        return b""
    mnemonic, rest = re.match(r"([^ \t]*)[ \t]*(.*)\Z", rest, re.S).groups()
    refuse((60, mnemonic not in MNEMONICS))
    i = MNEMONICS[mnemonic]
    for count, kind in enumerate(i.operands):
        if count:
            refuse((61, not rest.startswith(",")))
            rest = rest[1:].lstrip(" \t")
        word, rest = re.match(r"([^ \t,]*)[ \t]*(.*)\Z", rest, re.S).groups()
        i = i._replace(**operand(kind, word))
    refuse((63, rest))
    return spell(i)


def spell(i):
    """The bytes of one instruction."""
    opcode = i.opcode | 8 if "source" in i.operands and i.src is not None else i.opcode
    code = struct.pack("<BBhI", opcode, (i.dst or 0) | (i.src or 0) << 4, i.off, i.imm & 0xffffffff)
    return code + struct.pack("<II", 0, i.imm >> 32) if i.slots == 2 else code


def operand(kind, word):
    """The fields of an operand, or 61 or 62."""
    if kind == "source":
        kind = "src" if REGISTER.fullmatch(word) else "imm"
    if kind in NUMBERS:
        values = [number(kind, word)]
    else:
        found = (ADDRESS if kind in ("from", "to") else REGISTER).fullmatch(word)
        refuse((61, not found))
        register, *offsets = found.groups()
        values = [int(register), *(number("near", offset) for offset in offsets)]
    return dict(zip(FIELDS[kind], values))


def number(kind, word):
    signs, least, most, most_hex = NUMBERS[kind]
    if most_hex and re.fullmatch("0x[0-9a-fA-F]+", word):
        value, least, most = int(word, 16), 0, most_hex
    else:
        refuse((61, word == "-0" or not re.fullmatch(signs + DECIMAL, word)))
        value = int(word)
    refuse((62, not least <= value <= most))
    return value


def disassemble(insns):
    """The canonical text."""
    lines = []
    for i in insns:
        source = "imm" if i.src is None else "src"
        operands = [WRITTEN[source if kind == "source" else kind].format(i) for kind in i.operands]
        lines.append(f"{i.mnemonic} {', '.join(operands)}".rstrip() + "\n")
    return "".join(lines)
