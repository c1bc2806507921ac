"""Files of code in each form that heal reads, and files that it refuses."""

import struct

BPF = 247


def section(name, kind, offset=0, size=0, info=0):
    """The header of a section: 64 bytes, of which heal reads the name, the type, the offset, the size and the info."""
    return struct.pack("<IIQQQQIIQQ", name, kind, 0, 0, offset, size, 0, info, 0, 0)


def object_file(code, machine=BPF, relocated=False, name=b".text"):
    """An ELF file of 64 bits: the code, the names of the sections, and the headers of four sections.

    The last section has relocations, of the code or of the names.
    """
    names = b"\0" + name + b"\0"
    names_at = 64 + len(code)
    headers_at = names_at + len(names)
    head = b"\x7fELF\2\1\1" + bytes(9) + struct.pack("<HHIQQQIHHHHHH", 1, machine, 1, 0, 0, headers_at, 0, 64, 0, 0, 64, 4, 1)
    sections = [section(0, 0), section(0, 3, names_at, len(names)), section(1, 1, 64, len(code)),
                section(0, 9, info=2 if relocated else 1)]
    return head + code + names + b"".join(sections)


def spaced(code):
    """The digits of code in capitals, with white space between the bytes."""
    return b" ".join(b"%02X" % byte for byte in code) + b"\r\n\t\f"
