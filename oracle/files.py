"""The code in a file: hex digits, bytes, or an ELF object. Follows docs/WRITING_RESOLVERS.md and the ELF format."""

import re
import struct

from machine import Refused, refuse

MAX_FILE = 1 << 20
SHT_PROGBITS, SHT_RELA, SHT_REL, EM_BPF = 1, 4, 9, 247


def hex_bytes(digits):
    """The bytes of hex digits, or 50."""
    refuse((50, len(digits) % 2 or not re.fullmatch(rb"[0-9a-fA-F]*", digits)))
    return bytes.fromhex(digits.decode())


def code_of(word):
    """The code of a word: hex digits, or @ and a file, whose content decides how it has the code."""
    if not word.startswith(b"@"):
        return hex_bytes(word)
    try:
        with open(word[1:], "rb") as file:
            content = file.read(MAX_FILE + 1)
    except OSError:
        raise Refused(58) from None
    refuse((57, len(content) > MAX_FILE))
    if content.startswith(b"\x7fELF"):
        try:
            return text_of(content)
        except struct.error:
            raise Refused(8) from None
    if re.fullmatch(rb"[0-9a-fA-F \t\n\f\r]*", content):
        return hex_bytes(re.sub(rb"\s", b"", content))
    return content


def text_of(content):
    """The section .text of an object for BPF. Raises 8, or struct.error where the content ends too early."""
    machine, headers_at, size, count, names_at = struct.unpack_from("<18xH20xQ10xHHH", content)
    # 64 bits, little-endian, the one version.
    refuse((8, content[4:7] != b"\2\1\1" or machine != EM_BPF or size != 64 or names_at >= count
            or headers_at + 64 * count > len(content)))
    sections = [struct.unpack_from("<IIQQQQIIQQ", content, headers_at + 64 * at) for at in range(count)]
    names = content[sections[names_at][4]:][:sections[names_at][5]]
    texts = [at for at, section in enumerate(sections) if names[section[0]:section[0] + 6] == b".text\0"]
    refuse((8, not texts))
    _, kind, _, _, offset, size, *_ = sections[texts[0]]
    is_relocated = any(section[1] in (SHT_RELA, SHT_REL) and section[7] == texts[0] for section in sections)
    refuse((8, kind != SHT_PROGBITS or not size or offset + size > len(content) or is_relocated))
    return content[offset:offset + size]
