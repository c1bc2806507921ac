"""The verifier: which code is accepted, or the first slot and the least rule, 10 to 26, that fails.

Follows docs/REFUSALS.md for the rules and their order, and docs/WRITING_RESOLVERS.md ("Exactly") for what is tracked: for
each number a range of unsigned numbers and, in profile 2, one of signed numbers too.
"""

import collections
import typing

import machine
from machine import RECORD_BYTES, STACK_BYTES, U64, Refused, refuse, signed

MOST, FULL_SIGNED = (1 << 63) - 1, (-(1 << 63), (1 << 63) - 1)
FAR = 65536                # how far an address may be moved
SIGNED_TESTS = {"jsgt": "jgt", "jsge": "jge", "jslt": "jlt", "jsle": "jle"}
OPPOSITE = {"jeq": "jne", "jne": "jeq", "jgt": "jle", "jle": "jgt", "jge": "jlt", "jlt": "jge"}
MIRRORED = {"jlt": "jgt", "jle": "jge"}


# ---- Ranges, as pairs of the least and the greatest: docs/WRITING_RESOLVERS.md, "Exactly" ----

def hull(a, b):
    return min(a[0], b[0]), max(a[1], b[1])


def all_signed(bits):
    return -(1 << bits - 1), (1 << bits - 1) - 1


def cut32(range_):
    """What the lower 32 bits of the numbers may be."""
    low, high = range_
    if high < 1 << 32:
        return range_
    return (low & 0xffffffff,) * 2 if low == high else (0, (1 << 32) - 1)


def range_of(i, a, b):
    """The unsigned range of an operation's results, by those of its first and its second operand."""
    (low, high), (low2, high2) = (cut32(a), cut32(b)) if i.bits == 32 else (a, b)
    op, most, shift, is_one = i.op, (1 << i.bits) - 1, low2 & i.bits - 1, low2 == high2
    if low == high and is_one:
        return (machine.result(i, low, low2),) * 2
    if i.kind == "movsx":
        return (low2, high2) if high2 < 1 << i.off - 1 else (0, most)
    if i.kind == "end":
        return (low, high) if op == "le" and high < 1 << i.imm else (0, (1 << i.imm) - 1)
    if op == "add" and (high + high2 <= most or low + low2 > most):
        return (low + low2) & most, (high + high2) & most
    if op == "sub" and (low >= high2 or high < low2):
        return (low - high2) & most, (high - low2) & most
    if op == "mul" and high * high2 <= most:
        return low * low2, high * high2
    if op == "div":
        return (low // high2, high // low2) if low2 else (0, high)
    if op == "mod":
        return (0, high) if low2 == 0 else (low, high) if high < low2 else (0, min(high, high2 - 1))
    if op == "and":
        return 0, min(high, high2)
    if op in ("or", "xor"):  # to the greatest number with as many bits
        return (max(low, low2) if op == "or" else 0), (1 << max(high, high2).bit_length()) - 1
    if op == "mov":
        return low2, high2
    if op == "lsh" and is_one and high << shift <= most:
        return low << shift, high << shift
    if op == "rsh" or (op == "arsh" and high <= most >> 1):
        return (low >> shift, high >> shift) if is_one else (0, high)
    return 0, most


def signed_range(i, a, b):
    """The range of signed numbers that an operation of 64 bits gives for two numbers."""
    (low, high), (low2, high2) = a.signed, b.signed
    most, found, shift = FULL_SIGNED, FULL_SIGNED, b.unsigned[0] & 63
    if i.op == "mov":  # of all bits, or of as few as the offset has
        most, found = all_signed(i.off or 64), b.signed
    elif i.op == "add":
        found = low + low2, high + high2
    elif i.op == "sub":
        found = low - high2, high - low2
    elif i.op == "arsh" and b.unsigned[0] == b.unsigned[1]:
        found = low >> shift, high >> shift
    return found if most[0] <= found[0] and found[1] <= most[1] else most


def range_refine(op, a, b):
    """Cuts two ranges by a test that holds. Returns two ranges, either of which may be empty (the least above the most)."""
    if op in MIRRORED:
        return range_refine(MIRRORED[op], b, a)[::-1]
    (low, high), (low2, high2) = a, b
    if op == "jeq":
        return ((max(low, low2), min(high, high2)),) * 2
    if op == "jne":
        return without(a, b), without(b, a)
    gap = int(op == "jgt")
    return (max(low, low2 + gap), high), (low2, min(high2, high - gap))


def without(a, b):
    """Cuts the ends of `a` that equal the only number of `b`."""
    if b[0] != b[1]:
        return a
    return a[0] + (a[0] == b[0]), a[1] - (a[1] == b[0])


# ---- Numbers, addresses, states: docs/WRITING_RESOLVERS.md, "Exactly" ----

# A number by its unsigned range and, in profile 2, its signed one, which is None in profile 1.
Number = collections.namedtuple("Number", "unsigned signed")
# An address in the region `record` or `stack`, by its offsets from the record's start or from R10.
Address = collections.namedtuple("Address", "region low high")


class State(typing.NamedTuple):
    regs: list     # a number, an address, or None for an unreadable register
    written: int   # a bit for each byte of the stack, the lowest first

    def join(self, other):
        """What is true of both states."""
        return State([join_registers(*pair) for pair in zip(self.regs, other.regs)], self.written & other.written)

    def with_registers(self, new):
        return State([new.get(r, old) for r, old in enumerate(self.regs)], self.written)


def number(unsigned, with_sign):
    """The number whose ranges are the hulls of what lies in both; None if nothing does."""
    if with_sign is None:
        return Number(unsigned, None) if unsigned[0] <= unsigned[1] else None
    # The unsigned numbers without the sign's bit that lie in both, and those with it.
    parts = [(max(unsigned[0], start, with_sign[0] + shift), min(unsigned[1], stop, with_sign[1] + shift))
             for start, stop, shift in ((0, MOST, 0), (MOST + 1, U64, 1 << 64))]
    ends = [end for low, high in parts if low <= high for end in (low, high)]
    as_signed = [signed(end, 64) for end in ends]
    return Number((ends[0], ends[-1]), (min(as_signed), max(as_signed))) if ends else None


def join_registers(a, b):
    if isinstance(a, Number) and isinstance(b, Number):
        return Number(hull(a.unsigned, b.unsigned), a.signed and hull(a.signed, b.signed))
    if isinstance(a, Address) and isinstance(b, Address) and a.region == b.region:
        return Address(a.region, *hull(a[1:], b[1:]))
    return None


def bits_of(low, high):
    """The bits of the stack's bytes from offset `low` up to, without it, offset `high`."""
    return (1 << high - low) - 1 << low + STACK_BYTES


# ---- The rules: docs/REFUSALS.md ----

def check_structure(insns):
    """Rules 10 to 14: jumps lead ahead to instructions, and each instruction has an edge into it."""
    starts, end = {i.slot for i in insns}, insns[-1].slot + insns[-1].slots
    jumps = [(i.slot, i.target()) for i in insns if i.kind in ("ja", "test")]
    flows = [(i.slot, i.slot + i.slots) for i in insns if i.kind not in ("ja", "exit")]
    faults = [(slot, 10 if target <= slot else 11 if target >= end else 12) for slot, target in jumps
              if target <= slot or target not in starts]
    faults += [(slot, 13) for slot, after in flows if after == end]
    entered = {after for _, after in flows} | {target for slot, target in jumps if target > slot}
    faults += [(slot, 14) for slot in starts - entered - {0}]
    if faults:
        slot, rule = min(faults)
        raise Refused(rule, ("slot", slot))


def registers_read(i):
    if i.kind == "exit":
        return [0]
    is_overwritten = i.kind == "load" or i.op == "mov"
    return [r for r in (None if is_overwritten else i.dst, i.src) if r is not None]


def access_faults(i, state):
    """The rules of a load or a store, each with whether it fails."""
    stores = i.kind == "store"
    base = state.regs[i.dst if stores else i.src]
    faults = [(20, stores and isinstance(i.value(state.regs), Address)), (25, isinstance(base, Number))]
    if isinstance(base, Number):
        return faults
    low, high = base.low + i.off, base.high + i.off + i.bits // 8
    if base.region == "record":
        return faults + [(21, low < 0 or high > RECORD_BYTES), (22, stores)]
    if low < -STACK_BYTES or high > 0:
        return faults + [(23, True)]
    return faults + [(24, not stores and bits_of(low, high) & ~state.written)]


class Verifier:
    """What the instructions do to states, in one profile."""

    def __init__(self, profile=2):
        self.full_signed = FULL_SIGNED if profile == 2 else None

    def walk(self, insns):
        """Yields each instruction to which a live edge leads, with the state before it, and then checks its rules."""
        check_structure(insns)
        start = {1: Address("record", 0, 0), 10: Address("stack", 0, 0)}
        states = {0: State([start.get(r) for r in range(11)], 0)}
        for i in insns:
            if i.slot in states:
                state = states.pop(i.slot)
                yield i, state
                self.check(i, state)
                for target, carried in self.edges(i, state):
                    states[target] = states[target].join(carried) if target in states else carried

    def check(self, i, state):
        """Raises the least rule from 15 on that fails at this instruction."""
        place, read = ("slot", i.slot), [state.regs[r] for r in registers_read(i)]
        refuse((15, None in read), (16, i.dst == 10 and i.kind not in ("store", "test")), place=place)
        if i.kind in ("load", "store"):
            refuse(*access_faults(i, state), place=place)
        elif any(isinstance(r, Address) for r in read):
            refuse((19, i.kind == "test"), (26, i.kind == "exit"), place=place)
            self.moved(i, state)

    def edges(self, i, state):
        """The live edges from an instruction that keeps the rules, as pairs of a slot and the state carried there."""
        after = i.slot + i.slots
        if i.kind in ("ja", "exit"):
            return [(i.target(), state)] if i.kind == "ja" else []
        if i.kind == "test":
            edges = (after, self.refined(i, state, False)), (i.target(), self.refined(i, state, True))
            return [edge for edge in edges if edge[1]]
        if i.kind == "store":
            base, at = state.regs[i.dst], state.regs[i.dst].low + i.off
            # A store at an unknown place marks no byte as written.
            bits = bits_of(at, at + i.bits // 8) if base.region == "stack" and base.low == base.high else 0
            return [(after, State(state.regs, state.written | bits))]
        return [(after, state.with_registers({i.dst: self.result(i, state)}))]

    def number(self, unsigned, with_sign=FULL_SIGNED):
        return number(unsigned, self.full_signed and with_sign)

    def operand(self, i, state):
        """The second operand of an instruction: a register, or its number."""
        return self.number((i.imm & (1 << i.bits) - 1,) * 2) if i.src is None else state.regs[i.src]

    def result(self, i, state):
        """What an instruction puts into its first register."""
        if i.kind == "load":
            return self.number((0, U64), all_signed(i.bits)) if i.op == "signed" else self.number((0, (1 << i.bits) - 1))
        if any(isinstance(state.regs[r], Address) for r in registers_read(i)):
            return self.moved(i, state)
        b = self.operand(i, state)
        a = b if i.op == "mov" else state.regs[i.dst]
        has_sign = self.full_signed and i.bits == 64
        return self.number(range_of(i, a.unsigned, b.unsigned), signed_range(i, a, b) if has_sign else FULL_SIGNED)

    def moved(self, i, state):
        """The address that an operation on an address gives. Raises 17 or 18."""
        a, b, place = state.regs[i.dst], self.operand(i, state), ("slot", i.slot)
        op = i.op if (i.kind, i.bits) == ("alu", 64) else None
        if op == "mov":
            return b
        if op == "add" and isinstance(b, Address):
            a, b = b, a
        refuse((17, op not in ("add", "sub") or isinstance(b, Address)), place=place)
        low, high = b.unsigned
        if low > U64 - FAR:  # small negative numbers
            low, high = signed(low, 64), signed(high, 64)
        refuse((18, high >= FAR), place=place)
        low, high = (a.low + low, a.high + high) if op == "add" else (a.low - high, a.high - low)
        refuse((18, low < -FAR or high > FAR), place=place)
        return Address(a.region, low, high)

    def refined(self, i, state, is_taken):
        """The state on one edge of a test, or None if the edge is dead."""
        (u, s), (v, t) = state.regs[i.dst], self.operand(i, state)
        has_sign, op = i.op in SIGNED_TESTS, SIGNED_TESTS.get(i.op, i.op)
        is_wide = i.bits == 32 and max(u[1], v[1]) >= 1 << 32
        if i.src == i.dst or op == "jset" or is_wide or (has_sign and (i.bits == 32 or not self.full_signed)):
            return state
        op = op if is_taken else OPPOSITE[op]
        if has_sign or (op == "jeq" and i.bits == 64 and self.full_signed):
            s, t = range_refine(op, s, t)
        if not has_sign:
            u, v = range_refine(op, u, v)
        a, b = number(u, s), number(v, t)
        return state.with_registers({i.dst: a, i.src: b}) if a and b else None


def verify(insns, profile=2):
    """Returns if the code is accepted, else raises 10 to 26 with the slot."""
    for _ in Verifier(profile).walk(insns):
        pass


def is_accepted(code):
    """Whether the bytes are code that is accepted."""
    try:
        verify(machine.decode(code))
    except Refused:
        return False
    return True
