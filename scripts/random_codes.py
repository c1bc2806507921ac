"""Random codes, for differential.py."""

import pathlib
import struct
import sys

sys.path.insert(0, str(pathlib.Path(__file__).resolve().parent.parent / "oracle"))

import machine
import verifier

EXIT = bytes.fromhex("9500000000000000")
NUMBERS = [0, 1, 2, 3, 7, 8, 15, 16, 31, 32, 63, 64, 127, 128, 159, 160, 255, 256, 512, 32767, 32768, 65535, 65536,
           (1 << 31) - 1, 1 << 31, (1 << 32) - 1, 1 << 32, (1 << 63) - 1, 1 << 63, (1 << 64) - 1]
ALU_CODES = [0, 1, 2, 3, 4, 5, 6, 7, 9, 10, 11, 12]
TEST_CODES = list(machine.TEST_CODES.values())
# Pairs of ranges that differ in what the operations make of them; each twice, since two codes show what each end is.
RANGES = [pair for pair in [((100, 200), (3, 7)), ((0, 9), (0, 3)), ((1 << 33, 1 << 34), (5, 5)), (((1 << 64) - 9, (1 << 64) - 1), (1, 20)),
                            ((1 << 31, (1 << 31) + 6), (31, 34)), ((40, 60), (50, 1 << 63))] for _ in range(2)]


def slot(opcode, dst=0, src=0, off=0, imm=0):
    return struct.pack("<BBHI", opcode, dst | src << 4, off & 0xffff, imm & 0xffffffff)


def wide(dst, value):
    return slot(0x18, dst, imm=value) + struct.pack("<II", 0, value >> 32 & 0xffffffff)


class Codes:
    """Makes random codes. `usable` has the registers that hold numbers, `addresses` those that hold addresses."""

    def __init__(self, rng, examples):
        self.rng, self.examples = rng, examples

    def any(self):
        """A code of a random kind."""
        kinds = [self.likely] * 6 + [self.probe] * 3 + [self.exact] * 12 + [self.addressed] * 3 + [self.stacked] * 3 + [
            self.mutated] * 5 + [self.noise]
        return self.rng.choice(kinds)()

    def number(self, bits=64):
        value = self.rng.choice(NUMBERS) + self.rng.choice([-1, 0, 0, 0, 1])
        if self.rng.random() < 0.3:
            value = self.rng.getrandbits(self.rng.randint(1, 64))
        return (-value if self.rng.random() < 0.3 else value) & (1 << bits) - 1

    def small(self):
        """An immediate of a likely size, as 32 bits."""
        return self.rng.choice([self.number(32), self.rng.randint(0, 70), self.rng.randint(-9, 200) & 0xffffffff])

    def noise(self):
        """Slots of random fields."""
        code = b""
        for _ in range(self.rng.randint(0, 4)):
            opcode = self.rng.choice([self.rng.getrandbits(8), 0x18, 0x05, 0xb7, 0x79, 0x7b, 0xdc, 0xbf])
            few = [0, 0, 1, 8, 10, 11, 15]
            code += slot(opcode, self.rng.choice(few), self.rng.choice(few), self.rng.choice([0, 0, 0, 1, 2, 8, 32, -1]),
                         self.rng.choice([0, 0, 1, 16, 32, 64, 7]))
        return code + self.rng.choice([EXIT] * 9 + [b"", b"\x95\0\0"])

    def mutated(self):
        """An example with a few changes."""
        code = bytearray(self.rng.choice(self.examples))
        for _ in range(self.rng.choice([1, 1, 1, 2, 3, 8])):
            if len(code) < 16:
                break
            at = self.rng.randrange(len(code) // 8) * 8
            change = self.rng.randrange(8)
            if change == 0:
                del code[at:at + 8]
            elif change == 1:
                code[at:at] = self.operation([0, 1, 2, 3], [1, 10])
            elif change == 2:
                code[at:at] = code[at:at + 8]
            elif change == 3 and any(code[at + 4:at + 8]):
                code[at + 4:at + 8] = struct.pack("<I", self.small())
            elif change == 4 and any(code[at + 2:at + 4]):
                code[at + 2:at + 4] = struct.pack("<h", self.rng.randint(-9, 170))
            elif change == 5:
                code[at + self.rng.randrange(8)] ^= 1 << self.rng.randrange(8)
            elif change == 6:
                code[at] ^= self.rng.choice([0x10, 0x20, 0x40, 0x80, 0x03])
            else:
                code[at + 1] = self.rng.randrange(11) | (self.rng.randrange(11) << 4 if code[at + 1] > 15 else 0)
        return bytes(code[:8 * 1025])

    def load(self, dst):
        """A load of a number from the record."""
        size = self.rng.choice([0, 1, 2, 3])
        opcode = (0x81 if size != 3 and self.rng.random() < 0.4 else 0x61) | size << 3
        return slot(opcode, dst, 1, self.rng.randint(0, 160 - machine.SIZE_BYTES[size]))

    def arithmetic(self, dst, registers):
        """An operation on numbers."""
        family = self.rng.choice([4, 7, 7])
        choice = self.rng.random()
        if choice < 0.08:
            return slot(0x80 | family, dst)
        if choice < 0.2:
            return slot(self.rng.choice([0xd4, 0xdc, 0xd7]), dst, imm=self.rng.choice([16, 32, 64]))
        if choice < 0.3:
            low = self.rng.choice([8, 16, 32] if family == 7 else [8, 16])
            return slot(0xb8 | family, dst, self.rng.choice(registers), low)
        code = self.rng.choice(ALU_CODES)
        sign = self.rng.randrange(2) if code in (3, 9) else 0
        if self.rng.random() < 0.45:
            return slot(code << 4 | 8 | family, dst, self.rng.choice(registers), sign)
        return slot(code << 4 | family, dst, 0, sign, self.rng.randint(0, 40) if code in (6, 7, 12) else self.small())

    def access(self, numbers, addresses):
        """A load or a store through an address, often within the record or the stack."""
        base, size = self.rng.choice(addresses), self.rng.randrange(4)
        off = self.rng.choice([self.rng.randint(0, 165), -8 * self.rng.randint(1, 4), self.rng.randint(-520, 20)])
        if base == 10 and self.rng.random() < 0.8:
            off = -8 * self.rng.randint(1, 4)
        kind = self.rng.randrange(4)
        if kind == 0:
            return slot(0x63 | size << 3, base, self.rng.choice(numbers), off)
        if kind == 1:
            return slot(0x62 | size << 3, base, 0, off, self.small())
        return slot(0x61 | size << 3, self.rng.choice(numbers), base, off)

    def jump(self, numbers, most=8):
        off, code = self.rng.choice([0, 1, 1, 2, 3, self.rng.randint(0, most)]), self.rng.choice(TEST_CODES)
        family = self.rng.choice([5, 5, 6])
        if self.rng.random() < 0.05:
            return self.rng.choice([slot(0x05, off=off), slot(0x06, imm=off)])
        if self.rng.random() < 0.4:
            return slot(code << 4 | 8 | family, self.rng.choice(numbers), self.rng.choice(numbers), off)
        return slot(code << 4 | family, self.rng.choice(numbers), 0, off, self.small())

    def operation(self, numbers, addresses):
        choice = self.rng.random()
        if choice < 0.4:
            return self.arithmetic(self.rng.choice(numbers), numbers)
        if choice < 0.6:
            return self.jump(numbers)
        if choice < 0.75:
            return self.access(numbers, addresses)
        if choice < 0.8:
            return wide(self.rng.choice(numbers), self.number())
        if choice < 0.9:
            return self.load(self.rng.choice(numbers))
        return self.moved(numbers, addresses)

    def moved(self, numbers, addresses):
        """Changes an address, mostly lawfully."""
        base, other = self.rng.choice(addresses), self.rng.choice(addresses)
        choices = [slot(0xbf, 6, base), slot(0x07, 6, imm=self.rng.choice([8, -8, 40, -512, self.small()])),
                   slot(0x0f, 6, self.rng.choice(numbers)), slot(0x1f, 6, self.rng.choice(numbers)),
                   slot(0x17, 6, imm=self.small()), slot(0x57, self.rng.choice(numbers), imm=self.rng.choice([7, 15, 63])),
                   slot(0x7b, 10, other, -8), slot(0x0f, base, other), slot(0x5f, base, other), slot(0x1d, base, other)]
        return self.rng.choice(choices[:6] * 5 + choices)

    def likely(self):
        """Loads, then operations, then an answer that depends on a register."""
        numbers, addresses = self.rng.choice([[0, 2, 3, 4], [0, 2, 3], [0, 2, 3, 4, 5, 7, 8, 9]]), [1, 10, 6, 6]
        code = b"".join(self.load(r) for r in numbers if self.rng.random() < 0.97)
        code += slot(0xbf, 6, self.rng.choice([1, 10]))
        code += b"".join(slot(0x7b, 10, 2, off) for off in (-8, -16, -24, -32) if self.rng.random() < 0.8)
        for _ in range(self.rng.choice([2, 4, 8, 16, 30])):
            code += self.operation(numbers, addresses)
        tail = [slot(0xbf, 0, self.rng.choice(numbers)), slot(0x57, 0, imm=3)]
        code += b"".join(tail if self.rng.random() < 0.9 else []) + self.rng.choice([EXIT] * 30 + [b""])
        return self.landed(code)

    def landed(self, code):
        """Mostly shortens jumps that lead past the end."""
        code = bytearray(code)
        for at in range(0, len(code), 8):
            off, left = struct.unpack_from("<h", code, at + 2)[0], len(code) // 8 - at // 8 - 2
            if code[at] & 7 in (5, 6) and off > left and self.rng.random() < 0.95:
                struct.pack_into("<h", code, at + 2, max(left, 0))
        return bytes(code)

    def probe(self):
        """Operations on numbers, then tests at the ends of a register's ranges. Behind an edge that the ranges show dead
        is a read of an unset register, so that an end that is off by one is noticed."""
        numbers = [0, 2, 3]
        code = b"".join(self.rng.choice([self.load(r), self.load(r), wide(r, self.number()), slot(0xb7, r, imm=self.small())])
                        for r in numbers)
        for _ in range(self.rng.choice([1, 1, 2, 3, 5, 8])):
            code += self.rng.choice([self.arithmetic(self.rng.choice(numbers), numbers), self.jump(numbers, 3)])
        code = self.landed(code + slot(0xbf, 0, 0))
        for _ in range(3):
            state = last_state(code)
            register = self.rng.choice(numbers)
            if state is None or not isinstance(state.regs[register], verifier.Number):
                break
            found, with_sign = state.regs[register], self.rng.random() < 0.5
            low, high = found.signed if with_sign else found.unsigned
            end, opcode = self.rng.choice([(low, 0x7d if with_sign else 0x3d), (high, 0xdd if with_sign else 0xbd)])
            value = end + self.rng.choice([0, 0, 0, 0, 0, 0, 1, -1])
            code += wide(9, value) + slot(opcode, register, 9, 1) + slot(0xbf, 9, 8)
        return code + slot(0x57, 0, imm=3) + EXIT

    def exact(self):
        """Two numbers of chosen ranges, one operation or test, and tests at all ends of the ranges that it gives."""
        code = self.ranged(2)
        found = last_state(code).regs[2]
        code += wide(3, self.rng.choice(found.unsigned + found.signed)) if self.rng.random() < 0.2 else self.ranged(3)
        if self.rng.random() < 0.55:
            code += self.arithmetic(self.rng.choice([2, 2, 2, 3]), [2, 3, 3, 3])
        else:
            code += self.on_one_edge()
        return self.with_ends(code, self.rng.randrange(2))

    def with_ends(self, code, less):
        """Code with tests at all ends of the ranges of registers 2 and 3. Behind them a read of an unset register is dead or live by the
        greatest value of register 5, which holds what they show: dead if `less` is 0, live if it is 1."""
        state, most = last_state(code), 0
        if state:
            code += slot(0xb7, 5)
            ends = [(register, which, inside) for register in (2, 3) for which in range(4) for inside in (False, True)]
            for bit, (register, which, inside) in enumerate(self.rng.sample(ends, 16)):
                # An edge that the ranges show dead, or by one inside a live one, adds a bit to register 5.
                found, opcode = state.regs[register], (0x3d, 0xbd, 0x7d, 0xdd)[which]
                end = (*found.unsigned, *found.signed)[which] + ((1, -1, 1, -1)[which] if inside else 0)
                code += wide(9, end) + slot(opcode, register, 9, 1) + slot(0x07, 5, imm=1 << bit)
                most += inside << bit
            code += slot(0xb5, 5, off=1, imm=most - less) + slot(0xbf, 9, 8)
        return code + slot(0xbf, 0, 2) + slot(0x57, 0, imm=self.rng.choice([1, 2, 3])) + EXIT

    def each(self):
        """Each operation on registers 2 and 3, and each edge of each test of them, where they have each pair of RANGES."""
        families = [(family, code, sign) for family in (4, 7) for code in ALU_CODES for sign in ((0, 1) if code in (3, 9) else (0,))]
        made = [slot(code << 4 | 8 | family, 2, 3, sign) for family, code, sign in families]
        made += [slot(0x80 | family, 2) for family in (4, 7)]
        made += [slot(0xb8 | family, 2, 3, low) for family, low in ((4, 8), (4, 16), (7, 8), (7, 16), (7, 32))]
        made += [slot(opcode, 2, imm=bits) for opcode in (0xd4, 0xdc, 0xd7) for bits in (16, 32, 64)]
        made += [edge(slot(code << 4 | 8 | family, 2, 3, 2 if taken else 1), taken)
                 for family in (5, 6) for code in TEST_CODES for taken in (False, True)]
        for operation in made:
            for index, (first, second) in enumerate(RANGES):
                yield self.with_ends(self.between(2, *first) + self.between(3, *second) + operation, index % 2)

    def ranged(self, register):
        """A number with a chosen range, unsigned or signed: a load that is replaced by an end if it is outside."""
        if self.rng.random() < 0.2:
            return wide(register, self.number())
        low = self.number()
        high = self.rng.choice([self.number(), low, low + 1, low + self.rng.randint(0, 70), (1 << 64) - 1])
        if self.rng.random() < 0.3:  # a signed range
            low, high = sorted(machine.signed(end, 64) for end in (low, high))
            tests = 0x7d, 0xdd
        else:
            low, high = sorted(end & (1 << 64) - 1 for end in (low, high))
            tests = 0x3d, 0xbd
        return self.between(register, low, high, tests)

    def between(self, register, low, high, tests=(0x3d, 0xbd)):
        """A load that is replaced by an end if it is outside."""
        return self.load(register) + b"".join(wide(9, end) + slot(opcode, register, 9, 1) + slot(0xbf, register, 9)
                                              for end, opcode in zip((low, high), tests))

    def addressed(self):
        """An address moved by a number of a chosen range, and accesses at the ends of what it may reach."""
        pick, near = self.rng.choice, self.rng.randint(-2, 2)
        low = pick([near, 65535 + near, -65535 + near, 65536, -65536, self.rng.randint(-600, 600), self.rng.randint(-9, 9)])
        high = pick([low, low + self.rng.randint(0, 9), low + self.rng.randint(0, 200), 65535 + near, near])
        base, size = pick([1, 10]), self.rng.randrange(4)
        code = self.load(2) + b"".join(
            wide(9, end & (1 << 64) - 1) + slot(opcode, 2, 9, 1) + slot(0xbf, 2, 9)
            for end, opcode in zip(sorted((low, high)), pick([(0x7d, 0xdd), (0x3d, 0xbd)])))
        code += slot(0xbf, 6, base) + pick([slot(0x0f, 6, 2), slot(0x1f, 6, 2), slot(0x0f, 2, 6) + slot(0xbf, 6, 2)])
        state = last_state(code)
        if state and self.rng.random() < 0.8:
            found, start, stop = state.regs[6], *((0, 160) if base == 1 else (-512, 0))
            off = pick([start - found.low, stop - machine.SIZE_BYTES[size] - found.high]) + pick([0, 0, 0, 1, -1])
            off = max(min(off, 32767), -32768)
            code += pick([slot(0x61 | size << 3, 3, 6, off), slot(0x62 | size << 3, 6, 0, off, self.small()),
                          slot(0x63 | size << 3, 6, pick([2, 9, 9, 9, 10]), off)])
        return code + slot(0xb7, 0, imm=1) + EXIT

    def stacked(self):
        """Stores into the stack, some on one branch only or at an unknown place, and loads."""
        top = self.rng.choice([0, 0, 0, -480, -256])
        code = self.load(2) + self.load(3) + slot(0x57, 3, imm=self.rng.choice([1, 7])) + slot(0xbf, 7, 10)
        code += self.rng.choice([b"", b"", slot(0x1f, 7, 3), slot(0x0f, 7, 3) + slot(0x17, 7, imm=16)])
        written = []
        for _ in range(self.rng.randint(2, 9)):
            size = self.rng.choice([0, 1, 2, 3, 3])
            off = top - machine.SIZE_BYTES[size] - self.rng.randint(-1 if self.rng.random() < 0.05 else 0, 12)
            written += range(off, off + machine.SIZE_BYTES[size])
            base = self.rng.choice([10, 10, 10, 7])
            store = self.rng.choice([slot(0x63 | size << 3, base, 2, off), slot(0x62 | size << 3, base, 0, off, self.small())])
            code += slot(0x25, 2, 0, 1, self.small()) + store if self.rng.random() < 0.3 else store
        code += slot(0xb7, 0)
        for _ in range(self.rng.randint(1, 4)):
            opcode = 0x61 | self.rng.choice([0, 1, 2, 2, 2, 2, 3]) << 3
            code += slot(opcode, 4, self.rng.choice([10, 10, 10, 10, 7]), self.rng.choice(written)) + slot(0x0f, 0, 4)
        return code + EXIT

    def on_one_edge(self):
        """A test of registers 2 and 3, or of one with a number, one of whose edges leads to EXIT."""
        opcode = self.rng.choice(TEST_CODES) << 4 | self.rng.choice([5, 5, 6])
        taken = self.rng.random() < 0.5
        off = 2 if taken else 1
        if self.rng.random() < 0.6:
            test = slot(opcode | 8, *self.rng.choice([(2, 3), (2, 3), (3, 2), (2, 3), (2, 3), (2, 2)]), off)
        else:
            test = slot(opcode, 2, 0, off, self.small())
        return edge(test, taken)


def edge(test, taken):
    """A test, which jumps by 2 or 1, with EXIT behind its other edge."""
    answer = slot(0xb7, 0, imm=1) + EXIT
    return test + (answer if taken else slot(0x05, off=2) + answer)


def last_state(code):
    """The state in which the verifier leaves code that has no EXIT, or None where it refuses."""
    try:
        insns = machine.decode(code + EXIT)
        return next((state for i, state in verifier.Verifier().walk(insns) if i is insns[-1]), None)
    except machine.Refused:
        return None
