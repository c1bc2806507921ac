#!/usr/bin/env python3
"""Runs conformance cases of BPF's operations: conformance.py [--contexts] [PROGRAM]

The cases are restated from RFC 9669 and from what the tests of Linux's lib/test_bpf, uBPF and rbpf are known to cover: each operation at
each width, with operands at its edges. The results are written here as numbers, and come from no implementation. `heal asm` assembles
programs of a few cases each, and `heal judge` runs them on a record that holds the operands. A program returns 2 at a wrong result, else 1.
Each mnemonic of docs/TEXT.md must have a case.

With --contexts libheal runs the programs (`heal_bpf_run`, by Python), on contexts that have the operands alone, on longer ones up to
65,535 bytes, and, where a program reads none, on one of no bytes.
"""

import itertools
import os
import pathlib
import re
import subprocess
import sys

ROOT = pathlib.Path(__file__).resolve().parent.parent
sys.dont_write_bytecode = True
sys.path.insert(0, str(ROOT / "oracle"))

from machine import MNEMONICS

CONTEXTS = sys.argv[1:2] == ["--contexts"]
PROGRAM = (sys.argv[1 + CONTEXTS :] or [str(ROOT / "crates/heal_main/out/heal_main")])[0]
if CONTEXTS:
    os.environ.setdefault("HEAL_LIBRARY", str(ROOT / "bindings/c/out/libheal.so"))
    sys.path.insert(0, str(ROOT / "bindings/python"))
    from heal import Sandbox
MASK = (1 << 64) - 1

# An operation of two operands: the destination, the source, and the destination afterwards. Negative numbers are of 64 bits.
TWO_OPERANDS = """
add64   1 2                                         3
add64   -1 1                                        0
add64   0x7fffffffffffffff 1                        0x8000000000000000
add64   0x8000000000000000 0x8000000000000000       0
add64   5 -1                                        4
add64   0xffffffff 1                                0x100000000
add32   0xffffffff 1                                0
add32   0x1ffffffff 2                               1
add32   0x7fffffff 1                                0x80000000
add32   -1 -1                                       0xfffffffe
add32   0x100000000 0x100000000                     0
sub64   3 2                                         1
sub64   0 1                                         -1
sub64   0x8000000000000000 1                        0x7fffffffffffffff
sub64   7 -1                                        8
sub64   0x100000000 1                               0xffffffff
sub32   0 1                                         0xffffffff
sub32   0x100000000 1                               0xffffffff
sub32   0x80000000 1                                0x7fffffff
sub32   5 0x500000003                               2
sub32   0 0x80000000                                0x80000000
mul64   3 5                                         15
mul64   -1 -1                                       1
mul64   0x100000000 0x100000000                     0
mul64   0x8000000000000000 2                        0
mul64   0x8000000000000000 3                        0x8000000000000000
mul64   0x123456789 -1                              0xfffffffedcba9877
mul64   0x0fedcba987654321 0x123456789abcdef0       0x2236d88fe5618cf0
mul32   0x10000 0x10000                             0
mul32   0x40000001 2                                0x80000002
mul32   0xffffffff 0xffffffff                       1
mul32   0x100000003 0x200000005                     15
mul32   0x80000000 2                                0
mul32   0x87654321 0x9abcdef0                       0xe5618cf0
div64   13 4                                        3
div64   13 0                                        0
div64   0 0                                         0
div64   -1 2                                        0x7fffffffffffffff
div64   -1 -1                                       1
div64   0x8000000000000000 -1                       0
div64   12 -3                                       0
div64   0x100000000 16                              0x10000000
div32   13 4                                        3
div32   13 0                                        0
div32   0x1ffffffff 0                               0
div32   0xffffffff 2                                0x7fffffff
div32   0x80000000 0xffffffff                       0
div32   0x10000000d 0x100000004                     3
div32   13 0x100000000                              0
div32   0xfffffff4 0xfffffffd                       0
mod64   13 4                                        1
mod64   13 0                                        13
mod64   -1 0                                        -1
mod64   -1 10                                       5
mod64   0x8000000000000000 -1                       0x8000000000000000
mod64   13 13                                       0
mod32   13 4                                        1
mod32   0x10000000d 0                               13
mod32   -1 0                                        0xffffffff
mod32   0x10000000d 0x100000000                     13
mod32   0xffffffff 10                               5
mod32   0x80000000 0xffffffff                       0x80000000
sdiv64  13 3                                        4
sdiv64  -13 3                                       -4
sdiv64  13 -3                                       -4
sdiv64  -13 -3                                      4
sdiv64  -1 2                                        0
sdiv64  0x8000000000000000 -1                       0x8000000000000000
sdiv64  0x8000000000000000 1                        0x8000000000000000
sdiv64  0x8000000000000000 0x8000000000000000       1
sdiv64  -13 0                                       0
sdiv64  0 -1                                        0
sdiv32  13 3                                        4
sdiv32  0xfffffff3 3                                0xfffffffc
sdiv32  13 0xfffffffd                               0xfffffffc
sdiv32  0xfffffff3 0xfffffffd                       4
sdiv32  -13 3                                       0xfffffffc
sdiv32  0x10000000d 0x2fffffffd                     0xfffffffc
sdiv32  0x80000000 0xffffffff                       0x80000000
sdiv32  -1 0                                        0
sdiv32  13 0x700000000                              0
smod64  13 3                                        1
smod64  -13 3                                       -1
smod64  13 -3                                       1
smod64  -13 -3                                      -1
smod64  0x8000000000000000 -1                       0
smod64  0x8000000000000000 10                       -8
smod64  -13 0                                       -13
smod64  13 -1                                       0
smod64  0 -13                                       0
smod32  13 3                                        1
smod32  0xfffffff3 3                                0xffffffff
smod32  13 0xfffffffd                               1
smod32  0xfffffff3 0xfffffffd                       0xffffffff
smod32  0x80000000 0xffffffff                       0
smod32  -13 0                                       0xfffffff3
smod32  0x80000000 10                               0xfffffff8
or64    0xff00ff00ff00ff00 0x00ff00ff00ff00ff       -1
or64    1 -0x80000000                               0xffffffff80000001
or64    0x5000000000 0x0f                           0x500000000f
or32    0xf00000000 0xf                             0xf
or32    1 -0x80000000                               0x80000001
and64   -1 -16                                      0xfffffffffffffff0
and64   0x0123456789abcdef 0xffffffff               0x89abcdef
and64   0x0123456789abcdef 0x7fffffff               0x09abcdef
and64   0x0123456789abcdef 0                        0
and32   -1 -1                                       0xffffffff
and32   0x1ffffffff 0x100000000                     0
and32   0x1234567890abcdef 0xff                     0xef
and32   -1 -0x80000000                              0x80000000
xor64   -1 -1                                       0
xor64   5 -1                                        -6
xor64   0x0123456789abcdef 0x0000ffff0000ffff       0x0123ba9889ab3210
xor32   0xffffffff00000005 0xffffffff               0xfffffffa
xor32   -1 -1                                       0
xor32   5 -0x80000000                               0x80000005
lsh64   1 0                                         1
lsh64   1 31                                        0x80000000
lsh64   1 32                                        0x100000000
lsh64   1 63                                        0x8000000000000000
lsh64   1 64                                        1
lsh64   1 65                                        2
lsh64   3 63                                        0x8000000000000000
lsh64   1 -1                                        0x8000000000000000
lsh64   -1 1                                        -2
lsh64   1 0x100000001                               2
lsh32   1 0                                         1
lsh32   1 31                                        0x80000000
lsh32   1 32                                        1
lsh32   1 33                                        2
lsh32   1 63                                        0x80000000
lsh32   -1 4                                        0xfffffff0
lsh32   0x100000001 0                               1
lsh32   3 31                                        0x80000000
lsh32   1 -1                                        0x80000000
rsh64   0x8000000000000000 0                        0x8000000000000000
rsh64   0x8000000000000000 31                       0x100000000
rsh64   0x8000000000000000 32                       0x80000000
rsh64   0x8000000000000000 63                       1
rsh64   0x8000000000000000 64                       0x8000000000000000
rsh64   0x8000000000000000 65                       0x4000000000000000
rsh64   -1 1                                        0x7fffffffffffffff
rsh64   0x8000000000000000 -1                       1
rsh32   0x80000000 0                                0x80000000
rsh32   0x80000000 31                               1
rsh32   0x80000000 32                               0x80000000
rsh32   0x80000000 63                               1
rsh32   -1 4                                        0x0fffffff
rsh32   0xffffffff80000000 0                        0x80000000
rsh32   0x80000000 -1                               1
arsh64  0x8000000000000000 0                        0x8000000000000000
arsh64  0x8000000000000000 31                       0xffffffff00000000
arsh64  0x8000000000000000 32                       0xffffffff80000000
arsh64  0x8000000000000000 63                       -1
arsh64  0x8000000000000000 64                       0x8000000000000000
arsh64  0x8000000000000000 65                       0xc000000000000000
arsh64  -16 2                                       -4
arsh64  0x4000000000000000 62                       1
arsh64  0x7fffffffffffffff 63                       0
arsh64  0x8000000000000000 -1                       -1
arsh64  0x8000000000000000 0x100000001              0xc000000000000000
arsh32  0x80000000 0                                0x80000000
arsh32  0x80000000 31                               0xffffffff
arsh32  0x80000000 32                               0x80000000
arsh32  0x80000000 33                               0xc0000000
arsh32  0x80000000 63                               0xffffffff
arsh32  0xfffffff0 2                                0xfffffffc
arsh32  0x7fffffff 31                               0
arsh32  0xffffffff00000010 4                        1
arsh32  0x180000000 4                               0xf8000000
arsh32  0x80000000 -1                               0xffffffff
mov64   1 -1                                        -1
mov64   1 0x123456789abcdef0                        0x123456789abcdef0
mov64   1 -0x80000000                               0xffffffff80000000
mov64   1 0x7fffffff                                0x7fffffff
mov32   -1 -1                                       0xffffffff
mov32   -1 0                                        0
mov32   0 0x123456789                               0x23456789
"""

# An operation of one operand, and its result.
ONE_OPERAND = """
neg64     1                     -1
neg64     0                     0
neg64     -1                    1
neg64     0x8000000000000000    0x8000000000000000
neg64     0x0123456789abcdef    0xfedcba9876543211
neg32     1                     0xffffffff
neg32     0x100000000           0
neg32     0x100000001           0xffffffff
neg32     0x80000000            0x80000000
neg32     -1                    1
mov64s8   0x7f                  0x7f
mov64s8   0x80                  0xffffffffffffff80
mov64s8   0x17f                 0x7f
mov64s8   0xff                  -1
mov64s8   0xffffffffffffff00    0
mov64s16  0x7fff                0x7fff
mov64s16  0x8000                0xffffffffffff8000
mov64s16  0x18000               0xffffffffffff8000
mov64s16  0xffffffffffff0000    0
mov64s32  0x7fffffff            0x7fffffff
mov64s32  0x80000000            0xffffffff80000000
mov64s32  0x17fffffff           0x7fffffff
mov64s32  0xdeadbeef80000001    0xffffffff80000001
mov32s8   0x7f                  0x7f
mov32s8   0x80                  0xffffff80
mov32s8   0xffffffffffffff7f    0x7f
mov32s16  0x7fff                0x7fff
mov32s16  0x8000                0xffff8000
mov32s16  0x1234567812348000    0xffff8000
le16      0x0123456789abcdef    0xcdef
le32      0x0123456789abcdef    0x89abcdef
le64      0x0123456789abcdef    0x0123456789abcdef
be16      0x0123456789abcdef    0xefcd
be32      0x0123456789abcdef    0xefcdab89
be64      0x0123456789abcdef    0xefcdab8967452301
swap16    0x0123456789abcdef    0xefcd
swap32    0x0123456789abcdef    0xefcdab89
swap64    0x0123456789abcdef    0xefcdab8967452301
le16      0xfedcba9876543210    0x3210
be16      0xfedcba9876543210    0x1032
be32      0xfedcba9876543210    0x10325476
swap32    0xfedcba9876543210    0x10325476
swap64    0xfedcba9876543210    0x1032547698badcfe
swap64    1                     0x0100000000000000
"""

# Two operands, and the tests that hold for them; the others of TESTS don't. At 64 bits, and at 32.
TESTS = "jeq jne jgt jge jlt jle jset jsgt jsge jslt jsle".split()
TESTS_64 = """
5 5                                         jeq jge jle jset jsge jsle
0 0                                         jeq jge jle jsge jsle
-1 -1                                       jeq jge jle jset jsge jsle
5 6                                         jne jlt jle jset jslt jsle
6 5                                         jne jgt jge jset jsgt jsge
5 2                                         jne jgt jge jsgt jsge
-1 1                                        jne jgt jge jset jslt jsle
1 -1                                        jne jlt jle jset jsgt jsge
-2 -1                                       jne jlt jle jset jslt jsle
-1 -2                                       jne jgt jge jset jsgt jsge
0x8000000000000000 0x7fffffffffffffff       jne jgt jge jslt jsle
0x7fffffffffffffff 0x8000000000000000       jne jlt jle jsgt jsge
0x8000000000000000 0                        jne jgt jge jslt jsle
0 0x8000000000000000                        jne jlt jle jsgt jsge
0x8000000000000000 0x8000000000000000       jeq jge jle jset jsge jsle
0x80000000 1                                jne jgt jge jsgt jsge
0x100000000 0                               jne jgt jge jsgt jsge
0xffffffff -1                               jne jlt jle jset jsgt jsge
0x8000000000000000 -0x80000000              jne jlt jle jset jslt jsle
"""
TESTS_32 = """
5 5                                         jeq jge jle jset jsge jsle
5 6                                         jne jlt jle jset jslt jsle
6 5                                         jne jgt jge jset jsgt jsge
5 2                                         jne jgt jge jsgt jsge
-1 1                                        jne jgt jge jset jslt jsle
1 -1                                        jne jlt jle jset jsgt jsge
-2 -1                                       jne jlt jle jset jslt jsle
0x80000000 0x7fffffff                       jne jgt jge jslt jsle
0x7fffffff 0x80000000                       jne jlt jle jsgt jsge
0x80000000 0x80000000                       jeq jge jle jset jsge jsle
0x80000000 1                                jne jgt jge jslt jsle
0x100000000 0                               jeq jge jle jsge jsle
0xffffffff -1                               jeq jge jle jset jsge jsle
0x500000001 0x600000001                     jeq jge jle jset jsge jsle
0x500000001 0x400000002                     jne jlt jle jslt jsle
0x700000000 0x1ffffffff                     jne jlt jle jsgt jsge
"""

# The first bytes of the record, and the last one, for the cases below.
BYTES = bytes.fromhex("0123456789abcdeffedcba9876543210") + bytes(143) + b"\xa5"

# Instructions that leave a value in r0, and the value.
SEQUENCES = """
lddw r0, 0x0123456789abcdef; rsh64 r0, 32                                   | 0x01234567
lddw r0, 0x0123456789abcdef; lsh64 r0, 32                                   | 0x89abcdef00000000
lddw r0, 0x80000000; rsh64 r0, 1                                            | 0x40000000
lddw r0, 18446744073709551615; add64 r0, 1                                  | 0
ldxb r0, [r1+0]                                                             | 0x01
ldxb r0, [r1+4]                                                             | 0x89
ldxb r0, [r1+159]                                                           | 0xa5
ldxh r0, [r1+0]                                                             | 0x2301
ldxh r0, [r1+4]                                                             | 0xab89
ldxh r0, [r1+7]                                                             | 0xfeef
ldxw r0, [r1+0]                                                             | 0x67452301
ldxw r0, [r1+4]                                                             | 0xefcdab89
ldxw r0, [r1+3]                                                             | 0xcdab8967
ldxdw r0, [r1+0]                                                            | 0xefcdab8967452301
ldxdw r0, [r1+5]                                                            | 0x7698badcfeefcdab
ldxsb r0, [r1+0]                                                            | 0x01
ldxsb r0, [r1+4]                                                            | 0xffffffffffffff89
ldxsh r0, [r1+0]                                                            | 0x2301
ldxsh r0, [r1+4]                                                            | 0xffffffffffffab89
ldxsw r0, [r1+0]                                                            | 0x67452301
ldxsw r0, [r1+4]                                                            | 0xffffffffefcdab89
mov64 r2, r1; add64 r2, 4; ldxb r0, [r2+0]                                  | 0x89
mov64 r2, r1; add64 r2, 4; ldxb r0, [r2-4]                                  | 0x01
mov64 r2, r1; sub64 r2, -7; ldxh r0, [r2+0]                                 | 0xfeef
mov64 r2, 4; add64 r2, r1; ldxb r0, [r2+0]                                  | 0x89
ldxb r2, [r1+0]; and64 r2, 7; add64 r2, r1; ldxb r0, [r2+0]                 | 0x23
stdw [r10-8], -1; ldxdw r0, [r10-8]                                         | -1
stdw [r10-8], 2147483647; ldxdw r0, [r10-8]                                 | 0x7fffffff
stdw [r10-8], -2147483648; ldxdw r0, [r10-8]                                | 0xffffffff80000000
stdw [r10-512], 9; ldxdw r0, [r10-512]                                      | 9
stdw [r10-8], 0; stw [r10-8], -1; ldxdw r0, [r10-8]                         | 0xffffffff
stdw [r10-8], 0; sth [r10-8], -1; ldxdw r0, [r10-8]                         | 0xffff
stdw [r10-8], 0; stb [r10-8], -1; ldxdw r0, [r10-8]                         | 0xff
stdw [r10-8], 0; stb [r10-1], 0xab; ldxdw r0, [r10-8]                       | 0xab00000000000000
stdw [r10-8], -1; stw [r10-8], 0x12345678; ldxdw r0, [r10-8]                | 0xffffffff12345678
stdw [r10-8], -1; sth [r10-8], 0x12345678; ldxdw r0, [r10-8]                | 0xffffffffffff5678
stdw [r10-8], -1; stb [r10-8], 0x12345678; ldxdw r0, [r10-8]                | 0xffffffffffffff78
lddw r2, 0x0123456789abcdef; stxdw [r10-8], r2; ldxdw r0, [r10-8]           | 0x0123456789abcdef
lddw r2, 0x0123456789abcdef; stxdw [r10-8], r2; ldxb r0, [r10-8]            | 0xef
lddw r2, 0x0123456789abcdef; stxdw [r10-8], r2; ldxb r0, [r10-1]            | 0x01
lddw r2, 0x0123456789abcdef; stxdw [r10-8], r2; ldxsw r0, [r10-8]           | 0xffffffff89abcdef
lddw r2, 0x0123456789abcdef; stdw [r10-8], -1; stxw [r10-8], r2; ldxdw r0, [r10-8]  | 0xffffffff89abcdef
lddw r2, 0x0123456789abcdef; stdw [r10-8], -1; stxh [r10-8], r2; ldxdw r0, [r10-8]  | 0xffffffffffffcdef
lddw r2, 0x0123456789abcdef; stdw [r10-8], -1; stxb [r10-8], r2; ldxdw r0, [r10-8]  | 0xffffffffffffffef
lddw r2, 0x0123456789abcdef; stdw [r10-8], 0; stxw [r10-4], r2; ldxdw r0, [r10-8]   | 0x89abcdef00000000
ldxdw r1, [r1+0]; mov64 r0, r1                                              | 0xefcdab8967452301
ldxsb r1, [r1+4]; mov64 r0, r1                                              | 0xffffffffffffff89
stdw [r10-8], 128; ldxsb r0, [r10-8]                                        | 0xffffffffffffff80
stdw [r10-8], 32768; ldxsh r0, [r10-8]                                      | 0xffffffffffff8000
stdw [r10-8], -2147483648; ldxsw r0, [r10-8]                                | 0xffffffff80000000
stdw [r10-8], 127; ldxsb r0, [r10-8]                                        | 0x7f
stdw [r10-8], 0; stdw [r10-16], 0; lddw r2, 0x0123456789abcdef; stxdw [r10-13], r2; ldxdw r0, [r10-16] | 0x6789abcdef000000
stdw [r10-8], 0; stdw [r10-16], 0; lddw r2, 0x0123456789abcdef; stxdw [r10-13], r2; ldxdw r0, [r10-8]  | 0x012345
lddw r0, 0x0123456789abcdef; add64 r0, r0                                   | 0x02468acf13579bde
lddw r0, 0x8000000000000001; add32 r0, r0                                   | 2
lddw r0, 0x0123456789abcdef; sub64 r0, r0                                   | 0
lddw r0, 0x0123456789abcdef; xor32 r0, r0                                   | 0
lddw r0, 0x0123456789abcdef; and64 r0, r0                                   | 0x0123456789abcdef
lddw r0, 0x0123456789abcdef; or32 r0, r0                                    | 0x89abcdef
lddw r0, 0x123456789; mul64 r0, r0                                          | 0x4b66dc326fb98751
lddw r0, 0x0123456789abcdef; div64 r0, r0                                   | 1
mov64 r0, 0; div64 r0, r0                                                   | 0
lddw r0, 0x0123456789abcdef; mod32 r0, r0                                   | 0
mov64 r0, 0; mod64 r0, r0                                                   | 0
lddw r0, 0x8000000000000000; sdiv64 r0, r0                                  | 1
lddw r0, 0x8000000000000000; smod64 r0, r0                                  | 0
mov64 r0, 5; lsh64 r0, r0                                                   | 160
mov64 r0, -1; rsh64 r0, r0                                                  | 1
mov64 r0, -1; arsh32 r0, r0                                                 | 0xffffffff
lddw r0, 0x0123456789abcdef; mov32 r0, r0                                   | 0x89abcdef
lddw r0, 0x0123456789abcdef; mov64s8 r0, r0                                 | 0xffffffffffffffef
lddw r0, 0x0123456789abcdef; mov32s16 r0, r0                                | 0xffffcdef
mov64 r0, 7; ldxb r2, [r1+0]; jne r2, r2, +1; ja +1; mov64 r0, 8            | 7
mov64 r0, 7; ldxb r2, [r1+0]; jsge32 r2, r2, +1; mov64 r0, 8                | 7
mov64 r0, 7; ldxb r2, [r1+0]; jeq r2, 0, +1; ja +1; mov64 r0, 8             | 7
mov64 r0, 7; ldxb r2, [r1+0]; jeq r2, 0, +1; ja +0; mov64 r0, 8             | 8
mov64 r0, 7; ldxb r2, [r1+0]; jeq r2, 0, +1; jal +1; mov64 r0, 8            | 7
mov64 r0, 7; ldxb r2, [r1+0]; jeq r2, 0, +1; jal +2; lddw r0, 8             | 7
"""

# What a program answers by r0, all 64 bits of it.
ANSWERS = [("1", "first"), ("2", "second"), ("0", "none"), ("3", "none"), ("0x100000001", "none"), ("0xffffffffffffffff", "none")]

tried = {"exit"}  # the mnemonics of the cases so far; `exit` ends each, with one of ANSWERS

HELD = 10  # cases whose operands one record holds
SLOTS = 250  # of a program, since it is verified in quadratic time


def word(text):
    return int(text, 0) & MASK


def rows_of(table):
    return [row.split() for row in table.strip().splitlines()]


def immediate(bits, value):
    """The immediate of 32 bits that is extended to this operand, if there is one."""
    value = value if value < 1 << 63 else value - (1 << 64)
    if bits == 32 and 1 << 31 <= value < 1 << 32:
        value -= 1 << 32
    return str(value) if -1 << 31 <= value < 1 << 31 else None


def of_two(row, at):
    """The forms of an operation of two operands: of constants, of numbers in the record, and with an immediate."""
    name, a, b, wanted = row[0], *map(word, row[1:])
    number = immediate(int(name[-2:]), b)
    forms = [[f"lddw r0, {a}", f"lddw r2, {b}", f"{name} r0, r2"],
             [f"ldxdw r0, [r1+{at}]", f"ldxdw r2, [r1+{at + 8}]", f"{name} r0, r2"]]
    if number:
        forms += [[f"lddw r0, {a}", f"{name} r0, {number}"], [f"ldxdw r0, [r1+{at}]", f"{name} r0, {number}"]]
    return (a, b), [(form, wanted) for form in forms]


def of_one(row, at):
    """The forms of an operation of one operand: of a constant, and of a number in the record."""
    name, a, wanted = row[0], *map(word, row[1:])
    operands, register = ("r0, r2", "r2") if name.startswith("mov") else ("r0", "r0")
    loads = [f"lddw {register}, {a}", f"ldxdw {register}, [r1+{at}]"]
    return (a, 0), [([load, f"{name} {operands}"], wanted) for load in loads]


def of_tests(bits, row, at):
    """All tests of two operands, of registers and with an immediate. Sets bit k of r0 if test k is taken."""
    a, b, holding = word(row[0]), word(row[1]), row[2:]
    width, number = "32" if bits == 32 else "", immediate(bits, b)
    loads = [[f"lddw r2, {a}", f"lddw r3, {b}"], [f"ldxdw r2, [r1+{at}]", f"ldxdw r3, [r1+{at + 8}]"]]
    checks = []
    for load, second in itertools.product(loads, ["r3"] + ([number] if number else [])):
        body = [*load, "mov64 r0, 0"]
        for bit, test in enumerate(TESTS):
            body += [f"{test}{width} r2, {second}, +1", "ja +1", f"or64 r0, {1 << bit}"]
        checks.append((body, sum(1 << TESTS.index(test) for test in holding)))
    return (a, b), checks


def cases():
    """Each case as its row and a function that gives its operands and its checks, by where the record has the operands."""
    for row in rows_of(TWO_OPERANDS):
        yield row, lambda at, row=row: of_two(row, at)
    for row in rows_of(ONE_OPERAND):
        yield row, lambda at, row=row: of_one(row, at)
    for bits, table in ((64, TESTS_64), (32, TESTS_32)):
        for row in rows_of(table):
            yield [f"{bits} bits:", *row], lambda at, bits=bits, row=row: of_tests(bits, row, at)


def slots(lines):
    return sum(2 if line.startswith("lddw") else 1 for line in lines)


def program_of(checks):
    """The text of a program that returns 2 at the first check with another value in r0, else 1."""
    lines = []
    for body, wanted in checks:
        tried.update(line.split()[0] for line in body)
        lines += [*body, f"lddw r9, {wanted}", "jeq r0, r9, +2", "mov64 r0, 2", "exit"]
    return [*lines, "mov64 r0, 1", "exit"]


def lengths_for(lines, operands):
    """The lengths of contexts to run a program on, whose operands have so many bytes."""
    reads = any(re.search(r"\br1\b", line) for line in lines)
    return {operands if reads else 0, operands, operands + 1, 65535}


def judged(lines, record):
    """Assembles a program, runs it on a record, or on contexts, and returns its verdict."""
    assembled = subprocess.run([PROGRAM, "asm", "-"], input="\n".join(lines), capture_output=True, text=True, check=False)
    if CONTEXTS:
        code = bytes.fromhex(assembled.stdout.strip())
        answers = set()
        for length in lengths_for(lines, len(record)):
            with Sandbox(code, length) as sandbox:
                answers.add(sandbox.run(record.ljust(length, b"\0")[:length]).r0)
        return {1: "first", 2: "second"}.get(answers.pop(), "none") if len(answers) == 1 else "several"
    ran = subprocess.run([PROGRAM, "judge", assembled.stdout.strip(), record.hex()], capture_output=True, text=True, check=False)
    if assembled.returncode or ran.returncode:
        sys.exit(f"conformance.py: {assembled.stderr}{ran.stderr}")
    return ran.stdout.split()[0]


def passes(group):
    """Whether the checks of these cases pass, in one program or several."""
    record, checks = b"", []
    for at, (_, make) in enumerate(group):
        operands, made = make(16 * at)
        record += b"".join(operand.to_bytes(8, "little") for operand in operands)
        checks += made
    fitting = SLOTS // max(slots(program_of([check])) for check in checks)
    parts = [checks[start:start + fitting] for start in range(0, len(checks), fitting)]
    return all(judged(program_of(part), record if CONTEXTS else record.ljust(160, b"\0")) == "first" for part in parts)


def check_cases():
    """Checks the cases of the tables, and returns how many there are."""
    left, count = cases(), 0
    while group := list(itertools.islice(left, HELD)):
        count += len(group)
        if not passes(group):
            wrong = [" ".join(row) for row, make in group if not passes([(row, make)])]
            sys.exit("conformance.py: a wrong result: " + "; ".join(wrong))
    return count


def check_sequences():
    """Checks the sequences and the answers, and returns how many there are."""
    rows = [row.split("|") for row in SEQUENCES.strip().splitlines()]
    checks = [(body.strip().split("; "), word(value)) for body, value in rows]
    for body, value in checks:
        if judged(program_of([(body, value)]), BYTES) != "first":
            sys.exit(f"conformance.py: a wrong result: {'; '.join(body)}")
    # A wrong value is noticed.
    assert judged(program_of([(["mov64 r0, 3"], 4)]), BYTES) == "second"
    for value, verdict in ANSWERS:
        if judged([f"lddw r0, {value}", "exit"], BYTES) != verdict:
            sys.exit(f"conformance.py: {value} in r0 isn't {verdict}")
    return len(checks) + len(ANSWERS)


passed = check_cases() + check_sequences()
if MNEMONICS.keys() - tried:
    sys.exit(f"conformance.py: no case of {' '.join(sorted(MNEMONICS.keys() - tried))}")
print(f"{passed} conformance cases of {len(tried)} mnemonics passed")
