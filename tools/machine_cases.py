#!/usr/bin/env python3
"""Compares the step of the 386 with a processor.

Prints cases for mach_case on standard output, or, with the name of a folder, writes them to `stdin`
there and what the processor answers to `stdout`. Where gcc can't build 32-bit programs, or none can
be run, it says so and writes nothing.
"""

import random
import subprocess
import sys
import tempfile
from pathlib import Path

CF, ZF, SF, OF = 0x001, 0x040, 0x080, 0x800
KEPT = CF | ZF | SF | OF
DATA = 0x400000
SIZE = 32
NUMBERS = [0, 1, 2, 7, 31, 32, 33, 0x7F, 0x80, 0xFF, 0x7FFF, 0x8000, 0xFFFF, 0x7FFFFFFF, 0x80000000, 0x80000001, 0xFFFFFFFE, 0xFFFFFFFF]


class Cases:
    def __init__(self, start):
        self.random = random.Random(start)

    def number(self):
        if self.random.random() < 0.6:
            return self.random.choice(NUMBERS)
        return self.random.getrandbits(32)

    def operand(self, reg, memory_only=False):
        """A ModRM byte and what follows it, over the bytes at DATA, and the registers it needs."""
        pick = self.random.randrange(1 if memory_only else 0, 6)
        at = DATA + self.random.randrange(0, SIZE - 3)
        if pick == 0:
            return bytes([0xC0 | reg << 3 | self.random.randrange(8)]), {}
        if pick == 1:
            return bytes([reg << 3 | 5]) + at.to_bytes(4, "little"), {}
        if pick == 2:
            return bytes([0x40 | reg << 3 | 3, 0xF8]), {3: at + 8}
        if pick == 3:
            far = self.random.getrandbits(32)
            return bytes([0x80 | reg << 3 | 6]) + far.to_bytes(4, "little"), {6: (at - far) % 2**32}
        if pick == 4:
            scale, index = self.random.randrange(4), self.random.randrange(1, 4)
            return bytes([0x44 | reg << 3, scale << 6 | 7 << 3 | 3, 4]), {3: (at - 4 - (index << scale)) % 2**32, 7: index}
        return bytes([0x04 | reg << 3, 4 << 3 | 4]), {4: at}

    def one(self):
        """The bytes of an instruction, registers that it needs, and the flags that the manual leaves open."""
        r = self.random.randrange(8)
        n = self.number().to_bytes(4, "little")
        cc = self.random.choice([0, 1, 2, 3, 4, 5, 6, 7, 8, 9, 12, 13, 14, 15])
        kind = self.random.randrange(24)
        if kind < 6:
            digit = self.random.choice([0, 1, 4, 5, 6, 7])
            form = self.random.randrange(3)
            rest, regs = self.operand(digit if form == 2 else r)
            return bytes([(8 * digit + 1, 8 * digit + 3, 0x81)[form]]) + rest + (n if form == 2 else b""), regs, 0
        if kind == 6:
            op = self.random.choice([b"\x89", b"\x8b", b"\x88", b"\x8a", b"\x66\x89"])
            rest, regs = self.operand(r)
            return op + rest, regs, 0
        if kind == 7:
            rest, regs = self.operand(r, True)
            return b"\x8d" + rest, regs, 0
        if kind == 8:
            op = self.random.choice([bytes([0x50 + r]), b"\x68" + n, bytes([0x58 + r])])
            return op, {4: DATA + 16}, 0
        if kind == 9:
            rest, regs = self.operand(r)
            return b"\x85" + rest, regs, 0
        if kind in (10, 11):
            rest, regs = self.operand(r)
            return b"\x0f\xaf" + rest, regs, ZF | SF
        if kind == 12:
            rest, regs = self.operand(self.random.choice([2, 3]))
            return b"\xf7" + rest, regs, 0
        if kind in (13, 14, 15):
            digit = self.random.choice([6, 7])
            rest, regs = self.operand(digit)
            high = self.random.choice([0, 0, 1, 0xFFFFFFFF, self.number()])
            return b"\xf7" + rest, {2: high, **regs}, KEPT
        if kind == 16:
            return b"\x99", {}, 0
        if kind in (17, 18):
            count = self.random.choice([0, 1, 1, 2, 7, 8, 31, 32, 33, 255])
            rest, regs = self.operand(self.random.choice([4, 5, 7]))
            return b"\xd3" + rest, {1: self.random.getrandbits(24) << 8 | count, **regs}, 0 if count % 32 < 2 else OF
        if kind == 19:
            rest, regs = self.operand(0)
            return bytes([0x0F, 0x90 + cc]) + rest, regs, 0
        if kind == 20:
            rest, regs = self.operand(r)
            return bytes([0x0F, self.random.choice([0xBE, 0xBF, 0xB6, 0xB7])]) + rest, regs, 0
        if kind == 21:
            rest, regs = self.operand(2)
            op = self.random.choice([b"\xe8" + n, b"\xe9" + n, b"\xeb\x80", bytes([0x0F, 0x80 + cc]) + n, bytes([0x70 + cc, 0x90]), b"\xff" + rest])
            return op, {4: DATA + 16, **regs}, 0
        if kind == 22:
            op = self.random.choice([b"\xc3", b"\xc9", b"\x90", b"\xcc", b"\xfc", b"\x0f\x0b"])
            return op, {4: DATA + 16, 5: DATA + 8}, 0
        op = self.random.choice([b"\xf3\xa4", b"\xf3\xaa"])
        return op, {1: self.random.randrange(0, 12), 6: DATA + self.random.randrange(20), 7: DATA + self.random.randrange(20)}, 0

    def case(self):
        code, needed, open_flags = self.one()
        regs = [self.number() for _ in range(8)]
        for k, v in needed.items():
            regs[k] = v
        if code[0] != 0xF3 and self.random.random() < 0.05:
            for k in needed:
                regs[k] = (regs[k] + 0x10000000) % 2**32
        flags = self.random.getrandbits(12) & KEPT
        data = self.random.randbytes(SIZE)
        words = [code.hex(), *(f"{v:x}" for v in regs), f"{flags:x}", data.hex()]
        return " ".join(words), flags, open_flags


def build(folder):
    source = Path(__file__).with_name("native_step.c")
    program = Path(folder) / "native_step"
    command = ["gcc", "-m32", "-static", "-O1", "-o", str(program), str(source)]
    for run in ([str(program)], ["qemu-i386", str(program)]):
        try:
            subprocess.run(command, check=True, capture_output=True)
            subprocess.run(run, check=True, capture_output=True, input=b"")
            return run
        except (OSError, subprocess.CalledProcessError):
            continue
    return None


def with_kept_flags(answer, flags, open_flags):
    """A flag that the manual leaves open keeps its value."""
    words = answer.split(" ")
    words[11] = f"{int(words[11], 16) & ~open_flags | flags & open_flags:03x}"
    return " ".join(words)


def main():
    cases = Cases(386)
    made = [cases.case() for _ in range(400)]
    text = "".join(line + "\n" for line, _, _ in made)
    if len(sys.argv) < 2:
        sys.stdout.write(text)
        return
    with tempfile.TemporaryDirectory() as folder:
        run = build(folder)
        if run is None:
            print("no 32-bit processor to compare with: skipped")
            return
        answers = subprocess.run(run, check=True, capture_output=True, input=text.encode()).stdout.decode().splitlines()
    target = Path(sys.argv[1])
    (target / "stdin").write_text(text)
    (target / "stdout").write_text("".join(with_kept_flags(a, f, o) + "\n" for a, (_, f, o) in zip(answers, made)))


if __name__ == "__main__":
    main()
