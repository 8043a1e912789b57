#!/usr/bin/env python3
"""Compares programs of the small form with those that gcc makes of them.

Makes random programs, and compares what each writes and its status under `svr3 run` with what it does
when gcc builds it, int having 32 bits that wrap and objects being 0 at first. Its words are how many
programs, 200 without, and where the random numbers start, 1 without. It prints each program that differs.
Where gcc isn't there, or doesn't build them, it says so and compares nothing. `svr3` has to be built.
"""

import random
import subprocess
import sys
import tempfile
from pathlib import Path

SVR3 = Path(__file__).resolve().parent.parent / "svr3"
GCC = ["gcc", "-std=gnu89", "-w", "-O0", "-fwrapv", "-ftrivial-auto-var-init=zero"]
VARIABLES = ["a", "b", "c3", "_d"]
COUNTERS = ["i", "j"]
NUMBERS = ["0", "1", "2", "7", "10", "065", "0x41", "255", "256", "0x7FFFFFFF", "2147483647"]
SPACES = [" ", " ", " ", "\n", "\t", "\n\n", " /* ; } */ "]


class Programs:
    def __init__(self, start):
        self.random = random.Random(start)

    def expression(self, depth=0):
        """Terms joined by + and -, some of them in brackets."""
        terms = []
        for _ in range(self.random.choice([1, 1, 2, 2, 3, 5])):
            if depth < 4 and self.random.random() < 0.2:
                terms.append("( " + self.expression(depth + 1) + " )")
            elif self.random.random() < 0.6:
                terms.append(self.random.choice(VARIABLES + COUNTERS))
            else:
                terms.append(self.random.choice(NUMBERS))
        text = terms[0]
        for term in terms[1:]:
            text += self.random.choice([" + ", " - "]) + term
        return text

    def loop(self, counters):
        """A loop that ends, since nothing in it sets its counter."""
        counter, step, turns = counters[0], self.random.choice([1, 2, 1000]), self.random.randrange(5)
        body = self.statements(counters[1:], 3)
        if self.random.random() < 0.5:
            begin, change = f"{counter} = {step * turns} ;", f"{counter} = {counter} - {step} ;"
        else:
            begin, change = f"{counter} = 0 - {step * turns} ;", f"{counter} = {step} + {counter} ;"
        return f"{begin} while ( {counter} ) {{ {body} {change} }}"

    def statement(self, counters):
        pick = self.random.random()
        if pick < 0.35:
            return f"{self.random.choice(VARIABLES)} = {self.expression()} ;"
        if pick < 0.65:
            return f"putchar ( {self.expression()} ) ;"
        if pick < 0.85 and counters:
            return self.loop(counters)
        if pick < 0.88:
            return f"while ( 0 ) return {self.expression()} ;"
        if pick < 0.9:
            return f"while ( {self.expression()} ) return {self.expression()} ;"
        return f"{{ {self.statements(counters, 3)} }}"

    def statements(self, counters, most):
        return " ".join(self.statement(counters) for _ in range(self.random.randrange(most + 1)))

    def one(self):
        names = VARIABLES + COUNTERS
        cut = self.random.randrange(1, len(names))
        heads = f"int {' , '.join(names[:cut])} ; int {' , '.join(names[cut:])} ;"
        text = f"main ( ) {{ {heads} {self.statements(COUNTERS, 8)} return {self.expression()} ; }}"
        return "".join(word + self.random.choice(SPACES) for word in text.split(" "))


def ran(words, folder):
    end = subprocess.run(words, cwd=folder, stdin=subprocess.DEVNULL, capture_output=True)
    return end.returncode, end.stdout


def by_gcc(folder):
    """What the program does that gcc makes, or None where it makes none."""
    try:
        built = subprocess.run(GCC + ["-o", "one", "one.c"], cwd=folder, capture_output=True)
    except FileNotFoundError:
        return None
    return ran(["./one"], folder) if built.returncode == 0 else None


def main(number="200", start="1"):
    programs, differ = Programs(int(start)), 0
    with tempfile.TemporaryDirectory() as folder:
        for _ in range(int(number)):
            text = programs.one()
            Path(folder, "one.c").write_text(text)
            right = by_gcc(folder)
            if right is None:
                print("not compared: gcc isn't there, or doesn't build the programs")
                return 0
            answer = ran([str(SVR3), "run", "one.c"], folder)
            if answer != right:
                differ += 1
                print(f"svr3 {answer}, gcc {right}, on\n{text}\n")
    print(f"{number} programs, {differ} differ")
    return 1 if differ else 0


if __name__ == "__main__":
    sys.exit(main(*sys.argv[1:]))
