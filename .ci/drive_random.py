#!/usr/bin/env python3
"""Random scripts for `drive`, run through the program and through the model of .ci/drive_expected.py, answer by answer.

    .ci/drive_random.py [--seed N] [--scripts N] [--lines N] [--program PATH]     compares, and ends with status 1 at a difference
    .ci/drive_random.py --print [--seed N] [--lines N]                            prints one script

The program is bin/drive where none is named. One seed gives the same scripts each time. Not in the gate.
"""
import argparse
import pathlib
import random
import subprocess
import sys

sys.dont_write_bytecode = True
import drive_expected

ROOT = pathlib.Path(__file__).resolve().parent.parent


class Maker:
    """Makes lines that mostly go together: it follows the model's subsystem, and now and then strays from it."""

    def __init__(self, seed):
        self.random = random.Random(seed)
        self.console = drive_expected.Console()

    @property
    def kinds(self):
        return [responder.kind for responder in self.console.subsystem.responders]

    @property
    def ids(self):
        return list(self.console.subsystem.controllers)

    @property
    def ports(self):
        return list(self.console.subsystem.links)

    def one_in(self, n):
        return self.random.randrange(n) == 0

    def some(self, known, top):
        """One that is known, or any up to the top."""
        if known and not self.one_in(8):
            return self.random.choice(known)
        return self.random.choice([0, 1, top, self.random.randint(0, top)])

    def report(self, first):
        status = 0
        for bit in range(6 if first else 9):
            if self.one_in(3):
                status |= 1 << bit
        if self.one_in(30):
            status |= 1 << self.random.randrange(16)
        warning = self.random.choice([0, 0, 1, 2, 0x3F, self.random.randrange(64)])
        if self.one_in(30):
            warning |= self.random.choice([0x40, 0x80])
        kelvins = self.random.choice([0, 1, 213, 214, 272, 273, 298, 298, 399, 400, 65535, self.random.randrange(65536)])
        used, spare = (self.random.choice([0, 3, 100, 255, self.random.randrange(256)]) for _ in range(2))
        return f"{status:04X} {kelvins} {used} {spare} {warning:02X}"

    def dwords(self, opcode):
        nmd0, nmd1 = 0, 0
        if opcode == 2:
            nmd0 = self.random.choice([0, 0, self.some(self.ids, 65535)])
            nmd0 |= self.random.choice([0, 1, 2, 3, 254, 255]) << 16
            nmd0 |= self.random.choice([7, 7, 7, self.random.randrange(8)]) << 24 | self.random.randrange(2) << 31
            nmd1 = self.random.choice([0x1F, 0x1F, 1 << self.random.randrange(5), self.random.randrange(32)])
        elif opcode in (3, 4):
            nmd0 = self.random.choice([2, 2, 2, self.random.randrange(256)])
            nmd1 = self.random.choice([0xFFFF, 1 << self.random.randrange(16), self.random.randrange(65536)])
        nmd1 |= self.random.randrange(2) << 31
        if self.one_in(6):
            nmd0 ^= self.random.choice([0x78000000, 0xFF00, 1 << self.random.randrange(32)])
            nmd1 ^= self.random.choice([0x7FFFFFE0, 1 << self.random.randrange(32)])
        return nmd0.to_bytes(4, "little") + nmd1.to_bytes(4, "little")

    def request(self):
        responder = self.some(list(range(len(self.kinds))), 255)
        kind = self.kinds[responder] if responder < len(self.kinds) else 1
        carrier = {1: "endpoint", 2: "tunnel"}.get(kind) or self.random.choice(["endpoint", "tunnel"])
        if self.one_in(15):
            carrier = self.random.choice(["endpoint", "tunnel"])
        opcode = self.random.choice([1, 1, 2, 2, 2, 2, 2, 3, 4, self.random.randrange(256)])
        dwords = self.dwords(opcode)
        if carrier == "endpoint":
            message = bytearray([0x84, 8 + self.random.randrange(2), 0, 0, opcode, 0, 0, 0]) + dwords
            if self.one_in(20):
                message += bytes(self.random.randrange(1, 4))
            if self.one_in(20):
                message[2] |= 1
        else:
            message = bytearray(64)
            message[0] = 0x1D if opcode == 3 else 0x1E
            message[41], message[44], message[48:56] = 8, opcode, dwords
        if self.one_in(12):
            message[self.random.randrange(len(message))] ^= 1 << self.random.randrange(8)
        if self.one_in(30):
            message = message[:self.random.randrange(len(message))]
        return f"request {responder} {carrier} {message.hex().upper()}"

    def fitting_out(self):
        roll = self.random.randrange(10)
        if roll < 3:
            return f"responder {self.random.choice([1, 1, 1, 2, 2, 2, self.random.choice([0, 3, 255])])}"
        if roll < 6:
            controller_id = self.random.choice([1, 2, 5, 300, 65535, self.random.randrange(65536)])
            return f"controller {controller_id} {self.random.choice([0, 0, 1, 2, 2, 3])} {self.report(True)}"
        if roll < 9:
            return f"port {self.random.choice([0, 1, 2, 255, self.random.randrange(256)])}"
        return "open"

    def service(self):
        roll = self.random.randrange(20)
        if roll < 7:
            return f"report {self.some(self.ids, 65535)} {self.report(False)}"
        if roll < 8:
            return f"link {self.some(self.ports, 255)} {self.random.choice(['up', 'down'])}"
        if roll < 9:
            return "status " + " ".join(str(self.random.randrange(2)) for _ in range(3))
        if roll < 10:
            return f"reset {self.some(list(range(len(self.kinds))), 255)}"
        return self.request()

    def setting(self):
        roll = self.random.randrange(8)
        if roll == 0:
            return f"code {self.random.randrange(500)}"
        if roll == 1:
            return f"gained {self.report(False)} {self.report(False)}"
        name, top, usual = self.random.choice([("rows", 64, 32), ("ports", 16, 8), ("reply", 4176, 4168)])
        near = {"rows": len(self.kinds) * min(len(self.ids), 4), "ports": len(self.ports), "reply": 4088}[name]
        return f"{name} {self.random.choice([usual, usual, usual, near, max(near - 1, 0), self.random.randint(0, top + 1)])}"

    def damaged(self, line):
        at = self.random.randrange(len(line) + 1)
        return self.random.choice([line[:at], line + " " + line, line[:at] + self.random.choice("xG -+#9\t") + line[at:]])

    def line(self):
        in_service = self.console.subsystem.in_service
        if self.one_in(200 if in_service else 80):
            return "register inline"
        if self.one_in(14):
            return self.setting()
        if self.one_in(40):
            in_service = not in_service
        line = self.service() if in_service else self.fitting_out()
        return self.damaged(line) if self.one_in(40) else line

    def script(self, lines):
        """The lines, and the answers that the model gives."""
        script = [self.line_and_answer() for _ in range(lines)]
        return [line for line, _ in script], [(line, answer) for line, answer in script if answer is not None]

    def line_and_answer(self):
        line = self.line()
        return line, drive_expected.answer_line(self.console, line.encode())


def answers(program, lines):
    run = subprocess.run([program], input="".join(line + "\n" for line in lines).encode(), stdout=subprocess.PIPE, check=True)
    return run.stdout.decode().splitlines()


def main():
    parser = argparse.ArgumentParser()
    parser.add_argument("--seed", type=int, default=1)
    parser.add_argument("--scripts", type=int, default=20)
    parser.add_argument("--lines", type=int, default=2000)
    parser.add_argument("--program", default=str(ROOT / "bin/drive"))
    parser.add_argument("--print", action="store_true")
    asked = parser.parse_args()
    if asked.print:
        print("\n".join(Maker(asked.seed).script(asked.lines)[0]))
        return
    for seed in range(asked.seed, asked.seed + asked.scripts):
        lines, expected = Maker(seed).script(asked.lines)
        found = answers(asked.program, lines)
        for (line, answer), other in zip(expected, found):
            if answer != other:
                sys.exit(f"seed {seed}: {line}\n  expected {answer}\n  found    {other}")
        if len(expected) != len(found):
            sys.exit(f"seed {seed}: {len(expected)} answers expected, {len(found)} found")
    print(f"{asked.scripts} scripts of {asked.lines} lines from seed {asked.seed} on: no difference")


main()
