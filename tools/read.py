#!/usr/bin/env python3
"""What random programs print, read by vfabi's scalar reading and run by gcc (-fwrapv).

    tools/read.py [PROGRAMS [SEED]]      300 programs from seed 1 by default

Each program of one or two units is plain C whose behaviour gcc and the language share: no order of evaluation that C leaves open,
no shift past the width, no division by 0, no loop without end. It needs gcc and the built program `vk_read` (`rt run` in
crates/vk_read), whose path READ may name. Every difference is told, and fails the run.
"""
import os
import random
import shutil
import subprocess
import sys
import tempfile

TOP = os.path.dirname(os.path.dirname(os.path.abspath(__file__)))
READ = os.environ.get("READ", os.path.join(TOP, "crates", "vk_read", "out", "vk_read"))
TYPES = ["signed char", "short", "int", "long", "unsigned char", "unsigned short", "unsigned", "unsigned long"]
PRINT = '#include <stdio.h>\nvoid print(long n) { printf("%ld\\n", n); }\n'


class Maker:
    """Makes one program. A function calls only those before it, so calls are acyclic."""

    def __init__(self, rng):
        self.rng = rng
        self.objects = []
        self.arrays = []
        self.functions = []
        self.names = 0
        self.loops = []

    def name(self, letter):
        self.names += 1
        return f"{letter}{self.names}"

    def literal(self):
        return self.rng.choice(["0", "1", "2", "3", "7", "100", "255", "65536", "2147483647", "5u", "4294967295u", "-1", "-9", "12345678901"])

    def value(self, names, depth, calls=True):
        """An expression on the variables. A call stands alone in it, since C leaves the order of operands open."""
        rng = self.rng
        kind = rng.randrange(12) if depth else rng.randrange(3)
        if kind == 0 or (kind < 3 and not names):
            return f"({self.literal()})"
        if kind < 3:
            return rng.choice(names)
        if kind == 3:
            return f"{rng.choice('-~!+')}({self.value(names, depth - 1, calls)})"
        if kind == 4:
            return f"(({rng.choice(TYPES)}){self.value(names, depth - 1, calls)})"
        if kind == 5:
            a, b, c = (self.value(names, depth - 1, False) for _ in range(3))
            return f"({a} ? {b} : {c})"
        if kind == 6 and self.arrays:
            array, length = rng.choice(self.arrays)
            return f"{array}[(unsigned char)({self.value(names, depth - 1, False)}) % {length}]"
        if kind == 7 and self.functions and calls:
            name, params = rng.choice(self.functions)
            return f"{name}({', '.join(self.value(names, depth - 1, False) for _ in params)})"
        if kind == 8:
            op = rng.choice(["<<", ">>"])
            return f"({self.value(names, depth - 1, False)} {op} ({self.value(names, depth - 1, False)} & 7))"
        if kind == 9:
            op = rng.choice("/%")
            return f"({self.value(names, depth - 1, False)} {op} ({self.value(names, depth - 1, False)} | 1))"
        if kind == 10:
            op = rng.choice(["&&", "||", "==", "!=", "<", "<=", ">", ">="])
            return f"({self.value(names, depth - 1, False)} {op} {self.value(names, depth - 1, False)})"
        op = rng.choice("+-*&|^")
        return f"({self.value(names, depth - 1, False)} {op} {self.value(names, depth - 1, False)})"

    def statement(self, names, writable, depth, in_loop, indent):
        rng = self.rng
        pad = "    " * indent
        kind = rng.randrange(11) if depth else rng.randrange(4)
        if kind == 0:
            return f"{pad}print({self.value(names, 2)});\n"
        if kind == 1 and writable:
            op = rng.choice(["=", "=", "+=", "-=", "*=", "&=", "|=", "^="])
            return f"{pad}{rng.choice(writable)} {op} {self.value(names, 2, False)};\n"
        if kind == 2 and self.arrays:
            array, length = rng.choice(self.arrays)
            op = rng.choice(["=", "+=", "^="])
            return f"{pad}{array}[(unsigned char)({self.value(names, 1, False)}) % {length}] {op} {self.value(names, 2, False)};\n"
        if kind == 3 and self.functions:
            name, params = rng.choice(self.functions)
            return f"{pad}{name}({', '.join(self.value(names, 1, False) for _ in params)});\n"
        if kind in (4, 5):
            text = f"{pad}if ({self.value(names, 2, False)}) {{\n{self.block(names, writable, depth - 1, in_loop, indent + 1)}{pad}}}"
            if rng.random() < 0.5:
                text += f" else {{\n{self.block(names, writable, depth - 1, in_loop, indent + 1)}{pad}}}"
            return text + "\n"
        if kind == 6:
            i = self.name("i")
            return (f"{pad}for ({rng.choice(['int', 'long', 'unsigned'])} {i} = 0; {i} < {rng.randrange(5)}; {i}++) {{\n"
                    f"{self.block(names + [i], writable, depth - 1, True, indent + 1)}{pad}}}\n")
        if kind == 7:
            i = self.name("w")
            return (f"{pad}int {i} = {rng.randrange(4)};\n{pad}while ({i} > 0) {{\n{pad}    {i}--;\n"
                    f"{self.block(names + [i], writable, depth - 1, True, indent + 1)}{pad}}}\n")
        if kind == 8:
            i = self.name("d")
            return (f"{pad}int {i} = 0;\n{pad}do {{\n{pad}    {i}++;\n"
                    f"{self.block(names + [i], writable, depth - 1, True, indent + 1)}{pad}}} while ({i} < {rng.randrange(1, 4)});\n")
        if kind == 9 and in_loop:
            return f"{pad}if ({self.value(names, 1, False)}) {rng.choice(['break', 'continue'])};\n"
        return f"{pad}{{\n{self.block(names, writable, depth - 1, in_loop, indent + 1)}{pad}}}\n" if depth else f"{pad};\n"

    def block(self, names, writable, depth, in_loop, indent):
        names, writable = list(names), list(writable)
        text = ""
        for _ in range(self.rng.randrange(1, 4)):
            if self.rng.random() < 0.3:
                v = self.name("v")
                text += f"{'    ' * indent}{self.rng.choice(TYPES)} {v} = {self.value(names, 2, False)};\n"
                names.append(v)
                writable.append(v)
            else:
                text += self.statement(names, writable, depth, in_loop, indent)
        return text

    def function(self, name, params):
        names = [p for p, _ in params] + [o for o, _ in self.objects]
        text = self.block(names, names, 3, False, 1)
        shown = ", ".join(f"{t} {p}" for p, t in params) or "void"
        result = self.rng.choice(TYPES)
        return f"{result} {name}({shown})", f"{{\n{text}    return {self.value(names, 2, False)};\n}}\n"

    def program(self):
        """One or two units."""
        rng = self.rng
        objects = declared = ""
        for _ in range(rng.randrange(1, 4)):
            o, t = self.name("g"), rng.choice(TYPES)
            self.objects.append((o, t))
            objects += f"{t} {o} = {self.literal()};\n"
            declared += f"extern {t} {o};\n"
        for _ in range(rng.randrange(1, 3)):
            a, t, n = self.name("a"), rng.choice(TYPES), rng.randrange(1, 9)
            self.arrays.append((a, n))
            given = ", ".join(self.literal() for _ in range(rng.randrange(1, n + 1)))
            objects += f"{t} {a}[{n}] = {{{given}}};\n"
            declared += f"extern {t} {a}[{n}];\n"
        functions = []
        for _ in range(rng.randrange(0, 4)):
            name = self.name("f")
            params = [(self.name("p"), rng.choice(TYPES)) for _ in range(rng.randrange(0, 4))]
            functions.append(self.function(name, params))
            self.functions.append((name, params))
        body = self.block([o for o, _ in self.objects], [o for o, _ in self.objects], 3, False, 1)
        tell = "".join(f"    print({o});\n" for o, _ in self.objects)
        tell += "".join(f"    for (int k = 0; k < {n}; k++) print({a}[k]);\n" for a, n in self.arrays)
        main = f"int main(void) {{\n{body}{tell}    return 0;\n}}\n"
        heads = "".join(f"{h};\n" for h, _ in functions)
        bodies = "".join(f"{h} {b}" for h, b in functions)
        if rng.random() < 0.5 or not functions:
            return [f"void print(long);\n{objects}{bodies}{main}"]
        return [f"void print(long);\n{declared}{heads}{main}", f"void print(long);\n{objects}{bodies}"]


def output(command):
    done = subprocess.run(command, capture_output=True, text=True, timeout=60)
    return done.stdout if done.returncode == 0 else f"status {done.returncode}\n{done.stderr}"


def main():
    programs = int(sys.argv[1]) if len(sys.argv) > 1 else 300
    seed = int(sys.argv[2]) if len(sys.argv) > 2 else 1
    if not shutil.which("gcc"):
        print("read: no gcc here")
        return
    if not os.path.exists(READ):
        print("read: the program is not built (rt run in crates/vk_read)")
        return
    differences = lines = 0
    with tempfile.TemporaryDirectory() as folder:
        with open(f"{folder}/print.c", "w") as f:
            f.write(PRINT)
        for number in range(programs):
            units = Maker(random.Random(seed * 1000003 + number)).program()
            files = []
            for k, text in enumerate(units):
                files.append(f"{folder}/unit{k}.c")
                with open(files[-1], "w") as f:
                    f.write(text)
            made = subprocess.run(["gcc", "-fwrapv", "-w", "-o", f"{folder}/a.out", *files, f"{folder}/print.c"], capture_output=True, text=True)
            if made.returncode != 0:
                sys.exit(f"read.py: gcc refuses program {number}\n{made.stderr}")
            want = output([f"{folder}/a.out"]) + "done\n"
            found = output([READ, "1000", *files])
            lines += want.count("\n") - 1
            if found != want:
                differences += 1
                print(f"program {number} of seed {seed}", *units, "gcc:", want, "vfabi:", found, sep="\n")
    print(f"read: {programs} programs, {lines} numbers, {differences} differences")
    sys.exit(1 if differences else 0)


if __name__ == "__main__":
    main()
