#!/usr/bin/env python3
"""What `lanes` prints of random functions, beside what gcc (-fwrapv) makes of the same functions called alone.

    tools/lanes.py [UNITS [SEED]]      100 units from seed 1 by default

Each unit is one function with directives that returns an integer expression of its parameters: all types, operators and `?:`, with
divisors that may be 0. Each variant that `mangle` names, and the function's own name, is called with random arguments that fit their
kinds, under a random mask where it takes one, with a letter that has it. It needs gcc and the built program (`./vfabi build`),
whose path VFABI may name. In
gcc's text divisions and shifts are macros that do what the language says where C leaves it open. Every difference is told, and fails
the run.
"""
import os
import random
import re
import shutil
import subprocess
import sys
import tempfile

TOP = os.path.dirname(os.path.dirname(os.path.abspath(__file__)))
VFABI = os.environ.get("VFABI", os.path.join(TOP, "crates", "vk_main", "out", "vk_main"))
BITS = {"signed char": 8, "short": 16, "int": 32, "long": 64}
TYPES = [*BITS, *(f"unsigned {name}" if name != "signed char" else "unsigned char" for name in BITS)]
LETTERS = {"b": "bcde", "c": "cde", "d": "de", "e": "e", "n": "n"}
HEAD = r"""
#include <setjmp.h>
#include <stdio.h>
static jmp_buf stopped;
#define DIVIDED(a, b, op, least) ({ __auto_type p_ = (a) + 0; __auto_type q_ = (b) + 0; __typeof__(p_ + q_) x_ = p_, y_ = q_; \
    if (y_ == 0) longjmp(stopped, 1); (__typeof__(x_))-1 < 0 && y_ == (__typeof__(x_))-1 ? (__typeof__(x_))(least) : x_ op y_; })
#define DIV(a, b) DIVIDED(a, b, /, 0 - x_)
#define REM(a, b) DIVIDED(a, b, %, 0)
#define SHL(a, b) ({ __auto_type x_ = (a) + 0; x_ << ((unsigned)(b) & (sizeof(x_) * 8 - 1)); })
#define SHR(a, b) ({ __auto_type x_ = (a) + 0; x_ >> ((unsigned)(b) & (sizeof(x_) * 8 - 1)); })
"""
MACROS = {"/": "DIV", "%": "REM", "<<": "SHL", ">>": "SHR"}


def bounds(name):
    """The least and the greatest number of a type."""
    if name.startswith("unsigned"):
        rest = name[9:]
        return 0, 2 ** (8 if rest == "char" else BITS[rest]) - 1
    return -(2 ** (BITS[name] - 1)), 2 ** (BITS[name] - 1) - 1


def number_of(rng, name):
    """A number of a type, at an end of its range or small more often than not."""
    low, high = bounds(name)
    wanted = rng.choice([0, 1, 2, 3, 7, -1, -2, low, low + 1, high, high - 1, rng.randint(low, high)])
    return min(max(wanted, low), high)


def expression(rng, names, depth):
    """An expression over parameters, as it stands in the unit and in gcc's text."""
    kind = rng.randrange(11) if depth else rng.randrange(3)
    if kind < 2 and names:
        return (rng.choice(names),) * 2
    if kind < 3:
        return (rng.choice(["0", "1", "2", "5", "31", "100", "32768", "2147483647", "3000000000", "7u", "9223372036854775807", "1l"]),) * 2
    if kind == 3:
        sign, (text, c) = rng.choice("-~!+"), expression(rng, names, depth - 1)
        return f"{sign}({text})", f"{sign}({c})"
    if kind == 4:
        name, (text, c) = rng.choice(TYPES), expression(rng, names, depth - 1)
        return f"({name})({text})", f"({name})({c})"
    if kind == 5:
        parts = [expression(rng, names, depth - 1) for _ in range(3)]
        return tuple(f"(({p[0]}) ? ({p[1]}) : ({p[2]}))" for p in zip(*parts))
    op = rng.choice(["+", "-", "*", "/", "%", "<<", ">>", "&", "|", "^", "==", "!=", "<", "<=", ">", ">=", "&&", "||", "/", "%"])
    left, right = (expression(rng, names, depth - 1) for _ in range(2))
    c = f"{MACROS[op]}(({left[1]}), ({right[1]}))" if op in MACROS else f"(({left[1]}) {op} ({right[1]}))"
    return f"(({left[0]}) {op} ({right[0]}))", c


def unit_of(rng):
    """The types of the parameters and of the result, each parameter's clause, and both texts."""
    result = rng.choice(TYPES)
    params = [rng.choice(TYPES) for _ in range(rng.randint(1, 4))]
    names = [f"p{i}" for i in range(len(params))]
    kinds = [rng.choice(["", "", "uniform", "linear"]) for _ in params]
    steps = [rng.choice([1, 2, -3]) for _ in params]
    clauses = [f"uniform({n})" if k == "uniform" else f"linear({n}:{s})" for n, k, s in zip(names, kinds, steps) if k]
    clauses += rng.choice([[], [], ["notinbranch"], ["inbranch"], ["simdlen(4)"]])
    text, c = expression(rng, names, rng.randint(1, 4))
    head = f"{result} f({', '.join(f'{t} {n}' for t, n in zip(params, names))})"
    unit = f"#pragma omp declare simd {' '.join(clauses)}\n{head} {{ return {text}; }}\n"
    return params, result, kinds, steps, unit, f"{head} {{ return {c}; }}\n"


def run(*words, folder):
    return subprocess.run([VFABI, *words], cwd=folder, capture_output=True, text=True)


def wrapped(number, name):
    low, high = bounds(name)
    return (number - low) % (high - low + 1) + low


def arguments(rng, params, kinds, steps, lanes, mask):
    """A row of numbers for each parameter, which fits its kind in the lanes that are on."""
    rows = []
    for name, kind, step in zip(params, kinds, steps):
        first = number_of(rng, name)
        if kind == "uniform":
            rows.append([first] * lanes)
        elif kind == "linear":
            rows.append([wrapped(first + i * step, name) for i in range(lanes)])
        else:
            rows.append([number_of(rng, name) for _ in range(lanes)])
        if kind:
            rows[-1] = [n if on == "1" else number_of(rng, name) for n, on in zip(rows[-1], mask)]
    return rows


def literal(number):
    if number == -(2**63):
        return "(-9223372036854775807 - 1)"
    return f"{number}u" if number > 2**63 - 1 else str(number)


def by_gcc(folder, c, calls):
    """What gcc makes of the function on each list of arguments."""
    body = "".join(
        f'    if (setjmp(stopped)) printf("stop divide\\n"); else {{ __auto_type r = f({", ".join(map(literal, call))});\n'
        '        if ((__typeof__(r))-1 < 0) printf("%lld\\n", (long long)r); else printf("%llu\\n", (unsigned long long)r); }\n'
        for call in calls
    )
    with open(f"{folder}/p.c", "w") as file:
        file.write(f"{HEAD}{c}int main(void) {{\n{body}}}\n")
    subprocess.run(["gcc", "-fwrapv", "-O1", "-w", "-o", f"{folder}/p", f"{folder}/p.c"], check=True)
    return subprocess.run([f"{folder}/p"], capture_output=True, text=True, check=True).stdout.splitlines()


def calls_of(rng, folder, params, kinds, steps):
    """For some names of the unit: the letter, the name, the mask, and the numbers."""
    names, letters = ["f"], ""
    for target, those in (("x86-64", "bcde"), ("aarch64", "n")):
        named = run("mangle", "--target", target, "f.c", folder=folder)
        names += named.stdout.split()
        letters += those if named.returncode == 0 else ""
    if not letters:
        return
    for name in names if len(names) < 6 else rng.sample(names, 6):
        found = re.match(r"_ZGV([bcden])([NM])(\d+)", name)
        if name != "f" and not found:
            continue
        lanes = int(found.group(3)) if found else 1
        letter = rng.choice(LETTERS[found.group(1)] if found else letters)
        may_be_off = not found or found.group(2) == "M"
        mask = "".join(rng.choice("011") if may_be_off else "1" for _ in range(lanes))
        yield letter, name, mask, arguments(rng, params, kinds if found else [""] * len(params), steps, lanes, mask)


def check(rng, folder):
    """Compares the calls of one unit; gives how many there were and what differs."""
    params, _, kinds, steps, unit, c = unit_of(rng)
    with open(f"{folder}/f.c", "w") as file:
        file.write(unit)
    calls = list(calls_of(rng, folder, params, kinds, steps))
    wanted = iter(by_gcc(folder, c, [call for *_, rows in calls for call in zip(*rows)]))
    different = []
    for letter, name, mask, rows in calls:
        lines = [f"lane {i}: {value if on == '1' else 'off'}\n" for i, (on, value) in enumerate(zip(mask, [next(wanted) for _ in mask]))]
        words = ["lanes", "--isa", letter, "--mask", mask, "f.c", name, "--", *(",".join(map(str, row)) for row in rows)]
        found = run(*words, folder=folder)
        if (found.stdout, found.stderr, found.returncode) != ("".join(lines), "", 0):
            different.append(f"{unit}{' '.join(words)}\nwanted {lines}\nfound {found.stdout!r} {found.stderr!r} {found.returncode}")
    return len(calls), different


def main():
    given = [int(word) for word in sys.argv[1:]]
    count, seed = (given + [100, 1][len(given) :])[:2]
    if not shutil.which("gcc"):
        print("lanes: no gcc here")
        return
    if not os.path.exists(VFABI):
        print("lanes: the program is not built (./vfabi build)")
        return
    rng, calls, different = random.Random(seed), 0, []
    for _ in range(count):
        with tempfile.TemporaryDirectory() as folder:
            some, more = check(rng, folder)
        calls, different = calls + some, different + more
    print(*different[:10], sep="\n", end="\n" if different else "")
    print(f"lanes: {count} units, {calls} calls, {len(different)} differences")
    sys.exit(bool(different))


if __name__ == "__main__":
    main()
