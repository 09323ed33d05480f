#!/usr/bin/env python3
"""Vector names of random units, beside those that gcc and clang give the same units (x86-64).

    tools/names.py [UNITS [SEED]]      200 units from seed 1 by default

Each unit is compiled by `gcc -fopenmp-simd` and `clang -fopenmp-simd`, where they are there, and named by
`./vfabi mangle --target x86-64`. docs/NAMES.md lists by class where compilers differ, with the reason; units are made so that
they meet no such class but clang's spelling of steps below zero and its letter c. Every other difference is told, and fails the run.
"""
import os
import random
import re
import shutil
import subprocess
import sys
import tempfile

TOP = os.path.dirname(os.path.dirname(os.path.abspath(__file__)))
NAME = re.compile(r"_ZGV[bcde][NM]\d+[\w-]+")
TYPES = {"signed char": 1, "short": 2, "int": 4, "long": 8, "unsigned char": 1, "unsigned short": 2, "unsigned": 4, "unsigned long": 8}
# gcc takes no length above those of its targets, and clones no function for more lanes than 128 bytes of the type.
LENGTHS = (2, 4, 8, 16)


def directive(rng, params):
    """What a directive says of these parameters, each a name, a type and 'value', 'read' or 'written', and its text."""
    clauses = []
    uniform = [p for p in params if p[2] != "written" and rng.random() < 0.3]
    if uniform:
        clauses.append("uniform(%s)" % ", ".join(p[0] for p in uniform))
    for p in params:
        if p in uniform or rng.random() < 0.6:
            continue
        below = () if p[1].startswith("unsigned") else (-1, -16)
        step = rng.choice((None, 1, 2, 3, 7, 100, *below))
        clauses.append(f"linear({p[0]})" if step is None else f"linear({p[0]}:{step})")
    for p in params:
        if p[2] != "value" and rng.random() < 0.4:
            clauses.append(f"aligned({p[0]}:{rng.choice((4, 8, 16, 32, 64))})")
    shape = frozenset(clauses)
    if rng.random() < 0.3:
        clauses.append(f"simdlen({rng.choice(LENGTHS)})")
    branch = rng.choice((None, "inbranch", "notinbranch"))
    if branch:
        clauses.append(branch)
    rng.shuffle(clauses)
    return shape, " ".join(["#pragma omp declare simd", *clauses])


def function(rng, number):
    """A definition of a function with one to three directives, which say different things of the parameters."""
    params = []
    for k in range(rng.randrange(0, 5)):
        params.append((f"p{k}", rng.choice(list(TYPES)), rng.choice(("value", "value", "read", "written"))))
    shown = {"value": "{t} {n}", "read": "const {t} *{n}", "written": "{t} *{n}"}
    words = ", ".join(shown[kind].format(t=t, n=n) for n, t, kind in params) or "void"
    result = rng.choice(("void", *TYPES))
    body = "" if result == "void" else " return 1;"
    lines = dict(directive(rng, params) for _ in range(rng.randrange(1, 4)))
    return "\n".join([*lines.values(), f"{result} f{number}({words}) {{{body} }}"])


# Where compilers differ, by class: a unit, and the names of letters b and c that it has here, from gcc 12 and from clang 14.
CLASSES = [
    ("an alignment without a number", "#pragma omp declare simd aligned(p) notinbranch\nint f(const int *p) { return 1; }",
     "_ZGVbN4va16_f _ZGVcN4va16_f", "_ZGVbN4v_f _ZGVcN4v_f", "_ZGVbN4va16_f _ZGVcN8va16_f"),
    ("a step that is no number of the parameter's type", "#pragma omp declare simd linear(c:2147) notinbranch\nint f(signed char c) { return 1; }",
     "_ZGVbN4l2147_f _ZGVcN4l2147_f", "_ZGVbN4l99_f _ZGVcN4l99_f", "_ZGVbN4l2147_f _ZGVcN8l2147_f"),
    ("a step below zero", "#pragma omp declare simd linear(c:-1) notinbranch\nint f(unsigned c) { return 1; }",
     "_ZGVbN4ln1_f _ZGVcN4ln1_f", "_ZGVbN4l4294967295_f _ZGVcN4l4294967295_f", "_ZGVbN4l-1_f _ZGVcN8l-1_f"),
    ("a step that is a parameter", "#pragma omp declare simd linear(a:n) uniform(n) notinbranch\nint f(int a, int n) { return 1; }",
     "_ZGVbN4ls1u_f _ZGVcN4ls1u_f", "_ZGVbN4ls1u_f _ZGVcN4ls1u_f", "_ZGVbN4s1u_f _ZGVcN8s1u_f"),
    ("a great simdlen", "#pragma omp declare simd simdlen(256) notinbranch\nint f(int a) { return 1; }",
     "_ZGVbN256v_f _ZGVcN256v_f", "", "_ZGVbN256v_f _ZGVcN256v_f"),
    ("a function that is only declared", "#pragma omp declare simd notinbranch\nint f(int a);",
     "_ZGVbN4v_f _ZGVcN4v_f", "", ""),
]


def run(*words):
    return subprocess.run(words, cwd=TOP, capture_output=True, text=True)


def product(path):
    """The product's names, or None where it refuses the unit."""
    made = run("./vfabi", "mangle", "--target", "x86-64", path)
    return set(made.stdout.split()) if made.returncode == 0 else None


def gcc(path):
    return set(NAME.findall(run("gcc", "-fopenmp-simd", "-O1", "-w", "-S", "-o", "-", path).stdout))


def clang(path):
    made = run("clang", "-fopenmp-simd", "-O1", "-w", "-S", "-emit-llvm", "-o", "-", path)
    return set(NAME.findall(made.stdout))


def classes(path, compilers):
    """How many names of the classes are not as stated."""
    wrong = 0
    for title, unit, *stated in CLASSES:
        with open(path, "w", encoding="ascii") as file:
            file.write(unit + "\n")
        for who, names in zip(("vfabi", "gcc", "clang"), stated):
            if who in compilers:
                found = {name for name in compilers[who](path) or () if name[4] in "bc"}
                if found != set(names.split()):
                    wrong += 1
                    print(f"{title} ({who}): {' '.join(sorted(found))}")
    return wrong


def as_clang(names):
    """Names as they are compared with clang: without letter c, with a step below zero in one spelling."""
    return {name.replace("l-", "ln") for name in names if name[4] != "c"}


def differences(path, compilers, number, seed):
    """How many names of a unit were compared, and how many compilers give others. None where the unit is refused."""
    ours = compilers["vfabi"](path)
    if ours is None:
        return None
    wrong = 0
    for who in set(compilers) - {"vfabi"}:
        see = as_clang if who == "clang" else set
        mine, theirs = see(ours), see(compilers[who](path))
        if mine != theirs:
            wrong += 1
            shutil.copy(path, f"{tempfile.gettempdir()}/names-{seed}-{number}.c")
            print(f"unit {number} ({who}): only here {sorted(mine - theirs)}, only there {sorted(theirs - mine)}")
    return len(ours), wrong


def main():
    units, seed = (int(word) for word in (sys.argv[1:] + ["200", "1"][len(sys.argv) - 1:])[:2])
    compilers = {who: names for who, names in (("gcc", gcc), ("clang", clang)) if shutil.which(who)}
    if not compilers:
        print("names: no gcc and no clang here")
        return 0
    if not os.path.exists(f"{TOP}/crates/vk_main/out/vk_main"):
        print("names: the program is not built (./vfabi build)")
        return 0
    compilers["vfabi"] = product
    rng = random.Random(seed)
    compared = refused = 0
    with tempfile.TemporaryDirectory() as folder:
        path = f"{folder}/unit.c"
        wrong = classes(path, compilers)
        for number in range(units):
            with open(path, "w", encoding="ascii") as file:
                file.write("\n".join(function(rng, k) for k in range(6)) + "\n")
            found = differences(path, compilers, number, seed)
            if found is None:
                refused += 1
            else:
                compared += found[0]
                wrong += found[1]
    print(f"names: {units} units, {refused} refused, {compared} names compared with {' and '.join(set(compilers) - {'vfabi'})}, {wrong} differences")
    return 1 if wrong or compared == 0 else 0


if __name__ == "__main__":
    sys.exit(main())
