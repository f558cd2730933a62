#!/usr/bin/env python3
"""Times compile and accept, and finds the stack that they need, on texts and records that were made to be hard.

    measure.py                       both tables of docs/MEASURES.md
    measure.py compile               the first alone
    measure.py accept [CHECKOUT ..]  the second alone, beside the same of other checkouts

Run it in a checkout once `rt run` has built crates/answers (and crates/fun, for compile). A time is processor time: the
mean over many equal lines in one process, less that of as many lines that are refused at their first byte, and of several
such processes the least. The stack is the least `ulimit -s`, in steps of 4 KiB, with which `fun` (compile) or `answers`
(accept) ends with its answer.
"""
import os
import resource
import subprocess
import sys
import tempfile

TOP = os.path.dirname(os.path.dirname(os.path.abspath(__file__)))
ANSWERS = "crates/answers/out/answers"
FUN = os.path.join(TOP, "crates/fun/out/fun")
SIZES = (64, 128, 256, 512)

TEXTS = [
    ("4,096 times `(`", "(" * 4096),
    ("2,047 times `(`, a number, 2,047 times `)`", "(" * 2047 + "1" + ")" * 2047),
    ("2,048 times `f(`", "f(" * 2048),
    ("1,365 times `1+(` and a `1`", "1+(" * 1365 + "1"),
    ("1,024 times `1<=(`", "1<=(" * 1024),
    ("1,365 times `if ` and an `i`", "if " * 1365 + "i"),
    ("584 times `fun a->`, then `a`", "fun a->" * 584 + "a"),
    ("682 times `let a=`, cut at 4,096 bytes", ("let a=" * 683)[:4096]),
    ("280 times `fun b->`, then 1,060 times the reading `f`", "fun b->" * 280 + " ".join(["f"] * 1060)),
    ("256 ones joined by `+`", "+".join(["1"] * 256)),
    ("2,047 times `1+`, then `11`", "1+" * 2047 + "11"),
    ("4,096 digits", "1" * 4096),
]


def number(k):
    return b"\x01" + (k % 2 ** 32).to_bytes(4, "big")


def variable(d):
    return b"\x04" + d.to_bytes(2, "big")


def record(nodes, readings=0):
    body = bytes([1, readings]) + nodes
    return len(body).to_bytes(2, "big") + body


def functions(n):
    return b"\x05" * (n - 1) + variable(0)


def pairs(deep, end):
    # let p = fun f -> f p p in .., each p the one before it
    out = b""
    for at in range(deep):
        out += b"\x07\x05\x06\x06" + variable(0) + (variable(1) * 2 if at else number(1) * 2)
    return out + end


def lets(n):
    return b"\x07" + functions(2) + b"".join(b"\x07" + variable(0) for _ in range((n - 4) // 2)) + variable(0)


def sums(n):
    return b"\x08" * ((n - 1) // 2) + number(1) * ((n + 1) // 2)


def nested(n):
    k = (n - 3) // 2
    return b"\x05\x05" + (b"\x06" + variable(1)) * k + variable(0)


def applied(n):
    k = (n - 3) // 2
    return b"\x05\x05" + b"\x06" * k + variable(1) + variable(0) * k


def branches(n):
    k = (n - 4) // 14
    return b"\x0a\x03" + pairs(k, variable(0)) * 2


def chosen(n, end=variable(0)):
    # let e = fun x -> x in if true then e else if true then e else .. end
    k = (n - 3 - (1 if len(end) == 3 else 3)) // 3
    return b"\x07" + functions(2) + (b"\x0a\x03" + variable(0)) * k + end


def far(n, end=None):
    # as many functions as sums and uses of the outermost name
    k = n // 2
    m = (n - k - 1) // 2
    return functions(k + 1)[:k] + b"\x08" * m + variable(k - 1) * m + (end or variable(k - 1))


def far_chosen(n):
    # the like with ifs, and not the rule's own type, so that it need not be spelled
    k = n // 2
    m = (n - k - 3) // 3
    return b"\x07" + functions(k + 1)[:k] + (b"\x0a" + variable(k - 1) * 2) * m + variable(k - 1) + number(1)


def itself(d):
    return b"\x06" + variable(d) * 2


GOOD = [
    ("`fun a -> fun b -> ..`, the last name used", functions),
    ("pairs of pairs: `let p = fun f -> f p p in ..`", lambda n: pairs((n - 1) // 7, variable(0))),
    ("two such, in both branches of an `if`", branches),
    ("`let a = x in let b = a in ..`", lets),
    ("`1 + 1 + ..`, grouped to the left", sums),
    ("`f (f (.. x))`", nested),
    ("`f x x x ..`", applied),
    ("`let e = fun x -> x in if true then e else if true then e else .. e`", chosen),
    ("`fun a -> fun b -> .. a + a + ..`", far),
    ("`let g = fun a -> fun b -> .. if a then a else if a then a .. in 1`", far_chosen),
]

REFUSED = [
    ("pairs of pairs, then `p p`", lambda n: pairs((n - 3) // 7, itself(0))),
    ("`let e = fun x -> x in if true then e else .. e e`", lambda n: chosen(n, itself(0))),
    ("`fun a -> fun b -> .. a + a + .. + a a`", lambda n: far(n - 2, itself((n - 2) // 2 - 1))),
    ("`1 + 1 + .. + true`", lambda n: b"\x08" * ((n - 1) // 2) + number(1) * ((n - 1) // 2) + b"\x03"),
    ("`let a = fun x -> x x in 1 + 1 + ..`", lambda n: b"\x07\x05" + itself(0) + sums(n - 5)),
    ("`true + 1 + 1 + ..`", lambda n: b"\x08" * ((n - 1) // 2) + b"\x03" + number(1) * ((n - 1) // 2)),
]


def run(program, lines):
    with tempfile.TemporaryFile() as given:
        given.write("".join(line + "\n" for line in lines).encode())
        given.seek(0)
        before = resource.getrusage(resource.RUSAGE_CHILDREN)
        done = subprocess.run([program], stdin=given, stdout=subprocess.PIPE, check=True)
        after = resource.getrusage(resource.RUSAGE_CHILDREN)
        spent = after.ru_utime + after.ru_stime - before.ru_utime - before.ru_stime
        return spent, done.stdout.decode().split("\n")[0]


def mean(program, line, idle):
    first, answer = run(program, [line] * 100)
    times = max(100, min(4000, int(0.1 / (first / 100 + 1e-9))))
    base = min(run(program, [idle] * times)[0] for _ in range(5))
    spent = min(run(program, [line] * times)[0] for _ in range(5))
    return max(0.0, spent - base) / times, answer


def stack(words, given):
    low, high = 8, 16384
    while high - low > 4:
        mid = (low + high) // 8 * 4
        # Addresses are left as they are: a stack that begins elsewhere in each run is now longer, now shorter.
        script = "ulimit -s %d; exec setarch -R \"$@\"" % mid
        with open(given) as lines:
            done = subprocess.run(["bash", "-c", script, "bash"] + words, stdin=lines, stdout=subprocess.PIPE,
                                  stderr=subprocess.PIPE)
        low, high = (low, mid) if done.returncode in (0, 1) else (mid, high)
    return high


def stack_on(words, data, named):
    with tempfile.NamedTemporaryFile(delete=False) as file:
        file.write(data)
    least = stack([file.name if word == named else word for word in words], file.name)
    os.unlink(file.name)
    return format(least, ",")


def short(answer):
    return answer if len(answer) < 40 else answer[:36] + " .."


def compile_table():
    print("| text | answer | time | stack |\n|---|---|---|---|")
    for name, text in TEXTS:
        names = "66,69"
        line = "compile %s 4096 %s" % (names, text.encode().hex())
        idle = "compile %s 4096 %s" % (names, ("#" + text[1:]).encode().hex())
        spent, answer = mean(os.path.join(TOP, ANSWERS), line, idle)
        words = [FUN, "compile", "TEXT", "f", "i"]
        print("| %s | %s | %.0f µs | %s KiB |" % (name, short(answer), spent * 1e6, stack_on(words, text.encode(), "TEXT")))


def accept_row(name, make, programs):
    cells = [name]
    stacks = []
    for program in programs:
        spent = []
        for n in SIZES:
            made = record(make(n))
            line = "accept 1538 1538 2000 " + made.hex()
            idle = "accept 1538 1538 2000 " + (b"\xff\xff" + made[2:]).hex()
            took, answer = mean(program, line, idle)
            spent.append(took)
        cells += ["%.0f" % (took * 1e6) for took in spent] + ["%.1f" % (spent[-1] / spent[-2])]
        stacks.append(stack_on([program], (line + "\n").encode(), None))
    return "| " + " | ".join(cells + [short(answer), " / ".join(stacks)]) + " |"


def accept_table(checkouts):
    programs = [os.path.join(top, ANSWERS) for top in checkouts]
    sizes = ["%d nodes" % SIZES[0]] + [str(n) for n in SIZES[1:]] + ["twice"]
    head = ["record, times in µs"] + sizes * len(programs) + ["answer at 512", "stack at 512, KiB"]
    for records in (GOOD, REFUSED):
        print("| " + " | ".join(head) + " |\n" + "|---" * len(head) + "|")
        for name, make in records:
            print(accept_row(name, make, programs), flush=True)
        print()


def main(words):
    if words[:1] != ["accept"]:
        compile_table()
        print()
    if words[:1] != ["compile"]:
        accept_table(words[1:] + [TOP])


sys.exit(main(sys.argv[1:]))
