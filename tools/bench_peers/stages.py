"""The five works of tools/bench, read off crates/bench and worked out by their meaning: their answers and lengths.

Each application, let, sum, comparison and if is one step; it knows nothing of stores, operations or the machine.
"""
import os
import re
import sys

TEXTS = os.path.join(os.path.dirname(os.path.abspath(__file__)), "../../crates/bench/src/texts.rt")
NAMES = ["coil", "outside", "room", "target", "hours", "power", "flow", "back"]
WORKS = ["twice", "rule", "deep", "arith", "church"]
CALLS = 64
WORDS = {"let", "in", "fun", "if", "then", "else"}


def texts():
    source = open(TEXTS, encoding="utf-8").read()
    found = re.findall(r'const (\w+): &str = "\\\n(.*?)";', source, re.S)
    return {name.lower(): re.sub(r"\\\n\s*", "", text) for name, text in found}


def sets():
    """The readings of the calls: numbers of -100 to 399, the hours 0 to 9."""
    seed, all_sets = 1, []
    for _ in range(CALLS):
        readings = []
        for place in range(len(NAMES)):
            seed = (seed * 1103 + 12345) % 65536
            readings.append(seed % 10 if place == 4 else seed % 500 - 100)
        all_sets.append(readings)
    return all_sets


class Rule:
    """A rule as a function of its readings, which counts its steps."""

    def __init__(self, text):
        self.tokens = re.findall(r"->|<=|-?\d+|\w+|[()+=]", text) + [""]
        self.at = 0
        self.steps = 0
        self.meaning = self.expression()
        assert self.tokens[self.at] == ""

    def call(self, readings):
        self.steps = 0
        return self.meaning(dict(zip(NAMES, readings))), self.steps

    def take(self, wanted=None):
        token = self.tokens[self.at]
        assert wanted in (None, token), (wanted, token)
        self.at += 1
        return token

    def expression(self):
        first = self.tokens[self.at]
        if first == "let":
            return self.let_in()
        if first == "fun":
            return self.function()
        if first == "if":
            return self.if_else()
        left = self.sum()
        if self.tokens[self.at] != "<=":
            return left
        self.take("<=")
        return self.step(lambda l, r: l <= r, left, self.sum())

    def step(self, operation, left, right):
        def meaning(names):
            r = right(names)
            l = left(names)
            self.steps += 1
            return operation(l, r)
        return meaning

    def let_in(self):
        self.take("let")
        name = self.take()
        self.take("=")
        bound = self.expression()
        self.take("in")
        body = self.expression()

        def meaning(names):
            value = bound(names)
            self.steps += 1
            return body({**names, name: value})
        return meaning

    def function(self):
        self.take("fun")
        name = self.take()
        self.take("->")
        body = self.expression()
        return lambda names: lambda value: body({**names, name: value})

    def if_else(self):
        self.take("if")
        condition = self.expression()
        self.take("then")
        then = self.expression()
        self.take("else")
        otherwise = self.expression()

        def meaning(names):
            chosen = condition(names)
            self.steps += 1
            return (then if chosen else otherwise)(names)
        return meaning

    def sum(self):
        left = self.application()
        while self.tokens[self.at] == "+":
            self.take("+")
            left = self.step(lambda l, r: l + r, left, self.application())
        return left

    def application(self):
        left = self.atom()
        while re.fullmatch(r"\w+|\(", self.tokens[self.at]) and self.tokens[self.at] not in WORDS:
            left = self.step(lambda function, value: function(value), left, self.atom())
        return left

    def atom(self):
        token = self.take()
        if token == "(":
            inner = self.expression()
            self.take(")")
            return inner
        if re.fullmatch(r"-?\d+", token):
            return lambda names: int(token)
        return lambda names: names[token]


def told():
    """What each work's calls come to: for each call its answer and its steps."""
    sys.setrecursionlimit(20_000)
    spelled = texts()
    return {work: [Rule(spelled[work]).call(readings) for readings in sets()] for work in WORKS}
