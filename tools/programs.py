"""Writes programs of the small language, chosen at random but the same for a seed, that end by themselves.

    programs.py SEED COUNT FOLDER

FOLDER/N/Main.scala has the N-th program, from 0. Their loops count, and their methods call only those before them, or
themselves with a number that falls. They divide by what may be zero, and add and multiply past 32 and 64 bits.
"""

import os
import random
import sys

TYPES = ["Int", "Long", "Boolean", "String", "Unit"]
NUMBERS = ["0", "1", "2", "3", "7", "10", "31", "255", "46341", "65536", "1000000007", "2147483646", "2147483647"]
LONGS = ["0L", "1L", "2L", "3L", "10L", "4294967296L", "3037000500L", "9223372036854775806L", "9223372036854775807L"]
TEXTS = ['""', '"a"', '"b c"', '"0"', '"x = "', '"{;}"', '"// no comment"', '"~!@#$%^&*()_+|"']
MOST_BYTES = 4096


class Variable:
    def __init__(self, name, kind, is_assignable):
        self.name, self.kind, self.is_assignable = name, kind, is_assignable


class Method:
    def __init__(self, name, parameters, result):
        self.name, self.parameters, self.result = name, parameters, result


class Writer:
    """One program. `visible` are the variables of the place, `methods` those that may be called there."""

    def __init__(self, seed):
        self.random = random.Random(seed)
        self.methods, self.visible, self.names, self.loops = [], [], 0, 0

    def name(self, letter):
        self.names += 1
        return f"{letter}{self.names}"

    def one_of(self, *forms):
        return self.random.choice(forms)()

    # ---- atoms, products and sums

    def literal(self, kind):
        if kind == "Int":
            return self.random.choice(NUMBERS)
        if kind == "Long":
            return self.random.choice(LONGS)
        if kind == "Boolean":
            return self.random.choice(["true", "false"])
        if kind == "String":
            return self.random.choice(TEXTS)
        return f"println({self.literal('Int')})"

    def variable(self, kind):
        names = [it.name for it in self.visible if it.kind == kind]
        return self.random.choice(names) if names else self.literal(kind)

    def call(self, kind, depth):
        fitting = [it for it in self.methods if it.result == kind]
        if not fitting or depth <= 0 or self.loops > 1:
            return self.variable(kind)
        method = self.random.choice(fitting)
        return f"{method.name}({', '.join(self.argument(it, depth - 1) for it in method.parameters)})"

    def argument(self, kind, depth):
        # an assignment as an argument would be a named argument
        return self.random.choice([self.atom, self.operation])(kind, depth)

    def atom(self, kind, depth):
        if depth <= 0:
            return self.random.choice([self.literal, self.variable, self.variable])(kind)
        forms = [
            lambda: self.literal(kind),
            lambda: self.variable(kind),
            lambda: self.variable(kind),
            lambda: self.call(kind, depth),
            lambda: f"({self.expression(kind, depth - 1)})",
        ]
        if kind == "Unit":
            forms.append(lambda: f"println({self.argument(self.random.choice(TYPES), depth - 1)})")
        return self.one_of(*forms)

    def product(self, kind, depth):
        if kind in ("Int", "Long"):
            return " * ".join(self.atom(kind, depth) for _ in range(self.random.choice([1, 1, 2, 3])))
        return self.atom(kind, depth)

    def sum(self, kind, depth):
        if kind in ("Int", "Long"):
            return " + ".join(self.product(kind, depth) for _ in range(self.random.choice([2, 2, 3])))
        parts = [self.product("String", depth)]
        for _ in range(self.random.choice([1, 2, 3])):
            parts.append(self.product(self.random.choice(TYPES[:4]), depth))
        return " + ".join(parts)

    def operation(self, kind, depth):
        if depth <= 0:
            return self.atom(kind, 0)
        if kind in ("Int", "Long"):
            if self.random.random() < 0.5:
                return self.sum(kind, depth - 1)
            operator = self.random.choice(["-", "-", "/", "%"])
            return f"{self.atom(kind, depth - 1)} {operator} {self.atom(kind, depth - 1)}"
        if kind == "Boolean":
            operand = self.random.choice(["Int", "Long", "Boolean"])
            operators = ["&&", "||", "==", "!="] if operand == "Boolean" else ["<", "<=", ">", ">=", "==", "!="]
            operator = self.random.choice(operators)
            return f"{self.atom(operand, depth - 1)} {operator} {self.atom(operand, depth - 1)}"
        if kind == "String":
            return self.sum(kind, depth - 1)
        return self.atom(kind, depth)

    # ---- expressions

    def choice(self, kind, depth):
        condition = self.expression("Boolean", depth - 1)
        first, second = self.expression(kind, depth - 1), self.expression(kind, depth - 1)
        return f"if ({condition}) {first} else {second}"

    def block(self, kind, depth):
        before = len(self.visible)
        statements = [self.statement(depth - 1) for _ in range(self.random.choice([1, 2, 3]))]
        last = self.expression(kind, depth - 1)
        del self.visible[before:]
        return "{ " + "; ".join([*statements, last]) + " }"

    def assignment(self, depth):
        assignable = [it for it in self.visible if it.is_assignable]
        if not assignable:
            return self.atom("Unit", depth)
        variable = self.random.choice(assignable)
        return f"{variable.name} = {self.expression(variable.kind, depth - 1)}"

    def loop(self, depth):
        """A block with a loop whose counter nothing else assigns."""
        counter, turns = self.name("i"), self.random.choice([1, 2, 3, 5])
        before = len(self.visible)
        self.visible.append(Variable(counter, "Int", False))
        self.loops += 1
        body = self.statement(depth - 1)
        self.loops -= 1
        del self.visible[before:]
        return f"{{ var {counter}: Int = 0; while ({counter} < {turns}) {{ {body}; {counter} = {counter} + 1 }} }}"

    def expression(self, kind, depth):
        if depth <= 0:
            return self.atom(kind, 0)
        forms = [
            lambda: self.operation(kind, depth),
            lambda: self.operation(kind, depth),
            lambda: self.atom(kind, depth),
            lambda: self.choice(kind, depth),
            lambda: self.block(kind, depth),
        ]
        if kind == "Unit":
            forms += [lambda: self.assignment(depth), lambda: self.loop(depth)]
        return self.one_of(*forms)

    def definition(self, depth):
        word, kind, name = self.random.choice(["val", "var"]), self.random.choice(TYPES), self.name("v")
        value = self.expression(kind, depth)
        self.visible.append(Variable(name, kind, word == "var"))
        return f"{word} {name}: {kind} = {value}"

    def statement(self, depth):
        return self.one_of(
            lambda: self.definition(depth),
            lambda: self.assignment(depth),
            lambda: self.loop(depth) if depth > 1 and self.loops < 2 else self.assignment(depth),
            lambda: self.expression("Unit", depth),
            lambda: f"println({self.argument(self.random.choice(TYPES), depth)})",
            lambda: f"println({self.argument(self.random.choice(TYPES[:4]), depth)})",
        )

    # ---- methods

    def method(self):
        kind, name = self.random.choice(TYPES), self.name("f")
        parameters = [self.random.choice(TYPES) for _ in range(self.random.choice([0, 1, 2, 3]))]
        recurs = self.random.random() < 0.3
        if recurs:
            parameters = ["Int", *parameters]
        self.visible = [Variable(self.name("p"), it, False) for it in parameters]
        written = ", ".join(f"{it.name}: {it.kind}" for it in self.visible)
        if recurs:
            body = self.recursion(name, parameters, kind)
        else:
            body = self.expression(kind, 3)
        self.methods.append(Method(name, parameters, kind))
        return f"def {name}({written}): {kind} = {body}"

    def recursion(self, name, parameters, kind):
        """Calls itself with one less, at most ten times."""
        counter = self.visible[0].name
        rest = "".join(f", {self.argument(it, 1)}" for it in parameters[1:])
        again = f"{name}({counter} - 1{rest})"
        last = self.expression(kind, 2)
        before = self.statement(1)
        if kind in ("Int", "Long"):
            again = f"{again} {self.random.choice(['-', '+'])} {self.atom(kind, 1)}"
        elif kind == "String":
            again = f"{again} + {self.atom('Int', 1)}"
        return f"if ({counter} < 1) {last} else if ({counter} > 10) {self.literal(kind)} else {{ {before}; {again} }}"

    def program(self):
        methods = [self.method() for _ in range(self.random.choice([1, 2, 3, 4]))]
        self.visible = []
        statements = [self.statement(3) for _ in range(self.random.choice([3, 5, 8]))]
        shown = "; ".join(f"println({it.name})" for it in self.visible) or "println(0)"
        lines = ";\n    ".join([*statements, shown])
        main = f"def main(args: Array[String]): Unit = {{\n    {lines}\n  }}"
        parts = [*methods, main]
        self.random.shuffle(parts)
        return "object Main {\n  " + ";\n  ".join(parts) + "\n}\n"


def main():
    seed, count, folder = int(sys.argv[1]), int(sys.argv[2]), sys.argv[3]
    made, at = 0, 0
    while made < count:
        text = Writer(f"{seed}.{at}").program()
        at += 1
        if len(text) <= MOST_BYTES:
            os.makedirs(f"{folder}/{made}")
            with open(f"{folder}/{made}/Main.scala", "w", encoding="ascii") as it:
                it.write(text)
            made += 1


main()
