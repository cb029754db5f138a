#!/usr/bin/env python3
"""Compares the text that `dis` gives for class files with what `javap -v -p` shows of them.

    javap.py PROGRAM <LIST

LIST has the name of a class file on each line; PROGRAM is that of tools/compare-javap, which says what is compared. A
version above 52 is set to 52 in the file. The output of javap is made into lines of the form of docs/CLASSFILES.md, and
these are compared with those of `dis`.
"""

import re
import struct
import subprocess
import sys
import time
from collections import Counter
from itertools import zip_longest

GROUP = 500  # files in one call of javap

ESCAPES = {"n": "\n", "t": "\t", "r": "\r", "b": "\b", "f": "\f"}
ARRAY_TYPES = ["boolean", "char", "float", "double", "byte", "short", "int", "long"]  # from 4: JVMS 6.5, newarray
HANDLE_KINDS = [  # from 1: JVMS 4.4.8
    "REF_getField", "REF_getStatic", "REF_putField", "REF_putStatic", "REF_invokeVirtual",
    "REF_invokeStatic", "REF_invokeSpecial", "REF_newInvokeSpecial", "REF_invokeInterface",
]
TAGS_AFTER_52 = {17: "dynamic constant", 19: "module", 20: "package"}

NAME = r'"(?:[^"\\]|\\.)*"|[^".:]*'
MEMBER = re.compile(rf"(?:({NAME})\.)?({NAME}):(.*)", re.DOTALL)
INSTRUCTION = re.compile(r" {4,}(\d+): (\w+) *(.*)")
SWITCH_CASE = re.compile(r" +(-?\d+|default): (\d+)")
HANDLER = re.compile(r" +(\d+) +(\d+) +(\d+) +(?:any|Class (.*))")
WIDE = re.compile(r"([ilfda](?:load|store)|ret|iinc)_w")
ATTRIBUTE = re.compile(r"(  |    )attribute .* \d+")
SHOWN_INSTRUCTION = re.compile(r"  \d+: (\w+)(?: ([a-z]+)(?= ))?")


class Unknown(Exception):
    """A line of javap that has none of the forms that are known here."""


# ---- the texts in a line of javap


def unescaped(text):
    """Names and texts are escaped as in Java."""
    return re.sub(
        r"\\(?:u([0-9a-f]{4})|(.))",
        lambda m: chr(int(m[1], 16)) if m[1] else ESCAPES.get(m[2], m[2]),
        text,
    )


def name_of(text):
    """A name that is none of Java, as `[[I` or `<init>`, stands in quotes."""
    return unescaped(text[1:-1]) if text.startswith('"') else text


def bits_of(text, whole, real):
    """A float is shown as decimal by javap, and by its bits here; Java's decimals tell the float. NaN is the one of Java."""
    if text == "NaN":
        return 0x7FC00000 if real == ">f" else 0x7FF8000000000000
    return struct.unpack(whole, struct.pack(real, float(text)))[0]


def member_of(text, this):
    """A field or method of the class itself stands without its class."""
    parts = MEMBER.fullmatch(text)
    if parts is None:
        raise Unknown(text)
    owner = this if parts[1] is None else name_of(parts[1])
    return f"{owner} {name_of(parts[2])} {parts[3]}"


def constant_of(comment, this):
    """The text of an entry of the pool, which javap shows behind its kind; here the kind isn't shown."""
    kind, _, text = comment.partition(" ")
    if kind == "class":
        return name_of(text)
    if kind == "String":
        return unescaped(text)
    if kind in ("int", "MethodType"):
        return text
    if kind == "long":
        return text.removesuffix("l")
    if kind == "float":
        return str(bits_of(text.removesuffix("f"), ">I", ">f"))
    if kind == "double":
        return str(bits_of(text.removesuffix("d"), ">Q", ">d"))
    if kind in ("Field", "Method", "InterfaceMethod"):
        return member_of(text, this)
    if kind == "InvokeDynamic":
        number, _, member = text.removeprefix("#").partition(":")
        return f"{number} {member_of(member, '').removeprefix(' ')}"
    if kind == "MethodHandle":
        handle, _, member = text.partition(" ")
        return f"{HANDLE_KINDS.index(handle) + 1} {member_of(member, this)}"
    raise Unknown(comment)


def without_type_arguments(text):
    """`a.B<T>.C<U>` is `a.B$C`: where there is a generic signature, javap shows that in place of the name."""
    kept, depth = "", 0
    for position, c in enumerate(text):
        if c == "<":
            depth += 1
        elif c == ">":
            depth -= 1
        elif depth == 0:
            kept += "$" if c == "." and text[position - 1] == ">" else c
    return kept


# ---- a class in the form of javap


class Javap:
    """The lines that `dis` should have, from those of javap for one class."""

    def __init__(self, lines):
        self.rest = lines
        self.at = 0
        self.lines = []
        self.this = ""

    def next(self, pattern):
        """The next line that fits the pattern."""
        while self.at < len(self.rest):
            found = re.fullmatch(pattern, self.rest[self.at], re.DOTALL)
            self.at += 1
            if found:
                return found
        raise Unknown(f"no line {pattern}")

    def add(self, line):
        self.lines.append(line)

    def shown(self):
        self.head()
        self.next(r"\{")
        while self.rest[self.at] != "}":
            if re.match(r"  \S", self.rest[self.at]):
                self.member()
            else:
                self.at += 1
        return "\n".join(self.lines).split("\n")

    def head(self):
        """The line with the class's name in Java's form, and the lines behind it."""
        declared = self.next(r"(?:\w+ )*(?:class|interface) .*")[0]
        minor = self.next(r"  minor version: (\d+)")[1]
        major = self.next(r"  major version: (\d+)")[1]
        flags = self.next(r"  flags: \(0x([0-9a-f]{4})\).*")[1]
        self.this = name_of(self.next(r"  this_class: #\d+ +// (.*)")[1])
        parent = self.next(r"  super_class: #\d+(?: +// (.*))?")[1]
        counts = self.next(r"  interfaces: (\d+), fields: \d+, methods: \d+, attributes: (\d+)")
        self.add(f"class {self.this}")
        self.add(f"version {major}.{minor}")
        self.add(f"flags {flags}")
        if parent is not None:
            self.add(f"super {name_of(parent)}")
        if counts[1] != "0":
            self.interfaces(declared)
        self.add(f"attributes {counts[2]}")

    def interfaces(self, declared):
        """They stand in Java's form only, behind `implements`, or in an interface behind `extends`."""
        plain = without_type_arguments(declared)
        word = " implements " if " implements " in plain else " extends "
        for name in plain.split(word)[1].split(","):
            self.add(f"implements {name.strip().replace('.', '/')}")

    def member(self):
        """A field or a method. Its name stands in its declaration only, which is in Java's form."""
        declared = self.rest[self.at]
        descriptor = self.next(r"    descriptor: (.*)")[1]
        flags = self.next(r"    flags: \(0x([0-9a-f]{4})\).*")[1]
        if not descriptor.startswith("("):
            self.add(f"field {flags} {declared.removesuffix(';').split(' ')[-1]} {descriptor}")
            return
        self.add(f"method {flags} {self.method_name(declared)} {descriptor}")
        # The lines of a member are further in than its declaration, and an empty line stands behind the last.
        while self.rest[self.at].startswith("    "):
            if self.rest[self.at] == "    Code:":
                self.at += 1
                self.code()
            else:
                self.at += 1

    def method_name(self, declared):
        """`static {}` is the initializer, and a constructor has its class's name and no type of a result."""
        if declared.endswith("{};"):
            return "<clinit>"
        words = without_type_arguments(declared.split("(")[0]).split()
        modifiers = ("public", "protected", "private")
        if words[-1] == self.this.replace("/", ".") and all(w in modifiers for w in words[:-1]):
            return "<init>"
        return words[-1]

    def code(self):
        sizes = self.next(r"      stack=(\d+), locals=(\d+), args_size=\d+")
        self.add(f"  stack {sizes[1]} locals {sizes[2]}")
        while instruction := INSTRUCTION.fullmatch(self.rest[self.at]):
            self.at += 1
            self.add(f"  {instruction[1]}: {self.instruction(instruction[2], instruction[3])}")
        if self.rest[self.at] == "      Exception table:":
            self.at += 2
            while handler := HANDLER.fullmatch(self.rest[self.at]):
                self.at += 1
                caught = "any" if handler[4] is None else name_of(handler[4])
                self.add(f"  catch {handler[1]} {handler[2]} {handler[3]} {caught}")

    def instruction(self, mnemonic, operands):
        if operands.startswith("{"):
            return f"{mnemonic} {self.switch(mnemonic, operands)}"
        if wide := WIDE.fullmatch(mnemonic):
            # javap has a mnemonic for the pair, and JVMS 6.5 has two
            mnemonic = f"wide {wide[1]}"
        if mnemonic == "newarray":
            # JVMS 6.5 has numbers for the types
            return f"newarray {ARRAY_TYPES.index(operands.strip()) + 4}"
        if operands.startswith("#"):
            return f"{mnemonic} {self.indexed(mnemonic, operands)}"
        return " ".join([mnemonic, *operands.replace(",", "").split()])

    def indexed(self, mnemonic, operands):
        """An index and a further number, and behind these what the index leads to."""
        numbers, _, comment = operands.partition("//")
        text = constant_of(comment.removeprefix(" "), self.this)
        further = numbers.split()[1:]
        if mnemonic in ("invokeinterface", "invokedynamic"):
            # their last operand is 0 in each class file, and javap doesn't show it
            further.append("0")
        return " ".join([text, *further])

    def switch(self, mnemonic, operands):
        """A line for each case, the default last, and a closing brace."""
        cases, default = [], ""
        while self.rest[self.at].strip() != "}":
            case = SWITCH_CASE.fullmatch(self.rest[self.at])
            if case is None:
                raise Unknown(self.rest[self.at])
            if case[1] == "default":
                default = case[2]
            else:
                cases.append(case)
            self.at += 1
        self.at += 1
        if mnemonic == "tableswitch":
            low, high = re.fullmatch(r"\{ // (-?\d+) to (-?\d+)", operands).groups()
            keys = [int(case[1]) for case in cases]
            if keys != list(range(int(low), int(high) + 1)):
                raise Unknown(f"keys of {operands}")
            return " ".join([default, low, high, *(case[2] for case in cases)])
        return " ".join([default, *(f"{case[1]} {case[2]}" for case in cases)])


# ---- the two outputs


def set_version(name):
    """Sets the version of a later file to 52, in place: the last that is read."""
    with open(name, "r+b") as file:
        if int.from_bytes(file.read(8)[6:], "big") > 52:
            file.seek(4)
            file.write(bytes([0, 0, 0, 52]))


def shown_by_javap(names):
    """The lines of javap for each file."""
    command = ["javap", "-J-Dfile.encoding=UTF-8", "-J-Dsun.stdout.encoding=UTF-8", "-v", "-p", *names]
    output = subprocess.run(command, stdout=subprocess.PIPE, stderr=subprocess.DEVNULL).stdout.decode()
    classes = {}
    lines = []
    for line in output.split("\n"):
        if line.startswith("Classfile "):
            lines = classes[line.removeprefix("Classfile ")] = []
        lines.append(line)
    return classes


def shown_by_dis(program, names):
    """What the program says of each file, and the text where it is a class."""
    asked = "".join(f"{name}\n" for name in names).encode()
    output = subprocess.run([program], input=asked, stdout=subprocess.PIPE, check=True).stdout
    texts, at = {}, 0
    while at < len(output):
        end = output.index(b"\n", at)
        word, number, name = output[at:end].decode().split(" ", 2)
        at = end + 1
        text = ""
        if word == "FILE":
            text = output[at : at + int(number)].decode()
            at += int(number)
        texts[name] = (word, int(number), text)
    return texts


def without_attributes(text):
    """The lines of `dis`, with the number of the class's attributes in their place, and no lines of the others."""
    lines, head, count = [], True, 0
    for line in text.removesuffix("\n").split("\n"):
        if head and line.startswith(("field ", "method ")):
            lines.append(f"attributes {count}")
            head = False
        if not ATTRIBUTE.fullmatch(line):
            lines.append(line)
        elif head:
            count += 1
    if head:
        lines.append(f"attributes {count}")
    return lines


def first_difference(ours, theirs):
    """The first lines that differ. javap drops spaces at the end of a line, which a text may have."""
    for number, (a, b) in enumerate(zip_longest(ours, theirs), 1):
        if a is None or b is None or a.rstrip(" ") != b.rstrip(" "):
            return f"line {number}: dis {a!r}, javap {b!r}"
    return None


def explained_refusal(word, place, name):
    """Whether the file isn't read for a kind of constant that came into the format after version 52."""
    with open(name, "rb") as file:
        return word == "RULE4" and file.read()[place] in TAGS_AFTER_52


def compared(name, said, lines, counts, opcodes):
    """What differs, or nothing."""
    word, number, text = said
    if word != "FILE":
        if explained_refusal(word, number, name):
            counts["refused for a later kind of constant"] += 1
            return None
        return f"dis: {word} at {number}"
    if lines is None:
        return "javap shows nothing"
    try:
        theirs = Javap(lines).shown()
    except (Unknown, IndexError, ValueError, AttributeError) as fault:
        return f"javap's output isn't understood: {fault!r}"
    ours = without_attributes(text)
    difference = first_difference(ours, theirs)
    if difference is None:
        counts["equal"] += 1
        counts["lines"] += len(ours)
        for line in ours:
            if instruction := SHOWN_INSTRUCTION.match(line):
                mnemonic = instruction[1]
                opcodes[f"wide {instruction[2]}" if mnemonic == "wide" else mnemonic] += 1
    return difference


def main():
    names = sys.stdin.read().split("\n")[:-1]
    counts, opcodes, differences = Counter(), Counter(), []
    for start in range(0, len(names), GROUP):
        group = names[start : start + GROUP]
        for name in group:
            set_version(name)
        began = time.monotonic()
        texts = shown_by_dis(sys.argv[1], group)
        counts["milliseconds of dis"] += int(1000 * (time.monotonic() - began))
        classes = shown_by_javap(group)
        for name in group:
            difference = compared(name, texts[name], classes.get(name), counts, opcodes)
            if difference is not None:
                differences.append(f"{name}: {difference}")
    print(f"{len(names)} files, {counts['equal']} equal, {len(differences)} different")
    print(f"{counts['refused for a later kind of constant']} not read: a kind of constant that is later than version 52")
    plain = len({m for m in opcodes if not m.startswith("wide ")})
    print(f"in the equal ones: {counts['lines']} lines, {opcodes.total()} instructions, {plain} mnemonics besides wide")
    print(f"dis: {counts['milliseconds of dis']} ms")
    for difference in differences:
        print(difference)
    sys.exit(1 if differences else 0)


if __name__ == "__main__":
    main()
