"""Prints ordinary JavaScript of about so many bytes, the same each time."""
import random
import sys

random.seed(5)
NAMES = ("alert value index node getElement parent x y callback result options prototype length self that "
         "counter initialise renderFrame").split()


def name():
    return random.choice(NAMES)


def statement(depth):
    indent = "  " * depth
    inner = statement(depth + 1) if depth < 4 else ""
    kind = random.random()
    if kind < .2:
        return "%svar %s = %s + %d;\n" % (indent, name(), name(), random.randrange(5000))
    if kind < .35:
        return "%s%s.%s = function(%s, %s) {\n%s%s};\n" % (indent, name(), name(), name(), name(), inner, indent)
    if kind < .5:
        return "%sif (%s === %d && !%s) {\n%s%s}\n" % (indent, name(), random.randrange(9), name(), inner, indent)
    if kind < .6:
        return "%s// %s of the %s\n" % (indent, name(), name())
    if kind < .68:
        return "%s/** @param {number} %s the %s */\n%s%s(%s);\n" % (indent, name(), name(), indent, name(), name())
    if kind < .85:
        return "%s%s(%s, '%s of %s', {%s: %s});\n" % (indent, name(), name(), name(), name(), name(), name())
    return "%sfor (var %s = 0; %s < %s.length; %s++) { %s[%s] *= 2; }\n" % ((indent,) + tuple(name() for _ in range(6)))


def main():
    size, written = int(sys.argv[1]), 0
    while True:
        text = statement(0)
        if written + len(text) > size:
            return
        written += len(text)
        sys.stdout.write(text)


main()
