#!/usr/bin/env python3
"""Writes program.jif and hosts.toml: one block of as many statements as the first word says.

With the second word `handed` they add to three fields, which Alice, Bob or nobody has to trust, on six hosts, of which
two are trusted by both. With `lent` all but the last add to secrets of Carol on three hosts, none of which Alice trusts,
as the last statement asks.
"""
import random
import sys

count, kind = int(sys.argv[1]), sys.argv[2]
random.seed(7)
if kind == "handed":
    principals, begin = '"Alice", "Bob"', "{?:Alice, Bob}"
    fields = "int{?:Alice} a;\nint{?:Bob} b;\nint{} c;\n"
    names = [random.choice("abccc") for _ in range(count - 1)]
    labels = ["{?:Alice, Bob}", "{?:Alice, Bob}", "{?:Alice}", "{?:Bob}", "{}", "{}"]
else:
    principals, begin = '"Alice", "Carol"', "{?:Alice}"
    fields = "int{?:Alice} a;\nint{Carol:} c;\nint{Carol:} d;\n"
    names = ["c" if place % 3 else "d" for place in range(count - 1)] + ["a"]
    labels = ["{?:Alice}", "{?:Alice}", "{Carol:}", "{Carol:}", "{Carol:}"]

with open("program.jif", "w") as file:
    file.write("%svoid main%s() {\n" % (fields, begin))
    file.writelines("  %s = %s + 1;\n" % (name, name) for name in names)
    file.write("}\n")
with open("hosts.toml", "w") as file:
    file.write("principals = [%s]\n" % principals)
    for place, label in enumerate(labels):
        file.write('[[host]]\nname = "H%d"\nlabel = "%s"\n' % (place, label))
    if kind == "handed":
        for first in range(len(labels)):
            for second in range(len(labels)):
                if first != second:
                    cost = 1 + (first * 7 + second * 3) % 11
                    file.write('[[link]]\nfrom = "H%d"\nto = "H%d"\ncost = %d\n' % (first, second, cost))
