#!/usr/bin/env python3
"""Writes program.jif and hosts.toml: 4,096 statements in 64 methods, the heads among them, and 16 hosts.

There are 63 principals, of whom the last acts for all others. Each policy lets those before its owner read. Hosts of
even numbers may see what policies of principals with even numbers forbid, the others what those with odd numbers
forbid, each host more than the one two before. The last two hosts are trusted by everybody, the others by one of seven
principals. So the statements of each method go from host to host in all plans.
"""
PRINCIPALS, HOSTS, METHODS, TRUSTING = 63, 16, 64, 7
names = ["P%d" % place for place in range(PRINCIPALS)]


def owners(side, rank):
    """The principals whose policies the labels of a side have. There is one more at each rank."""
    return range(side, 48 + 2 * rank + side, 2)


def secret(side, rank):
    return "{%s}" % "; ".join("%s: %s" % (names[place], ", ".join(names[:place])) for place in owners(side, rank))


def policies(side, rank):
    """The policies of the same owners, where none lets anybody read."""
    return "; ".join("%s:" % names[place] for place in owners(side, rank))


def write_hosts(file):
    pairs = ['["%s", "%s"]' % (names[-1], name) for name in names[:-1]]
    file.write("principals = [%s]\n" % ", ".join('"%s"' % name for name in names))
    file.write("acts_for = [%s]\n" % ", ".join(pairs))
    for host in range(HOSTS):
        trusting = names[-1] if host >= HOSTS - 2 else names[host % TRUSTING]
        label = "{%s; ?: %s}" % (policies(host % 2, host // 2), trusting)
        file.write('[[host]]\nname = "H%d"\nlabel = "%s"\n' % (host, label))
    for start in range(HOSTS):
        for end in range(HOSTS):
            if start != end:
                cost = 1 + (7 * start + 11 * end) % 40
                file.write('[[link]]\nfrom = "H%d"\nto = "H%d"\ncost = %d\n' % (start, end, cost))


def write_fields(file):
    for side, letter in enumerate("ab"):
        for rank in range(8):
            label = secret(side, rank)
            file.write("int%s %s%d;\nint%s %ss%d[16];\n" % (label, letter, rank, label, letter, rank))
    for rank in range(8):
        file.write("int{} open%d;\nint{} opens%d[16];\n" % (rank, rank))
    for place in range(TRUSTING):
        label = "{?: %s}" % names[place]
        file.write("int%s trusted%d = 1;\nint%s trusts%d[16];\n" % (label, place, label, place))


def group(number, method):
    """Eighteen statements, of which some stand on hosts of the even side and some on those of the odd one."""
    first, second = (number + method) % 8, (number + 3) % 8
    low, high = min(first, second), max(first, second)
    return """
int x{n} = a{low} * 3 - as{low}[open{c} % 16];
int y{n} = b{low} + bs{low}[{n}] / 2;
a{high} = x{n} + a{low} - as{low}[{n} + open{c}];
b{high} = b{high} + y{n} * 5 + open{c} % 7;
trusted{k} = trusted{k} + trusts{k}[{n}] - 1;
if (x{n} > a{low}) {{ a{high} = x{n} - 1; as{high}[{n}] = a{low}; }} else {{ a{high} = a{high} + x{n}; }}
int i{n} = 0;
while (i{n} < 16) {{
  i{n} = i{n} + 1;
  bs{high}[i{n}] = y{n} + bs{low}[i{n} - 1];
  if (i{n} % 4 == 3) {{ open{c} = open{c} + i{n}; opens{c}[i{n}] = open{c}; }}
}}
trusts{k}[{n}] = trusted{k} % 100;
opens{c}[{n}] = open{c} - opens{c}[{n} + 1];
""".format(n=number, low=low, high=high, c=(method + 5) % 8, k=method % TRUSTING)


def write_method(file, method):
    """A method of sixty-four statements, which calls a later one that the same principal trusts."""
    trusting = names[method % TRUSTING]
    file.write("int{} m%d{?: %s}(int{} p, int{%s} q) {" % (method, trusting, policies(0, 7)))
    for number in range(3):
        file.write(group(number, method))
    called = method + TRUSTING
    for n in range(4):
        if called < METHODS:
            file.write("int{} r%d = 0;\nr%d = m%d(open%d, a%d + 1);\n" % (n, n, called, n, n))
        else:
            file.write("opens0[%d] = open%d;\nopens1[%d] = open%d + 1;\n" % (n, n, n, n))
    file.write("return p + open%d;\n}\n" % (method % 8))


def write_main(file):
    """`main`, also of sixty-four statements."""
    file.write("void main{?: %s}() where authority(%s) {\n" % (names[-1], names[-1]))
    for n in range(15):
        rank = n % 8
        file.write("int{} r%d = 0;\nr%d = m%d(open%d, a%d);\n" % (n, n, 1 + n % TRUSTING, rank, rank))
        value = "declassify(a%d, {})" % rank if n % 2 else "r%d" % n
        file.write("open%d = %s;\nopen%d = open%d * 2 + r%d;\n" % (rank, value, rank, (n + 1) % 8, n))
    file.write("a0 = a0 + 1;\nb0 = 2;\nopen0 = 3;\n}\n")


with open("hosts.toml", "w") as hosts:
    write_hosts(hosts)
with open("program.jif", "w") as program:
    write_fields(program)
    for number in range(1, METHODS):
        write_method(program, number)
    write_main(program)
