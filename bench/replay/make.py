#!/usr/bin/env python3
"""make.py ACTS writes a script in which host A misbehaves. Its first token comes back, T pushes anew, and so many acts
follow, none of which lets T go on: of ten, six are answers that nobody waits for, three give the used token back, and
one asks for a field and is answered."""
import sys

ACTS = ["ack 0.0", "lgoto #0", "ack 0.0"] * 3 + ["get 0.0 n 0"]

acts = int(sys.argv[1])
lines = ["bad A"] + ["turn T"] * 5 + ["act A T lgoto #0"] + ["turn T"] * 8
lines += ["act A T " + ACTS[number % len(ACTS)] for number in range(acts)]
print("\n".join(lines))
