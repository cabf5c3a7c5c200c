"""Shows what funding-bench prints for a day file, without starting it: printout.py LIBRARY FILE"""

import pathlib
import sys

import funding


def main(library, file):
    day = pathlib.Path(file).read_bytes()
    for part in funding.Library(library).printout(day):
        sys.stdout.buffer.write(part)


if __name__ == "__main__":
    if len(sys.argv) != 3:
        sys.exit("usage: printout.py LIBRARY FILE")
    main(*sys.argv[1:])
