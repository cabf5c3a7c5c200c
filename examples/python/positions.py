"""Plays a day file and prints the accounts with a position or cash: positions.py LIBRARY FILE"""

import pathlib
import sys

import funding


def main(library, file):
    day = pathlib.Path(file).read_bytes()
    accepted, positions, cash = funding.Library(library).positions(day)
    print("accepted", accepted)
    for account in range(funding.ACCOUNTS):
        if positions[account] != 0 or cash[account] != 0:
            print("account", account, "position", positions[account], "cash", cash[account])


if __name__ == "__main__":
    if len(sys.argv) != 3:
        sys.exit("usage: positions.py LIBRARY FILE")
    main(*sys.argv[1:])
