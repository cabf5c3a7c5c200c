"""The functions of include/funding.h for Python.

They are called in a shared object, which gcc makes from the archive:

    gcc -shared -o libfunding.so -Wl,--whole-archive libfunding.a -Wl,--no-whole-archive
"""

import ctypes

ACCOUNTS = 1024
PART = 4096


class Library:
    """The shared object at a path. A path without a slash is looked for where the system's are."""

    def __init__(self, path):
        library = ctypes.CDLL(path)
        # `bytes` go in as c_char_p, zero bytes included, since the length stands beside them.
        number_list = ctypes.POINTER(ctypes.c_int64)
        self.run = library.funding_run
        self.run.restype = ctypes.c_uint64
        self.run.argtypes = [
            ctypes.c_uint8, ctypes.c_char_p, ctypes.c_size_t,
            number_list, ctypes.c_size_t, number_list, ctypes.c_size_t,
        ]
        self.part_of_printout = library.funding_printout
        self.part_of_printout.restype = ctypes.c_size_t
        self.part_of_printout.argtypes = [
            ctypes.c_char_p, ctypes.c_size_t, ctypes.c_size_t,
            ctypes.c_char_p, ctypes.c_size_t,
        ]

    def printout(self, day):
        """What funding-bench prints for the bytes of a day file, part after part."""
        part = ctypes.create_string_buffer(PART)
        start, length = 0, 1
        while start < length:
            length = self.part_of_printout(day, len(day), start, part, PART)
            filled = min(length - start, PART)
            yield part.raw[:filled]
            start += filled

    def positions(self, day):
        """Accepted records, positions and cash of a day file; cash in hundredths of a cent."""
        # The function would leave the lists untouched.
        if day[:1] not in (b"\x01", b"\x0a"):
            raise ValueError("the size is neither 1 nor 10")
        records = day[1:]
        positions, cash = (ctypes.c_int64 * ACCOUNTS)(), (ctypes.c_int64 * ACCOUNTS)()
        accepted = self.run(day[0], records, len(records), positions, ACCOUNTS, cash, ACCOUNTS)
        return accepted, list(positions), list(cash)
