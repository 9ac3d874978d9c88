#!/usr/bin/env python3
"""judge.py LIBRARY [--table TABLE | --shared TABLE --firm N] FILE..: prints the line for the record in each file.

Classes are those of the printed table, of the firm's own table in the file TABLE, or those that firm N has in a table that two firms
share. LIBRARY is a shared object with the archive in it:
gcc -shared -o target/libnegwishal.so -Wl,--whole-archive target/staticlib/libnegwishal.a -Wl,--no-whole-archive
"""
import ctypes
import functools
import os
import sys

MOST = 4096     # as the program does: more bytes are refusal 4
FIRMS = 2**32   # a firm's number is below this; 1 and 2 are firms
FIELDS = 8      # verdict, number, member, first, second, use, capacity, share
WORDS = ("refused", "fits", "overloaded")
LENT = (ctypes.c_char_p, ctypes.c_size_t)
REPORT = (ctypes.POINTER(ctypes.c_uint64), ctypes.c_size_t)


def entry(path, name, *arguments):
    found = getattr(ctypes.CDLL(os.path.abspath(path)), name)
    found.argtypes = arguments
    found.restype = ctypes.c_uint32
    return found


def load(path, table=None, firm=None):
    """The entry that judges, by the printed table, by the bytes of a firm's own, or by what a firm has of those of a shared one;
    ValueError where the table does not load."""
    if table is None:
        return entry(path, "negwishal_judge", *LENT, *REPORT)
    if firm is None:
        loads, judges, types, handed = "negwishal_load", "negwishal_judge_with", LENT, (table, len(table))
    else:
        if not 0 <= firm < FIRMS:       # ctypes would cut it to 32 bits
            raise OverflowError("%d: no number below 2^32" % firm)
        loads, judges = "negwishal_load_for", "negwishal_judge_for"
        types, handed = (ctypes.c_uint32, *LENT), (firm, table, len(table))
    number = entry(path, loads, *types)(*handed)
    if number != 0:
        raise ValueError("refused %d 0 0 0" % number)
    return functools.partial(entry(path, judges, *types, *LENT, *REPORT), *handed)


def line(judge, record):
    if len(record) > MOST:
        return "refused 4 0 0 0"
    report = (ctypes.c_uint64 * FIELDS)()
    if judge(record, len(record), report, FIELDS) != 0:
        raise RuntimeError("the report is too short")
    verdict, *place, use, capacity, share = report
    return " ".join(map(str, [WORDS[verdict], *(place if verdict == 0 else (use, capacity, share))]))


def content(name):
    with open(name, "rb") as f:
        return f.read()


def main(library, *names):
    table = firm = None
    if names[0] == "--table":
        table, names = content(names[1]), names[2:]
    elif names[0] == "--shared":
        table, firm, names = content(names[1]), int(names[3]), names[4:]
    try:
        judge = load(library, table, firm)
    except ValueError as refusal:       # the same for every record
        for _ in names:
            print(refusal)
        return
    for name in names:
        print(line(judge, content(name)))


def is_called_rightly(words):
    if words[1:2] == ["--table"]:
        return len(words) > 3
    if words[1:2] == ["--shared"]:
        return len(words) > 5 and words[3] == "--firm"
    return len(words) > 1


if __name__ == "__main__":
    if not is_called_rightly(sys.argv[1:]):
        sys.exit(__doc__.splitlines()[0])
    try:
        main(*sys.argv[1:])
    except (ValueError, OverflowError) as fault:        # N
        sys.exit(str(fault))
