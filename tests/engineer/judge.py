"""Programs under test.  Each has judge(bytes) -> line, a str with its newline.

Those with `writes` have the two other C entries as well:
write(fields, x, y, marks, buffer, answer) -> (code, buffer, answer) and
read(record, fields, x, y, marks, answer) -> (code, fields, x, y, marks, answer),
what is lent and what stands there afterwards; or a str that says what went wrong.

Those with `tables` have load(table) -> number, and the other three with table=bytes
call the entry that takes a table.  Those with `firms` take a Shared for the bytes too,
and then call the entry for firms.

Those with `roots` have bracket(n, answer) and root(n, answer) -> (code, answer).
"""
from array import array
from collections import namedtuple
import ctypes
import shlex
import subprocess

import model

# What a call for a firm hands in: the firm's number and the bytes of a shared table
Shared = namedtuple("Shared", "firm bytes")


class StandIn:
    """model.py (or a wrong program) in this process."""
    program = True              # has the program's rule of 4,096 bytes
    writes = tables = firms = roots = True

    def __init__(self, cls=model.Model):
        self.cls = cls

    def made(self, table):
        one = self.cls()
        if isinstance(table, Shared):
            one.firm, one.handed = table
        elif table is not None:
            one.handed = table
        return one

    def load(self, table):
        one = self.made(table)
        try:
            return one.load(one.handed)
        except Exception as fault:          # a crash is an answer too, a wrong one
            return "crashed: %s: %s" % (type(fault).__name__, fault)

    def judge(self, data, table=None):
        try:
            return self.made(table).judge(data)
        except Exception as fault:
            return "crashed: %s: %s" % (type(fault).__name__, fault)

    def write(self, fields, x, y, marks, buffer, answer, table=None):
        after, told = bytearray(buffer), list(answer)
        lists = [list(z) for z in (fields, x, y, marks)]
        try:
            code = self.made(table).write(*lists, after, told)
        except Exception as fault:
            return "crashed: %s: %s" % (type(fault).__name__, fault)
        if lists != [fields, x, y, marks]:
            return "a list changed that is only read"
        return code, bytes(after), told

    def read(self, record, *lent, table=None):
        after = [list(z) for z in lent]
        try:
            code = self.made(table).read_values(record, *after)
        except Exception as fault:
            return "crashed: %s: %s" % (type(fault).__name__, fault)
        return (code, *after)

    def bracket(self, n, answer):
        return self.rooted(self.cls().bracket, n, answer)

    def root(self, n, answer):
        return self.rooted(self.cls().root, n, answer)

    def rooted(self, entry, n, answer):
        after = list(answer)
        try:
            code = entry(n, after)
        except Exception as fault:
            return "crashed: %s: %s" % (type(fault).__name__, fault)
        return code, after

    def close(self):
        pass


class Command:
    """A program that gets one record on standard input and prints one line."""
    program = True
    writes = tables = firms = roots = False

    def __init__(self, command):
        self.command = shlex.split(command)

    def judge(self, data):
        try:
            # never a pipe that breaks: the program may stop reading after 4,097 bytes
            done = subprocess.run(self.command, input=data, stdout=subprocess.PIPE,
                                  stderr=subprocess.PIPE, timeout=60)
        except subprocess.TimeoutExpired:
            return "no answer in 60 s"
        if done.returncode != 0:
            return "exit status %d, %r" % (done.returncode, done.stdout[:80])
        if done.stderr:
            return "message on standard error: %r" % done.stderr[:200]
        return done.stdout.decode("latin-1")

    def close(self):
        pass


class Arena:
    """Room for the slices of one call, with marked bytes before, between and behind them."""
    ROOM = 1 << 20
    GAP = b"\xa5" * 24

    def __init__(self):
        self.words = (ctypes.c_uint64 * (self.ROOM // 8))()
        self.bytes = memoryview(self.words).cast("B")
        self.start = ctypes.addressof(self.words)

    def lay(self, blocks):
        """The image of the blocks (bytes, place modulo 8) and where each starts."""
        image, starts = bytearray(self.GAP), []
        for block, place in blocks:
            image += self.GAP[:16 + (place - len(image)) % 8]
            starts.append(len(image))
            image += block
        return image + self.GAP, starts

    def call(self, entry, blocks, written, numbers=()):
        """The code and the blocks with these numbers afterwards, or a str; numbers: arguments before the blocks."""
        image, starts = self.lay(blocks)
        self.bytes[:len(image)] = image
        words = list(numbers)
        for start, (block, place) in zip(starts, blocks):
            words += [self.start + start, len(block) // WIDTH[place]]
        code = entry(*words)
        after = bytearray(self.bytes[:len(image)])
        out = []
        for k in written:
            start, end = starts[k], starts[k] + len(blocks[k][0])
            out.append(bytes(after[start:end]))
            after[start:end] = image[start:end]
        if after != image:
            return "a byte changed beside what is lent to be written"
        return (code, *out)


# places of a block modulo 8: no more is promised than its alignment
BYTES, I32, U64 = 3, 4, 0
WIDTH = {BYTES: 1, I32: 4, U64: 8}


def i32s(numbers):
    return array("i", numbers).tobytes(), I32


def u64s(numbers):
    return array("Q", numbers).tobytes(), U64


def entry_of(library, name, slices, numbers=0):
    """The C entry, its arguments so many slices after so many numbers of 64 bits."""
    entry = getattr(library, name)
    entry.restype = ctypes.c_uint32
    entry.argtypes = (ctypes.c_uint64,) * numbers + (ctypes.c_void_p, ctypes.c_size_t) * slices
    return entry


class Library:
    """A shared object with the C entries of include/negwishal.h; the first of them may have another name.

    FIELDS names the report's numbers in order.  The library has no rule of 4,096 bytes.
    """
    program = False
    FIELDS = ("verdict", "number", "member", "first", "second", "use", "capacity", "share")
    VERDICTS = ("refused", "fits", "overloaded")
    FIGURES = ("use", "capacity", "share")
    MARK = 0xA5A5A5A5A5A5A5A5
    ABOVE = 0xA5A5A5A5 << 32     # what a caller may leave above the 32 bits of a firm's number

    def __init__(self, path, entry="negwishal_judge"):
        library = ctypes.CDLL(path)
        self.call = getattr(library, entry)
        self.call.restype = ctypes.c_int32
        self.call.argtypes = (ctypes.POINTER(ctypes.c_uint8), ctypes.c_size_t,
                              ctypes.POINTER(ctypes.c_uint64), ctypes.c_size_t)
        self.writes = hasattr(library, "negwishal_write")
        self.tables = self.writes and hasattr(library, "negwishal_load")
        self.firms = self.tables and hasattr(library, "negwishal_load_for")
        self.roots = hasattr(library, "negwishal_root_bracket")
        self.arena, self.entries = Arena(), {}
        for has, names in ((self.writes, (("write", 6), ("read", 6))),
                           (self.tables, (("load", 1), ("judge_with", 3), ("write_with", 7), ("read_with", 7))),
                           (self.firms, (("load_for", 1, 1), ("judge_for", 3, 1), ("write_for", 7, 1), ("read_for", 7, 1))),
                           (self.roots, (("root_bracket", 1, 1), ("whole_root", 1, 1)))):
            for name, *lent in names if has else ():
                self.entries[name] = entry_of(library, "negwishal_" + name, *lent)
        if self.tables:
            self.entries["load_with"] = self.entries["load"]    # as the others that take a table

    def lend(self, name, table, blocks, written):
        """Calls the entry, the one that takes a table or that for firms where there is one; written: numbers of the blocks
        written to."""
        if table is None:
            return self.arena.call(self.entries[name], blocks, written)
        entry, firm = name + "_with", ()
        if isinstance(table, Shared):
            entry, firm, table = name + "_for", (table.firm | self.ABOVE,), table.bytes
        return self.arena.call(self.entries[entry], [(table, BYTES), *blocks], [k + 1 for k in written], firm)

    def load(self, table):
        got = self.lend("load", table, [], ())
        return got if isinstance(got, str) else got[0]

    def write(self, fields, x, y, marks, buffer, answer, table=None):
        blocks = [i32s(fields), i32s(x), i32s(y), i32s(marks), (buffer, BYTES), u64s(answer)]
        got = self.lend("write", table, blocks, (4, 5))
        return got if isinstance(got, str) else (*got[:2], array("Q", got[2]).tolist())

    def read(self, record, *lent, table=None):
        got = self.lend("read", table, [(record, BYTES), *map(i32s, lent[:4]), u64s(lent[4])], (1, 2, 3, 4, 5))
        if isinstance(got, str):
            return got
        return (got[0], *(array("i", z).tolist() for z in got[1:5]), array("Q", got[5]).tolist())

    def bracket(self, n, answer):
        return self.rooted("root_bracket", n, answer)

    def root(self, n, answer):
        return self.rooted("whole_root", n, answer)

    def rooted(self, name, n, answer):
        got = self.arena.call(self.entries[name], [u64s(answer)], (0,), (n,))
        return got if isinstance(got, str) else (got[0], array("Q", got[1]).tolist())

    def verdict(self, status, report):
        """'refused', 'fits' or 'overloaded'."""
        return self.VERDICTS[report["verdict"]]

    def status_fault(self, status, report):
        """A complaint about the returned status, or None."""
        if status != 0:
            return "status %d" % status
        if report["verdict"] > 2:
            return "verdict %d" % report["verdict"]
        return None

    def judge(self, data, table=None):
        return self.judge_plain(data) if table is None else self.judge_with(table, data)

    def judge_with(self, table, data):
        count = len(self.FIELDS)
        size = table.firm + len(table.bytes) if isinstance(table, Shared) else len(table)
        short = [self.MARK] * ((size + len(data)) % count)
        # a report that is too short: nothing is judged or written
        got = self.lend("judge", table, [(data, BYTES), u64s(short)], (1,))
        if isinstance(got, str) or got[0] != 1 or got[1] != u64s(short)[0]:
            return "a report of %d: %r" % (len(short), got)
        got = self.lend("judge", table, [(data, BYTES), u64s([self.MARK] * (count + 1))], (1,))
        if isinstance(got, str):
            return got
        *report, mark = array("Q", got[1]).tolist()
        return "written past the report" if mark != self.MARK else self.line(got[0], report)

    def judge_plain(self, data):
        count = len(self.FIELDS)
        record = (ctypes.c_uint8 * max(1, len(data))).from_buffer_copy(data or b"\0")
        report = (ctypes.c_uint64 * (count + 1))(*([self.MARK] * (count + 1)))
        status = self.call(record, len(data), report, count)
        if bytes(record)[:len(data)] != data:
            return "record changed"
        if report[count] != self.MARK:
            return "written past the report"
        return self.line(status, report)

    def line(self, status, report):
        got = dict(zip(self.FIELDS, report))
        fault = self.status_fault(status, got)
        if fault:
            return fault
        verdict = self.verdict(status, got)
        if verdict == "refused":
            if any(got[name] for name in self.FIGURES):
                return "refused with figures %r" % got
            return "refused %d %d %d %d\n" % tuple(got[k] for k in ("number", "member", "first", "second"))
        if any(got[name] for name in ("number", "member", "first", "second")):
            return "answered with a refusal %r" % got
        return "%s %d %d %d\n" % (verdict, got["use"], got["capacity"], got["share"])

    def close(self):
        pass
