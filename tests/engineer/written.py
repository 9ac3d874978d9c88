"""Holds a program's answers to the engineer: its lines, what its writer and its reader of values leave in
every slice, 02's laws of A2 from one to the other, its lines in either version to each other, what it says of a table, and the
brackets and roots that it finds.

table: the bytes handed in, with a firm's number where they are shared, None for the entry that takes none; loaded: what
engineer.load or load_for gives for them.  Where no table is handed in, the printed one written as a firm's must give the
same answer; check_alike says whether other tables do.
"""
import re

import engineer
from judge import Shared
from records import in_version
from tables import PRINTED
from values import Handed

WRITE = ("code", "buffer", "answer")
READ = ("code", "fields", "x", "y", "marks", "answer")
ROOT = ("code", "answer")


def loaded_of(table):
    """What the engineer has of a table, the printed one where none is handed in."""
    if isinstance(table, Shared):
        return engineer.load_for(*table)
    return engineer.PRINTED if table is None else engineer.load(table)


def differ(names, want, got):
    """The first difference in words, or None."""
    if isinstance(got, str):
        return got
    for name, right, found in zip(names, want, got):
        if right == found:
            continue
        if name == "code" or len(right) != len(found):
            return "%s %r, should be %r" % (name, found, right)
        at = next(k for k, (a, b) in enumerate(zip(right, found)) if a != b)
        return "%s[%d] is %d, should be %d" % (name, at, found[at], right[at])
    return None


def check_load(program, table, loaded):
    """True, or the reason why the number is wrong."""
    want = 0 if engineer.did_load(loaded) else loaded
    got = program.load(table)
    return True if got == want else "loaded: %r, should be %d" % (got, want)


def check_alike(call, table, others):
    """True, or by which of the other tables, (what, table), the call answers otherwise; call(table)."""
    want = call(table) if others else None
    for what, other in others:
        got = call(other)
        if got != want:
            return "%r by the table, %s: %r" % (want, what, got)
    return True


REFUSAL = re.compile(r"refused ([0-9]+) ([0-9]+) ([0-9]+) [0-9]+\n")


def asked_more(one, two):
    """Whether the line of a record of version 2 names an edge, and that of the same record in version 1 comes later."""
    refused_one, refused_two = (found and tuple(map(int, found.groups())) for found in map(REFUSAL.fullmatch, (one, two)))
    if not refused_two or refused_two[0] != 12:
        return False
    if not refused_one:
        return one.startswith(("fits ", "overloaded "))
    (number, member, first), (_, other_member, other_first) = refused_one, refused_two
    return (member, number, first) > (other_member, 12, other_first)


def check_versions(program, data, line, table=None):
    """True, or how the line of the same record in the other version differs.  What version 2 asks more is edges alone."""
    if data[:2] not in (b"\1\0", b"\2\0"):
        return True
    other = in_version(data, 3 - data[0])
    found = program.judge(other, table)
    one, two = (line, found) if data[0] == 1 else (found, line)
    return one == two or asked_more(one, two) or "in version 1 %r, in version 2 %r" % (one, two)


def check_line(program, data, reference, table=None):
    """The line, and True or the reason why it is wrong."""
    line = program.judge(data, table) if program.tables else program.judge(data)
    found = reference.check(line)
    if found is True and program.tables and table in (None, PRINTED):
        other = program.judge(data, PRINTED if table is None else None)
        if other != line:
            plain, tabled = (line, other) if table is None else (other, line)
            return line, "judged without a table %r, with the printed one %r" % (plain, tabled)
    if found is True and program.writes:            # not a program, which takes its time
        found = check_versions(program, data, line, table)
    return line, found


def check_write(program, handed, expected=None, table=None, loaded=engineer.PRINTED):
    """True, or the reason why the call is wrong."""
    want = expected or engineer.after_write(*handed, loaded)
    got = program.write(*handed, table=table)
    fault = differ(WRITE, want, got)
    if fault:
        return "written: " + fault
    if table is None and program.tables:
        fault = differ(WRITE, got, program.write(*handed, table=PRINTED))
        if fault:
            return "written with the printed table: " + fault
    code, buffer, answer = got
    if code or answer[0]:
        return True
    # what the writer made passes 1 to 9 and reads back to the same values
    n = len(handed.x)
    rest = [0] * (engineer.DOWELS - n)
    back = (0, engineer.normal(handed.fields), handed.x + rest, handed.y + rest, [0] * engineer.DOWELS, [0, n])
    fault = differ(READ, back, program.read(buffer[:answer[1]], *blank(), table=table))
    return "read back: " + fault if fault else True


def blank():
    return [-1] * engineer.PLACES, [-1] * engineer.DOWELS, [-1] * engineer.DOWELS, [-1] * engineer.DOWELS, [7, 7]


def check_read(program, data, lent, line=None, expected=None, table=None, loaded=engineer.PRINTED):
    """True, or the reason why the call is wrong; line is the program's for these bytes."""
    want = expected or engineer.after_read(data, *lent, loaded)
    got = program.read(data, *lent, table=table)
    fault = differ(READ, want, got)
    if fault:
        return "read: " + fault
    if table is None and program.tables:
        fault = differ(READ, got, program.read(data, *lent, table=PRINTED))
        if fault:
            return "read with the printed table: " + fault
    if got[0]:
        # a slice was too short: now with long enough ones
        return check_read(program, data, blank(), line, table=table, loaded=loaded)
    _, fields, x, y, marks, (number, n, *_) = got
    if number:
        return True
    # written again into a buffer at least as long, it reads alike
    again = Handed(fields, x[:n], y[:n], marks[:n], b"\xa5" * (len(data) + len(lent[4])), [7, 7])
    back = program.write(*again, table=table)
    fault = differ(WRITE, engineer.after_write(*again, loaded), back)
    if fault:
        return "written again: " + fault
    record = back[1][:back[2][1]]
    if back[2][0] != 0 or len(record) != 78 + 8 * n:
        return "written again: answer %r" % back[2]
    fault = differ(READ, got, program.read(record, *lent, table=table))
    if fault:
        return "read again: " + fault
    if line is not None:
        other = program.judge(record, table)
        if other != line:
            return "judged again: %r, was %r" % (other, line)
    return True


def check_found(got, answer, check):
    """True, or the reason why a call that finds a bracket or a root is wrong; check: of the two numbers that it answers."""
    if isinstance(got, str):
        return got
    if len(answer) < 2:
        return differ(ROOT, (1, answer), got) or True
    numbers = got[1][:2]
    return differ(ROOT, (0, numbers + answer[2:]), got) or check(*numbers)


def check_roots(program, n, answer):
    """True, or the reason why the bracket, the root or its halvings are wrong; answer is what each call is lent."""
    for what, call, check in (("bracket", program.bracket, engineer.check_bracket),
                              ("root", program.root, engineer.check_root)):
        # where the slice is too short, a second call with a long enough one
        for lent in (answer, [7, 7]) if len(answer) < 2 else (answer,):
            found = check_found(call(n, lent), lent, lambda *numbers: check(n, *numbers))
            if found is not True:
                return "%s: %s" % (what, found)
    return True
