"""Runs records through a program and the engineer's check.

  run.py [--count N] [--seed S]                  the stand-in, model.py, in this process
  run.py --program './judge'                     a program: record on stdin, line on stdout
  run.py --library path.so [--entry name]        a library through its C entries
  run.py --wrong [--count N]                     the wrong programs: each must be reported
A library is handed N records to judge, to read and to write again, and N sets of values to write and to read; then
N of each with tables of firms, and N of each with tables that two firms share; N pairs of records of one joint drawn otherwise;
and N numbers, to find the starting bracket and the whole root of each.  A program is handed the N records and the pairs.
  run.py --show K [--seed S] [--tables|--firms]  record number K, in hex, and what 01 says of it; or that with its table
  run.py --show K [--seed S] --drawn             pair number K
Exit status 0 if all is right.
"""
import argparse
from collections import Counter
import time

import drawn
import engineer
import firms
import judge
import records
import roots
import tables
import values
from written import check_alike, check_line, check_load, check_read, check_roots, check_versions, check_write, loaded_of
from wrong import WITHIN, WRONG, WRONG_DRAWN, WRONG_FIRMS, WRONG_ROOTS, WRONG_TABLES, WRONG_WRITERS


def outcome(line, most=2):
    """most: words of a refusal."""
    words = line.split()
    if not words:
        return "no line"
    return " ".join(words[:most]) if words[0] == "refused" else words[0]


def summary(what, seed, violations, began, outcomes):
    seconds = time.time() - began
    done = sum(outcomes.values())
    print("%d %s, seed %d, %d violations, %.1f s, %d a second"
          % (done, what, seed, violations, seconds, done / max(seconds, 0.001)))
    for name, k in sorted(outcomes.items(), key=lambda x: (len(x[0].split()), [
            int(w) if w.isdigit() else 0 for w in x[0].split()], x[0])):
        print("  %-12s %d" % (name, k))


def answered(code, number):
    """The outcome of an entry that writes or reads values, or finds roots."""
    return "slice short" if code else "refused %d" % number if number else "done"


def first_fault(*checks):
    """True, or what the first check finds that does not pass."""
    found = True
    for check in checks:
        found = check() if found is True else found
    return found


def run_written(program, seed, count, most, skip=0, source=None):
    """Values through the writer, each record back through the reader; or this with the tables of a source."""
    outcomes, violations = Counter(), 0
    began = time.time()
    items = source.value_stream(seed, count) if source else ((x, None, y) for x, y in values.stream(seed, count))
    for n, (label, table, handed) in enumerate(items):
        if n < skip:
            continue
        loaded = loaded_of(table)
        expected = engineer.after_write(*handed, loaded)
        outcomes[answered(expected[0], expected[0] or expected[2][0])] += 1
        others = firms.others(seed, n, table, loaded)
        found = first_fault(lambda: written_alike(program, handed, expected, table, loaded, others),
                            lambda: table is None or loaded_alike(program, table, loaded, others))
        if found is not True:
            violations += 1
            if violations <= most:
                print("values %d (%s): %s\n  %r%s" % (n, label, found, handed, with_table(table)))
    summary("sets of values written" + WITH.get(source, ""), seed, violations, began, outcomes)
    return violations


WITH = {tables: " with tables", firms: " for firms"}


def with_table(table):
    if table is None:
        return ""
    firm, data = table if isinstance(table, judge.Shared) else (None, table)
    return "\n  with %s %s" % ("table" if firm is None else "firm %d, shared table" % firm, data[:1100].hex() or "of no bytes")


def run_read(program, seed, count, most, skip=0):
    """Records through the reader and again through the writer, the reader and the judge."""
    outcomes, violations = Counter(), 0
    began = time.time()
    for n, (label, data) in enumerate(records.stream(seed, count)):
        if n < skip:
            continue
        lent = values.lent(seed, n)
        outcomes[answered(0, engineer.values_of(data)[0])] += 1
        found = check_read(program, data, lent, program.judge(data))
        if found is not True:
            violations += 1
            if violations <= most:
                print("record %d (%s): %s\n  %s" % (n, label, found, data[:4200].hex()))
    summary("records read and written again", seed, violations, began, outcomes)
    return violations


def run(program, seed, count, most, skip=0):
    outcomes, kinds, violations = Counter(), Counter(), 0
    began = time.time()
    n = -1
    for n, (label, data) in enumerate(records.stream(seed, count)):
        if n < skip:
            continue
        line, found = check_line(program, data, engineer.Reference(data, program.program))
        outcomes[outcome(line)] += 1
        kinds[label.split()[0] if label[0].isalpha() else "long or empty"] += 1
        if found is not True:
            violations += 1
            if violations <= most:
                print("record %d (%s): %s\n  %s" % (n, label, found, data[:4200].hex()))
    summary("records", seed, violations, began, outcomes)
    print("  kinds: " + counts(kinds))
    return violations


def counts(counter):
    return ", ".join("%s %d" % x for x in sorted(counter.items()))


def run_tables(program, seed, count, most, skip=0, source=tables):
    """Tables through the loader; records with them through the judge, the reader and again through all entries."""
    outcomes, loads, kinds, read, violations = Counter(), Counter(), Counter(), Counter(), 0
    began = time.time()
    for n, (label, table, data) in enumerate(source.stream(seed, count)):
        if n < skip:
            continue
        loaded = loaded_of(table)
        reference = engineer.Reference(data, program.program, loaded)
        lent = values.lent(seed, n)
        expected = engineer.after_read(data, *lent, loaded)
        others = firms.others(seed, n, table, loaded)
        line, found = check_line(program, data, reference, table)
        outcomes[outcome(line)] += 1
        loads["loaded" if engineer.did_load(loaded) else "refused %d" % loaded] += 1
        kinds[label.split(",")[0]] += 1
        read[answered(expected[0], expected[0] or expected[-1][0])] += 1
        found = first_fault(lambda: found,
                            lambda: check_alike(lambda by: program.judge(data, by), table, others),
                            lambda: loaded_alike(program, table, loaded, others),
                            lambda: read_alike(program, data, lent, expected, table, loaded, others, line))
        if found is not True:
            violations += 1
            if violations <= most:
                print("record %d (%s): %s\n  %s%s" % (n, label, found, data[:4200].hex(), with_table(table)))
    summary("records judged%s, read and written again" % WITH[source], seed, violations, began, outcomes)
    print("  tables: " + counts(loads))
    print("  read: " + counts(read))
    print("  kinds: " + counts(kinds))
    return violations


def run_roots(program, seed, count, most, skip=0):
    """Numbers through the entries that find a starting bracket and a whole root."""
    outcomes, kinds, violations = Counter(), Counter(), 0
    began = time.time()
    for n, (label, number) in enumerate(roots.stream(seed, count)):
        if n < skip:
            continue
        lent = roots.lent(seed, n)
        outcomes[answered(len(lent) < roots.NEEDED, 0)] += 1
        kinds[label] += 1
        found = check_roots(program, number, lent)
        if found is not True:
            violations += 1
            if violations <= most:
                print("number %d (%s): %s\n  %d into %r" % (n, label, found, number, lent))
    summary("numbers", seed, violations, began, outcomes)
    print("  kinds: " + counts(kinds))
    return violations


FEW = 16    # dowels: so many, and the engineer works out the figures of the second of a pair too


def references(program, pair):
    """The engineer's of both records of a pair."""
    loaded = loaded_of(pair.table)
    return [engineer.Reference(data, program.program, loaded) for data in (pair.first, pair.second)]


def judged_both(program, pair):
    return [program.judge(data, pair.table) if program.tables else program.judge(data) for data in (pair.first, pair.second)]


def run_drawn(program, seed, count, most, skip=0):
    """Pairs of records of one joint through the judge: each line by the engineer, and what must be the same in both."""
    outcomes, kinds, by, violations = Counter(), Counter(), Counter(), 0
    began = time.time()
    for n, pair in enumerate(drawn.stream(seed, count, program.tables)):
        if n < skip:
            continue
        one, two = judged_both(program, pair)
        first, second = references(program, pair)
        held = second.joint is None or len(second.joint.dowels) <= FEW
        outcomes[outcome(one, 3)] += 1          # the member too
        kinds[pair.label.split(",")[0]] += 1
        by["the printed table" if pair.table is None else "a firm's own" if isinstance(pair.table, bytes) else "a shared one"] += 1
        found = first_fault(lambda: drawn.check(pair, one, two), lambda: first.check(one), lambda: not held or second.check(two))
        if found is not True:
            violations += 1
            if violations <= most:
                print("pair %d (%s): %s\n  %s\n  %s%s" % (n, pair.label, found, pair.first.hex(), pair.second.hex(), with_table(pair.table)))
    summary("pairs drawn otherwise", seed, violations, began, outcomes)
    print("  by " + counts(by))
    print("  kinds: " + counts(kinds))
    return violations


def run_wrong_writers(seed, count, only):
    """Each wrong writer or reader until its first violation: values first, then records."""
    handed = [(n, label, h, engineer.after_write(*h)) for n, (label, h) in enumerate(values.stream(seed, count))]
    read = []
    for n, (label, data) in enumerate(records.stream(seed, count)):
        lent = values.lent(seed, n)
        read.append((n, label, data, lent, engineer.after_read(data, *lent)))
    missed = tried = 0
    print("%-16s %-58s %15s  %s" % ("group", "wrong writer or reader", "", "why"))
    for group, name, cls in WRONG_WRITERS:
        if only and only not in name:
            continue
        tried += 1
        program = judge.StandIn(cls)
        reports = (("values", n, label, check_write(program, h, expected)) for n, label, h, expected in handed)
        found = first_report(reports) or first_report(
            ("record", n, label, check_read(program, data, lent, program.judge(data), expected))
            for n, label, data, lent, expected in read)
        missed += found is None
        print("%-16s %-58s %15s" % (group, name, "MISSED") if found is None
              else "%-16s %-58s %7s %7d  (%s) %s" % (group, name, *found))
    print("%d wrong writers and readers, %d missed, %d sets of values and records, seed %d" % (tried, missed, count, seed))
    return missed


def first_report(reports):
    return next((r for r in reports if r[3] is not True), None)


def run_wrong(seed, count, only):
    """Each wrong program until its first violation."""
    kept = []
    for n, (label, data) in enumerate(records.stream(seed, count)):
        kept.append((n, label, data, engineer.Reference(data)))
    missed = 0
    print("%-16s %-58s %8s  %s" % ("group", "wrong program", "record", "why"))
    for group, name, cls in WRONG:
        if only and only not in name:
            continue
        program = judge.StandIn(cls)
        for n, label, data, reference in kept:
            line = program.judge(data)
            found = first_fault(lambda: reference.check(line), lambda: check_versions(program, data, line))
            if found is not True:
                print("%-16s %-58s %8d  (%s) %s" % (group, name, n, label, found))
                break
        else:
            missed += 1
            print("%-16s %-58s %8s" % (group, name, "MISSED"))
    print("%d wrong programs, %d missed, %d records, seed %d" % (len(WRONG), missed, len(kept), seed))
    return missed


def run_wrong_tables(seed, count, only, source=tables, programs=WRONG_TABLES):
    """Each wrong program by the entry that is wrong in it, until its first violation."""
    kept = {"loading": [], "judging": [], "reading": [], "writing": []}
    for n, (label, table, data) in enumerate(source.stream(seed, count)):
        loaded = loaded_of(table)
        lent = values.lent(seed, n)
        others = firms.others(seed, n, table, loaded)
        kept["loading"].append((n, label, loaded_alike, (table, loaded, others)))
        kept["judging"].append((n, label, judged_alike, (data, engineer.Reference(data, True, loaded), table, others)))
        expected = engineer.after_read(data, *lent, loaded)
        kept["reading"].append((n, label, read_alike, (data, lent, expected, table, loaded, others)))
    for n, (label, table, handed) in enumerate(source.value_stream(seed, count)):
        loaded = loaded_of(table)
        expected = engineer.after_write(*handed, loaded)
        others = firms.others(seed, n, table, loaded)
        kept["writing"].append((n, label, written_alike, (handed, expected, table, loaded, others)))
    missed = tried = 0
    print("%-16s %-58s %8s  %s" % ("entry", "wrong program" + WITH[source], "item", "why"))
    for entry, name, cls in programs:
        if only and only not in name:
            continue
        tried += 1
        program = judge.StandIn(cls)
        found = first_report((entry, n, label, check(program, *what)) for n, label, check, what in kept[entry])
        missed += found is None
        print("%-16s %-58s %8s" % (entry, name, "MISSED") if found is None
              else "%-16s %-58s %8d  (%s) %s" % (entry, name, *found[1:]))
    print("%d wrong programs%s, %d missed, %d sets of values and records, seed %d" % (tried, WITH[source], missed, count, seed))
    return missed


HELD = 400  # of a program within the brackets so many pairs at least are held to the engineer


def run_wrong_drawn(seed, count, only):
    """Each wrong program until it answers two drawings of one joint otherwise, which alone is looked at; then those within the
    brackets by the engineer, who may report none of them."""
    kept = [(n, pair, references(judge.StandIn, pair)) for n, pair in enumerate(drawn.stream(seed, count))]
    missed = tried = within = 0
    print("%-20s %-84s %8s  %s" % ("group", "wrong program for one joint drawn otherwise", "pair", "why"))
    for group, name, cls in WRONG_DRAWN:
        if only and only not in name:
            continue
        tried += 1
        program = judge.StandIn(cls)
        found = first_report((group, n, pair.label, drawn.check(pair, *judged_both(program, pair))) for n, pair, _ in kept)
        outside = None
        if found and group == WITHIN:
            within += 1
            outside = first_report((group, n, pair.label, checked) for n, pair, both in kept[:max(HELD, found[1] + 1)]
                                   for checked in map(engineer.Reference.check, both, judged_both(program, pair)))
        missed += found is None or outside is not None
        print("%-20s %-84s %8s" % (group, name, "MISSED") if found is None
              else "%-20s %-84s %8d  (%s) %s" % (group, name, *found[1:]) if outside is None
              else "%-20s %-84s  OUTSIDE %d  (%s) %s" % (group, name, *outside[1:]))
    print("%d wrong programs for one joint drawn otherwise, %d of them within the brackets, %d missed, %d pairs, seed %d"
          % (tried, within, missed, count, seed))
    return missed


def run_wrong_roots(seed, count, only):
    """Each wrong program until its first violation."""
    kept = [(n, label, number, roots.lent(seed, n)) for n, (label, number) in enumerate(roots.stream(seed, count))]
    missed = tried = 0
    print("%-16s %-58s %8s  %s" % ("entry", "wrong program with roots", "number", "why"))
    for entry, name, cls in WRONG_ROOTS:
        if only and only not in name:
            continue
        tried += 1
        program = judge.StandIn(cls)
        found = first_report((entry, n, label, check_roots(program, number, lent)) for n, label, number, lent in kept)
        missed += found is None
        print("%-16s %-58s %8s" % (entry, name, "MISSED") if found is None
              else "%-16s %-58s %8d  (%s) %s" % (entry, name, *found[1:]))
    print("%d wrong programs with roots, %d missed, %d numbers, seed %d" % (tried, missed, len(kept), seed))
    return missed


# An entry's answer by a table, and by the others that must give the same

def loaded_alike(program, table, loaded, others):
    return first_fault(lambda: check_load(program, table, loaded), lambda: check_alike(program.load, table, others))


def judged_alike(program, data, reference, table, others):
    return first_fault(lambda: check_line(program, data, reference, table)[1],
                       lambda: check_alike(lambda by: program.judge(data, by), table, others))


def read_alike(program, data, lent, expected, table, loaded, others, line=None):
    return first_fault(lambda: check_read(program, data, lent, line, expected, table, loaded),
                       lambda: check_alike(lambda by: program.read(data, *lent, table=by), table, others))


def written_alike(program, handed, expected, table, loaded, others):
    return first_fault(lambda: check_write(program, handed, expected, table, loaded),
                       lambda: check_alike(lambda by: program.write(*handed, table=by), table, others))


def run_all(program, a):
    """The violations of judging, one joint drawn otherwise too, and, where the program has them, of writing and reading, of all
    with tables, of all for firms and of roots."""
    count = a.count or 20000
    violations = run(program, a.seed, count, a.most, a.skip)
    violations += run_drawn(program, a.seed, count, a.most, a.skip)
    if program.writes:
        violations += run_read(program, a.seed, count, a.most, a.skip)
        violations += run_written(program, a.seed, count, a.most, a.skip)
    elif a.library:
        violations += 1
        print("the library has no negwishal_write")
    if program.tables:
        violations += run_tables(program, a.seed, count, a.most, a.skip)
        violations += run_written(program, a.seed, count, a.most, a.skip, tables)
    elif a.library:
        violations += 1
        print("the library has no negwishal_load")
    if program.firms:
        violations += run_tables(program, a.seed, count, a.most, a.skip, firms)
        violations += run_written(program, a.seed, count, a.most, a.skip, firms)
    elif a.library:
        violations += 1
        print("the library has no negwishal_load_for")
    if program.roots:
        violations += run_roots(program, a.seed, count, a.most, a.skip)
    elif a.library:
        violations += 1
        print("the library has no negwishal_root_bracket")
    return violations


def show_table(seed, number, source):
    for n, (label, table, data) in enumerate(source.stream(seed, number + 1)):
        if n == number:
            loaded = loaded_of(table)
            print(label)
            if source is firms:
                print("firm: %d" % table.firm)
            print("table: " + (table.bytes if source is firms else table).hex())
            print("loads: %s" % (loaded if engineer.did_load(loaded) else "refused %d" % loaded))
            print("record: " + data.hex())
            print("library: " + engineer.Reference(data, False, loaded).describe())


def show_drawn(seed, number):
    for n, pair in enumerate(drawn.stream(seed, number + 1)):
        if n == number:
            print(pair.label + with_table(pair.table))
            for data, reference in zip((pair.first, pair.second), references(judge.Library, pair)):
                print(data.hex())
                print("library: " + reference.describe())


def show(seed, number):
    for n, (label, data) in enumerate(records.stream(seed, number + 1)):
        if n == number:
            print(label)
            print(data.hex())
            print("program: " + engineer.Reference(data).describe())
            print("library: " + engineer.Reference(data, program=False).describe())


def main():
    p = argparse.ArgumentParser(description=__doc__, formatter_class=argparse.RawTextHelpFormatter)
    p.add_argument("--count", type=int, default=None)
    p.add_argument("--seed", type=int, default=1)
    p.add_argument("--skip", type=int, default=0, help="leave out the first records")
    p.add_argument("--program")
    p.add_argument("--library")
    p.add_argument("--entry", default="negwishal_judge")
    p.add_argument("--wrong", action="store_true")
    p.add_argument("--only", help="with --wrong: names that contain this")
    p.add_argument("--show", type=int)
    p.add_argument("--tables", action="store_true", help="with --show: a record with a table")
    p.add_argument("--firms", action="store_true", help="with --show: a record with a table that two firms share")
    p.add_argument("--drawn", action="store_true", help="with --show: a pair of records of one joint drawn otherwise")
    p.add_argument("--most", type=int, default=50, help="violations printed in full")
    a = p.parse_args()
    if a.show is not None:
        if a.tables or a.firms:
            show_table(a.seed, a.show, firms if a.firms else tables)
        elif a.drawn:
            show_drawn(a.seed, a.show)
        else:
            show(a.seed, a.show)
        return 0
    if a.wrong:
        missed = run_wrong(a.seed, a.count or 30000, a.only)
        missed += run_wrong_writers(a.seed, a.count or 8000, a.only)
        missed += run_wrong_tables(a.seed, a.count or 5000, a.only)
        missed += run_wrong_tables(a.seed, a.count or 11000, a.only, firms, WRONG_FIRMS)
        missed += run_wrong_drawn(a.seed, a.count or 4000, a.only)
        missed += run_wrong_roots(a.seed, a.count or 5000, a.only)
        return 1 if missed else 0
    if a.library:
        program = judge.Library(a.library, a.entry)
    elif a.program:
        program = judge.Command(a.program)
    else:
        program = judge.StandIn()
    try:
        return 1 if run_all(program, a) else 0
    finally:
        program.close()


if __name__ == "__main__":
    raise SystemExit(main())
