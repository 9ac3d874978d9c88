#!/usr/bin/env python3
"""Writes data/, args and stdout of this folder: tables and records, and the lines of each pair: by the table as a firm's own, and for each of
five firm numbers by it as one that two firms share.

Refusals come from the reference engineer. Figures are worked out with exact integers, as judge_records/make_lines.py does, and are held to
the engineer's brackets; the two that request A4 prints are compared with what it says.
"""
import pathlib
import struct
import sys

HERE = pathlib.Path(__file__).resolve().parent
ROOT = HERE.parent.parent
sys.path[:0] = [str(ROOT / "tests" / "engineer"), str(ROOT / "crates" / "judge_records")]
import engineer  # noqa: E402
import make_lines  # noqa: E402

HARD, SOFT = 1, 0
# the entries of two firms: codes rise within a stretch
FIRMS = ((5, SOFT, 300), (9, HARD, 530)), ((1, SOFT, 350), (5, HARD, 900))
FIRM_NUMBERS = (0, 1, 2, 3, 257)


def table(*entries):
    stretch = b"".join(struct.pack("<BBH", *e) for e in entries)
    return struct.pack("<HHH", 1, 6, len(stretch)) + stretch


def shared(first, second, after=b""):
    one, two = (b"".join(struct.pack("<BBH", *e) for e in entries) for entries in (first, second))
    return struct.pack("<HHHHH", 2, 10, len(one), 10 + len(one), len(two)) + one + two + after


def wide(record, fx, fy):
    """Joint B in outlines of ±90,000 with another force."""
    outline = struct.pack("<iiii", -90000, -90000, 90000, 90000)
    return record[:26] + outline + record[42:46] + outline + record[62:102] + struct.pack("<ii", fx, fy)


def classes(record, first, second):
    return record[:22] + bytes([first]) + record[23:42] + bytes([second]) + record[43:]


def version(number, record):
    return struct.pack("<H", number) + record[2:]


def near_edge(record):
    """Joint B with its force across the grain."""
    return record[:102] + struct.pack("<ii", 0, 20000)


def line(loaded, record):
    number = 0 if engineer.did_load(loaded) else loaded
    refusal = engineer.parse(record, loaded)
    if isinstance(refusal, tuple):
        report = (0,) + refusal + (0, 0, 0)
    else:
        woods = {code: (make_lines.HARDWOOD if kind == engineer.HARDWOOD else make_lines.SOFTWOOD, density)
                 for code, (kind, density) in loaded.items()}
        u, c, e = make_lines.figures(record, woods)
        text = "%s %d %d %d\n" % ("fits" if u <= 10000 else "overloaded", u, c, e)
        fault = engineer.check(record, text, loaded=loaded)
        if fault is not True:
            sys.exit("%s: %s" % (text, fault))
        report = (1 if u <= 10000 else 2, 0, 0, 0, 0, u, c, e)
    read = engineer.read(record, loaded)
    if isinstance(read, int):
        # all numbers read are 0, so the version is one that is not known, unless the table refuses first; where the table lacks a class they
        # are read by the printed one
        whole = read == 7 and not isinstance(engineer.read(record), int)
        words = [read, 0], [number or (7 if whole else 2), 0], ""
    else:
        words = [0, record[66]], [0, len(record)], " same"
    return ("loads %d, judged 0 %s, short 1, read 0 %s, written 0 %s%s"
            % (number, " ".join(map(str, report)), " ".join(map(str, words[0])), " ".join(map(str, words[1])), words[2]))


def main():
    example = {path.stem: path.read_bytes() for path in sorted((ROOT / "examples").glob("*.rec"))}
    b = example["joint-b"]
    across = wide(b, 0, 20000)
    tables = {
        "own-table.tab": (ROOT / "examples" / "own-table.tab").read_bytes(),
        "printed-table.tab": (ROOT / "examples" / "printed-table.tab").read_bytes(),
        "1-hardwood-900": table((1, HARD, 900)),
        "1-softwood-900": table((1, SOFT, 900)),
        "200-alone": table((200, SOFT, 350)),
        "1-least": table((1, SOFT, 290)),
        "1-most": table((1, HARD, 1100)),
        "1-and-255": table((1, SOFT, 350), (255, HARD, 530)),
        "255-entries": table(*[(k, k % 2, 290 + k) for k in range(1, 256)]),
        "no-bytes": b"",
        "five-bytes": table((1, SOFT, 350))[:5],
        "trailing-byte": table((1, SOFT, 350)) + b"\0",
        "codes-equal": table((1, SOFT, 350), (1, SOFT, 380)),
        "density-1101": table((1, HARD, 1101)),
        # class 5 is in both, with another density and kind; and each alone
        "shared": shared(*FIRMS),
        "firm-1-alone": table(*FIRMS[0]),
        "firm-2-alone": table(*FIRMS[1]),
        # faults of one firm's entries
        "shared-firm-1-faulty": shared([(5, SOFT, 1101), (9, HARD, 530)], FIRMS[1]),
        "shared-firm-2-faulty": shared(FIRMS[0], [(5, HARD, 900), (5, SOFT, 350)]),
        "shared-both-faulty": shared([(0, SOFT, 350)], [(1, 2, 350)]),
        # faults of the layout: firm 2's length 6; a byte more; the front alone
        "shared-length-6": struct.pack("<HHHHH", 2, 10, 8, 18, 6) + shared(*FIRMS)[10:24],
        "shared-trailing-byte": shared(*FIRMS, after=b"\0"),
        "shared-front-alone": shared(*FIRMS)[:10],
    }
    records = {
        "b": b,
        "b-across": across,
        "b-skew": wide(b, 12000, 16000),
        "b-200": classes(b, 200, 200),
        "b-200-across": classes(across, 200, 200),
        "b-1-and-9": classes(b, 1, 9),
        "b-9-and-1": classes(b, 9, 1),
        "b-9": classes(b, 9, 9),
        "b-200-and-9": classes(b, 200, 9),
        "b-9-and-200": classes(b, 9, 200),
        "b-1-and-255": classes(across, 1, 255),
        "b-255-and-254": classes(across, 255, 254),
        "b-0": classes(b, 0, 1),
        "b-12": classes(b, 12, 1),
        "b-5-across": classes(across, 5, 5),
        "b-5-and-9": classes(b, 5, 9),
        "b-1-and-5": classes(across, 1, 5),
        # 02, A7: in version 2; with its force across it fails at member 1's lower edge there; a version that is not known
        "b-version-2": version(2, b),
        "b-across-version-2": version(2, across),
        "b-200-version-2": version(2, classes(b, 200, 200)),
        "b-5-across-version-2": version(2, classes(across, 5, 5)),
        "b-near-edge-version-1": near_edge(b),
        "b-near-edge-version-2": version(2, near_edge(b)),
        "b-version-3": version(3, b),
        "own-class": example["own-class"],
        "dowels-599": example["dowels-599"],
        "nineteen-bytes": example["nineteen-bytes"],
        "no-force": example["no-force"],
        "no-bytes": b"",
    }
    pairs = [
        # 02, A4: across the grain the kind counts
        ("1-hardwood-900", "b-across"), ("1-softwood-900", "b-across"),
        # along it both are alike
        ("1-hardwood-900", "b"), ("1-softwood-900", "b"),
        ("1-hardwood-900", "b-skew"), ("1-softwood-900", "b-skew"),
        # the table's codes are the only rule
        ("200-alone", "b-200"), ("200-alone", "b-200-across"), ("200-alone", "b"), ("200-alone", "b-1-and-9"), ("200-alone", "b-9-and-1"),
        ("200-alone", "b-9"), ("200-alone", "b-200-and-9"), ("200-alone", "b-9-and-200"),
        ("1-hardwood-900", "b-1-and-9"), ("1-hardwood-900", "b-9-and-1"), ("printed-table.tab", "b-200"), ("1-hardwood-900", "b-0"),
        ("255-entries", "b-0"), ("255-entries", "b-12"),
        # the limits of density and code
        ("1-least", "b-across"), ("1-most", "b-across"), ("1-and-255", "b-1-and-255"), ("1-and-255", "b-255-and-254"),
        ("255-entries", "b-255-and-254"), ("255-entries", "b-1-and-255"), ("255-entries", "b-1-and-9"),
        # the example's table
        ("own-table.tab", "own-class"), ("own-table.tab", "b"), ("own-table.tab", "b-1-and-9"), ("own-table.tab", "b-12"),
        # the printed table in this layout
        *(("printed-table.tab", name) for name in ("b", "b-across", "b-1-and-9", "b-0", "b-12", "dowels-599", "no-force", "nineteen-bytes")),
        # the record's own refusals
        ("200-alone", "dowels-599"), ("1-hardwood-900", "dowels-599"), ("1-hardwood-900", "no-force"), ("1-hardwood-900", "nineteen-bytes"),
        ("1-hardwood-900", "no-bytes"),
        # a table that did not load, before every test of the record
        *((t, r) for t in ("no-bytes", "five-bytes", "trailing-byte", "codes-equal", "density-1101")
          for r in ("b", "nineteen-bytes", "no-force", "dowels-599", "no-bytes")),
        # 02, A6: each firm's stretch, and the same entries alone; a class of the other firm is none
        *((t, r) for r in ("b-5-across", "b-5-and-9", "b-1-and-5", "b", "b-9", "dowels-599", "no-force", "nineteen-bytes", "no-bytes")
          for t in ("firm-1-alone", "firm-2-alone", "shared", "shared-firm-1-faulty", "shared-firm-2-faulty")),
        *((t, r) for t in ("shared-both-faulty", "shared-length-6", "shared-trailing-byte", "shared-front-alone")
          for r in ("b-5-across", "nineteen-bytes", "no-bytes")),
        # 02, A7: by a firm's own table and by a shared one both versions are judged, read and written
        *((t, r) for t in ("1-hardwood-900", "printed-table.tab", "own-table.tab")
          for r in ("b-version-2", "b-across-version-2", "b-near-edge-version-1", "b-near-edge-version-2", "b-version-3")),
        ("200-alone", "b-200-version-2"), ("200-alone", "b-version-2"), ("five-bytes", "b-version-3"), ("codes-equal", "b-version-3"),
        *((t, r) for r in ("b-5-across-version-2", "b-version-2", "b-version-3")
          for t in ("firm-1-alone", "firm-2-alone", "shared", "shared-firm-1-faulty", "shared-firm-2-faulty")),
    ]
    lines = {pair: line(engineer.load(tables[pair[0]]), records[pair[1]]) for pair in pairs}
    for_firms = {(firm, *pair): line(engineer.load_for(firm, tables[pair[0]]), records[pair[1]]) for firm in FIRM_NUMBERS for pair in pairs}
    # the same entries alone and shared, whatever the other firm's are
    for _, record in filter(lambda pair: pair[0] == "shared", pairs):
        for firm in (1, 2):
            same = {for_firms[firm, t, record] for t in ("shared", "shared-firm-%d-faulty" % (3 - firm))} | {lines["firm-%d-alone" % firm, record]}
            if len(same) != 1:
                sys.exit("%s: firm %d: %s" % (record, firm, same))
    for kind, told in (("1-hardwood-900", ("11480", "11481")), ("1-softwood-900", ("9645", "9646"))):
        capacity = lines[kind, "b-across"].split(",")[1].split()[8]
        if capacity not in told:
            sys.exit("%s: capacity %s, 02 says %s" % (kind, capacity, " or ".join(told)))
    data = HERE / "data"
    data.mkdir(exist_ok=True)
    for old in data.iterdir():
        old.unlink()
    used = {name for pair in pairs for name in pair}
    for name, content in [*tables.items(), *records.items()]:
        if name not in used:
            sys.exit("%s is not used" % name)
        (data / name).write_bytes(content)
    (HERE / "args").write_text("".join("%s\n%s\n" % pair for pair in pairs))
    (HERE / "stdout").write_text("".join(
        "%s %s: %s\n" % (*pair, text) + "".join("    firm %d: %s\n" % (firm, for_firms[(firm, *pair)]) for firm in FIRM_NUMBERS)
        for pair, text in lines.items()))


if __name__ == "__main__":
    main()
