#!/usr/bin/env python3
"""Writes data/, args and stdout of this folder: joints, each drawn in six ways (02, A8), and the line of each six.

Refusals come from the reference engineer. Figures are worked out with exact integers, as judge_records/make_lines.py does, and are held to
the engineer's brackets. Nothing here takes it for granted that two drawings are answered alike: each is judged by itself.
"""
import pathlib
import sys

HERE = pathlib.Path(__file__).resolve().parent
ROOT = HERE.parent.parent
sys.path[:0] = [str(ROOT / "tests" / "engineer"), str(ROOT / "crates" / "judge_records")]
import drawn  # noqa: E402
import make_lines  # noqa: E402
import records  # noqa: E402

VERDICTS = {"refused": 0, "fits": 1, "overloaded": 2}


def drawings(record):
    """(name, record) of a joint as first drawn, relisted, moved as far as its coordinates allow, mirrored, and all of these."""
    first = drawn.drawing_of(record)
    v = first.values
    (left, right), (down, up) = drawn.room(v, 0), drawn.room(v, 1)
    n = len(v["dowels"])
    listed = drawn.Listed(tuple(range(1, n, 2)) + tuple(range(0, n, 2)))
    moved, mirrored = drawn.Moved(right, down), [drawn.Mirrored(0), drawn.Mirrored(1)]
    yield "", record
    yield "-relisted", drawn.write(listed.of(first))
    yield "-moved", drawn.write(moved.of(first))
    yield "-mirrored-x", drawn.write(mirrored[0].of(first))
    yield "-mirrored-y", drawn.write(mirrored[1].of(first))
    yield "-all", drawn.write(drawn.steps_of(first, [listed, mirrored[0], drawn.Moved(-right, up), mirrored[1]])[-1])


def report(record):
    """Verdict, number, member, first, second, use, capacity, share."""
    word, *numbers = make_lines.line(record).split()
    numbers = [int(it) for it in numbers]
    return [VERDICTS[word]] + (numbers + [0, 0, 0] if word == "refused" else [0, 0, 0, 0] + numbers)


def unnamed(numbers):
    return numbers[:3] + numbers[5:]


def joints():
    samples = {path.stem: path.read_bytes() for path in (ROOT / "examples").glob("*.rec")}
    for name in ("joint-b", "force-27000", "lone-dowel", "oak-post", "out-of-line", "eurocode-b", "loaded-edge-v1", "pair-504"):
        yield name, samples[name]
    rows = dict(records.row_joints())
    for name in ("hair-stair", "steps-100", "long-stair", "closest-pair", "crossed-square-x-y-12000-16000", "crossed-angle-y-x-16000-12000"):
        yield "rows-" + name, rows["rows-" + name]
    # 8 by 8
    yield "crossed-grid", dict(records.cost_joints())["8 by 8, crossed grains"]
    # refused by 10, 11 and 12, in member 1 and in member 2
    for name in ("dowels-599", "pair-503", "member-2-end-1439", "member-1-edge-719", "loaded-edge"):
        yield name, samples[name]
    read = ROOT / "crates" / "read_records" / "data"
    for name in ("end-before-edge", "m1-edge-before-m2-end", "edge-crossed-320-359", "edge-m1-grain-1--4-3-319", "b-version-2-across-end"):
        yield name, (read / name).read_bytes()
    wide = (-90000, -90000, 90000, 90000)
    apart = records.drawn_b([(0, 0), (5000, 0), (5500, 0)], wide, wide)
    apart["members"][0]["grain"] = 1
    yield "pair-of-member-2", records.write(apart)


def main():
    names, lines = [], []
    (HERE / "data").mkdir(exist_ok=True)
    for old in (HERE / "data").iterdir():
        old.unlink()
    for name, record in joints():
        first = report(record)
        line = "%s: %s" % (name, " ".join(map(str, first)))
        for way, other in drawings(record):
            names.append(name + way)
            (HERE / "data" / names[-1]).write_bytes(other)
            if way:
                numbers = report(other)
                line += ", same" if unnamed(numbers) == unnamed(first) else ", another"
                line += " %d %d" % tuple(numbers[3:5]) if numbers[3] else ""
        lines.append(line)
    (HERE / "args").write_text("".join(name + "\n" for name in names))
    (HERE / "stdout").write_text("".join(line + "\n" for line in lines))


if __name__ == "__main__":
    main()
