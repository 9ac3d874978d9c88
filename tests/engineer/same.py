"""same.py OLD.so NEW.so [--count N] [--seed S] [--version V]: whether two libraries give the same line for every record, or for
those of a version.

For a change that must change no answer. Prints the first records that differ and a summary; exit status 1 if any does.
"""
import argparse
import sys

import judge
import records

words = argparse.ArgumentParser()
words.add_argument("old")
words.add_argument("new")
words.add_argument("--count", type=int, default=100000)
words.add_argument("--seed", type=int, default=1)
words.add_argument("--version", type=int, help="records of this version only")
asked = words.parse_args()

old, new = judge.Library(asked.old), judge.Library(asked.new)
done = differ = accepted = 0
for label, data in records.stream(asked.seed, asked.count):
    if asked.version is not None and int.from_bytes(data[:2], "little") != asked.version:
        continue
    before, after = old.judge(data), new.judge(data)
    done += 1
    accepted += not before.startswith("refused")
    if before != after:
        differ += 1
        if differ <= 5:
            print("record %d (%s): %s, then %s" % (done - 1, label, before.strip(), after.strip()))
print("%d records, seed %d, %d accepted, %d answers differ" % (done, asked.seed, accepted, differ))
sys.exit(1 if differ else 0)
