#!/usr/bin/env python3
"""Records runs of images with ten seeds each, with the verdict passed over, and replays each journal: a replay is done
wherever a journal was kept. Prints how many journals there were, and the first that is refused.

    bench/recorded.py PROGRAM IMAGE..
"""
import collections
import os
import subprocess
import sys
import tempfile

SEEDS = range(10)
# The statuses of a run's end, under which its journal is kept.
KEPT = (0, 5, 6, 7)


def main():
    program, images = sys.argv[1], sys.argv[2:]
    counts = collections.Counter()
    with tempfile.TemporaryDirectory() as folder:
        journal = os.path.join(folder, "journal")
        for image in images:
            for seed in SEEDS:
                words = ["record", "--force", "--steps", "100000", "--seed", str(seed), image, journal]
                recorded = subprocess.run([program, *words], input=b"some input\n", capture_output=True)
                counts[recorded.returncode] += 1
                if recorded.returncode not in KEPT:
                    continue
                replayed = subprocess.run([program, "replay", image, journal], capture_output=True)
                if replayed.returncode != 0:
                    sys.exit(f"{image}, seed {seed}: {replayed.stderr.decode()}")
    print(f"{sum(counts[s] for s in KEPT)} journals replayed; statuses of record: {dict(sorted(counts.items()))}")


if __name__ == "__main__":
    main()
