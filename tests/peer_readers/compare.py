#!/usr/bin/env python3
"""Holds the port, in the standard's mode, against readers that nobody here wrote. tests/peers calls it, and says what is compared.
Call: compare.py COUNT SEED PORT ORACLE STREAMS [rfc=FOLDER] [gst=PROGRAM]
  PORT is a command that reads frame records and prints dump lines; ORACLE the built oracle; FOLDER has rfc-plain and rfc-counted."""
import collections
import glob
import os
import subprocess
import sys

import altered
import frames
import readers
import tally

Case = collections.namedtuple("Case", "where frame before port")
BATCH = 4000
CHUNK = 50000
FEWEST_ALTERED = 2000

# Kinds of frames, by the port's answer; a run in which one of those that must occur has no frame has failed.
MAP_ALONE = "map flag without feature data"
PAST = "header past its first partition"
EMPTY_FIRST = "refused 4, with bytes after the empty first partition"
FF = "header read, and the first partition begins with FF"
MUST_OCCUR = ("accepted", MAP_ALONE, PAST, EMPTY_FIRST, "refused 3", "refused 4", "refused 5")


def port_lines(command, sequences):
    """The port's line of each frame."""
    run = subprocess.run(command, shell=True, input=frames.write_records(sequences), stdout=subprocess.PIPE)
    lines, wanted = run.stdout.decode().splitlines(), sum(map(len, sequences))
    if run.returncode or len(lines) != wanted:
        sys.exit(f"tests/peers: the port ended with {run.returncode}, after {len(lines)} lines for {wanted} frames")
    return lines


def record_after(line):
    """The kept record at the end of a line."""
    record = bytes.fromhex(line.rpartition(" st=")[2]) if " st=" in line else b""
    if len(record) != frames.KEPT:
        sys.exit(f"tests/peers: a line of the port without a record: {line[:80]}")
    return record


def cases(command, named, fresh):
    """A case for each frame of a batch of named sequences."""
    lines = iter(port_lines(command, [sequence for _, sequence in named]))
    for name, sequence in named:
        before = fresh
        for i, frame in enumerate(sequence):
            line = next(lines)
            yield Case(f"{name}, frame {i}", frame, before, line)
            before = record_after(line)


def kinds(case):
    """The kinds that a frame is of."""
    outcome, told = readers.outcome(case.port), readers.words(case.port)
    yield "accepted" if outcome == "ok" else "refused " + outcome.split(" ")[1]
    if outcome == "err 4" and frames.area(case.frame):
        yield EMPTY_FIRST
    if outcome in ("ok", "err 5"):
        after = record_after(case.port)
        if after[frames.SEG_MAP] and not after[frames.SEG_DATA]:
            yield MAP_ALONE
        if frames.first_partition(case.frame)[:1] == b"\xff":
            yield FF
    if outcome == "ok" and int(told["past"]) > 0:
        yield PAST


def batches(named):
    """Sequences in batches, so that a long run needs no more room than a short one."""
    batch, size = [], 0
    for name, sequence in named:
        batch.append((name, sequence))
        size += len(sequence)
        if size >= BATCH:
            yield batch
            batch, size = [], 0
    if batch:
        yield batch


def oracle(program, *words):
    return frames.read_records(subprocess.run([program, *words], stdout=subprocess.PIPE, stderr=subprocess.DEVNULL, check=True).stdout)


def numbered(name, sequences):
    return ((f"{name}, sequence {i}", sequence) for i, sequence in enumerate(sequences))


def sources(count, seed, program, streams):
    """What is compared: a name and its named sequences."""
    files = sorted(glob.glob(os.path.join(streams, "*.ivf")))
    recordings = [(os.path.basename(file), sequence) for file in files for sequence in oracle(program, "records", file)]
    yield "a fresh parser", [("a fresh parser", [b""])]
    yield f"{len(files)} recordings", recordings
    number = max(count, FEWEST_ALTERED)
    yield f"altered, seed {seed}", numbered(f"altered, seed {seed}", altered.sequences([s for _, s in recordings], number, seed))
    while count > 0:
        n = min(count, CHUNK)
        drawn = oracle(program, "gen", "frames", "--seed", str(seed), "--count", str(n), "--streams", streams)
        yield f"drawn, seed {seed}", numbered(f"drawn, seed {seed}", drawn)
        count, seed = count - n, seed + 1


def main():
    count, seed, port, program, streams = sys.argv[1:6]
    given = dict(word.split("=", 1) for word in sys.argv[6:])
    counts, judges = tally.Tally(), []
    if "rfc" in given:
        judges.append(readers.Rfc(os.path.join(given["rfc"], "rfc-plain"), os.path.join(given["rfc"], "rfc-counted"), counts))
    if "gst" in given:
        judges.append(readers.Gst(given["gst"], counts))
    for judge in judges:
        print(f"- {judge.ABOUT}", flush=True)
    for name, named in sources(int(count), int(seed), program, streams):
        before = len(counts.judged)
        for batch in batches(named):
            these = list(cases(port, batch, judges[0].fresh))
            counts.kinds.update(kind for case in these for kind in kinds(case))
            for judge in judges:
                judge.judge(these)
        print(f"{name}: {len(counts.judged) - before} frames", flush=True)
    sys.exit(0 if counts.say(MUST_OCCUR) else 1)


main()
