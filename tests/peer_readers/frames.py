"""Frames and what docs/RULES.md says of them before a header is read, in the standard's mode: the chunk, refusals 1 to 4 with what they
carry and the state they leave, and the sizes of partitions. Also frame records, the form in which frames come and go."""
import collections
import struct

LONGEST = 65536
START_CODE = b"\x9d\x01\x2a"
KEPT = 1126
SEG_MAP, SEG_DATA, DELTAS = 1, 2, 17

Chunk = collections.namedtuple("Chunk", "key first size width height")


def chunk(frame):
    """The uncompressed chunk of a frame that is long enough for it; the size of an inter frame is 0."""
    tag = int.from_bytes(frame[:3], "little")
    key = not tag & 1
    width, height = struct.unpack("<HH", frame[6:10]) if key and len(frame) >= 10 else (0, 0)
    return Chunk(key, tag >> 5, 10 if key else 3, width & 0x3FFF, height & 0x3FFF)


def with_first(frame, first):
    """The frame with another first_part_size."""
    tag = int.from_bytes(frame[:3], "little") & 31 | first << 5
    return tag.to_bytes(3, "little") + frame[3:]


def area(frame):
    return frame[chunk(frame).size:]


def first_partition(frame):
    c = chunk(frame)
    return frame[c.size:c.size + c.first]


def refusal(frame):
    """Refusals 1 to 4: the words that the dump prints for one, or None."""
    c = chunk(frame)
    if len(frame) < 3 or c.key and len(frame) < 6:
        return "err 1"
    if c.key and frame[3:6] != START_CODE:
        return f"err 2 code={int.from_bytes(frame[3:6], 'little')}"
    if len(frame) < c.size:
        return "err 1"
    if c.size + c.first > len(frame):
        return f"err 3 end={c.size + c.first} length={len(frame)}"
    return None if c.first else "err 4"


def left(frame, number, before, fresh):
    """The record that refusals 1 to 4 leave."""
    if number in "12":
        return before
    if chunk(frame).key:
        return fresh
    if number == "3":
        return before
    after = bytearray(before)
    after[SEG_MAP] = after[SEG_DATA] = 0
    return bytes(after)


def partition_sizes(frame, n):
    """The eight entries of partition_size, or None where they do not fit the frame (refusal 5)."""
    rest = area(frame)[chunk(frame).first:]
    coded = [int.from_bytes(rest[3 * i:3 * i + 3], "little") for i in range(n - 1)]
    last = len(rest) - 3 * (n - 1) - sum(coded)
    if len(rest) < 3 * (n - 1) or last < 0:
        return None
    return coded + [last] + [0] * (8 - n)


def read_records(data):
    """Sequences of frames, each over a fresh parser, out of frame records."""
    sequences, at = [], 0
    while at < len(data):
        (size,) = struct.unpack_from("<I", data, at)
        at += 4
        if size == 0xFFFFFFFF:
            sequences.append([])
            continue
        sequences[-1].append(data[at:at + size])
        at += size
    return [frames for frames in sequences if frames]


def write_records(sequences):
    return b"".join(b"\xff" * 4 + b"".join(struct.pack("<I", len(f)) + f for f in frames) for frames in sequences)
