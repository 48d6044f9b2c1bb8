"""Frames of recordings, altered so that the standard's mode is asked where it is its own: a smaller first partition, a map flag without
feature data, flipped bits in the header's first bytes, a cut end. The same seed and recordings give the same frames."""
import random

import frames


def cut_partition(draw, frame):
    """A smaller first_part_size, mostly so small that the header runs past it."""
    first = len(frames.first_partition(frame))
    most = draw.choice((0, 1, 2, 4, 8, 16, 32, 64, first))
    return frames.with_first(frame, draw.randint(0, min(most, first)))


def map_without_data(draw, frame):
    """The first bits of the header are coded at 128, and so stand in its first byte nearly as they are read."""
    at = frames.chunk(frame).size
    if len(frame) <= at:
        return frame
    byte = 0x30 | frame[at] & 0x07 if frames.chunk(frame).key else 0xC0 | frame[at] & 0x1F
    return frame[:at] + bytes([byte]) + draw.randbytes(draw.randint(0, 3)) + frame[at + 1:]


def flip_bits(draw, frame):
    """Flips within the first bytes of the header."""
    at, out = frames.chunk(frame).size, bytearray(frame)
    for _ in range(draw.randint(1, 6)):
        place = at + draw.randrange(draw.choice((1, 2, 8, 24)))
        if place < len(out):
            out[place] ^= 1 << draw.randrange(8)
    return bytes(out)


def cut_end(draw, frame):
    """Fewer bytes, mostly from within the last partition or the size bytes."""
    c = frames.chunk(frame)
    least = draw.choice((0, c.size, c.size + c.first))
    return frame[:draw.randint(min(least, len(frame)), len(frame))]


def end_partition(draw, frame):
    """The frame ends with its first partition, or just after it."""
    c = frames.chunk(frame)
    return frame[:c.size + c.first + draw.choice((0, 0, 1, 2, 3))]


def begin_with_ff(draw, frame):
    at = frames.chunk(frame).size
    return frame[:at] + b"\xff" + frame[at + 1:]


def other_tag(draw, frame):
    """Another version, or shown where it was not."""
    return bytes([frame[0] ^ draw.choice((2, 4, 8, 16))]) + frame[1:]


def other_size(draw, frame):
    """A width or a height of 0 in a key frame."""
    if not frames.chunk(frame).key or len(frame) < 10:
        return frame
    at = draw.choice((6, 8))
    return frame[:at] + bytes([0, frame[at + 1] & 0xC0]) + frame[at + 2:]


# Each with how often it is drawn.
WAYS = ((cut_partition, 9), (map_without_data, 6), (flip_bits, 5), (cut_end, 2), (end_partition, 1), (begin_with_ff, 1), (other_tag, 1),
        (other_size, 1))


def alter(draw, frame):
    for way in draw.choices([w for w, _ in WAYS], [n for _, n in WAYS], k=draw.choice((1, 1, 2, 3))):
        if len(frame) >= 3:
            frame = way(draw, frame)
    return frame[:frames.LONGEST]


def sequences(recordings, count, seed):
    """That many altered frames in sequences of 1 to 6, each a part of a recording; now and then a frame stays as it is."""
    draw = random.Random(f"altered {seed}")
    while count > 0:
        recording = draw.choice(recordings)
        at = 0 if draw.random() < 0.4 else draw.randrange(len(recording))
        part = recording[at:at + draw.randint(1, min(6, count))]
        count -= len(part)
        yield [f if draw.random() < 0.15 else alter(draw, f) for f in part]
