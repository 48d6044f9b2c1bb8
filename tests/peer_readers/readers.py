"""The two readers, and when a frame's answers agree. A case is a frame, where it stands, the record before it and the port's line. Each
reader is given the record that the port had before the frame, so that each frame is judged on its own."""
import struct
import subprocess

import frames
from tally import both

HEADER = ("key ver show chunk first w h hs vs cs ct ft lvl sharp n log2 parts q rep rl rg ra cg ca sg sa skip psf pi pl pg modes mv coeff "
          "range value count").split()

def ask(program, pairs):
    """A line of a reader for each record and frame."""
    data = b"".join(record + struct.pack("<I", len(frame)) + frame for record, frame in pairs)
    said = subprocess.run([program], input=data, stdout=subprocess.PIPE, check=True).stdout.decode().splitlines()
    if len(said) != len(pairs):
        raise SystemExit(f"{program}: {len(said)} lines for {len(pairs)} frames")
    return said


def words(line):
    """The keys of a line and their values."""
    return dict(word.split("=", 1) for word in line.split(" ") if "=" in word)


def outcome(line):
    """`ok`, or `err` and its number."""
    return " ".join(line.split(" ", 2)[:2]) if line.startswith("err ") else line.split(" ", 1)[0]


def listed(numbers):
    return ",".join(map(str, numbers))


class Rfc:
    """The program printed in RFC 6386, built twice: plain, as printed, and counted, which counts bools and doublings and drops a bit
    that reaches 256. Both builds have to say the same, but where that bit arises."""

    name = "the RFC's program"
    SHORT = "RFC: a frame under 10 bytes is refused"
    NO_REST = "RFC: a frame that ends with its first partition is refused"
    SIZE_0 = "RFC: a width or height of 0 is refused"
    VERSION = "RFC: a version above 3 is refused"
    RESERVED = "RFC: color space or clamping type 1 is refused"
    EMPTY = "RFC: an empty first partition is read as zeros; the port refuses with 4"
    ONE_BYTE = "RFC: a first partition of one byte is read as zeros"
    DELTA = "RFC: a filter delta without its flag becomes 0; the port keeps it"
    DROPPED = "RFC: a first partition that begins with FF keeps a bit that reaches 256 (D5)"
    ABOUT = """the program printed in RFC 6386 (section 20), cut out of the RFC's text. Compared: the outcome, every field of the header,
  the decoder's range, value and count, and the 1,126 kept numbers; header_size, the bits past the end and the number of bools by a
  second build, in which one line counts and the value has two bytes. Expected differences, each checked and counted:
  - it makes a filter delta without its flag 0; the RFC's prose (9.4), libvpx, the Rust and the port keep it
  - it reads an empty first partition as zeros; the port refuses with 4. It reads one of one byte as zeros too, and is asked again
    with a zero after that byte
  - a bit that reaches 256 stays in its wider value (D5); there the second build is the judge
  - it refuses versions above 3, and color space or clamping type 1, and is let go on; it refuses a size of 0, frames under 10 bytes
    and frames that end with their first partition, and is asked again without the cause
  - it stops at partitions that run past the frame before it reads the rest of the header; the port (refusal 5) keeps what the whole
    header wrote, and the program is asked again with partitions that fit"""

    def __init__(self, plain, counted, tally):
        self.plain, self.counted, self.tally = plain, counted, tally
        said = subprocess.run([plain, "start"], stdout=subprocess.PIPE, check=True).stdout.decode()
        self.fresh = bytes.fromhex(words(said.strip())["st"])

    def judge(self, cases):
        lines = self.both_builds(cases, [case.frame for case in cases])
        again = [i for i, case in enumerate(cases) if not frames.refusal(case.frame) and self.wants_opening(case.frame, lines[i])]
        said = self.both_builds([cases[i] for i in again], [opened(cases[i].frame) for i in again])
        reopened = dict(zip(again, said))
        for i, case in enumerate(cases):
            self.tally.judge(case, self.name, i in reopened)
            self.as_it_stands(case, lines[i])
            told = frames.refusal(case.frame)
            if told:
                self.refused(case, told, lines[i])
            else:
                self.read(case, lines[i], reopened.get(i))

    def both_builds(self, cases, given):
        """The counted build's lines, after the plain one has said the same."""
        pairs = [(case.before, frame) for case, frame in zip(cases, given)]
        plain, counted = ask(self.plain, pairs), ask(self.counted, pairs)
        for case, a, b in zip(cases, plain, counted):
            if a.partition(" doublings=")[0] == b.partition(" doublings=")[0]:
                continue
            if frames.first_partition(case.frame)[:1] == b"\xff":
                self.tally.expect(case, self.DROPPED)
            else:
                self.tally.apart(case, self.name, f"its two builds part: {a[:60]} .. {b[:60]} ..")
        return counted

    def wants_opening(self, frame, line):
        return not line.startswith("ok ") or frames.chunk(frame).first == 1

    def stop(self, frame):
        """How the program stops at the chunk: its code and, for what only it refuses, the difference; or None."""
        c = frames.chunk(frame)
        if len(frame) < 10:
            return "7", self.SHORT
        if len(frame) <= c.size + c.first:
            return "7", self.NO_REST
        if c.key and frame[3:6] != frames.START_CODE:
            return "5", None
        if c.key and not (c.width and c.height):
            return "5", self.SIZE_0
        return None

    def as_it_stands(self, case, line):
        """That the program stops at the chunk just where it is known to."""
        stop = self.stop(case.frame)
        stopped = line.split(" ")[1] if line.startswith("stop ") and "Truncated" not in line else None
        if stopped != (stop and stop[0]):
            self.tally.apart(case, self.name, f"it was to stop at the chunk with {stop}, and said {line[:60]}")

    def refused(self, case, told, line):
        """Refusals 1 to 4, which follow from the chunk alone."""
        number = told.split(" ")[1]
        want = f"{told} st={frames.left(case.frame, number, case.before, self.fresh).hex()}"
        if case.port != want:
            self.compare(case, outcome(want), words(want))
        if line.startswith("ok "):
            self.tally.expect(case, self.EMPTY)

    def read(self, case, line, reopened):
        """A header that is read to its end: accepted, or refused with 5."""
        says = reopened or line
        if not says.startswith("ok "):
            self.tally.apart(case, self.name, f"it reads no header: {says[:60]}")
            return
        told, c = words(says), frames.chunk(case.frame)
        sizes = frames.partition_sizes(case.frame, int(told["n"]))
        self.own_sizes(case, line, sizes)
        want = {key: told[key] for key in HEADER}
        want |= {"cols": told["cols"], "rows": told["rows"], "bools": told["bools"]}
        doublings, bits = int(told["doublings"]), 8 * c.first
        want |= {"hsize": str(min(doublings, bits)), "past": str(max(doublings - bits, 0))}
        want["st"] = self.kept(case, told, c.key)
        if reopened:
            want |= self.by_the_chunk(c, sizes)
        self.expect(case, told, sizes is not None)
        self.compare(case, "err 5" if sizes is None else "ok", {"st": want["st"]} if sizes is None else want)

    def own_sizes(self, case, line, sizes):
        """What the program itself says of the partitions, where it reads the frame as it stands."""
        if frames.chunk(case.frame).first == 1:
            return
        if line.startswith("ok "):
            agrees = sizes is not None and words(line)["parts"] == listed(sizes)
        else:
            agrees = sizes is None or "Truncated" not in line
        if not agrees:
            self.tally.apart(case, self.name, f"the partitions are {sizes} by the rules, and it said {line[:60]}")

    def kept(self, case, told, key):
        """The record after the frame as the port has to keep it: the program's, less the deltas that it made 0 without their flag."""
        after, base = bytearray.fromhex(told["st"]), self.fresh if key else case.before
        theirs = bytes(after)
        for i, flag in enumerate(told["flags"]):
            if flag == "0":
                after[frames.DELTAS + i] = base[frames.DELTAS + i]
        if after != theirs:
            self.tally.expect(case, self.DELTA)
        return after.hex()

    def by_the_chunk(self, c, sizes):
        """The fields that opening a frame changes, by the rules."""
        return {"first": str(c.first), "w": str(c.width), "h": str(c.height), "cols": str((c.width + 15) // 16),
                "rows": str((c.height + 15) // 16), "parts": listed(sizes or [])}

    def expect(self, case, told, accepted):
        """Counts what the program reads otherwise, and what it would have refused where the port accepts."""
        first = frames.first_partition(case.frame)
        if len(first) == 1 and first != b"\0":
            self.tally.expect(case, self.ONE_BYTE)
        stop = self.stop(case.frame)
        refuses = ((stop and stop[1], stop), (self.VERSION, "e" in told["noted"]), (self.RESERVED, "r" in told["noted"]))
        for kind, holds in refuses:
            if accepted and holds:
                self.tally.expect(case, kind)

    def compare(self, case, want_outcome, want):
        """Holds the port's line against what it has to be."""
        if outcome(case.port) != want_outcome:
            self.tally.apart(case, self.name, f"outcome: port {outcome(case.port)}, wanted {want_outcome}")
            return
        ours = words(case.port)
        differ = [key for key in sorted(want.keys() | ours.keys()) if ours.get(key) != want.get(key)]
        if differ:
            self.tally.apart(case, self.name, "; ".join(both(key, ours.get(key), want.get(key)) for key in differ[:4]))


def opened(frame):
    """The same header without what the RFC's program stops at: a picture of some size, a first partition of two bytes or more, zeros after
    it being what is read there anyway, and partitions of no bytes behind sizes of 0."""
    c, first = frames.chunk(frame), frames.first_partition(frame).ljust(2, b"\0")
    head = bytearray(frame[:c.size])
    for at, size in ((6, c.width), (8, c.height)):
        if c.key and not size:
            head[at] = 16
    return frames.with_first(bytes(head), len(first)) + first + bytes(22)


class Gst:
    """GStreamer's codecparsers. It reads on past the first partition, and so judges only headers that end within it."""

    name = "GStreamer"
    ABOUT = """GStreamer's codecparsers. Compared, where the port accepts and the header ends within its first partition: every field of the
  header, the snapshot, header_size, and the kept numbers. No difference is expected there. Not tried yet against a real library"""

    def __init__(self, program, tally):
        self.program, self.tally = program, tally
        said = subprocess.run([program, "start"], stdout=subprocess.PIPE, check=True).stdout.decode()
        self.fresh = bytes.fromhex(words(said.strip())["st"])

    def judge(self, cases):
        """A bool depends on the eight bits from the position on, so that many have to be left of the first partition."""
        ended = [case for case in cases if case.port.startswith("ok ") and within(words(case.port))]
        for case, line in zip(ended, ask(self.program, [(case.before, case.frame) for case in ended])):
            self.tally.judge(case, self.name)
            if not line.startswith("ok "):
                self.tally.apart(case, self.name, f"outcome: port ok, reader {line[:60]}")
                continue
            ours, theirs = words(case.port), words(line)
            for key in (key for key in theirs if ours.get(key) != theirs[key]):
                self.tally.apart(case, self.name, both(key, ours.get(key), theirs[key]))


def within(told):
    return int(told["hsize"]) + 8 <= 8 * int(told["first"])
