"""What a run of tests/peers counts and says: frames of each kind, expected differences of each kind, and what is apart."""
import collections

HEX = ("st", "modes", "mv", "coeff")
SHOWN = 12


def both(field, ours, theirs):
    """The two values of a field; of a row of numbers the first that differs."""
    if field not in HEX or ours is None or theirs is None or len(ours) != len(theirs):
        return f"{field}: port {ours}, wanted {theirs}"
    a, b = bytes.fromhex(ours), bytes.fromhex(theirs)
    places = [i for i in range(len(a)) if a[i] != b[i]]
    return f"{field}: {len(places)} numbers differ, first number {places[0]}: port {a[places[0]]}, wanted {b[places[0]]}"


class Tally:
    def __init__(self):
        self.kinds = collections.Counter()
        self.expected = collections.defaultdict(set)
        self.compared = collections.Counter()
        self.again = collections.Counter()
        self.judged = set()
        self.parted = set()

    def judge(self, case, reader, again=False):
        """A frame that a reader judges; whether it had to be asked again."""
        self.compared[reader] += 1
        self.again[reader] += again
        self.judged.add(case.where)

    def expect(self, case, kind):
        """A frame with an expected difference; one that a frame shows twice counts once."""
        self.expected[kind].add(case.where)

    def apart(self, case, reader, text):
        """One more difference that nothing explains; the first few are shown."""
        self.parted.add(case.where)
        if len(self.parted) <= SHOWN:
            more = " .." if len(case.frame) > 24 else ""
            print(f"apart: {case.where}, {reader}: {text}; frame {case.frame[:24].hex(' ')}{more}", flush=True)

    def say(self, must):
        """The counts; whether nothing is apart and no kind is lacking that has to occur."""
        print("frames of each kind:")
        for kind, count in sorted(self.kinds.items()):
            print(f"{count:9}  {kind}")
        print("expected differences, each with its frames:")
        for kind, where in sorted(self.expected.items()):
            print(f"{len(where):9}  {kind}")
        for reader, count in self.compared.items():
            print(f"{reader}: {count} frames compared, {self.again[reader]} of them asked again without what it stops at")
        lacking = [kind for kind in must if not self.kinds[kind]]
        for kind in lacking:
            print(f"lacking: no frame of the kind: {kind}")
        print(f"{len(self.judged)} frames compared, {len(self.parted)} apart")
        return not self.parted and not lacking
