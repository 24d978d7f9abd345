"""How late frames came, from what bench/c/paced.c noted of a run, and what held up those that came too late."""
import array
import enum
from bisect import bisect_left
from collections import Counter
from statistics import median

# The bounds that are told, in microseconds.
BOUNDS = (25, 50, 75, 100, 125, 250, 500, 1000, 10000)
# A note's words: when the controller's frame was put, missed and there, the same of the copier's, and the worker's time.
WORDS = 7
# A frame that came so many nanoseconds before the next is due ends a stretch: shortly after that the worker's time is read.
CALM = 20_000
# The pacer feeds and looks within so many nanoseconds where nothing holds it up.
LOOK = 10_000


class Cause(enum.Enum):
    """Without what a late frame would have been in time: the first that holds."""

    PACER = "the pauses that the pacer saw in itself"
    COPIER = "those and the time in which a frame of the copier was overdue"
    PROCESSOR = "the time in which its worker had no processor, by the system's account"
    NONE = "none of these, so perhaps by the program's own doing"


class Line:
    """When each frame of a line was put, last looked for in vain, and there: in nanoseconds behind the moment at which it was due."""

    def __init__(self, words, behind, period):
        (self.put, self.missed, self.came), self.behind, self.period = words, behind, period

    def due(self, number):
        return number * self.period + self.behind

    def unseen(self):
        """Times in which the pacer neither put a frame that was due nor looked for it."""
        for number, (put, missed, came) in enumerate(zip(self.put, self.missed, self.came)):
            due = self.due(number)
            yield due, due + put
            yield due + max(missed, put), due + came

    def overdue(self):
        """Times in which a frame wasn't there that mostly is by then."""
        usual = int(median(self.came))
        for number, came in enumerate(self.came):
            yield self.due(number) + usual, self.due(number) + came


class Pauses:
    """Spans of time, merged where they meet; those that aren't longer than so many nanoseconds are left out."""

    def __init__(self, spans, least):
        self.begins, self.ends, self.sums = [], [-1], [0]
        for begin, end in sorted(span for span in spans if span[1] - span[0] > least):
            begin = max(begin, self.ends[-1])
            if end > begin:
                self.begins.append(begin)
                self.ends.append(end)
                self.sums.append(self.sums[-1] + end - begin)

    def before(self, moment):
        """How much of them lies before the moment."""
        count = bisect_left(self.begins, moment)
        return self.sums[count] - max(self.ends[count] - moment, 0)

    def within(self, begin, end):
        return self.before(end) - self.before(begin)


class Lateness:
    """The frames of a run all of which came, one each so many nanoseconds, on the program's line and half a period behind it on the copier's."""

    def __init__(self, path, period):
        words = array.array("q")
        with open(path, "rb") as file:
            words.frombytes(file.read())
        columns = [words[at::WORDS] for at in range(WORDS)]
        self.period, self.count = period, len(columns[0])
        self.program, self.copier = Line(columns[0:3], 0, period), Line(columns[3:6], period // 2, period)
        unseen = [*self.program.unseen(), *self.copier.unseen()]
        self.of_pacer, self.of_both = Pauses(unseen, LOOK), Pauses([*unseen, *self.copier.overdue()], LOOK)
        self.alone, self.firsts, self.most = self.own_times(columns[6])

    def stretches(self):
        """Frames that came close behind each other: the first one's number, and the next one's behind the last."""
        first = 0
        for number, came in enumerate(self.program.came, 1):
            if came <= self.period - CALM or number == self.count:
                yield first, number
                first = number

    def own_times(self, ran):
        """The worker's times of frames that came alone; the first frame of each one's stretch; and the most that each frame can have taken of the
        worker's time: all that its stretch took above the usual. What the worker did before the first frame counts as that one's."""
        spans = [(first, end, ran[end - 1] - (ran[first - 1] if first else 0)) for first, end in self.stretches()]
        alone = [own for first, end, own in spans if first and end - first == 1]
        usual, firsts, most = int(median(alone or [0])), [], []
        for first, end, own in spans:
            firsts += [first] * (end - first)
            most += [own - (end - first - 1) * usual] * (end - first)
        return alone, firsts, most

    def late(self, line):
        return [number for number in range(self.count) if self.is_late(line, number)]

    def is_late(self, line, number):
        return 0 <= number < self.count and line.came[number] > self.period

    def cause(self, number):
        """What held up a late frame of the program, since the first frame of its stretch was due."""
        begin, end = self.program.due(self.firsts[number]), self.program.due(number) + self.program.came[number]
        in_time = self.program.due(number) + self.period
        if end - self.of_pacer.within(begin, end) <= in_time:
            return Cause.PACER
        if end - self.of_both.within(begin, end) <= in_time:
            return Cause.COPIER
        return Cause.PROCESSOR if self.most[number] <= self.period - CALM else Cause.NONE

    def copier_alone(self):
        """How many frames of the copier were late between two of the program that weren't."""
        return sum(not self.is_late(self.program, number) and not self.is_late(self.program, number + 1) for number in self.late(self.copier))


def by_bounds(times):
    """How many times are at most each bound and above the one before it, and how many above all."""
    counts = Counter(bisect_left(BOUNDS, time / 1000) for time in times)
    return [counts[at] for at in range(len(BOUNDS) + 1)]


def table(run):
    """The rows of docs/SPEED.md."""
    columns = [by_bounds(times) for times in (run.program.came, run.copier.came, run.alone)]
    names = [*(f"{bound:,}" for bound in BOUNDS), "more"]
    yield "| microseconds, at most | the program's frames, late by | the copier's | the worker's own time on a frame |"
    yield "|---|---|---|---|"
    yield from (f"| {name} | {' | '.join(f'{count:,}' for count in row)} |" for name, *row in zip(names, *columns))
    largest = (max(times, default=0) / 1000 for times in (run.program.came, run.copier.came, run.alone))
    yield f"| the most | {' | '.join(f'{time:,.0f}' for time in largest)} |"


def told(run):
    """What would have had the program's late frames in time, and how many were late, in plain words."""
    late = run.late(run.program)
    causes = Counter(run.cause(number) for number in late)
    yield "late frames of the program would have been in time without"
    yield from (f"  {causes[cause]:,} {cause.value}" for cause in Cause)
    yield f"{run.copier_alone():,} of the copier were late between two of the program that weren't"
    yield f"of {run.count:,} frames {len(late):,} of the program were late, and {len(run.late(run.copier)):,} of the copier"
