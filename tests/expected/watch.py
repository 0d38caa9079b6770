"""Histories of the alarm watch."""
from readings import WORDS


class Watch:
    """The alarm watch; each step is printed, and answers whether pending is on."""

    def __init__(self, behaviour, silent=False):
        self.behaviour, self.hot, self.pending = behaviour, False, False
        if not silent:
            self.show("new")

    def show(self, what):
        output = self.hot if self.behaviour == "comparator" else self.pending
        facts = tuple("on" if fact else "off" for fact in (self.hot, self.pending, output))
        print("watch %s %s hot %s pending %s output %s" % ((self.behaviour, what) + facts))
        return self.pending

    def take(self, steps, high, hysteresis):
        was = self.hot
        if steps > 16 * high:
            self.hot = True
        elif steps < 16 * hysteresis:
            self.hot = False
        if self.behaviour == "default" and self.hot:
            self.pending = True
        if self.behaviour == "one-time" and self.hot and not was:
            self.pending = True

    def sample(self, steps, high=80, hysteresis=75):
        what = "limits %d %d sample %d" % (high, hysteresis, steps)
        if steps not in WORDS[12]:
            return self.show(what + " refused 12")
        self.take(steps, high, hysteresis)
        return self.show(what)

    def run(self, samples):
        """The samples in turn, with the limits 80 and 75; one that is refused changes nothing. Shown once, at the end."""
        for steps in samples:
            if steps in WORDS[12]:
                self.take(steps, 80, 75)
        return self.show("limits 80 75 run" + "".join(" %d" % steps for steps in samples))

    def acknowledge(self):
        self.pending = False
        return self.show("acknowledge")


# Whether pending is on in the paper's history, as its starred figure says; in comparator never.
PENDING = {
    "default": [True, True, False, True],
    "one-time": [True, True, False, False],
    "comparator": [False, False, False, False],
}


def watch_figure(behaviour):
    watch = Watch(behaviour)
    pending = [watch.sample(16 * 81), watch.sample(16 * 78), watch.acknowledge(), watch.sample(16 * 78)]
    assert pending == PENDING[behaviour]


def watch_at_the_limits(behaviour):
    watch = Watch(behaviour)
    for steps, hot in ((1280, False), (1281, True), (1280, True), (1200, True), (1199, False), (1200, False)):
        watch.sample(steps)
        assert watch.hot == hot


def watch_at_the_ends(behaviour):
    watch = Watch(behaviour)
    for end in (2047, -2048):
        for steps in (2048, -2049, 32767, -32768):
            watch.sample(steps)
        watch.sample(end)


def watch_limits_crossed(behaviour):
    watch = Watch(behaviour)
    for steps in (1200, 1201, 1279, 1200):
        watch.sample(steps, 75, 80)


def watch_second_alarm(behaviour):
    watch = Watch(behaviour)
    for _ in range(2):
        watch.sample(1296)
        watch.acknowledge()
    watch.sample(1199)
    watch.sample(1296)


# Runs, and whether it is hot at their end: with a refused sample inside; then those that end between the limits, below both, and exactly at each.
RUNS = (
    ((1296, 1248, 2048, 1199, 1281), True),
    ((1296, 2048, 1199), False),
    ((1296, -2049, 1248), True),
    ((1199, 2048, 1248), False),
    ((1199, 1296, 1248), True),
    ((1296, 1199, 1248), False),
    ((1296, 1248, 1199), False),
    ((1248, 1199), False),
    ((1281, 1199, 1280), False),
    ((1199, 1281, 1200), True),
)


def watch_runs(behaviour):
    for samples, hot in RUNS:
        watch = Watch(behaviour, silent=True)
        watch.run(samples)
        assert watch.hot == hot


def watch_figure_in_runs(behaviour):
    watch = Watch(behaviour, silent=True)
    pending = [watch.run((1296, 1248)), watch.acknowledge(), watch.run((1248,))]
    assert pending == PENDING[behaviour][1:]


def watches():
    for behaviour in PENDING:
        watch_figure(behaviour)
        watch_at_the_limits(behaviour)
        watch_at_the_ends(behaviour)
        watch_limits_crossed(behaviour)
        watch_second_alarm(behaviour)
        watch_runs(behaviour)
        watch_figure_in_runs(behaviour)
