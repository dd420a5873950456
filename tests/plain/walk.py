"""A campaign as plain lists keep it: what the rules make of what happened, worked out anew."""

DOCS = "abcdefgh"
CUTOFFS = [5, 10, 15, 20, 30, 100, 200, 500, 1000]
ONE = 10**15
TERM, TOP_GRADE = 600, 3


class Refused(Exception):
    """What a request is refused for."""


def four_decimals(value):
    tenths = (value + ONE // 20000) // (ONE // 10000)
    return f"{tenths // 10000}.{tenths % 10000:04}"


class Topic:
    """What plain lists keep of a topic."""

    def __init__(self, needed, level):
        self.needed, self.level = needed, level
        self.labels = {}
        self.rulings = {}
        # the documents by the first moment at which they had an effective grade
        self.trail = []

    def labels_on(self, doc):
        """The grades that assessors gave it, whatever was ruled."""
        return [grade for (_, labelled), grade in self.labels.items() if labelled == doc]

    def grade(self, doc):
        """The effective grade: the ruling, else the one that all labels give, where they are as many as it needs."""
        if doc in self.rulings:
            return self.rulings[doc]
        grades = self.labels_on(doc)
        return grades[0] if len(grades) == self.needed and len(set(grades)) == 1 else None

    def grades(self):
        return [(doc, self.grade(doc)) for doc in DOCS if self.grade(doc) is not None]

    def follow(self, doc):
        if doc not in self.trail and self.grade(doc) is not None:
            self.trail.append(doc)

    def all_relevant(self, grades):
        return sum(grade >= self.level for _, grade in grades)

    def disagreements(self):
        for doc in DOCS:
            if len(set(self.labels_on(doc))) == 2 and doc not in self.rulings:
                yield doc

    def cell(self, ranked, graded):
        """The numbers and the measures of a ranked list by these grades, in units of 10^-15."""
        grades = dict(graded)
        all_relevant = self.all_relevant(graded)
        least = min(all_relevant, len(grades) - all_relevant)
        hits = [rank for rank, doc in enumerate(ranked, 1) if grades.get(doc, 0) >= self.level]
        lower = [rank for rank, doc in enumerate(ranked, 1) if grades.get(doc, TOP_GRADE) < self.level]
        within = lambda ranks, most: sum(rank <= most for rank in ranks)
        precise = sum(within(hits, rank) * (ONE // rank) for rank in hits)
        preferred = sum(least - min(least, within(lower, rank)) for rank in hits) if least else len(hits)
        over = lambda part, whole: part * ONE // whole if whole else 0
        values = [
            ("map", precise // all_relevant if all_relevant else 0),
            ("Rprec", over(within(hits, all_relevant), all_relevant)),
            ("bpref", over(preferred, all_relevant * (least or 1))),
            ("recip_rank", over(1, hits[0]) if hits else 0),
            *((f"P_{k}", over(within(hits, k), k)) for k in CUTOFFS),
        ]
        return [("num_ret", len(ranked)), ("num_rel", all_relevant), ("num_rel_ret", len(hits))], values


class Walk:
    """Topics as plain lists keep them, in the order of their ids."""

    def __init__(self, depth, hold, topics):
        self.depth, self.hold, self.topics = depth, hold, topics
        # the runs by number, each with who submitted it and its documents by topic
        self.names, self.groups, self.rankings = [], [], []
        self.withdrawn = set()
        self.leases = []
        self.now = 1000

    def live_runs(self):
        return [run for run in range(len(self.rankings)) if run not in self.withdrawn]

    def held(self, run, topic):
        return self.rankings[run].get(topic, "")[: self.depth]

    def comes_before(self, topic, first, second):
        """The last document of the trail that has a grade and that one of the two holds alone decides, else the entries."""
        its = self.topics[topic]
        for doc in reversed(its.trail):
            grade = its.grade(doc)
            if grade is not None and (doc in self.held(first, topic)) != (doc in self.held(second, topic)):
                return (doc in self.held(first, topic)) == (grade >= its.level)
        return first < second

    def is_live(self, lease, now):
        return not lease["ended"] and now < lease["until"]

    def is_open(self, topic, doc, who, now):
        its = self.topics[topic]
        takers = [assessor for assessor, labelled in its.labels if labelled == doc]
        leases = [lease for lease in self.leases if lease["topic"] == topic and lease["doc"] == doc]
        takers += [lease["who"] for lease in leases if self.is_live(lease, now)]
        return who not in takers and len(takers) < its.needed and its.grade(doc) is None

    def first_open(self, topic, run, who, now):
        return next((doc for doc in self.held(run, topic) if self.is_open(topic, doc, who, now)), None)

    def named(self, topic, who, now):
        """The first open document of the run that comes before each other one with an open document."""
        runs = [run for run in self.live_runs() if self.first_open(topic, run, who, now)]
        for run in runs:
            if all(self.comes_before(topic, run, other) for other in runs if other != run):
                return self.first_open(topic, run, who, now)
        raise Refused("NothingLeft")

    def order(self):
        """The live runs on the topic 1, each behind those that come before it, with its mean of precisions."""
        runs = self.live_runs()
        how_many_before = lambda run: sum(self.comes_before("1", other, run) for other in runs if other != run)
        means = lambda run: dict(self.summary(run)[1])["map"]
        return "".join(f"{run} {means(run)}|" for run in sorted(runs, key=how_many_before))

    def counted(self):
        return [topic for topic, its in self.topics.items() if its.grades()]

    def cell(self, run, topic):
        its = self.topics[topic]
        return its.cell(self.rankings[run].get(topic, ""), its.grades())

    def summary(self, run):
        """The sums of the numbers and the means of the measures over the topics that have a grade."""
        cells = [self.cell(run, topic) for topic in self.counted()]
        sums = lambda part: [sum(number for _, number in column) for column in zip(*(cell[part] for cell in cells))]
        names = [[name for name, _ in part] for part in Topic(1, 1).cell("", [])]
        numbers = sums(0) or [0] * len(names[0])
        means = [value // len(cells) for value in sums(1)] or [0] * len(names[1])
        return [("num_q", len(cells)), *zip(names[0], numbers)], list(zip(names[1], means))

    def lines(self, run, topic):
        """The printed lines of a run on a topic, or on all."""
        counts, values = self.summary(run) if topic == "all" else self.cell(run, topic)
        printed = [(name, str(count)) for name, count in counts]
        printed += [(name, four_decimals(value)) for name, value in values]
        return [f"{self.names[run]}\t{topic}\t{name}\t{text}" for name, text in printed]
