"""What happened in a run: which processes ran when, what lay in which folder when, what befell links, and what was answered.

Times are seconds since the run began. A thing that happened has two, from before it was begun to after it was done.
"""
import collections
import time

# A folder's files from a change on: when the change began and was done, and the mask of the files then.
Lies = collections.namedtuple('Lies', 'before after mask')
Answer = collections.namedtuple('Answer', 'broker client place sent came status body')
# What a server was seen to show: a node its own mark, a broker the one that it holds of a node.
Seen = collections.namedtuple('Seen', 'sent came server node incarnation count')
NEVER = float('inf')


class Life:
    """A process from its start to its end. A node that lost its folder has fallen where it is started before it is mended."""

    def __init__(self, start, has_fallen, is_mended):
        self.start, self.ready, self.has_fallen, self.is_mended = start, NEVER, has_fallen, is_mended
        self.killed = self.end = NEVER  # From before it was ended to after.
        self.status = None  # Where it ended by itself.

    def __repr__(self):
        return f'life {self.start:.3f} ready {self.ready:.3f} to {self.killed:.3f}{" fallen" if self.has_fallen else ""}'


class History:
    def __init__(self):
        self.begun = time.monotonic()
        self.lines, self.answers, self.seen, self.stalls, self.faults = [], [], [], [], []
        self.lives, self.pauses, self.folders, self.full = (collections.defaultdict(list) for _ in range(4))
        # Links on which something lay: from, to, and the server, or the node and the broker.
        self.links = []
        self.shown_all = collections.defaultdict(list)  # When a broker was first asked and said that it knows all nodes, of each life.

    def now(self):
        return time.monotonic() - self.begun

    def say(self, text):
        self.lines.append((self.now(), text))

    def fault(self, text, at=None):
        """Something that must not be, and when it was."""
        self.faults.append((self.now() if at is None else at, text))

    def life(self, server):
        """The life that goes on, None where none does."""
        life = self.lives[server][-1] if self.lives[server] else None
        return life if life and life.killed == NEVER else None

    def life_at(self, server, one, other):
        """The life that goes on from one time to another, None where none does."""
        return next((it for it in self.lives[server] if it.start <= one and other <= it.killed), None)

    def begins(self, spans):
        spans.append([self.now(), NEVER])

    def ends(self, spans):
        if spans and spans[-1][1] == NEVER:
            spans[-1][1] = self.now()

    def is_disturbed(self, server, one, other):
        """Whether a server did not run from one time to another, or something befell it or its link shortly before or meanwhile."""
        life = self.life_at(server, one, other)
        links = [(begin, end) for begin, end, whom, _ in self.links if whom == server]
        return not life or life.ready > one or overlap([*links, *self.pauses[server]], one - 2, other)

    def stall_near(self, at):
        """How late threads woke, or servers answered that nothing befell, in the seconds around a time: the machine had other things to do."""
        return max((late for when, late in self.stalls if at - 3 <= when <= at + 1), default=0)

    def text(self, one, other):
        """What happened from one time to another, for a person."""
        return '\n'.join(f'  {at:8.3f}  {text}' for at, text in sorted(self.lines) if one <= at <= other)


def overlap(spans, one, other):
    return any(begin <= other and end >= one for begin, end in spans)
