"""What is done to a cluster, and when, drawn from a seed."""
import collections
import random

from data import DAYS, draw_files

SECONDS = 8.0  # For how long faults begin.
BROKERS = 2

# At so many seconds a thing is done to a server, with words that say how.
Step = collections.namedtuple('Step', 'at what server words')

# How often each fault is drawn, and for how many seconds it lasts at most.
PROCESS_FAULTS = {'kill': (5, 1.2), 'pause': (4, 1.2), 'lose': (1, .8), 'fill': (1, 1.2)}
LINK_FAULTS = {'unplug': (3, 1.2), 'cut': (5, 1.5), 'slow': (3, 1.5), 'drop': (3, 1.5)}


class Plan:
    """A cluster and its schedule: the files, where each lies first, the numbers of the config, and the steps by their times."""

    def __init__(self, seed):
        draw = random.Random(f'chaos {seed}')
        self.seed, self.files = seed, draw_files(draw)
        self.nodes = [f'n{place}' for place in range(draw.randint(3, 5))]
        self.brokers = [f'b{place}' for place in range(BROKERS)]
        self.every, self.watch = draw.choice([40, 80, 150]), draw.choice([40, 80])
        self.patience, self.kept, self.turns = draw.choice([400, 700]), draw.choice([1, 3, 100]), draw.choice([0, 1])
        self.front = draw.choice([0, 0, 16])
        self.first = {node: draw.sample(range(100), 1)[0] + 10 for node in self.nodes}  # The incarnations that were.
        self.there = {node: 0 for node in self.nodes}
        for it in self.files:
            for node in draw.sample(self.nodes, draw.choice([0, 1, 2, 2] if it.version != 'v1' else [1, 2, 2])):
                self.there[node] |= it.bit
        steps = [*draw_faults(draw, self.nodes, self.brokers), *draw_moves(draw, self.nodes, self.files)]
        self.steps = sorted(steps, key=lambda step: step.at)

    def about(self):
        return (f'{len(self.nodes)} nodes, {len(self.files)} files, every {self.every}, watch {self.watch}, patience {self.patience}, '
                f'kept {self.kept}, turns {self.turns}, front {self.front}')


def drawn_kind(draw, kinds):
    return draw.choices(list(kinds), [weight for weight, _ in kinds.values()])[0]


def process_fault(draw, server, at, is_node):
    """Something that befalls a process, and when it is over."""
    kind = drawn_kind(draw, PROCESS_FAULTS if is_node else {kind: PROCESS_FAULTS[kind] for kind in ('kill', 'pause')})
    over = at + draw.uniform(.1, PROCESS_FAULTS[kind][1])
    if kind == 'pause':
        return [Step(at, 'stop', server, ()), Step(over, 'continue', server, ())], over
    if kind == 'kill':
        return [Step(at, 'kill', server, ()), Step(over, 'start', server, ())], over
    if kind == 'fill':  # Its start may be refused meanwhile: then it is started once there is room.
        killed = [Step(at + .1, 'kill', server, ()), Step(at + .2, 'start', server, ())] if draw.random() < .5 else []
        return [Step(at, 'fill', server, ()), *killed, Step(over, 'free', server, ())], over
    mended = over + draw.uniform(.3, 1.5)
    # It is mended before it is started, as it is to be, or started first, below what brokers hold.
    begun = [Step(over, 'start', server, ())] if draw.random() < .5 else []
    return [Step(at, 'kill', server, ()), Step(at + .05, 'lose', server, ()), *begun, Step(mended, 'mend', server, (draw.random() < .6,))], mended


def link_fault(draw, nodes, brokers, at):
    kind = drawn_kind(draw, LINK_FAULTS)
    over = at + draw.uniform(.2, LINK_FAULTS[kind][1])
    server = draw.choice(nodes if kind == 'cut' else [*nodes, *nodes, *brokers])
    words = {'unplug': (), 'cut': (draw.choice(brokers), draw.choice(['to', 'from', 'both'])), 'slow': (draw.choice([8, 16, 64]), draw.choice(['in', 'out'])),
             'drop': (draw.choice([10, 25, 50]),)}[kind]
    return server, kind, [Step(at, kind, server, words), Step(over, f'end {kind}', server, words)], over


def draw_faults(draw, nodes, brokers):
    steps, busy, at = [], collections.defaultdict(float), .5
    while at < SECONDS:
        if draw.random() < .5:
            server = draw.choice([*nodes, *nodes, *brokers])
            if busy[server] < at:
                more, busy[server] = process_fault(draw, server, at, server in nodes)
                steps += more
        else:
            server, kind, more, over = link_fault(draw, nodes, brokers, at)
            if busy[server, kind] < at:
                busy[server, kind] = over
                steps += more
        at += draw.expovariate(.9)
    return steps


def draw_moves(draw, nodes, files):
    """Files that come and go: a version whole, partition by partition, or one file."""
    steps, at = [], .3
    while at < SECONDS:
        node, day = draw.choice(nodes), draw.randrange(DAYS)
        version = draw.choice(['v1', 'v2', 'v2', 'v3', 'v3', 'v4'])
        moved = [it for it in files if (it.day, it.version) == (day, version)]
        if draw.random() < .4:
            moved = [draw.choice(moved)]
        way, gap = draw.choice(['in', 'in', 'out', 'over']), draw.choice([0, .01, .15])
        draw.shuffle(moved)
        for place, it in enumerate(moved):
            steps.append(Step(at + place * gap, way, node, (it.bit,)))
        at += draw.expovariate(3.5)
    return steps
