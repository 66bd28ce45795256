"""What a broker may know, by what lay in folders and which processes ran, and nothing that a program says of itself.

A broker knows of each node what that served at some moment of a window. The window ends with the answer; it begins with the last turn
that the broker has made for sure. For sure it makes turns where it and the node run and nothing lies on the link between them: then one
at least each `every` milliseconds, after a first one that its rests may put off for as long as it has failed before. What a node
serves at a moment is what lay in its folder at a look, of which it makes one at least each `watch` milliseconds that it runs.
"""
import collections

from data import DAYS
from history import NEVER

TURN, LOOK = .25, .25  # For how long a turn, and a look, may last on a machine that has nothing else to do.
STALL = 1 / 3  # Where threads wake late by so much of the patience, a turn need not succeed.

# A broker makes turns with a node from `first` at the latest to `until`, none of which begins before `begin`.
Turns = collections.namedtuple('Turns', 'begin first until')
Window = collections.namedtuple('Window', 'begin is_sure')


def without(one, other, spans):
    """What is left of a time once these are taken away."""
    left = []
    for begin, end in sorted(map(tuple, spans)):
        if begin > one:
            left.append((one, min(begin, other)))
        one = max(one, end)
        if one >= other:
            return left
    return [*left, (one, other)]


class Model:
    def __init__(self, plan, history):
        self.plan, self.history = plan, history
        self.every, self.watch, self.patience = (it / 1000 for it in (plan.every, plan.watch, plan.patience))
        self.turns_known = {}

    def unclear(self, broker, node):
        """When a turn of a broker with a node need not succeed, and whether it may hang then: a node that does not run refuses at once."""
        history = self.history
        runs = sorted((it.ready, it.killed) for it in history.lives[node] if not it.has_fallen and it.ready < NEVER)
        starts, ends = [-NEVER, *(end for _, end in runs)], [*(begin for begin, _ in runs), NEVER]
        links = [(begin, end) for begin, end, whom, _ in history.links if whom in (broker, node, (node, broker))]
        stalls = [(when - late - .1, when + .1) for when, late in history.stalls if late > STALL * self.patience]
        return [(*it, False) for it in zip(starts, ends)] + [(*it, True) for it in [*links, *stalls, *history.pauses[node], *history.pauses[broker]]]

    def turns(self, broker, life, node):
        """When turns are made for sure."""
        if (broker, life, node) not in self.turns_known:
            self.turns_known[broker, life, node] = self.find_turns(broker, life, node)
        return self.turns_known[broker, life, node]

    def find_turns(self, broker, life, node):
        found, failing, spans = [], life.start, self.unclear(broker, node)
        for begin, until in without(life.start, life.killed, [it[:2] for it in spans]):
            # A turn that hangs ends within the patience; the rest after it is no longer than turns have failed, but for two of `every`.
            hang = self.patience if any(hangs and one <= begin and failing <= other for one, other, hangs in spans) else 0
            first = life.ready + self.every if begin == life.start else begin + hang + (begin - failing) + 2 * self.every
            if first + TURN + self.history.stall_near(begin) <= until:
                found.append(Turns(begin, first, until))
                failing = until
        return found

    def window(self, broker, life, node, at):
        """From when on what a broker knows of a node at a time may be."""
        turn, begin = TURN + self.history.stall_near(at), None
        for it in self.turns(broker, life, node):
            if it.first + turn <= min(at, it.until):
                begin = max(it.begin, min(at, it.until) - self.every - 2 * turn)
        return Window(life.start, False) if begin is None else Window(begin, True)

    def look_before(self, node, life, at):
        """From when on what a node serves at a time may have lain in its folder: it looks while it runs."""
        left = 2 * self.watch + LOOK + self.history.stall_near(at)
        for begin, end in reversed(without(life.start, at, self.history.pauses[node])):
            if end - begin >= left:
                return end - left
            left -= end - begin
        return life.start

    def lies(self, node, one, other):
        """The masks of a folder from one time to another, in order."""
        folder, masks = self.history.folders[node], []
        for place, it in enumerate(folder):
            until = folder[place + 1].after if place + 1 < len(folder) else NEVER
            if it.before <= other and one <= until:
                masks.append(it.mask)
        return masks

    def served(self, node, life, one, other):
        """What a node may serve from one time to another: what lay there at a look, or what it has made of an earlier look on the way to a
        later one, by loads in the order of names and then by drops."""
        masks, found = self.lies(node, one, other), set()
        for place, mask in enumerate(masks):
            for later in masks[place:]:
                found |= way(self.plan.files, mask, later)
        return found

    def known(self, broker, life, node, sent, came):
        """What a broker may know of a node when it answers."""
        window, found = self.window(broker, life, node, sent), set()
        shown = [when for when in self.history.shown_all[broker] if life.start <= when <= sent]
        if not window.is_sure and not shown:
            found.add(0)
        for it in self.history.lives[node]:
            if it.start > came or it.end < window.begin or it.has_fallen and window.is_sure:
                continue
            begin = self.look_before(node, it, window.begin) if it.start < window.begin else it.start
            found |= self.served(node, it, begin, min(came, it.end))
        return found

    def possible(self, rules, answer):
        """Of each day the sets of files that a broker may have answered over."""
        found = [set() for _ in range(DAYS)]
        for life in self.history.lives[answer.broker]:
            if life.start > answer.came or life.end < answer.sent:
                continue
            sent, came = max(answer.sent, life.start), min(answer.came, life.end)
            known = [self.known(answer.broker, life, node, sent, came) for node in self.plan.nodes]
            for day in range(DAYS):
                found[day] |= unions([{mask & rules.of_day[day] for mask in of_node} for of_node in known])
        return found

    def holders(self, broker, life, file, sent, came):
        """The nodes that a broker may know to serve a file when it answers."""
        return [node for node in self.plan.nodes if any(mask & file.bit for mask in self.known(broker, life, node, sent, came))]

    def has_for_sure(self, broker, life, node, file, sent, came):
        """Whether a broker that answers knows that a node serves a file, and gets it of the node where it asks."""
        window = self.window(broker, life, node, sent)
        owner = self.history.life_at(node, window.begin, came)
        disturbed = any(one <= came and sent - .1 <= other for one, other, _ in self.unclear(broker, node)) or self.history.stall_near(came)
        if not window.is_sure or not owner or disturbed:
            return False
        return all(mask & file.bit for mask in self.lies(node, self.look_before(node, owner, window.begin), came))

    def stays(self, node, file, one, other):
        """Whether a file that a folder has from one time on, or some time after, stays until another."""
        masks = [bool(mask & file.bit) for mask in self.lies(node, one, other)]
        return masks == sorted(masks) and masks[-1]

    def settles_at(self, now):
        """By when each broker has made a turn with each node that shows what lies in folders now."""
        latest = now
        for broker in self.plan.brokers:
            life = self.history.life(broker)
            for node in self.plan.nodes:
                spans = self.find_turns(broker, life, node) if life else []
                first = spans[-1].first if spans else now + self.patience
                changed = max(self.history.folders[node][-1].after, self.history.life(node).ready) + 2 * self.watch + LOOK
                latest = max(latest, max(first, changed + self.every + TURN) + TURN)
        return latest


def way(files, mask, later):
    """The sets that a node comes through from one to another."""
    found = {mask}
    for it in sorted(files, key=lambda file: file.name):
        if later & ~mask & it.bit:
            mask |= it.bit
            found.add(mask)
    for it in sorted(files, key=lambda file: file.name):
        if mask & ~later & it.bit:
            mask &= ~it.bit
            found.add(mask)
    return found


def unions(choices):
    """The unions of one set of each."""
    found = {0}
    for masks in choices:
        found = {one | other for one in found for other in masks}
    return found
