"""A run: a cluster is started, its schedule is made while clients ask, all faults end, it settles, and what was seen is judged."""
import contextlib
import json
import random
import signal
import tempfile
import threading
import time

from cluster import LATE, Cluster, exchange
from data import DAYS, Rules, draw_query, whole
from history import Answer, History
from judge import MORE_MEMORY, MOST_FILES, Judge
from model import Model
from place import Loopback, Namespaces
from schedule import Plan
from served import ASK, QUERY, has_checks

CLIENTS = 3  # Of each broker; the first asks for each row each time.
REST = (.01, .05)  # Seconds between one query of a client and the next.
LAST, TRIES = 4, 40  # Whole answers of each broker once it has settled, and queries for them where the machine has other things to do.
SECONDS = 150  # For all.


class Run:
    def __init__(self, seed, has_links):
        self.plan, self.history, self.over = Plan(seed), History(), threading.Event()
        self.plan.patience *= 2 if has_checks() else 1  # Such a program is slow.
        self.folder = tempfile.mkdtemp(prefix='druid_cluster_chaos_')
        self.place = (Namespaces if has_links else Loopback)([*self.plan.nodes, *self.plan.brokers])
        self.cluster = Cluster(self.plan, self.place, self.folder, self.history)
        self.rules, self.model = Rules(self.plan.files), Model(self.plan, self.history)
        self.whole, self.queries, self.threads, self.settled, self.base = whole(), {}, [], None, {}

    # Threads that go on until the run is over

    def go(self, job, *words):
        def guarded():
            try:
                job(*words)
            except BaseException as fault:  # It would end this thread alone.
                self.history.fault(f'a thread of the test ended: {fault!r}')
        thread = threading.Thread(target=guarded, daemon=True)
        thread.start()
        self.threads.append(thread)

    def ask(self, broker, client, place, query):
        sent, status, body = self.history.now(), None, ''
        self.queries[broker, client, place] = query
        try:
            status, body = exchange(self.place.servers[broker], 'POST', QUERY, query.body, wait=len(self.plan.nodes) * self.plan.patience / 1000 + 4)
            body = body.decode()
        except (OSError, ValueError, IndexError) as fault:
            body = repr(fault)
        self.history.answers.append(Answer(broker, client, place, sent, self.history.now(), status, body))

    def keep_asking(self, broker, client):
        draw, place = random.Random(f'{self.plan.seed} {broker} {client}'), 0
        while not self.over.is_set():
            self.ask(broker, f'client {client}', place, draw_query(draw) if client else self.whole)
            place += 1
            time.sleep(draw.uniform(*REST))

    def keep_looking(self, server):
        """Notes what a server shows: a node its mark, a broker of each node in turn, and whether it knows all."""
        turn = 0
        while not self.over.wait(.2):
            nodes = self.plan.nodes
            self.cluster.ask_mark(server, server if server in nodes else nodes[turn % len(nodes)])
            if server not in nodes:
                self.look_whether_all(server)
            turn += 1

    def look_whether_all(self, broker):
        """Notes when a broker has said that it knows all nodes."""
        sent, life = self.history.now(), self.history.life(broker)
        with contextlib.suppress(OSError, ValueError, IndexError):
            said = exchange(self.place.servers[broker], 'GET', '/druid/broker/v1/loadstatus', wait=1)[1]
            now = self.history.now()
            if b'true' in said and life and life is self.history.life_at(broker, sent, now):
                self.history.shown_all[broker].append(now)

    def watch_machine(self):
        """Notes how late threads wake, and which processes have ended."""
        while not self.over.is_set():
            before = time.monotonic()
            time.sleep(.02)
            late = time.monotonic() - before - .02
            if late > LATE:
                self.history.stalls.append((self.history.now(), late))

    # The parts of a run

    def stands(self, within=60):
        end = time.monotonic() + within
        while not all(self.history.shown_all[it] for it in self.plan.brokers):
            for it in self.plan.brokers:
                self.look_whether_all(it)
            for it in self.cluster.names:
                self.cluster.look_at(it)
            if time.monotonic() > end or self.history.faults:
                raise SystemExit(f'the cluster does not stand: {self.history.faults}\n{self.history.text(0, within)}')
            time.sleep(.05)
        self.base = {it: self.cluster.uses(it) for it in self.cluster.names}

    def make_schedule(self):
        begun, left = self.history.now(), list(self.plan.steps)
        while left:
            step = left.pop(0)
            while (rest := begun + step.at - self.history.now()) > 0:
                time.sleep(min(rest, .05))
                for it in self.cluster.names:
                    self.cluster.look_at(it)
            if not self.cluster.do(step):
                left = sorted([step._replace(at=self.history.now() - begun + .1), *left], key=lambda it: it.at)

    def differs(self):
        """In what the cluster has not settled: None where both brokers hold of each node, byte for byte, what it says itself, and that is what
        lies in its folder."""
        for place, node in enumerate(self.plan.nodes):
            said = exchange(self.place.servers[node], 'GET', ASK, wait=2)
            names = {self.name_of(it) for it in json.loads(said[1])['requests']}
            if names != {it.name for it in self.plan.files if self.cluster.mask(node) & it.bit}:
                return f'{node} serves other files than lie in its folder'
            for broker in self.plan.brokers:
                held = exchange(self.place.servers[broker], 'GET', f'/druid-internal/v1/inventory/{place}', wait=2)
                if held != said:
                    return f'{broker} holds of {node} {held}, which says {said}'
        return None

    @staticmethod
    def name_of(change):
        start, end = change['interval'].split('/')
        partition = change['shardSpec']['partitionNum']
        return f'{change["dataSource"]}_{start}_{end}_{change["version"]}' + (f'_{partition}' if partition else '') + '.seg'

    def runs(self, name):
        """Whether a process runs. A start that a full disk refused, and that ended after the disk had room again, is made once more, as whoever
        runs it would."""
        self.cluster.look_at(name)
        if not self.history.life(name) and self.history.lives[name][-1].status == 3:
            self.cluster.start(name)
        return self.history.life(name) is not None

    def settles(self):
        """Waits until it has settled, and asks then: each answer is whole."""
        begun = self.history.now()
        while True:
            for it in self.cluster.names:
                if not self.runs(it):
                    return self.history.fault(f'{it} does not run once all faults are over')
            try:
                other = self.differs()
            except (OSError, ValueError, IndexError, KeyError) as fault:
                other = repr(fault)
            now = self.history.now()
            if not other:
                break
            if now > self.model.settles_at(begun) + 1 + self.history.stall_near(now):
                return self.history.fault(f'not settled {now - begun:.1f} s after the last fault: {other}')
            time.sleep(.05)
        self.settled = self.history.now() - begun
        self.history.say('all has settled')
        for broker in self.plan.brokers:
            places, whole = iter(range(TRIES)), 0
            while whole < LAST and (place := next(places, None)) is not None:
                whole += self.ask_last(broker, place)
            if whole < LAST:
                self.history.fault(f'{whole} of {TRIES} answers of {broker} are whole once it has settled')

    def ask_last(self, broker, place):
        """Whether an answer is whole, as it has to be; it need not where threads wake late, since exchanges may outlast the patience then."""
        self.ask(broker, 'last', place, self.whole)
        mask = 0
        for node in self.plan.nodes:
            mask |= self.cluster.mask(node)
        wanted = [row for day in range(DAYS) for row in self.rules.expected(mask, day, self.whole, frozenset())]
        answer = next(it for it in reversed(self.history.answers) if (it.broker, it.client, it.place) == (broker, 'last', place))
        if answer.status == 503 and self.history.stall_near(answer.came):
            return False
        if answer.status != 200 or json.loads(answer.body) != wanted:
            self.history.fault(f'{broker} answers {answer.status} {answer.body}, and all that lies in folders gives {wanted}')
        return True

    def look_at_uses(self):
        for name, base in self.base.items():
            uses = self.cluster.uses(name)
            if uses and (uses[1] > MOST_FILES or not has_checks() and uses[0] > base[0] + MORE_MEMORY):
                self.history.fault(f'{name} uses {uses[0]:,} KiB and {uses[1]} open files, and {base} at first')

    def make(self):
        """Makes the run, and gives what it counted."""
        history = self.history
        try:
            history.say(self.plan.about())
            for name in self.cluster.names:
                self.cluster.start(name)
            self.stands()
            for broker in self.plan.brokers:
                for client in range(CLIENTS):
                    self.go(self.keep_asking, broker, client)
            for name in self.cluster.names:
                self.go(self.keep_looking, name)
            self.go(self.watch_machine)
            self.make_schedule()
            history.say('all faults are over')
            self.settles()
            self.over.set()
            for it in self.threads:
                it.join()
            self.look_at_uses()
            for name in self.cluster.names:
                self.cluster.look_at(name)
        finally:
            self.cluster.ends()
        end = history.now()
        counts = Judge(self.plan, history, self.model, self.rules, self.queries).all()
        return {'answers': len(history.answers), 'whole': counts['whole'], 'partial': counts['partial'], 'none': counts['none'], 'stale': counts['stale'], 'found': counts['found'],
                'seconds': round(end, 1), 'judged': round(history.now() - end, 1), 'settled': self.settled and round(self.settled, 2),
                'stall': round(max((late for _, late in history.stalls), default=0), 2), 'count': len(history.faults), 'faults': self.shown_faults()}

    def shown_faults(self):
        """Each fault, the first with what happened around it."""
        shown = []
        for at, text in sorted(self.history.faults)[:5]:
            around = f'\nwhat happened before and after:\n{self.history.text(at - 6, at + 1)}' if not shown else ''
            shown.append(f'at {at:.3f}: {text}{around}')
        return shown + ([f'and {len(self.history.faults) - 5} more'] if len(self.history.faults) > 5 else [])


def make(seed, has_links):
    run = Run(seed, has_links)

    def late(*_):
        raise SystemExit(f'no end within {SECONDS} s; threads woke up to {max((it for _, it in run.history.stalls), default=0):.1f} s late\n'
                         f'{run.history.text(run.history.now() - 20, run.history.now())}')
    signal.signal(signal.SIGALRM, late)
    signal.alarm(SECONDS)
    return run.make()
