#!/usr/bin/env python3
"""Kills a cluster that goes on while segment files come and go, and looks at what it answers once it is started again.

live.py [KILLS]     30 unless said otherwise

Two nodes look at their folders each 20 milliseconds, and a broker asks them each 20. A file of version v2, whose rows replace half of
the day that v1 has, is moved into a folder and out of it at drawn moments, while clients ask for the count of the day; at a drawn
moment the program is killed (SIGKILL). Until then each query is answered, by the count of one version, or that v2's segment is missing.
After each start the answer becomes that of the files which are there then, and stays; the incarnations of both nodes rise strictly. It
ends with 1 where that fails, where the program ends by itself, and where a version was never seen: then the run shows nothing.
"""
import collections
import contextlib
import json
import os
import random
import shutil
import sys
import tempfile
import threading
import time

sys.path.insert(0, os.path.dirname(os.path.dirname(os.path.abspath(__file__))))
from served import ASK, DAY, QUERY, Cluster, Segment, exchange, need_program, parser_of, write_segments  # noqa: E402

EVERY, CLIENTS = 20, 3
OLD = Segment('w', 0, DAY, 'v1', 0, 1, 0, ['d'], ['m'], [(hour * 3_600_000, ['x'], [1]) for hour in range(24)])
NEW = Segment('w', 0, DAY // 2, 'v2', 0, 1, 0, ['d'], ['m'], [(0, ['x'], [1])])
COUNT = {'queryType': 'timeseries', 'dataSource': 'w', 'granularity': 'all', 'intervals': '1970-01-01/1970-01-02',
         'aggregations': [{'type': 'count', 'name': 'n'}]}
OF_OLD, OF_NEW = 24, 13


class Mover(threading.Thread):
    """Moves v2's file into the folder of the second node and out of it, until it is stopped."""

    def __init__(self, folder, seed):
        super().__init__(daemon=True)
        self.there, self.away = f'{folder}/n1/{NEW.identifier()}.seg', f'{folder}/away'
        self.draw, self.is_over, self.moves = random.Random(seed), False, 0
        self.start()

    def run(self):
        while not self.is_over:
            time.sleep(self.draw.uniform(0, .2))
            move(self.there, self.away) if os.path.exists(self.there) else move(self.away, self.there)
            self.moves += 1

    def ends(self):
        """Stops, and whether the file is there."""
        self.is_over = True
        self.join()
        return os.path.exists(self.there)


def move(one, other):
    os.rename(one, other)


def count_of(cluster):
    """The count that is answered, 'missing' where v2's segment is, None where no answer comes, or whatever else is answered."""
    try:
        status, body = exchange(cluster.broker, 'POST', QUERY, json.dumps(COUNT).encode(), wait=30)
    except (OSError, IndexError, ValueError):
        return None
    with contextlib.suppress(LookupError, TypeError, ValueError):
        answer = json.loads(body)
        if status == 200:
            return answer[0]['result']['n'] if answer else 0
        if status == 503 and [it['ver'] for it in answer['missing']] == ['v2']:
            return 'missing'
    return f'{status} {body[:300]}'


def keep_asking(cluster, seen, over):
    """Asks until it is over. Where no answer comes before that, this is seen as `unanswered`."""
    while not over.is_set():
        count = count_of(cluster)
        seen['unanswered' if count is None and not over.is_set() else count] += 1


def incarnations(cluster):
    return [json.loads(exchange(port, 'GET', ASK)[1])['counter']['hash'] for port in cluster.nodes]


def has_settled(cluster, is_there):
    """Whether the second node serves what its folder has, and the broker stands at that node's mark."""
    node = json.loads(exchange(cluster.nodes[1], 'GET', ASK)[1])
    status, body = exchange(cluster.broker, 'GET', '/druid-internal/v1/inventory/1')
    return status == 200 and len(node['requests']) == is_there and json.loads(body)['counter'] == node['counter']


def wait_for(cluster, wanted, within=10):
    """Waits until the broker knows the last move: from then on the answer has to be that, and to stay. Before, one from before the last
    moves may be the same, with others still to come."""
    end = time.monotonic() + within
    while not has_settled(cluster, wanted == OF_NEW):
        if time.monotonic() > end:
            raise SystemExit(f'after {within} s the broker does not know the last move')
        time.sleep(.005)
    for _ in range(20):
        count = count_of(cluster)
        if count != wanted:
            raise SystemExit(f'the count is {count}, that of the files {wanted}, and the broker knows them')


def live_and_die(cluster, folder, seed, seen):
    """Starts the cluster, moves files under it and kills it. Whether v2's file is there then."""
    over, draw = threading.Event(), random.Random(seed)
    mover = Mover(folder, seed)
    clients = [threading.Thread(target=keep_asking, args=(cluster, seen, over), daemon=True) for _ in range(CLIENTS)]
    for it in clients:
        it.start()
    time.sleep(draw.uniform(.05, 1.5))
    status = cluster.process.poll()
    over.set()
    cluster.ends()
    for it in clients:
        it.join()
    if status is not None:
        raise SystemExit(f'the program ended by itself with {status}')
    return mover.ends(), mover.moves


def main():
    parser = parser_of(__doc__)
    parser.add_argument('kills', nargs='?', type=int, default=30)
    kills = parser.parse_args().kills
    need_program()
    folder = tempfile.mkdtemp(prefix='druid_cluster_live_')
    cluster, seen, last, moves = Cluster(folder, [[OLD], []], every=EVERY, watch=EVERY), collections.Counter(), [0, 0], 0
    write_segments(f'{folder}/n1', [NEW])
    is_there = True
    try:
        for kill in range(kills + 1):
            cluster.start().stands()
            wait_for(cluster, OF_NEW if is_there else OF_OLD)
            now = incarnations(cluster)
            if not all(one < other for one, other in zip(last, now)):
                raise SystemExit(f'start {kill}: incarnations {now} after {last}')
            last = now
            if kill < kills:
                is_there, moved = live_and_die(cluster, folder, f'kill {kill}', seen)
                moves += moved
        others = {it: count for it, count in seen.items() if it not in (OF_OLD, OF_NEW, 'missing', None)}
        print(f'{kills} kills, {moves} moves; answers: {seen[OF_OLD]:,} of v1, {seen[OF_NEW]:,} of v2, {seen["missing"]:,} with v2 missing, '
              f'{seen[None]:,} none; others: {others or "none"}')
        return 1 if others or not seen[OF_OLD] or not seen[OF_NEW] else 0
    finally:
        cluster.ends()
        with contextlib.suppress(OSError):
            shutil.rmtree(folder)


if __name__ == '__main__':
    sys.exit(main())
