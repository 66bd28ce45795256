#!/usr/bin/env python3
"""Makes inputs for `druid_cluster replay`, runs the built program on them, and prints a table. It begins no proof.

It measures three shapes of a snapshot, each followed by 20 lookups, at 5,000, 10,000 and 20,000 segments: one chunk
with core 0, one chunk with a core partition for each segment, and one-hour chunks. Then a line of 16 MiB and a stream
of short lines, for the memory that they take, and one lookup whose answer is long: 2,000 partitions under 2,000
alternating hours, for which the peak is at most 40 MiB. Last, a snapshot of one-hour chunks, and then 2,000 deltas of 5
changes each with a lookup of a changed day after each: at most 20 s and 250 MB at 20,000 segments. And 64 brokers over 8
nodes of 2,500 segments each, every segment on two nodes: one broker is given the snapshots, the others join it, and then
there are 4 rounds of a delta of each node to each broker, with a lookup each: at most 20 s and 1 GB. Nothing else is
checked but that the program ends with status 0. It is the one that ./druid_cluster proved and built, which the first line names, or
DRUID_CLUSTER has the path of another.
"""
import json, os, subprocess, sys, tempfile, time
from datetime import datetime, timedelta

from lib import PROGRAM, need_program, parser_of

# The most memory, in MiB, for the lookup with a long answer.
LONG_ANSWER_PEAK = 40

# The most memory, in MiB, and the most seconds for the deltas.
DELTAS_PEAK, DELTAS_TIME = 238, 20

# The same for many brokers.
BROKERS_PEAK, BROKERS_TIME = 953, 20


def change(start, end, partition, core, version="v1"):
    return {"action": "load", "dataSource": "wiki", "interval": f"{start}/{end}",
            "shardSpec": {"partitionNum": partition, "partitions": core, "type": "numbered"},
            "size": 0, "version": version}


def hour(n):
    return (datetime(2000, 1, 1) + timedelta(hours=n)).strftime('%Y-%m-%dT%H:%M')


def snapshot(shape, count):
    if shape == 'one chunk, core 0':
        return [change('2024-01-01', '2024-01-02', n, 0) for n in range(count)]
    if shape == 'one chunk, all core':
        return [change('2024-01-01', '2024-01-02', n, count) for n in range(count)]
    return [change(hour(n), hour(n + 1), 0, 1) for n in range(count)]


def reply(broker, node, mark, start, changes):
    counter = lambda count: None if count is None else {"counter": count, "hash": 1}
    return {"broker": broker, "do": "reply", "node": node, "reply": {
        "counter": counter(mark), "from": counter(start), "requests": changes,
        "resetCause": None, "resetCounter": False}}


def opening(segments):
    yield {"count": 1, "do": "brokers", "nodes": ["n0"]}
    yield reply(0, 0, len(segments), None, segments)


def some_changes(first, is_back):
    # Two hours are dropped and loaded anew, and a third one is loaded, or else dropped.
    hours = [change(hour(first + k), hour(first + k + 1), 0, 1) for k in range(3)]
    drops = [dict(it, action="drop") for it in hours]
    return [drops[0], drops[1], hours[0], hours[1], hours[2] if is_back else drops[2]]


def long_answer():
    # Every other hour shows the long chunk, with all of its partitions.
    yield from opening(
        [change(hour(0), hour(4_000), n, 0) for n in range(2_000)]
        + [change(hour(2 * n), hour(2 * n + 1), 0, 1, "v2") for n in range(2_000)])
    yield {"broker": 0, "do": "lookup", "interval": "2000-01-01/2025-01-01", "source": "wiki"}


def deltas(count):
    # Each delta drops two hours of a day and loads them anew; a third one it drops, and the next delta loads that.
    yield from opening(snapshot('one-hour chunks', count))
    mark = count
    for n in range(2_000):
        first = 24 * (n // 2 * 7 % (count // 24))
        yield reply(0, 0, mark + 5, mark, some_changes(first, n % 2))
        mark += 5
        yield {"broker": 0, "do": "lookup", "interval": f"{hour(first)}/{hour(first + 24)}", "source": "wiki"}


def many_brokers(count, nodes, size, rounds):
    # Nodes 0 and 1 serve the same segments, and so do 2 and 3, and so on.
    yield {"count": count, "do": "brokers", "nodes": [f"n{node}" for node in range(nodes)]}
    start = lambda node: node // 2 * size
    for node in range(nodes):
        yield reply(0, node, size, None, [change(hour(start(node) + k), hour(start(node) + k + 1), 0, 1) for k in range(size)])
    for broker in range(1, count):
        yield {"do": "join", "from": 0, "into": broker}
    for turn in range(rounds):
        for node in range(nodes):
            first = start(node) + 24 * (turn // 2)
            for broker in range(count):
                yield reply(broker, node, size + 5 * turn + 5, size + 5 * turn, some_changes(first, turn % 2))
                yield {"broker": broker, "do": "lookup", "interval": f"{hour(first)}/{hour(first + 24)}", "source": "wiki"}


def lines(shape, count):
    yield from opening(snapshot(shape, count))
    for n in range(20):
        interval = '2000-01-01/2025-01-01' if n % 2 == 0 else f'200{n % 3}-01-01/200{n % 3}-02-01'
        yield {"broker": 0, "do": "lookup", "interval": interval, "source": "wiki"}


def write(path, texts):
    # In a process of its own: the peak that is measured begins with the memory of the process that starts the program.
    child = os.fork()
    if child == 0:
        with open(path, 'w') as f:
            for text in texts():
                f.write(text + '\n')
        os._exit(0)
    os.waitpid(child, 0)


def run(path):
    start = time.time()
    with open(path, 'rb') as given:
        child = subprocess.Popen([PROGRAM, 'replay'], stdin=given, stdout=subprocess.DEVNULL)
        _, status, used = os.wait4(child.pid, 0)
    return time.time() - start, used.ru_maxrss / 1024, os.waitstatus_to_exitcode(status)


def measure(name, texts, most=None, longest=None):
    with tempfile.NamedTemporaryFile('w', suffix='.jsonl') as f:
        write(f.name, texts)
        seconds, mib, status = run(f.name)
        size = os.path.getsize(f.name) / 1e6
    print(f'{name:44} {size:9.2f} MB {seconds:8.2f} s {mib:9.1f} MiB  status {status}', flush=True)
    if most is not None and mib > most:
        print(f'  more than {most} MiB', flush=True)
        return 1
    if longest is not None and seconds > longest:
        print(f'  more than {longest} s', flush=True)
        return 1
    return status


def main():
    parser_of(__doc__).parse_args()
    need_program()
    print(PROGRAM, flush=True)
    bad = 0
    for shape in ('one chunk, core 0', 'one chunk, all core', 'one-hour chunks'):
        for count in (5_000, 10_000, 20_000):
            bad |= measure(f'{shape}, {count} segments', lambda: map(json.dumps, lines(shape, count)))
    bad |= measure('2,000 partitions under 2,000 hours', lambda: map(json.dumps, long_answer()), LONG_ANSWER_PEAK)
    brokers = json.dumps({"count": 1, "do": "brokers", "nodes": ["n0"]})
    lookup = json.dumps({"broker": 0, "do": "lookup", "interval": "2024-01-01/2024-01-02", "source": "wiki"})
    bad |= measure('a line of 16 MiB', lambda: [
        brokers, lookup[:-1] + ', "pad": "' + 'x' * (16_777_216 - len(lookup) - 11) + '"}'])
    for count in (1_000, 100_000):
        bad |= measure(f'{count} short lines', lambda: [brokers] + [lookup] * count)
    for count in (5_000, 10_000, 20_000):
        bad |= measure(f'{count} segments and 2,000 deltas of 5', lambda: map(json.dumps, deltas(count)), DELTAS_PEAK, DELTAS_TIME)
    bad |= measure('64 brokers over 8 nodes of 2,500 segments', lambda: map(json.dumps, many_brokers(64, 8, 2_500, 4)),
                   BROKERS_PEAK, BROKERS_TIME)
    sys.exit(1 if bad else 0)


if __name__ == "__main__":
    main()
