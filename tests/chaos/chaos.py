#!/usr/bin/env python3
"""Breaks a cluster of processes by drawn schedules, and holds each answer to what lay in which folder when.

chaos.py [--seeds A..B | --minutes N] [--jobs J]     seeds 1..20, one at a time, unless said otherwise
chaos.py --plant NAME                                a program with a fault: kept, before, early or twice; it has to be found

Three to five nodes and two brokers run as processes of their own, each in a network namespace, over one config. By a schedule that is
drawn from the seed processes are killed and started, stopped and continued; links are unplugged, cut one way, slowed, and lose packets;
files are moved into folders and out of them; a node loses its folder, and is mended; a disk is full. Clients ask both brokers all the
time. Then all faults end. No program is believed: what an answer has to be is found by what lay in which folder when, which
processes ran, and what lay on which link (model.py). What is looked at:

- Each 200 is of one state that the broker may have known, each row counted once; each 503 is of one such state without the slices that
  it lists, once each and in order. A broker that is not disturbed answers in time.
- In the answers of one broker to one client no hour goes back to an older version while the files of the newer one stay.
- Once faults end, within the time that rests may last, both brokers hold of each node, byte for byte, what it says, which is what lies
  in its folder; and queries are whole.
- No process ends by itself; memory and open files stay bounded; incarnations rise.

It needs root, or user namespaces, with Debian's iproute2 and util-linux; `nft` (nftables) where packets are to be lost. Where namespaces
are not allowed, or with --plain, all is on 127.0.0.0/8, and nothing befalls links and disks. A seed draws the same schedule each time; the
times of what follows differ. It ends with 1 where something is wrong, and shows what happened around it.
"""
import argparse
import concurrent.futures
import itertools
import json
import os
import shutil
import signal
import subprocess
import sys
import tempfile
import time

HERE = os.path.dirname(os.path.abspath(__file__))
sys.path[:0] = [HERE, os.path.dirname(HERE)]
import place  # noqa: E402
from served import PROGRAM, TOP, need_program, parser_of  # noqa: E402

PLANTS = sorted(name.removesuffix('.patch') for name in os.listdir(f'{HERE}/plants'))
SECONDS = 240  # For one seed, which ends by itself before.
CHILDREN = set()
SUMS = ('answers', 'whole', 'partial', 'stale', 'found')


def seeds_of(text):
    first, _, last = text.partition('..')
    return range(int(first), int(last or first) + 1)


def run_one(seed, has_links, program):
    """What a run of a seed counted; a text where it came to nothing. It has a session and a folder of its own, which end with it."""
    words = [*(place.enter() if has_links else []), sys.executable, os.path.abspath(__file__), '--one', str(seed), *([] if has_links else ['--plain'])]
    with tempfile.TemporaryDirectory(prefix='druid_cluster_chaos_') as room:
        child = subprocess.Popen(words, stdin=subprocess.DEVNULL, stdout=subprocess.PIPE, stderr=subprocess.PIPE, text=True, start_new_session=True,
                                 env={**os.environ, 'DRUID_CLUSTER': program, 'TMPDIR': room})
        CHILDREN.add(child)
        try:
            out, said = child.communicate(timeout=SECONDS)
            return json.loads(out)
        except subprocess.TimeoutExpired:
            return f'no end within {SECONDS} s'
        except ValueError:
            return f'{out}{said}'.strip()
        finally:
            end(child)
            CHILDREN.discard(child)


def end(child):
    """Ends a run with all that it started: its session was begun for it."""
    if child.poll() is None:
        os.killpg(child.pid, signal.SIGKILL)
        child.wait()


def stop(number, _frame):
    for child in list(CHILDREN):
        end(child)
    sys.exit(128 + number)


def shown(seed, run):
    """A line for a run, and below it what is wrong."""
    if isinstance(run, str):
        return f'seed {seed} came to nothing:\n{run}'
    line = (f'seed {seed}: {run["answers"]} answers, {run["whole"]} whole, {run["partial"]} partial, {run["none"]} none; of stale ones {run["found"]} of '
            f'{run["stale"]} would be wrong; settled after {run["settled"]} s, {run["seconds"]} s in all, {run["stall"]} s late')
    return '\n'.join([line, *run['faults']])


def run_all(seeds, jobs, has_links, program, ends):
    """Runs seeds until `ends` says so. How many there were, and what they counted."""
    totals, seeds = {'seeds': 0, 'faults': 0, 'nothing': 0, **dict.fromkeys(SUMS, 0)}, iter(seeds)
    with concurrent.futures.ThreadPoolExecutor(jobs) as pool:
        def more(count):
            return {pool.submit(run_one, seed, has_links, program): seed for seed in itertools.islice(seeds, 0 if ends(totals) else count)}
        going = more(jobs)
        while going:
            done, _ = concurrent.futures.wait(going, return_when=concurrent.futures.FIRST_COMPLETED)
            for it in done:
                run, seed = it.result(), going.pop(it)
                print(shown(seed, run), flush=True)
                totals['seeds'] += 1
                totals['nothing' if isinstance(run, str) else 'faults'] += 1 if isinstance(run, str) else run['count']
                for key in SUMS if isinstance(run, dict) else ():
                    totals[key] += run[key]
            going.update(more(len(done)))
    return totals


def planted(name, folder):
    """The path of a program with a fault: the repository as it is committed, with a patch, compiled without a proof."""
    copy = f'{folder}/{name}'
    subprocess.run(['git', 'clone', '-q', TOP, copy], check=True)
    subprocess.run(['git', '-C', copy, 'apply', f'{HERE}/plants/{name}.patch'], check=True)
    subprocess.run([f'{copy}/druid_cluster', 'preview', 'replay'], stdin=subprocess.DEVNULL, check=True)
    return f'{copy}/crates/druid_program_main/out/preview'


def find_plant(name, asked, has_links):
    """Runs seeds over a program with a fault until one finds it."""
    folder = tempfile.mkdtemp(prefix='druid_cluster_plant_')
    try:
        program = os.environ.get('DRUID_CLUSTER') or planted(name, folder)
        totals = run_all(asked.seeds, 1, has_links, program, lambda so_far: so_far['faults'])
    finally:
        shutil.rmtree(folder, ignore_errors=True)
    print(f'{name}: {"found" if totals["faults"] else "not found"} within {totals["seeds"]} seeds')
    return 0 if totals['faults'] else 1


def main():
    parser = parser_of(__doc__)
    parser.add_argument('--seeds', type=seeds_of, default=range(1, 21), metavar='A..B')
    parser.add_argument('--minutes', type=float, metavar='N', help='seeds from 1 on, or from the first of --seeds, for so long')
    parser.add_argument('--jobs', type=int, default=1, metavar='J', help='so many seeds at once')
    parser.add_argument('--plain', action='store_true', help='without namespaces')
    parser.add_argument('--plant', choices=PLANTS, help='over a program with this fault, which DRUID_CLUSTER names or is compiled first')
    parser.add_argument('--one', type=int, help=argparse.SUPPRESS)
    asked = parser.parse_args()
    if asked.one is not None:
        import live
        print(json.dumps(live.make(asked.one, not asked.plain)))
        return 0
    has_links = not asked.plain and place.is_allowed()
    if not has_links:
        print('without namespaces: nothing befalls links and disks')
    if asked.plant:
        return find_plant(asked.plant, asked, has_links)
    need_program()
    end = time.monotonic() + 60 * asked.minutes if asked.minutes else None
    seeds = itertools.count(asked.seeds[0]) if end else asked.seeds
    totals = run_all(seeds, asked.jobs, has_links, PROGRAM, lambda _: end and time.monotonic() > end)
    print('of answers as they were 2 s before and more, {found:,} of {stale:,} would be wrong'.format(**totals))
    if totals['nothing']:
        print('{nothing} seeds came to nothing'.format(**totals))
    print('{seeds} seeds, {answers:,} answers, {whole:,} whole, {partial:,} partial, {faults} faults'.format(**totals))
    return 1 if totals['faults'] or totals['nothing'] else 0


if __name__ == '__main__':
    for it in (signal.SIGINT, signal.SIGTERM):
        signal.signal(it, stop)
    sys.exit(main())
