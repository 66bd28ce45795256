#!/usr/bin/env python3
"""Runs a command of the toolchain and says where its processor time went, by crate and phase, and what each must-fail edit took.

gate_cost.py COMMAND..     as `dev/gate_cost.py rt ci` at the top of the repository

The command's last line comes after the figures, and its status is the status.

Phases: proof (the crate), tests (a crate of tests), edits (its must-fail edits, with the proof that they begin with), and other
programs by their name. Processor minutes hold on a busy machine better than minutes by the clock; `from` and `to` are minutes by
the clock since the start. What an edit took stands apart, in processor seconds: `begins` is the proof that the edits of a crate
begin with and the last look at it, which a crate with two edits or more pays once. It reads /proc once a second.
"""
import argparse, collections, glob, os, re, shutil, subprocess, sys, threading, time

sys.dont_write_bytecode = True
sys.path.insert(0, os.path.join(os.path.dirname(os.path.dirname(os.path.abspath(__file__))), 'tools'))
from built import parser_of  # noqa: E402

HZ = os.sysconf('SC_CLK_TCK')
Work = collections.namedtuple('Work', 'crate phase edit')
PHASES = ('proof', 'tests', 'edits')


def stat(pid):
    """The parent and the processor time of a process, in ticks; None once it is gone."""
    try:
        text = open(f'/proc/{pid}/stat').read()
        rest = text[text.rindex(')') + 2:].split()
        return None if rest[0] == 'Z' else (int(rest[1]), int(rest[11]) + int(rest[12]))
    except (OSError, ValueError, IndexError):
        return None


def below(root):
    """The processor time of each process below the root, by its number."""
    found = {}
    for path in glob.glob('/proc/[0-9]*'):
        seen = stat(path[6:])
        if seen:
            found[int(path[6:])] = seen
    wanted, grown = {root}, True
    while grown:
        more = {pid for pid, (parent, _) in found.items() if parent in wanted} - wanted
        wanted, grown = wanted | more, bool(more)
    return {pid: found[pid][1] for pid in wanted if pid in found}


def edits_of(crate):
    """The names of a crate's edits, in the order in which the gate numbers them."""
    return sorted(os.path.basename(path)[:-len('.edit')] for path in glob.glob(f'crates/{crate}/must-fail/*.edit'))


def work_of(pid):
    """What a process works on."""
    try:
        words = open(f'/proc/{pid}/cmdline', 'rb').read().decode(errors='replace').split('\0')
        folder = os.readlink(f'/proc/{pid}/cwd')
    except OSError:
        return None
    inside = re.search(r'/crates/([A-Za-z0-9_]+)', folder)
    crate = words[words.index('--crate-name') + 1] if '--crate-name' in words else inside[1] if inside else '-'
    if os.path.basename(words[0]) != 'rattle':
        return Work(crate, os.path.basename(words[0]) or '-', '')
    if '/rt-edit-' not in folder:
        return Work(crate, 'tests' if crate.endswith('_tests') else 'proof', '')
    over = words[words.index('--incremental') + 1] if '--incremental' in words else ''
    names, number = edits_of(crate), os.path.basename(over)
    if number.isdigit() and int(number) < len(names):
        return Work(crate, 'edits', names[int(number)])
    return Work(crate, 'edits', names[0] if len(names) == 1 else 'begins')


def pass_on(stream):
    """Prints the lines of a stream as they come, but for the last one, which the list that it gives has once the stream ends."""
    held = []

    def run():
        for line in stream:
            if held:
                print(held.pop(), end='', flush=True)
            held.append(line)

    thread = threading.Thread(target=run)
    thread.start()
    return thread, held


def watch(child):
    start, last, works, spans, total = time.time(), {}, {}, {}, collections.Counter()
    while child.poll() is None:
        for pid, ticks in below(child.pid).items():
            # (a process is a copy of the one that starts it at first)
            if works.get(pid) is None or works[pid].phase not in PHASES:
                works[pid] = work_of(pid) or works.get(pid)
            if works[pid] and ticks > last.get(pid, 0):
                total[works[pid]] += ticks - last.get(pid, 0)
                last[pid] = ticks
                minutes, key = (time.time() - start) / 60, works[pid][:2]
                spans[key] = spans.get(key, (minutes, 0))[0], minutes
        time.sleep(1)
    return total, spans, (time.time() - start) / 60


def tell(total, spans, minutes):
    by_phase, phases = collections.Counter(), collections.Counter()
    for work, ticks in total.items():
        by_phase[work[:2]] += ticks
        phases[work.phase] += ticks
    print(f"\n{'crate':<26}{'phase':<12}{'processor min':>14}{'from':>7}{'to':>7}")
    for (crate, phase), ticks in by_phase.most_common():
        if ticks > 5 * HZ:
            first, end = spans[crate, phase]
            print(f'{crate:<26}{phase:<12}{ticks / HZ / 60:14.1f}{first:7.0f}{end:7.0f}')
    for phase, ticks in phases.most_common():
        print(f"{'all':<26}{phase:<12}{ticks / HZ / 60:14.1f}")
    print(f"{'all':<38}{sum(total.values()) / HZ / 60:14.1f}{0:7.0f}{minutes:7.0f}")
    edits = sorted(((work.crate, -ticks, work.edit) for work, ticks in total.items() if work.edit))
    if edits:
        print(f"\n{'crate':<26}{'edit':<44}{'processor s':>12}")
    for crate, ticks, edit in edits:
        print(f'{crate:<26}{edit:<44}{-ticks / HZ:12.0f}')
    print()


def main():
    parser = parser_of(__doc__)
    parser.add_argument('command', nargs=argparse.REMAINDER, help='with its words')
    words = parser.parse_args().command or parser.error('no command')
    if not shutil.which(words[0]):
        sys.exit(f'{words[0]} is not there')
    child = subprocess.Popen(words, stdout=subprocess.PIPE, text=True, errors='replace')
    thread, held = pass_on(child.stdout)
    seen = watch(child)
    thread.join()
    tell(*seen)
    print(*held, end='', flush=True)
    return child.returncode


if __name__ == '__main__':
    sys.exit(main())
