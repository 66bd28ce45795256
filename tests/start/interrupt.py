#!/usr/bin/env python3
"""Presses Ctrl-C at drawn moments of a start, and looks for what it left.

interrupt.py [RUNS] [SEED]     8 runs of each kind unless said otherwise: `preview serve` that compiles, `preview serve` that serves,
                               and `serve` that proves

Each run starts the launcher at a terminal of its own, over a copy of the repository in which nothing is built, presses Ctrl-C, and
compares: the launcher ends within 15 seconds, of which a disk that discards what is freed takes some to remove the sources, no process
of it is left, and the folder for temporary files is empty again.
"""
import os, pty, random, shutil, signal, subprocess, sys, tempfile, time

sys.path.insert(0, os.path.dirname(os.path.dirname(os.path.abspath(__file__))))
from served import TOP, need, parser_of  # noqa: E402

KINDS = {'compiles': (['preview', 'serve'], 60), 'serves': (['preview', 'serve'], 2), 'proves': (['serve'], 60)}


def processes(mark):
    """The processes whose words or environment have the mark."""
    found = []
    for pid in filter(str.isdigit, os.listdir('/proc')):
        try:
            text = b''.join(open(f'/proc/{pid}/{it}', 'rb').read() for it in ('cmdline', 'environ'))
        except OSError:
            continue
        if mark.encode() in text and int(pid) != os.getpid():
            found.append(f'{pid} {text[:200]}')
    return found


def wait_for(pid, seconds):
    """The status of a child that ends within so many seconds, or None."""
    for _ in range(int(seconds * 20)):
        done, status = os.waitpid(pid, os.WNOHANG)
        if done:
            return status
        time.sleep(0.05)
    return None


def interrupt(copy, words, seconds):
    """What a start left that was interrupted after so many seconds."""
    temporary = tempfile.mkdtemp(prefix='interrupt-')
    pid, terminal = pty.fork()
    if pid == 0:
        os.chdir(copy)
        os.environ['TMPDIR'] = temporary
        # What is started in the background of a shell ignores Ctrl-C, and what it starts does too.
        signal.signal(signal.SIGINT, signal.SIG_DFL)
        os.execv('./druid_cluster', ['./druid_cluster', *words, 'examples/cluster/console.json'])
    time.sleep(seconds)
    os.write(terminal, b'\x03')
    left = []
    if wait_for(pid, 15) is None:
        left.append('the launcher goes on')
        os.kill(pid, signal.SIGKILL)
        os.waitpid(pid, 0)
    os.close(terminal)
    left += processes(temporary) + os.listdir(temporary)
    shutil.rmtree(temporary)
    return left


def main():
    parser = parser_of(__doc__)
    parser.add_argument('runs', nargs='?', type=int, default=8)
    parser.add_argument('seed', nargs='?', type=int, default=1)
    runs, seed = vars(parser.parse_args()).values()
    need('rt')
    draw, failed = random.Random(seed), 0
    with tempfile.TemporaryDirectory() as folder:
        copy = f'{folder}/copy'
        shutil.copytree(TOP, copy, symlinks=True, ignore=shutil.ignore_patterns('out', '.git'))
        for kind, (words, most) in KINDS.items():
            if kind == 'serves':
                subprocess.run(['./druid_cluster', 'preview', 'replay'], cwd=copy, stdin=subprocess.DEVNULL, capture_output=True)
            for _ in range(runs):
                seconds = draw.uniform(0, most)
                left = interrupt(copy, words, seconds)
                failed += bool(left)
                print(f'{kind}, interrupted after {seconds:.1f} seconds: {left or "nothing left"}', flush=True)
    print(f'{failed} of {runs * len(KINDS)} runs left something')
    return min(failed, 1)


if __name__ == '__main__':
    sys.exit(main())
