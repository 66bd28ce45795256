#!/usr/bin/env python3
"""Lets libFuzzer feed the readers of what comes from outside: requests, queries and subqueries, replies, segment files.

fuzz.py [SECONDS [TARGET..]]     an hour for each of the four, side by side, unless said otherwise

It makes a static library of the proved readers in a folder for temporary files, over copies of the crates, with the kit's clang
made to count which branches are taken, and links it with libFuzzer. What it looks for is an end that is none of Rust's: a signal, an
input that takes longer than ten seconds, more than 2 GiB. It begins with inputs made of the examples and with those that earlier
runs kept, and at its end keeps, in tests/fuzz/corpus.tar.gz, those without which some branch would not be taken. It needs Debian's
`clang` and `libclang-rt-14-dev`. Crates whose libraries do not stand are proved first. It ends with 1 where an input was found,
whose path libFuzzer's words name, which are shown then.
"""
import os
import shutil
import subprocess
import sys
import tarfile

HERE = os.path.dirname(os.path.abspath(__file__))
TOP = os.path.dirname(os.path.dirname(HERE))
sys.path.insert(0, os.path.join(TOP, 'bench'))
from lib import below, crates, need, parser_of, room  # noqa: E402

KIT = os.path.dirname(os.path.dirname(os.path.realpath(shutil.which('rt') or '')))
CORPUS = os.path.join(HERE, 'corpus.tar.gz')
TARGETS = ['fuzz_request', 'fuzz_query', 'fuzz_reply', 'fuzz_segment']
USES = ['druid_http_wire', 'druid_query_text', 'druid_sync_text', 'druid_segment_file']
COUNTS = '-fsanitize-coverage=inline-8bit-counters,pc-table'
CLANG = '''#!/bin/sh
# The kit's clang, which counts branches in what the kit hands it as LLVM's language.
for word in "$@"; do case $word in *.ll | *.bc | ir) exec {clang} "$@" {counts} ;; esac; done
exec {clang} "$@"
'''


def counting_kit(place):
    """The kit by links, with a clang that counts branches."""
    kit = os.path.join(place, 'kit')
    shutil.rmtree(kit, ignore_errors=True)
    os.makedirs(os.path.join(kit, 'toolchain', 'bin'))
    for name in os.listdir(KIT):
        if name not in ('bin', 'toolchain'):
            os.symlink(os.path.join(KIT, name), os.path.join(kit, name))
    shutil.copytree(os.path.join(KIT, 'bin'), os.path.join(kit, 'bin'), copy_function=os.link if same_disk(kit) else shutil.copy2)
    os.symlink(os.path.join(KIT, 'toolchain', 'lib'), os.path.join(kit, 'toolchain', 'lib'))
    for name in os.listdir(os.path.join(KIT, 'toolchain', 'bin')):
        if name != 'clang':
            os.symlink(os.path.join(KIT, 'toolchain', 'bin', name), os.path.join(kit, 'toolchain', 'bin', name))
    wrapper = os.path.join(kit, 'toolchain', 'bin', 'clang')
    with open(wrapper, 'w') as file:
        file.write(CLANG.format(clang=os.path.join(KIT, 'toolchain', 'bin', 'clang'), counts=COUNTS))
    os.chmod(wrapper, 0o755)
    return kit


def same_disk(folder):
    return os.stat(KIT).st_dev == os.stat(folder).st_dev


def library(place):
    """The static library of the readers."""
    crate, every, ours = os.path.join(place, 'crates', 'druid_fuzz'), crates(), below(USES)
    os.makedirs(os.path.join(crate, 'src'), exist_ok=True)
    with open(os.path.join(place, 'crates.txt'), 'w') as file:
        file.writelines(f"{it}: {' '.join(every[it])}\n" for it in ours)
        file.write(f"druid_fuzz staticlib: {' '.join(reversed(ours))} {' '.join(sorted({it for name in ours for it in every[name] if it not in every}))}\n")
    for it in ours:
        shutil.rmtree(os.path.join(place, 'crates', it), ignore_errors=True)
        shutil.copytree(os.path.join(TOP, 'crates', it), os.path.join(place, 'crates', it), ignore=shutil.ignore_patterns('out'))
        # A library that was proved of the same sources, as the gate leaves it, is taken as it stands: rt compares the sums.
        proved = os.path.join(TOP, 'crates', it, 'out', 'rlib')
        if os.path.isdir(proved):
            shutil.copytree(proved, os.path.join(place, 'crates', it, 'out', 'rlib'))
    shutil.copy(os.path.join(HERE, 'lib.rt.in'), os.path.join(crate, 'src', 'lib.rt'))
    kit = counting_kit(place)
    subprocess.run([os.path.join(kit, 'bin', 'rt'), 'lib'], cwd=crate, check=True)
    return os.path.join(crate, 'out', 'libdruid_fuzz.a')


def seeds(place):
    """A folder of inputs for each target, made of the examples."""
    found = {it: [] for it in TARGETS}
    for folder, _, names in os.walk(os.path.join(TOP, 'examples')):
        for name in names:
            with open(os.path.join(folder, name), 'rb') as file:
                data = file.read()
            if name.endswith(('.seg', '.dsg', '.dsg2')):
                found['fuzz_segment'].append(data)
            if name.endswith('.json'):
                found['fuzz_query'].append(data)
                found['fuzz_request'].append(b'POST /druid/v2/ HTTP/1.1\r\nHost: x\r\nContent-Length: %d\r\n\r\n' % len(data) + data)
            if name.endswith('.jsonl'):
                found['fuzz_reply'] += [line.partition(b'"reply":')[2].rstrip()[:-1] for line in data.splitlines() if b'"reply":' in line]
    for target, inputs in found.items():
        os.makedirs(os.path.join(place, 'seeds', target), exist_ok=True)
        for number, data in enumerate(inputs):
            with open(os.path.join(place, 'seeds', target, str(number)), 'wb') as file:
                file.write(data)


def plain(member):
    """A member of the archive without a time or an owner, so that the same inputs make the same archive."""
    member.mtime = member.uid = member.gid = 0
    member.uname = member.gname = ''
    return member


def keep(place):
    """Keeps the inputs of each target without which some branch would not be taken."""
    kept = os.path.join(place, 'kept')
    shutil.rmtree(kept, ignore_errors=True)
    for target in TARGETS:
        os.makedirs(os.path.join(kept, target))
        subprocess.run([os.path.join(place, target), '-merge=1', os.path.join(kept, target), os.path.join(place, 'corpus', target)],
                       check=True, stderr=subprocess.DEVNULL)
    with tarfile.open(CORPUS, 'w:gz') as pack:
        pack.add(kept, '.', filter=plain)


def main():
    parser = parser_of(__doc__)
    parser.add_argument('seconds', nargs='?', type=int, default=3_600)
    parser.add_argument('targets', nargs='*', metavar='TARGET', help=', '.join(TARGETS))
    asked = parser.parse_args()
    if not set(asked.targets) <= set(TARGETS):
        parser.error(f'targets are {", ".join(TARGETS)}')
    seconds, chosen, place = asked.seconds, asked.targets or TARGETS, room('fuzz')
    need('rt', 'clang')
    archive = library(place)
    seeds(place)
    shutil.rmtree(os.path.join(place, 'corpus'), ignore_errors=True)
    if os.path.exists(CORPUS):
        with tarfile.open(CORPUS) as pack:
            pack.extractall(os.path.join(place, 'corpus'))
    running = []
    for target in TARGETS:
        program, corpus = os.path.join(place, target), os.path.join(place, 'corpus', target)
        os.makedirs(corpus, exist_ok=True)
        subprocess.run(['clang', '-O1', '-fsanitize=fuzzer', f'-DTARGET={target}', os.path.join(HERE, 'harness.c'), archive,
                        os.path.join(KIT, 'c', 'liblibc_c.a'), '-o', program], check=True)
        if target not in chosen:
            continue
        # What it says goes to a file: a pipe that nobody reads would hold it once it is full.
        with open(os.path.join(place, f'{target}.log'), 'w') as log:
            running.append((target, subprocess.Popen(
                [program, f'-max_total_time={seconds}', '-timeout=10', '-rss_limit_mb=2048', '-max_len=65536', '-print_final_stats=1',
                 f'-artifact_prefix={place}/found-{target}-', corpus, os.path.join(place, 'seeds', target)], stderr=log)))
    status = 0
    for target, process in running:
        process.wait()
        with open(os.path.join(place, f'{target}.log')) as log:
            lines = log.read().splitlines()
        last = next((line for line in reversed(lines) if 'cov:' in line), '')
        print(f'{target}: ended with {process.returncode}; {last}; ' + '; '.join(line for line in lines if 'number_of_executed_units' in line))
        if process.returncode:
            print('\n'.join(lines[-20:]))
            status = 1
    keep(place)
    return status


if __name__ == '__main__':
    sys.exit(main())
