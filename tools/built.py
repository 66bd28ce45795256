"""What scripts share that a person runs: where the built program is, their help, and what they say where something is not there."""
import argparse
import os
import shutil
import sys

TOP = os.path.dirname(os.path.dirname(os.path.abspath(__file__)))
PROGRAM = os.environ.get('DRUID_CLUSTER') or os.path.join(TOP, 'crates', 'druid_program_main', 'out', 'druid_program_main')

# Debian's packages, where they have another name than the command.
PACKAGES = {'ab': 'apache2-utils', 'cc': 'gcc libc6-dev', 'clang': 'clang libclang-rt-14-dev', 'nginx': 'nginx-light', 'objdump': 'binutils',
            'promtool': 'prometheus', 'chromium': '--no-install-recommends chromium fonts-dejavu-core'}
LACKING = ' is not there: apt-get install '  # What `need` says of a command of Debian's: tests/all passes over a test that says so.


def parser_of(text):
    """A parser of a script's words, whose help is the text at the script's head."""
    return argparse.ArgumentParser(description=text, formatter_class=argparse.RawDescriptionHelpFormatter)


def need_program(path=PROGRAM):
    """Ends with status 1 and a sentence where the built program is not there: nothing that needs it begins a proof."""
    if not (os.path.isfile(path) and os.access(path, os.X_OK)):
        sys.exit(f'{path} is no program: `./druid_cluster replay </dev/null` proves and builds it, or DRUID_CLUSTER has the path of another')


def need(*commands):
    """Ends with status 1 and a sentence for each of these commands that is not there."""
    missing = [it for it in commands if not shutil.which(it)]
    if missing:
        sys.exit('\n'.join("rt is not there: the toolchain's (README, 'Get it running')" if it == 'rt' else f'{it}{LACKING}{PACKAGES.get(it, it)}'
                           for it in missing))


def has_checks(path=PROGRAM):
    """Whether a program has checks of memory, as `./druid_cluster preview`: they hold memory back, and end it where some is refused."""
    with open(path, 'rb') as file:
        return b'__asan_init' in file.read()
