"""What the programs of this folder share: they build a proved program of their own over copies of the crates, and run it."""
import hashlib, os, re, shutil, subprocess, sys, tempfile

TOP = os.path.dirname(os.path.dirname(os.path.abspath(__file__)))
sys.path.insert(0, os.path.join(TOP, 'tools'))
from built import PROGRAM, need, need_program, parser_of  # noqa: E402,F401


def room(name):
    """A folder for temporary files that is kept, of this checkout alone: two of them do not write into one another's."""
    path = os.path.join(tempfile.gettempdir(), f'druid_cluster_{hashlib.sha256(TOP.encode()).hexdigest()[:12]}', name)
    os.makedirs(path, exist_ok=True)
    return path


def crates():
    """The libraries that each crate of crates.txt stands on, by its name."""
    with open(os.path.join(TOP, 'crates.txt')) as file:
        lines = [re.fullmatch(r'([a-z_]+):(.*)', line.strip()) for line in file]
    return {line[1]: line[2].split() for line in lines if line}


def below(names):
    """These crates of the repository, and all that they stand on, lowest first."""
    found, every = [], crates()

    def add(name):
        if name in every and name not in found:
            for it in every[name]:
                add(it)
            found.append(name)

    for name in names:
        add(name)
    return found


def empty(folder):
    """Removes what a folder holds, but for `out`, where the toolchain keeps what was proved."""
    os.makedirs(folder, exist_ok=True)
    for it in os.scandir(folder):
        if it.name != 'out':
            shutil.rmtree(it.path) if it.is_dir(follow_symlinks=False) else os.remove(it.path)


def copy_crates(names, program, place):
    """These crates as they are now, beside the program's: no file that a crate has lost stays, and no crate that is used no more."""
    empty(os.path.join(place, 'crates', program))
    for it in set(os.listdir(os.path.join(place, 'crates'))) - {*names, program}:
        shutil.rmtree(os.path.join(place, 'crates', it))
    for it in names:
        empty(os.path.join(place, 'crates', it))
        shutil.copytree(os.path.join(TOP, 'crates', it), os.path.join(place, 'crates', it), dirs_exist_ok=True,
                        ignore=shutil.ignore_patterns('out', 'must-fail'))


def write_program(name, proofs, crate):
    """The program's own crate: bench/NAME/main.rt.in, and the files of bench/NAME that go into its proofs, by their place there."""
    os.makedirs(os.path.join(crate, 'src'))
    shutil.copy(os.path.join(TOP, 'bench', name, 'main.rt.in'), os.path.join(crate, 'src', 'main.rt'))
    for to, source in proofs.items():
        os.makedirs(os.path.dirname(os.path.join(crate, 'proofs', to)), exist_ok=True)
        shutil.copy(os.path.join(TOP, 'bench', name, source), os.path.join(crate, 'proofs', to))
    lemmas = sorted(it[:-len('.antt')] for it in proofs if '/' not in it)
    if lemmas:
        with open(os.path.join(crate, 'proofs', 'Lib.antt'), 'w') as file:
            file.writelines(f'pub mod {it}\n' for it in lemmas)


def build(name, uses, proofs=None, words=(), place=None):
    """Builds bench/NAME/main.rt.in over the crates that it uses, runs it on the words, and gives the program's path and its folder.

    The first time proves the crates, which takes minutes. `uses` are the libraries that the program names; `proofs` are the files of
    bench/NAME that go into the crate's proofs, by their place there; `place` is another folder than this checkout's own.
    """
    need('rt')
    place = place or room(name)
    crate, every, ours = os.path.join(place, 'crates', name), crates(), below(uses)
    copy_crates(ours, name, place)
    with open(os.path.join(place, 'crates.txt'), 'w') as file:
        file.writelines(f"{it}: {' '.join(every[it])}\n" for it in ours)
        file.write(f"{name}: {' '.join([*reversed(ours), *(it for it in uses if it not in every)])}\n")
    write_program(name, proofs or {}, crate)
    built = subprocess.run(['rt', 'run', '--', *words], cwd=crate, stdout=subprocess.DEVNULL, check=False)
    if built.returncode:
        sys.exit(f'{crate}: `rt run` ended with {built.returncode}')
    return os.path.join(crate, 'out', name), place


def run(program, *words):
    """The lines that a program prints, and its peak memory in MiB."""
    child = subprocess.Popen([program, *words], stdout=subprocess.PIPE, text=True)
    lines = child.stdout.read().splitlines()
    _, status, used = os.wait4(child.pid, 0)
    if status:
        sys.exit(f'{" ".join([program, *words])}: ended with {os.waitstatus_to_exitcode(status)}')
    return lines, used.ru_maxrss / 1024
