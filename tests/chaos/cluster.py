"""The processes of a run, their folders and their links, and what is done to them."""
import contextlib
import json
import os
import shutil
import signal
import socket
import subprocess
import threading
import time

from data import bytes_of
from history import NEVER, Lies, Life, Seen
from place import run
from served import ASK, PROGRAM, request

ROOM = '512k'  # Of a node's file system.
LATE = .06  # Seconds after which a thread has woken late, or a server answered late.


def exchange(server, method, target, body=b'', wait=6):
    """The status and the body of an answer."""
    address, port = server.split(':')
    with socket.create_connection((address, int(port)), timeout=wait) as stream:
        stream.sendall(request(method, target, body))
        head, _, body = b''.join(iter(lambda: stream.recv(65_536), b'')).partition(b'\r\n\r\n')
    length = next((int(line.split(b':')[1]) for line in head.split(b'\r\n') if line.lower().startswith(b'content-length')), -1)
    if length != len(body):
        raise OSError('an answer that is not whole')
    return int(head.split()[1]), body


def mark_of(body):
    counter = json.loads(body)['counter']
    return counter['hash'], counter['counter']


class Cluster:
    def __init__(self, plan, place, folder, history):
        self.plan, self.place, self.folder, self.history = plan, place, folder, history
        self.names = [*plan.nodes, *plan.brokers]
        self.processes, self.lost, self.last_words = {}, {}, {}
        for node in plan.nodes:
            self.lay_out(node)
        self.write_config()

    def lay_out(self, node):
        """A node's file system, small where that is allowed, with the files that lie in its folder and those that lie beside it."""
        os.makedirs(f'{self.folder}/{node}')
        if self.place.has_links:
            run('mount', '-t', 'tmpfs', '-o', f'size={ROOM}', 'tmpfs', f'{self.folder}/{node}')
        for name in ('folder', 'away'):
            os.mkdir(f'{self.folder}/{node}/{name}')
        mask = self.plan.there[node]
        for it in self.plan.files:
            self.write_file(node, it, 'folder' if mask & it.bit else 'away')
        self.write_number(node, self.plan.first[node])
        self.history.folders[node].append(Lies(-NEVER, -NEVER, mask))

    def write_file(self, node, it, where):
        with open(f'{self.folder}/{node}/{where}/{it.name}', 'wb') as file:
            file.write(bytes_of(it))

    def write_number(self, node, number):
        with open(f'{self.folder}/{node}/folder/incarnation', 'w') as file:
            file.write(f'{number}\n')

    def write_config(self):
        plan, at = self.plan, self.place.servers
        nodes = [{'address': at[it], 'folder': f'{self.folder}/{it}/folder', 'loads': [], 'name': it, 'watch': plan.watch, 'workers': 8, 'threads': 3}
                 for it in plan.nodes]
        config = {'brokers': [{'address': at[it], 'workers': 8} for it in plan.brokers], 'every': plan.every, 'kept': plan.kept,
                  'network': True, 'nodes': nodes, 'patience': plan.patience, 'queries': [], 'turns': plan.turns}
        for it in [*nodes, *config['brokers']] if plan.front else ():
            it['front'] = plan.front
        with open(f'{self.folder}/config.json', 'w') as file:
            json.dump(config, file)

    # Processes

    def part(self, name):
        return name if name in self.plan.nodes else f'broker:{self.plan.brokers.index(name)}'

    def start(self, name, is_mended=False):
        history = self.history
        if history.life(name):  # It was started as soon as its disk had room.
            return
        life = Life(history.now(), name in self.lost, is_mended)
        history.say(f'{name} is started')
        environment = {**os.environ, 'DRUID_CLUSTER_PART': self.part(name), 'DRUID_CLUSTER_LOG': 'info', 'DRUID_CLUSTER_EXPLAIN': '1'}
        process = subprocess.Popen([*self.place.prefix(name), PROGRAM, 'serve', f'{self.folder}/config.json'], stdin=subprocess.DEVNULL,
                                   stdout=subprocess.DEVNULL, stderr=subprocess.PIPE, env=environment, text=True, errors='replace')
        history.lives[name].append(life)
        self.processes[name] = process
        self.last_words[name] = []
        threading.Thread(target=self.read_lines, args=(name, life, process.stderr, self.last_words[name]), daemon=True).start()

    def read_lines(self, name, life, lines, words):
        """Keeps what a process says. It says where it listens once it does."""
        for line in lines:
            if 'listens on' in line and life.ready == NEVER:
                life.ready = self.history.now()
            words.append(line.rstrip())
            self.history.say(f'{name} says: {self.briefly(line.rstrip())}')

    def briefly(self, line):
        """A line of the log without what is said beside it."""
        try:
            event = json.loads(line)
            file = next((it for it in self.plan.files if it.name == event.get('file')), None)
            return ' '.join([event['event'], *(f'{it.day}:{it.version}.{it.part}' for it in [file] if it),
                             *(f'{key} {event[key]}' for key in ('node', 'code', 'failed', 'held', 'shown') if key in event)])
        except (ValueError, KeyError, TypeError):
            return line[:300]

    def kill(self, name):
        life, process = self.history.life(name), self.processes[name]
        if life:
            self.look_at(name)
            life.killed = min(life.killed, self.history.now())
            process.kill()
            process.wait()
            life.end = min(life.end, self.history.now())
            self.history.say(f'{name} is killed')

    def look_at(self, name):
        """Notes where a process has ended by itself: only a start may, on a disk that is full."""
        life, process = self.history.life(name), self.processes[name]
        status = process.poll() if life else None
        if status is None:
            return
        now = self.history.now()
        life.killed, life.end, life.status = life.start if life.ready == NEVER else now, now, status
        time.sleep(.1)  # For its last words.
        said = ' / '.join(self.last_words[name][-6:])
        self.history.say(f'{name} ended with {status}: {said}')
        is_refused = status == 3 and 'device' in said and any(one <= now and life.start <= other for one, other in self.history.full[name])
        if not is_refused:
            self.history.fault(f'{name} ended by itself with {status}: {said}')

    def pause(self, name):
        if self.history.life(name):
            self.history.begins(self.history.pauses[name])
            self.processes[name].send_signal(signal.SIGSTOP)
            self.history.say(f'{name} is stopped (SIGSTOP)')

    def go_on(self, name):
        if self.history.life(name):
            self.processes[name].send_signal(signal.SIGCONT)
            self.history.ends(self.history.pauses[name])
            self.history.say(f'{name} goes on (SIGCONT)')

    def ends(self):
        for process in self.processes.values():
            process.kill()
            process.wait()
        if self.place.has_links:
            for node in self.plan.nodes:
                run('umount', '--lazy', f'{self.folder}/{node}')
        shutil.rmtree(self.folder, ignore_errors=True)

    # Folders

    def mask(self, node):
        return self.history.folders[node][-1].mask

    def move(self, node, it, way):
        """Moves a file into a node's folder or out of it. Whether it could be: not out of one whose node is about to read it."""
        is_there = bool(self.mask(node) & it.bit)
        way = ('out' if is_there else 'in') if way == 'over' else way
        if is_there == (way == 'in'):
            return True
        life = self.history.life(node)
        if way == 'out' and life and life.ready == NEVER:
            return False
        one, other = (f'{self.folder}/{node}/{where}/{it.name}' for where in ('away', 'folder'))
        before = self.history.now()
        os.rename(*((one, other) if way == 'in' else (other, one)))
        self.history.folders[node].append(Lies(before, self.history.now(), self.mask(node) ^ it.bit))
        self.history.say(f'{node}: {it.day}:{it.version}.{it.part} is moved {way}')
        return True

    def lose(self, node):
        """All in the folder of a node that does not run is gone."""
        self.lost[node], before = self.mask(node), self.history.now()
        for name in os.listdir(f'{self.folder}/{node}/folder'):
            os.remove(f'{self.folder}/{node}/folder/{name}')
        self.history.folders[node].append(Lies(before, self.history.now(), 0))
        self.history.say(f'{node} loses its folder')
        for it in self.plan.files:
            self.write_file(node, it, 'away')

    def shown_number(self, node):
        """The greatest incarnation of a node that brokers show; of one that does not answer, what it showed last."""
        place, numbers = self.plan.nodes.index(node), [it.incarnation for it in self.history.seen if it.node == node and it.server != node]
        for broker in self.plan.brokers:
            with contextlib.suppress(OSError, ValueError, KeyError, IndexError):
                numbers.append(mark_of(exchange(self.place.servers[broker], 'GET', f'/druid-internal/v1/inventory/{place}', wait=1)[1])[0])
        return max(numbers)

    def mend(self, node, brings_back):
        """What an operator does for a node that lost its folder: the last number that brokers show goes into its `incarnation` file."""
        self.kill(node)
        number, mask = self.shown_number(node), self.lost.pop(node)
        self.write_number(node, number)
        self.history.say(f'{node}: {number} is written into its incarnation file')
        for it in self.plan.files:
            if brings_back and mask & it.bit:
                self.move(node, it, 'in')
        self.start(node, is_mended=True)

    def fill(self, node):
        if not self.place.has_links:
            return
        with contextlib.suppress(OSError), open(f'{self.folder}/{node}/filler', 'wb', buffering=0) as file:
            self.history.begins(self.history.full[node])
            while True:
                file.write(bytes(4_096))
        self.history.say(f'{node}: its disk is full')

    def free(self, node):
        with contextlib.suppress(OSError):
            os.remove(f'{self.folder}/{node}/filler')
            self.history.say(f'{node}: its disk has room again')
        self.look_at(node)
        if not self.history.life(node):
            self.start(node)
        self.history.ends(self.history.full[node])

    # Links

    def link(self, what, name, words):
        """Something befalls a link, or is over."""
        if not self.place.has_links:
            return
        history, is_over = self.history, what.startswith('end ')
        key = (name, what.removeprefix('end '), words[0] if 'cut' in what else None)
        whom = (name, words[0]) if 'cut' in what else name
        if not is_over:
            history.links.append([history.now(), NEVER, whom, key])
        getattr(self.place, what.replace(' ', '_'))(name, *words)
        if is_over:
            for it in history.links:
                if it[3] == key and it[1] == NEVER:
                    it[1] = history.now()
        history.say(f'{name}: {what} {" ".join(map(str, words))}'.rstrip())

    def do(self, step):
        """Makes a step of the schedule. Whether it could be made."""
        if step.what in ('in', 'out', 'over'):
            return self.move(step.server, next(it for it in self.plan.files if it.bit == step.words[0]), step.what)
        simple = {'start': self.start, 'kill': self.kill, 'stop': self.pause, 'continue': self.go_on, 'lose': self.lose, 'mend': self.mend,
                  'fill': self.fill, 'free': self.free}
        if step.what in simple:
            simple[step.what](step.server, *step.words)
        else:
            self.link(step.what, step.server, step.words)
        return True

    # What servers show

    def ask_mark(self, server, node):
        """Notes the mark of a node that it shows itself, or that a broker holds of it."""
        target = ASK if server == node else f'/druid-internal/v1/inventory/{self.plan.nodes.index(node)}'
        sent = self.history.now()
        with contextlib.suppress(OSError, ValueError, IndexError, KeyError):
            status, body = exchange(self.place.servers[server], 'GET', target, wait=1)
            if status == 200:
                self.history.seen.append(Seen(sent, self.history.now(), server, node, *mark_of(body)))
        now = self.history.now()
        if now - sent > LATE and not self.history.is_disturbed(server, sent, now):
            self.history.stalls.append((now, now - sent))

    def uses(self, name):
        """Memory in KiB and open files of a process; None where it does not run."""
        try:
            with open(f'/proc/{self.processes[name].pid}/status') as file:
                status = dict(line.split(':', 1) for line in file)
            return int(status['VmRSS'].split()[0]), len(os.listdir(f'/proc/{self.processes[name].pid}/fd'))
        except (OSError, KeyError):
            return None
