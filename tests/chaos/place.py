"""Where the processes of a run live: each in a network namespace of its own, joined by a bridge, or all on loopback addresses.

A run is made in a network, mount and process namespace of its own (`enter`), so that runs do not meet, and nothing is left of one that
is ended. There a server `x` has the namespace `x`, in which its link is `eth0`; the other end is `v-x`, a port of the bridge.
"""
import os
import shutil
import subprocess

from served import free_ports

PORT = 8083  # Of each server, in its own namespace.
NEEDED = ('ip', 'tc', 'unshare', 'nsenter')
NOWHERE = '02:00:00:00:00:01'
CLIENT = '10.66.0.1'


def is_allowed():
    """Whether namespaces may be made here."""
    if not all(map(shutil.which, NEEDED)):
        return False
    made = subprocess.run([*enter(), 'ip', 'link', 'add', 'name', 'bridge0', 'type', 'bridge'], capture_output=True, check=False)
    return made.returncode == 0


def enter():
    """What is put before a command that is to run in namespaces of its own. As no root it becomes the root of a user namespace."""
    return ['unshare', *([] if os.geteuid() == 0 else ['--map-root-user', '--user']), '--net', '--mount', '--pid', '--fork', '--kill-child', '--mount-proc']


def run(*words, given=None):
    done = subprocess.run(words, input=given, capture_output=True, text=True, check=False)
    if done.returncode:
        raise SystemExit(f'{" ".join(words)}: {done.stderr.strip()}')


class Loopback:
    """Servers on addresses of 127.0.0.0/8: nothing befalls their links."""
    has_links = False

    def __init__(self, names):
        self.servers = {name: f'127.0.0.{2 + place}:{port}' for place, (name, port) in enumerate(zip(names, free_ports(len(names))))}

    def prefix(self, _name):
        return []


class Namespaces:
    """Servers in network namespaces. `nft` makes packets drop, where it is there."""
    has_links = True

    def __init__(self, names):
        self.addresses = {name: f'10.66.0.{2 + place}' for place, name in enumerate(names)}
        self.servers = {name: f'{address}:{PORT}' for name, address in self.addresses.items()}
        self.ports = {address: f'02:00:00:00:01:{place:02}' for place, address in enumerate([CLIENT, *self.addresses.values()])}
        self.drops = shutil.which('nft') is not None
        run('mount', '-t', 'tmpfs', 'tmpfs', '/run')
        os.mkdir('/run/netns')
        run('ip', '-batch', '-', given=f'link set lo up\nlink add name bridge0 address {self.ports[CLIENT]} type bridge\nlink set bridge0 up\n'
                                      f'addr add {CLIENT}/24 dev bridge0\n{self.known("bridge0")}')
        for name, address in self.addresses.items():
            run('ip', '-batch', '-', given=f'netns add {name}\nlink add name v-{name} type veth peer name eth0 address {self.ports[address]} netns {name}\n'
                                           f'link set v-{name} master bridge0 up\n')
            run('ip', '-n', name, '-batch', '-', given=f'link set lo up\naddr add {address}/24 dev eth0\nlink set eth0 up\n{self.known("eth0")}')
            if self.drops:
                self.nft(name, 'add table ip f\nadd chain ip f in { type filter hook input priority 0; }\n')

    def known(self, device):
        """Which port has each address. A kernel that has to ask for it while a link is unplugged waits on for a second after that."""
        return ''.join(f'neigh replace {address} lladdr {port} nud permanent dev {device}\n' for address, port in self.ports.items())

    def prefix(self, name):
        return ['nsenter', f'--net=/run/netns/{name}']

    def nft(self, name, text):
        run(*self.prefix(name), 'nft', '-f', '-', given=text)

    def unplug(self, name):
        """The port goes down: nothing comes or goes."""
        run('ip', 'link', 'set', f'v-{name}', 'down')

    def end_unplug(self, name):
        run('ip', 'link', 'set', f'v-{name}', 'up')

    def ways(self, node, broker, way):
        return [pair for pair, name in (((broker, node), 'to'), ((node, broker), 'from')) if way in (name, 'both')]

    def cut(self, node, broker, way):
        """What one sends to the other goes nowhere: it is sent to a port that nobody has."""
        for one, other in self.ways(node, broker, way):
            self.send_to(one, other, NOWHERE)

    def end_cut(self, node, broker, way):
        for one, other in self.ways(node, broker, way):
            self.send_to(one, other, self.ports[self.addresses[other]])

    def send_to(self, one, other, port):
        run('ip', '-n', one, 'neigh', 'replace', self.addresses[other], 'lladdr', port, 'nud', 'permanent', 'dev', 'eth0')

    def at(self, name, way):
        return ['tc'] if way == 'in' else ['tc', '-n', name], f'v-{name}' if way == 'in' else 'eth0'

    def slow(self, name, kbit, way):
        words, device = self.at(name, way)
        run(*words, 'qdisc', 'replace', 'dev', device, 'root', 'tbf', 'rate', f'{kbit}kbit', 'burst', '1600', 'latency', '400ms')

    def end_slow(self, name, _kbit, way):
        words, device = self.at(name, way)
        run(*words, 'qdisc', 'del', 'dev', device, 'root')

    def drop(self, name, percent):
        """So many of a hundred packets that come are lost."""
        if self.drops:
            self.nft(name, f'add rule ip f in numgen random mod 100 < {percent} drop\n')

    def end_drop(self, name, _percent):
        if self.drops:
            self.nft(name, 'flush chain ip f in\n')
