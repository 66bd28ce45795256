#!/usr/bin/env python3
"""Has promtool look at the texts of metrics, for what Prometheus refuses and what its conventions ask for.

promtool.py [ADDRESS..]

Without addresses it takes the texts that crates/druid_device_tests compares with what is rendered, so what passes here is what is
rendered. With addresses it asks each, such as 127.0.0.1:9082, for `GET /metrics`, and looks at the type of content too.
It needs promtool, of Debian's package prometheus.
"""
import os, re, subprocess, sys, urllib.request

sys.path.insert(0, os.path.dirname(os.path.dirname(os.path.abspath(__file__))))
from served import TOP, need, parser_of  # noqa: E402

TYPE = 'text/plain; version=0.0.4; charset=utf-8'


def texts():
    """The texts of the tests, by the names of their constants."""
    source = open(f'{TOP}/crates/druid_device_tests/src/metrics.rt').read()
    found = re.findall(r'const (OF_\w+): &str =\s*"((?:[^"\\]|\\.)*)";', source)
    unescape = lambda text: re.sub(r'\\(.)', lambda it: {'n': '\n'}.get(it[1], it[1]), text)
    if len(found) < 4:
        sys.exit('crates/druid_device_tests has fewer than four such texts: of connections, a node, a broker and durations')
    return [(name, unescape(text)) for name, text in found]


def served(address):
    """The text that an address answers; a sentence ends the program where it answers something else, or nothing."""
    try:
        with urllib.request.urlopen(f'http://{address}/metrics', timeout=30) as answer:
            kind = answer.headers['Content-Type']
            if kind != TYPE:
                sys.exit(f'{address}: Content-Type is {kind}')
            return answer.read().decode()
    except (OSError, ValueError) as fault:
        sys.exit(f'{address}: no metrics, {fault}')


def main():
    parser = parser_of(__doc__)
    parser.add_argument('addresses', nargs='*', metavar='ADDRESS')
    addresses = parser.parse_args().addresses
    need('promtool')
    pages = [(address, served(address)) for address in addresses] if addresses else texts()
    failed = 0
    for name, text in pages:
        done = subprocess.run(['promtool', 'check', 'metrics'], input=text, stdout=subprocess.PIPE, stderr=subprocess.STDOUT, text=True)
        print(f'{name}: {"passed" if done.returncode == 0 else "failed"}\n{done.stdout}'.strip())
        failed += done.returncode != 0
    print(f'{len(pages) - failed} passed, {failed} failed')
    return min(failed, 1)


if __name__ == '__main__':
    sys.exit(main())
