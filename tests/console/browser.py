"""Headless Chromium, driven over its own protocol: a websocket by the standard library, and the few calls that check.py makes."""
import base64, json, os, re, shutil, signal, socket, struct, subprocess, tempfile, time, urllib.request


LONGEST = '900'  # Seconds after which `timeout` ends a browser that a killed test leaves.


class Socket:
    """A client's end of a websocket: texts there and back, each in one frame or in several."""

    def __init__(self, url):
        host, port, path = re.fullmatch(r'ws://([0-9.]+):([0-9]+)(/.*)', url).groups()
        self.link = socket.create_connection((host, int(port)), timeout=60)
        key = base64.b64encode(os.urandom(16)).decode()
        self.link.sendall(f'GET {path} HTTP/1.1\r\nHost: {host}:{port}\r\nUpgrade: websocket\r\nConnection: Upgrade\r\n'
                          f'Sec-WebSocket-Key: {key}\r\nSec-WebSocket-Version: 13\r\n\r\n'.encode())
        self.bytes = self.link.makefile('rb')
        assert b' 101 ' in self.bytes.readline()
        while self.bytes.readline() != b'\r\n':
            pass

    def send(self, text):
        data, mask = text.encode(), os.urandom(4)
        if len(data) < 126:
            size = bytes([0x80 | len(data)])
        else:
            size = struct.pack('>BH', 0x80 | 126, len(data)) if len(data) < 65_536 else struct.pack('>BQ', 0x80 | 127, len(data))
        masked = bytes(byte ^ mask[place % 4] for place, byte in enumerate(data))
        self.link.sendall(b'\x81' + size + mask + masked)

    def receive(self):
        text = b''
        while True:
            first, size = self.bytes.read(2)
            if size > 125:
                size = struct.unpack(*('>H', self.bytes.read(2)) if size == 126 else ('>Q', self.bytes.read(8)))[0]
            part = self.bytes.read(size)
            if first & 0x0f < 8:  # Others are pings and the like.
                text += part
                if first & 0x80:
                    return text.decode()


class Browser:
    """A page of a browser, which ends with the `with` that it stands in."""

    def __init__(self, program, width=1280, height=900, dark=False):
        self.folder, self.count, self.events = tempfile.mkdtemp(), 0, []
        words = ['timeout', LONGEST, program, '--headless=new', '--remote-debugging-port=0', f'--user-data-dir={self.folder}',
                 '--no-first-run', '--disable-gpu', '--hide-scrollbars', '--disable-background-networking', '--disable-component-update',
                 '--disable-sync', '--host-resolver-rules=MAP * ~NOTFOUND, EXCLUDE 127.0.0.1', f'--window-size={width},{height}',
                 *(['--no-sandbox'] if os.geteuid() == 0 else []), 'about:blank']
        self.process = subprocess.Popen(words, stdout=subprocess.DEVNULL, stderr=subprocess.PIPE, start_new_session=True)
        self.socket = Socket(self.page_url())
        for domain in ('Page', 'Runtime', 'Network', 'Log'):
            self.call(f'{domain}.enable')
        self.call('Emulation.setDeviceMetricsOverride', width=width, height=height, deviceScaleFactor=1, mobile=False)
        self.call('Emulation.setEmulatedMedia', features=[{'name': 'prefers-color-scheme', 'value': 'dark' if dark else 'light'}])

    def page_url(self):
        for line in self.process.stderr:
            found = re.search(rb'DevTools listening on ws://127\.0\.0\.1:([0-9]+)/', line)
            if found:
                with urllib.request.urlopen(f'http://127.0.0.1:{int(found[1])}/json', timeout=30) as response:
                    return next(it['webSocketDebuggerUrl'] for it in json.load(response) if it['type'] == 'page')
        raise SystemExit('chromium did not start')

    def __enter__(self):
        return self

    def __exit__(self, *_):
        os.killpg(self.process.pid, signal.SIGKILL)  # The browser's own session, started above.
        self.process.wait()
        shutil.rmtree(self.folder, ignore_errors=True)

    def call(self, method, **parameters):
        self.count += 1
        self.socket.send(json.dumps({'id': self.count, 'method': method, 'params': parameters}))
        while True:
            message = json.loads(self.socket.receive())
            if message.get('id') == self.count:
                if 'error' in message:
                    raise OSError(f'{method}: {message["error"]}')
                return message['result']
            self.events.append(message)

    def value(self, script):
        """What a script in the page gives, once it is settled."""
        result = self.call('Runtime.evaluate', expression=script, awaitPromise=True, returnByValue=True)
        if 'exceptionDetails' in result:
            raise OSError(json.dumps(result['exceptionDetails'])[:400])
        return result['result'].get('value')

    def wait_for(self, script, seconds=20):
        """The first value of a script that holds."""
        until = time.monotonic() + seconds
        while True:
            value = self.value(script)
            if value:
                return value
            if time.monotonic() > until:
                raise TimeoutError(script)
            time.sleep(0.05)

    def open(self, url, ready):
        self.call('Page.navigate', url=url)
        return self.wait_for(ready)

    def key(self, key, code=None, modifiers=0):
        for kind in ('keyDown', 'keyUp'):
            self.call('Input.dispatchKeyEvent', type=kind, key=key, code=code or key, modifiers=modifiers,
                      **({'text': key} if kind == 'keyDown' and len(key) == 1 else {}))

    def mouse(self, kind, x, y, **more):
        self.call('Input.dispatchMouseEvent', type=kind, x=x, y=y, **more)

    def picture(self, path, clip=None):
        with open(path, 'wb') as file:
            area = {'clip': {**clip, 'scale': 1}} if clip else {}
            file.write(base64.b64decode(self.call('Page.captureScreenshot', format='png', **area)['data']))
