"""Headless Chromium over its debugging pipe: a tab that opens an address, runs a script and changes how the page is looked at."""
import base64
import itertools
import json
import os
import select
import signal
import subprocess
import tempfile
import time

SWITCHES = ['--headless', '--no-sandbox', '--disable-gpu', '--no-first-run', '--disable-background-networking', '--remote-debugging-pipe']


class Browser:
    def __init__(self):
        self.room = tempfile.TemporaryDirectory(ignore_cleanup_errors=True)
        theirs_in, self.out = os.pipe()
        self.into, theirs_out = os.pipe()
        # Chromium reads commands at descriptor 3 and answers at 4
        call = f'exec chromium "$@" 3<&{theirs_in} 4>&{theirs_out}'
        self.process = subprocess.Popen(['bash', '-c', call, 'chromium', *SWITCHES, f'--user-data-dir={self.room.name}'], pass_fds=(theirs_in, theirs_out),
                                        stdout=subprocess.DEVNULL, stderr=subprocess.DEVNULL, start_new_session=True)
        os.close(theirs_in)
        os.close(theirs_out)
        self.numbers, self.rest, self.heard = itertools.count(1), b'', []

    def __enter__(self):
        return self

    def __exit__(self, *_):
        os.killpg(self.process.pid, signal.SIGKILL)
        self.process.wait()
        os.close(self.out)
        os.close(self.into)
        self.room.cleanup()

    def read(self, end):
        """The next message before that time."""
        while b'\0' not in self.rest:
            ready, _, _ = select.select([self.into], [], [], max(0, end - time.monotonic()))
            piece = os.read(self.into, 1 << 20) if ready else b''
            if not piece:
                raise TimeoutError('Chromium does not answer')
            self.rest += piece
        message, self.rest = self.rest.split(b'\0', 1)
        return json.loads(message)

    def call(self, method, session=None, patience=30, **words):
        number = next(self.numbers)
        message = {'id': number, 'method': method, 'params': words, **({'sessionId': session} if session else {})}
        os.write(self.out, json.dumps(message).encode() + b'\0')
        end = time.monotonic() + patience
        while (told := self.read(end)).get('id') != number:
            self.heard.append(told)
        if 'error' in told:
            raise ValueError(f'{method}: {told["error"]["message"]}')
        return told['result']

    def open(self, address):
        target = self.call('Target.createTarget', url='about:blank')['targetId']
        tab = Tab(self, self.call('Target.attachToTarget', targetId=target, flatten=True)['sessionId'])
        for domain in ('Page', 'Runtime', 'Network', 'Log'):
            tab.call(f'{domain}.enable')
        tab.call('Page.navigate', url=address)
        return tab


class Tab:
    def __init__(self, browser, session):
        self.browser, self.session = browser, session

    def call(self, method, **words):
        return self.browser.call(method, self.session, **words)

    def run(self, script):
        """The value of an expression of JavaScript on the page."""
        told = self.call('Runtime.evaluate', expression=script, returnByValue=True, awaitPromise=True)
        if 'exceptionDetails' in told:
            raise ValueError(told['exceptionDetails']['exception'].get('description', told['exceptionDetails']['text']))
        return told['result'].get('value')

    def until(self, script, patience=10):
        """Waits until an expression is true, and answers after how many seconds it was."""
        begun = time.monotonic()
        while time.monotonic() - begun < patience:
            if self.run(script):
                return time.monotonic() - begun
            time.sleep(0.02)
        raise AssertionError(f'not within {patience} s: {script}')

    def said(self, *methods):
        """What the browser told of this tab by itself, of these kinds."""
        self.run('0')
        return [each['params'] for each in self.browser.heard if each.get('sessionId') == self.session and each['method'] in methods]

    def pictured(self, path):
        size = self.call('Page.getLayoutMetrics')['cssContentSize']
        clip = {'x': 0, 'y': 0, 'width': size['width'], 'height': size['height'], 'scale': 1}
        data = self.call('Page.captureScreenshot', format='png', captureBeyondViewport=True, clip=clip)['data']
        with open(path, 'wb') as file:
            file.write(base64.b64decode(data))
