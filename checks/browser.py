"""A headless Chromium, driven by the DevTools protocol over two pipes, by the standard library."""
import base64
import json
import os
import shutil
import signal
import subprocess
import tempfile
import time
from typing import Dict, List, Optional


def find_browser() -> Optional[str]:
    """The program that the variable CHROMIUM names, or the first that is on PATH."""
    named = os.environ.get('CHROMIUM')
    names = [named] if named else ['chromium', 'chromium-browser', 'google-chrome']
    return next(filter(None, map(shutil.which, names)), None)


class Browser:
    """One page of a browser, which asks for nothing but what it is told to show."""

    def __init__(self, program: str, patience: float = 60) -> None:
        self.patience = patience
        self.profile = tempfile.mkdtemp()
        self.events: List[dict] = []
        self.last = 0
        self.rest = b''
        told, self.writer = os.pipe()
        self.reader, heard = os.pipe()
        words = [program, '--headless=new', '--remote-debugging-pipe', '--disable-gpu',
                 '--no-first-run', '--disable-extensions', '--disable-background-networking',
                 '--disable-dev-shm-usage', '--hide-scrollbars', f'--user-data-dir={self.profile}']
        if os.geteuid() == 0:
            words.append('--no-sandbox')

        # The browser reads descriptor 3, and writes 4.
        shell = 'exec 3<&"$0" 4>&"$1"; shift; exec "$@"'
        self.process = subprocess.Popen(
            ['bash', '-c', shell, str(told), str(heard), *words], pass_fds=(told, heard),
            stdin=subprocess.DEVNULL, stdout=subprocess.DEVNULL, stderr=subprocess.DEVNULL,
            start_new_session=True)
        os.close(told)
        os.close(heard)
        os.set_blocking(self.reader, False)
        target = self.call('Target.createTarget', url='about:blank')['targetId']
        self.session = self.call('Target.attachToTarget', targetId=target,
                                 flatten=True)['sessionId']
        for domain in 'Page', 'Runtime', 'Network', 'Log':
            self.call(f'{domain}.enable')

    session = None

    def call(self, method: str, **parameters: object) -> dict:
        self.last += 1
        message: Dict[str, object] = {'id': self.last, 'method': method, 'params': parameters}
        if self.session:
            message['sessionId'] = self.session
        os.write(self.writer, json.dumps(message).encode() + b'\0')
        end = time.monotonic() + self.patience
        while True:
            told = self.message(end)
            if told.get('id') == self.last:
                if 'error' in told:
                    raise RuntimeError(f'{method}: {told["error"]["message"]}')
                return told['result']
            self.events.append(told)

    def message(self, end: float) -> dict:
        while b'\0' not in self.rest:
            if time.monotonic() > end or self.process.poll() is not None:
                raise RuntimeError('the browser says nothing any more')
            try:
                self.rest += os.read(self.reader, 1 << 20)
            except BlockingIOError:
                time.sleep(0.002)
        told, _, self.rest = self.rest.partition(b'\0')
        return json.loads(told)

    def show(self, address: str) -> None:
        """Goes to a page, and waits until all of it is there."""
        self.events.clear()
        self.call('Page.navigate', url=address)
        end = time.monotonic() + self.patience
        while not any(event.get('method') == 'Page.loadEventFired' for event in self.events):
            self.events.append(self.message(end))

    def run(self, script: str) -> object:
        """What a script gives, as JSON has it; a promise is waited for."""
        told = self.call('Runtime.evaluate', expression=script, returnByValue=True,
                         awaitPromise=True)
        if 'exceptionDetails' in told:
            raise RuntimeError(json.dumps(told['exceptionDetails'])[:2000])
        return told['result'].get('value')

    def complaints(self) -> List[str]:
        """What the browser has to say against the page that is shown."""
        said = []
        for event in self.events:
            if event.get('method') == 'Log.entryAdded':
                entry = event['params']['entry']
                said.append(f'{entry["text"]} {entry.get("url", "")}')
            elif event.get('method') == 'Runtime.exceptionThrown':
                said.append(str(event['params']['exceptionDetails'].get('exception')))
        return said

    def asked(self) -> List[str]:
        """The addresses that were asked for since the page was gone to."""
        return [event['params']['request']['url'] for event in self.events
                if event.get('method') == 'Network.requestWillBeSent']

    def size(self, width: int, height: int, is_telephone: bool = False, scale: float = 1) -> None:
        self.call('Emulation.setDeviceMetricsOverride', width=width, height=height,
                  deviceScaleFactor=scale, mobile=is_telephone)

    def scheme(self, name: str, media: str = '') -> None:
        """Has a page in `light` or `dark`, on screen or in print."""
        self.call('Emulation.setEmulatedMedia', media=media,
                  features=[{'name': 'prefers-color-scheme', 'value': name}])

    def key(self, name: str, code: int, text: str = '') -> None:
        for kind in 'keyDown', 'keyUp':
            self.call('Input.dispatchKeyEvent', type=kind, key=name, code=name,
                      windowsVirtualKeyCode=code, **({'text': text} if kind == 'keyDown' else {}))

    def type(self, text: str) -> None:
        self.call('Input.insertText', text=text)

    def picture(self, path: str) -> None:
        told = self.call('Page.captureScreenshot', format='png')
        with open(path, 'wb') as file:
            file.write(base64.b64decode(told['data']))

    def paper(self, path: str) -> None:
        told = self.call('Page.printToPDF', preferCSSPageSize=True)
        with open(path, 'wb') as file:
            file.write(base64.b64decode(told['data']))

    def end(self) -> None:
        try:
            os.killpg(self.process.pid, signal.SIGKILL)
        except ProcessLookupError:
            pass
        self.process.wait()
        os.close(self.writer)
        os.close(self.reader)
        shutil.rmtree(self.profile, ignore_errors=True)
