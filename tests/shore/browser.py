"""Headless Chromium, driven through --remote-debugging-pipe: the standard library alone."""
import base64
import fcntl
import json
import os
import select
import shutil
import subprocess
import tempfile
import time

# Seconds after which an answer of the browser, or a state of the page, no longer comes.
PATIENCE = 300


class Browser:
    """A page in a browser of its own; `with Browser() as page`."""

    def __init__(self, width=1440, height=1000):
        self.profile = tempfile.mkdtemp(prefix='shore-')
        self.read, self.asked, self.session = b'', 0, None
        self.faults = []
        to_browser, self.to = os.pipe()
        self.back, from_browser = os.pipe()
        # The browser's ends are 3 and 4 there; above 10 neither is in the other's way.
        ends = [fcntl.fcntl(end, fcntl.F_DUPFD, 10) for end in (to_browser, from_browser)]

        def ends_in_place():
            os.dup2(ends[0], 3)
            os.dup2(ends[1], 4)

        self.log = open(os.path.join(self.profile, 'log'), 'w')
        self.process = subprocess.Popen(
            ['chromium', '--headless=new', '--no-sandbox', '--disable-gpu', '--disable-dev-shm-usage',
             '--remote-debugging-pipe', '--no-first-run', '--hide-scrollbars', '--user-data-dir=' + self.profile,
             '--window-size=%d,%d' % (width, height)],
            close_fds=False, preexec_fn=ends_in_place, stdout=self.log, stderr=self.log)
        for end in (to_browser, from_browser, *ends):
            os.close(end)
        target = self.call('Target.createTarget', url='about:blank')['targetId']
        self.session = self.call('Target.attachToTarget', targetId=target, flatten=True)['sessionId']
        self.call('Page.enable')
        self.call('Runtime.enable')
        self.size(width, height)

    def __enter__(self):
        return self

    def __exit__(self, *_):
        self.process.terminate()
        self.process.wait(20)
        self.log.close()
        shutil.rmtree(self.profile, ignore_errors=True)

    def call(self, method, **parameters):
        """A command of the protocol, and its result."""
        self.asked += 1
        message = {'id': self.asked, 'method': method, 'params': parameters}
        if self.session:
            message['sessionId'] = self.session
        self.send(json.dumps(message).encode() + b'\0')
        while True:
            said = self.message()
            if said.get('id') == self.asked:
                if 'error' in said:
                    raise RuntimeError('%s: %s' % (method, said['error']))
                return said['result']
            if said.get('method') == 'Runtime.exceptionThrown':
                self.faults.append(said['params']['exceptionDetails'])

    def send(self, message):
        while message:
            message = message[os.write(self.to, message):]

    def message(self):
        while b'\0' not in self.read:
            if not select.select([self.back], [], [], PATIENCE)[0]:
                raise RuntimeError('the browser is silent')
            more = os.read(self.back, 1 << 20)
            if not more:
                raise RuntimeError('the browser has ended')
            self.read += more
        said, self.read = self.read.split(b'\0', 1)
        return json.loads(said)

    def value(self, expression):
        """What an expression is in the page."""
        said = self.call('Runtime.evaluate', expression=expression, returnByValue=True, awaitPromise=True)
        if 'exceptionDetails' in said:
            raise RuntimeError('%s: %s; %s' % (expression[:400], json.dumps(said['exceptionDetails'])[:2000], json.dumps(self.faults)[:2000]))
        return said['result'].get('value')

    def wait(self, expression, then='true'):
        """Until an expression holds; what another one then is."""
        return self.value('''new Promise((done, failed) => {
            const end = performance.now() + %d;
            const look = () => {
                if (%s) done(%s);
                else if (performance.now() > end) failed(new Error('never so'));
                else setTimeout(look, 2);
            };
            look();
        })''' % (1000 * PATIENCE, expression, then))

    def open(self, path):
        self.call('Page.navigate', url='file://' + os.path.abspath(path))
        while not self.value("document.readyState === 'complete'"):
            time.sleep(0.005)

    def size(self, width, height, scale=1):
        self.call('Emulation.setDeviceMetricsOverride', width=width, height=height, deviceScaleFactor=scale, mobile=False)

    def focus(self, selector):
        """Selects all that an input has, as one does before typing over it."""
        if not self.value('(() => { const input = document.querySelector(%s); if (!input) return false; input.focus(); input.select(); '
                          'return document.activeElement === input; })()' % json.dumps(selector)):
            raise RuntimeError('no focus: ' + selector)

    def type(self, selector, text):
        """Types over what an input has."""
        self.focus(selector)
        self.call('Input.insertText', text=text)

    def press(self, key, code=0, modifiers=0):
        for kind in ('rawKeyDown', 'keyUp'):
            self.call('Input.dispatchKeyEvent', type=kind, key=key, code=key, windowsVirtualKeyCode=code, modifiers=modifiers)

    def click(self, selector):
        """A click of the mouse in the middle of what is shown."""
        place = self.value('(() => { const shown = document.querySelector(%s); shown.scrollIntoView({block: "center"}); '
                           'const box = shown.getBoundingClientRect(); return box.width && [box.x + box.width / 2, box.y + box.height / 2]; })()'
                           % json.dumps(selector))
        if not place:
            raise RuntimeError('not shown: ' + selector)
        for kind in ('mousePressed', 'mouseReleased'):
            self.call('Input.dispatchMouseEvent', type=kind, x=place[0], y=place[1], button='left', clickCount=1)

    def text(self, selector):
        return self.value('document.querySelector(%s).textContent' % json.dumps(selector))

    def picture(self, path, whole=True):
        """A screenshot, of the page as long as it is."""
        clip = {}
        if whole:
            box = self.call('Page.getLayoutMetrics')['cssContentSize']
            clip = {'clip': {'x': 0, 'y': 0, 'width': box['width'], 'height': box['height'], 'scale': 1}}
        shot = self.call('Page.captureScreenshot', format='png', captureBeyondViewport=whole, **clip)
        os.makedirs(os.path.dirname(path), exist_ok=True)
        with open(path, 'wb') as file:
            file.write(base64.b64decode(shot['data']))


def choose(page, selector, *paths):
    """Chooses files in an input, as one does in its dialogue."""
    found = page.call('Runtime.evaluate', expression='document.querySelector(%s)' % json.dumps(selector))
    page.call('DOM.setFileInputFiles', files=list(map(str, paths)), objectId=found['result']['objectId'])
