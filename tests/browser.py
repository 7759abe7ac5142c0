"""Has a browser try to reach a served desk from pages from elsewhere: python3 tests/browser.py PROGRAM

Headless Chromium (Debian's package `chromium`) opens a page at 127.0.0.2 that tries to withdraw a release and to read it: by `fetch` with
and without `no-cors`, with a `Content-Type` that needs a preflight request, by a form that is sent as text, an image, a script, a style, an
iframe and a beacon. Then it opens the desk by a name that is bound to its address. Each time the desk must be unchanged, and nothing of it
may be in a page. A page from the desk's own address can do both. Without Chromium it says so and does nothing.

Ends with the line 'N passed, M failed'."""

import http.server
import json
import os
import shutil
import subprocess
import sys
import tempfile
import threading
import time

sys.path.insert(0, os.path.dirname(os.path.abspath(__file__)))
sys.dont_write_bytecode = True

import database
import serving

WITHDRAW = '{"do":"withdraw","release":"r1","day":"2025-03-05","text":"x"}'
# What a page tries, each a function that returns a promise of what it could see.
ATTEMPTS = {
    "fetch": "fetch(DESK + '/commands', {method: 'POST', body: WITHDRAW}).then(r => r.text())",
    "fetch with no-cors": "fetch(DESK + '/commands', {method: 'POST', mode: 'no-cors', body: WITHDRAW}).then(r => r.type + r.status + '')",
    "fetch with leave": "fetch(DESK + '/commands', {method: 'POST', headers: {'Content-Type': 'application/json'}, body: WITHDRAW}).then(r => r.text())",
    "fetch to read": "fetch(DESK + '/releases/r1').then(r => r.text())",
    "fetch to read with no-cors": "fetch(DESK + '/releases/r1', {mode: 'no-cors'}).then(r => r.text())",
    "beacon": "Promise.resolve('' + navigator.sendBeacon(DESK + '/commands', WITHDRAW))",
    "form": """new Promise(done => {
        const frame = document.createElement('iframe'); frame.name = 'form';
        document.body.append(frame);
        const form = document.createElement('form');
        form.method = 'post'; form.enctype = 'text/plain'; form.action = DESK + '/commands'; form.target = 'form';
        const field = document.createElement('input');
        field.name = WITHDRAW.replace('"x"}', '"'); field.value = '"}';
        form.append(field); document.body.append(form); form.submit();
        setTimeout(() => done('sent'), 1000); })""",
    "iframe": """new Promise(done => {
        const frame = document.createElement('iframe'); frame.src = DESK + '/releases/r1';
        frame.onload = () => { try { done(frame.contentDocument.body.innerText); } catch (error) { done('' + error); } };
        document.body.append(frame); })""",
    "image": """new Promise(done => {
        const image = new Image(); image.onload = () => done('an image'); image.onerror = () => done('no image');
        image.src = DESK + '/releases/r1'; })""",
    "script": """new Promise(done => {
        const script = document.createElement('script'); script.onload = () => done('a script'); script.onerror = () => done('no script');
        script.src = DESK + '/releases/r1'; document.body.append(script); })""",
    "style": """new Promise(done => {
        const style = document.createElement('link'); style.rel = 'stylesheet';
        style.onload = () => done('a style'); style.onerror = () => done('no style');
        style.href = DESK + '/releases/r1'; document.head.append(style); })""",
}


class Page(http.server.BaseHTTPRequestHandler):
    def do_GET(self):
        body = b"<!DOCTYPE html><title>elsewhere</title><body></body>"
        self.send_response(200)
        self.send_header("Content-Type", "text/html")
        self.send_header("Content-Length", str(len(body)))
        self.end_headers()
        self.wfile.write(body)

    def log_message(self, *words):
        pass


class Browser:
    """Chromium, controlled over a pipe (the DevTools protocol)."""

    def __init__(self, room, *words):
        to_browser, self.asks = os.pipe()
        self.hears, from_browser = os.pipe()
        words = ["chromium", "--headless", "--no-sandbox", "--disable-gpu", "--no-first-run", "--disable-background-networking",
                 f"--user-data-dir={room}/profile", "--remote-debugging-pipe", *words, "about:blank"]
        shell = ["sh", "-c", f'exec "$@" 3<&{to_browser} 4>&{from_browser}', "sh", *words]
        self.process = subprocess.Popen(shell, pass_fds=(to_browser, from_browser), stdin=subprocess.DEVNULL, stdout=subprocess.DEVNULL, stderr=subprocess.DEVNULL)
        os.close(to_browser)
        os.close(from_browser)
        self.number, self.left, self.session = 0, b"", None
        target = self.call("Target.createTarget", url="about:blank")["targetId"]
        self.session = self.call("Target.attachToTarget", targetId=target, flatten=True)["sessionId"]
        self.call("Page.enable")

    def message(self):
        while b"\0" not in self.left:
            piece = os.read(self.hears, 1 << 16)
            if not piece:
                raise EOFError("the browser is gone")
            self.left += piece
        told, _, self.left = self.left.partition(b"\0")
        return json.loads(told)

    def call(self, method, **values):
        self.number += 1
        asked = {"id": self.number, "method": method, "params": values}
        if self.session:
            asked["sessionId"] = self.session
        os.write(self.asks, json.dumps(asked).encode() + b"\0")
        while True:
            told = self.message()
            if told.get("id") == self.number:
                if "error" in told:
                    raise RuntimeError(f"{method}: {told['error']}")
                return told["result"]

    def open(self, url):
        """Opens a page, and waits until it is loaded."""
        self.call("Page.navigate", url=url)
        for _ in range(200):
            if self.value("document.readyState == 'complete' && location.href != 'about:blank'"):
                return
            time.sleep(0.05)

    def value(self, expression):
        """What an expression in the page comes to, once its promise is kept; a fault as its words."""
        told = self.call("Runtime.evaluate", expression=expression, awaitPromise=True, returnByValue=True)
        if "exceptionDetails" in told:
            details = told["exceptionDetails"]
            return "fault: " + details.get("exception", {}).get("description", details["text"])
        return told["result"].get("value")

    def stop(self):
        self.process.kill()
        self.process.wait()
        os.close(self.asks)
        os.close(self.hears)


def attempt(what, port):
    known = f"const DESK = 'http://127.0.0.1:{port}', WITHDRAW = {json.dumps(WITHDRAW)};"
    return f"(() => {{ {known} return {what}; }})()"


def tables(path):
    """The rows of a desk's tables, read directly from its file."""
    with tempfile.TemporaryDirectory() as room:
        for name in (path, path + "-wal"):
            if os.path.exists(name):
                shutil.copy(name, room)
        copy = os.path.join(room, os.path.basename(path))
        done = subprocess.run([sys.executable, "-c", "import sqlite3, sys\nfor line in sqlite3.connect(sys.argv[1]).iterdump(): print(line)", copy], capture_output=True, check=True)
    return done.stdout


def elsewhere(browser, desk, path, tally):
    """What a page at another address can do: nothing."""
    server = http.server.ThreadingHTTPServer(("127.0.0.2", 0), Page)
    threading.Thread(target=server.serve_forever, daemon=True).start()
    before = tables(path)
    try:
        for name, what in ATTEMPTS.items():
            browser.open(f"http://127.0.0.2:{server.server_address[1]}/")
            seen = browser.value(attempt(what, desk.port))
            shown = browser.value("document.documentElement.outerHTML + document.title") or ""
            leaks = [word for word in ("frozen", "SPDXRef-p", "done", "binary") if word in f"{seen}{shown}"]
            tally.note(f"{name} from elsewhere", f"it saw {seen!r}" if leaks else None)
            tally.same(f"the tables after {name}", tables(path), before)
    finally:
        server.shutdown()


def bound(browser, desk, tally):
    """What is seen by a name that is bound to the desk's address."""
    browser.open(f"http://evil.example:{desk.port}/releases/r1")
    tally.same("a name bound to the desk's address", browser.value("document.body.innerText"), '{"fault":"origin"}')
    seen = browser.value("fetch('/releases/r1').then(r => r.text())")
    tally.same("a fetch of its page", seen, '{"fault":"origin"}')


def own(browser, desk, path, tally):
    """What a page of the desk's own address can do: everything."""
    before = tables(path)
    for name in ("127.0.0.1", "localhost"):
        browser.open(f"http://{name}:{desk.port}/releases/r1")
        tally.note(f"the release at {name}", None if "frozen" in (browser.value("document.body.innerText") or "") else browser.value("document.body.innerText"))
        seen = browser.value("fetch('/releases/r1/totals').then(r => r.text())")
        tally.same(f"a fetch at {name}", seen, serving.TOTALS.decode())
    seen = browser.value(f"fetch('/commands', {{method: 'POST', body: {json.dumps(WITHDRAW)}}}).then(r => r.text())")
    tally.same("a withdrawal from the desk's own page", seen, '{"done":true}')
    tally.note("the tables after that", None if tables(path) != before else "they are as before")


def main():
    program = os.path.abspath(sys.argv[1])
    if not shutil.which("chromium"):
        print("There is no chromium (apt-get install chromium): no browser is tried.")
        return
    print(subprocess.run(["chromium", "--version"], capture_output=True, text=True, check=False).stdout.strip())
    tally = serving.Tally()
    with tempfile.TemporaryDirectory(dir=database.ROOM) as room:
        path = os.path.join(room, "desk")
        desk = serving.Served(program, path, 100_000)
        browser = None
        try:
            for _, request, *_ in serving.RELEASE:
                desk.raw(request, ends=False)
            browser = Browser(room, "--host-resolver-rules=MAP evil.example 127.0.0.1")
            elsewhere(browser, desk, path, tally)
            bound(browser, desk, tally)
            own(browser, desk, path, tally)
        finally:
            if browser:
                browser.stop()
            desk.stop()
    print(f"{tally.passed} passed, {tally.failed} failed")
    sys.exit(tally.failed > 0 or tally.passed == 0)


if __name__ == "__main__":
    main()
