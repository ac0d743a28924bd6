"""Firefox for Selenium, without geckodriver, which Debian doesn't have: WebDriver's requests are handed on by Marionette.

Marionette is what Firefox itself speaks: commands over a socket, each as its length, a colon, and a list in JSON.
"""
import http.server
import itertools
import json
import os
import pathlib
import re
import shutil
import socket
import subprocess
import tempfile
import threading
import time

from selenium import webdriver
from selenium.webdriver.firefox.options import Options
from selenium.webdriver.remote.file_detector import UselessFileDetector

FIREFOX = "/usr/bin/firefox-esr"
PREFERENCES = {
    "browser.shell.checkDefaultBrowser": False, "datareporting.policy.dataSubmissionEnabled": False,
    "toolkit.telemetry.reportingpolicy.firstRun": False, "app.update.disabledForTesting": True,
    "browser.startup.page": 0, "browser.startup.homepage_override.mstone": "ignore", "browser.download.folderList": 2,
    "browser.download.useDownloadDir": True, "browser.download.always_ask_before_handling_new_types": False,
    "browser.download.panel.shown": True, "browser.download.alwaysOpenPanel": False, "dom.disable_beforeunload": True,
    "remote.prefs.recommended": True, "ui.systemUsesDarkTheme": 0,
}

# A request of WebDriver, and the command with the names of the parts of its path.
COMMANDS = [(method, re.compile(f"/session/[^/]+/{path}$"), command) for method, path, command in [
    ("POST", "url", "Navigate"), ("GET", "url", "GetCurrentURL"), ("GET", "title", "GetTitle"), ("POST", "refresh", "Refresh"),
    ("POST", "execute/sync", "ExecuteScript"), ("POST", "execute/async", "ExecuteAsyncScript"),
    ("POST", "element", "FindElement"), ("POST", "elements", "FindElements"), ("GET", "element/active", "GetActiveElement"),
    ("POST", "element/(?P<element>[^/]+)/element", "FindElement"), ("POST", "element/(?P<element>[^/]+)/elements", "FindElements"),
    ("POST", "element/(?P<id>[^/]+)/click", "ElementClick"), ("POST", "element/(?P<id>[^/]+)/value", "ElementSendKeys"),
    ("POST", "element/(?P<id>[^/]+)/clear", "ElementClear"), ("GET", "element/(?P<id>[^/]+)/text", "GetElementText"),
    ("GET", "element/(?P<id>[^/]+)/attribute/(?P<name>[^/]+)", "GetElementAttribute"),
    ("GET", "element/(?P<id>[^/]+)/property/(?P<name>[^/]+)", "GetElementProperty"),
    ("GET", "element/(?P<id>[^/]+)/rect", "GetElementRect"), ("GET", "element/(?P<id>[^/]+)/enabled", "IsElementEnabled"),
    ("GET", "element/(?P<id>[^/]+)/displayed", "IsElementDisplayed"), ("GET", "element/(?P<id>[^/]+)/name", "GetElementTagName"),
    ("POST", "actions", "PerformActions"), ("DELETE", "actions", "ReleaseActions"), ("GET", "screenshot", "TakeScreenshot"),
    ("POST", "timeouts", "SetTimeouts"), ("POST", "window/rect", "SetWindowRect"), ("GET", "window/rect", "GetWindowRect"),
]]


class Marionette:
    """The socket to a Firefox."""

    def __init__(self, port):
        self.numbers = itertools.count(1)
        self.lock = threading.Lock()
        end = time.time() + 120
        while True:
            try:
                self.socket = socket.create_connection(("127.0.0.1", port), timeout=300)
                break
            except OSError:
                if time.time() > end:
                    raise
                time.sleep(0.2)
        self.receive()

    def receive(self):
        size = b""
        while not size.endswith(b":"):
            size += self.exactly(1)
        return json.loads(self.exactly(int(size[:-1])))

    def exactly(self, count):
        found = b""
        while len(found) < count:
            part = self.socket.recv(count - len(found))
            if not part:
                raise ConnectionError("Firefox went away")
            found += part
        return found

    def ask(self, command, words):
        """The error and the result of a command."""
        with self.lock:
            message = json.dumps([0, next(self.numbers), f"WebDriver:{command}", words]).encode()
            self.socket.sendall(str(len(message)).encode() + b":" + message)
            return self.receive()[2:]


def server_for(marionette):
    """A server that takes WebDriver's requests."""

    class Handler(http.server.BaseHTTPRequestHandler):
        protocol_version = "HTTP/1.1"

        def log_message(self, *words):
            pass

        def answer(self):
            size = int(self.headers.get("Content-Length") or 0)
            words = json.loads(self.rfile.read(size) or b"{}") or {}
            if self.command == "POST" and self.path == "/session":
                error, result = marionette.ask("NewSession", words)
                result = result and {"sessionId": result["sessionId"], "capabilities": result["capabilities"]}
            elif self.command == "DELETE" and re.fullmatch("/session/[^/]+", self.path):
                error, result = None, None
            else:
                error, result = self.hand_on(words)
            self.send(error, result)

        do_GET = do_POST = do_DELETE = answer

        def hand_on(self, words):
            for method, path, command in COMMANDS:
                found = path.match(self.path)
                if method == self.command and found:
                    error, result = marionette.ask(command, words | found.groupdict())
                    if isinstance(result, dict) and set(result) == {"value"}:
                        result = result["value"]
                    return error, result
            return {"error": "unknown command", "message": self.path, "stacktrace": ""}, None

        def send(self, error, result):
            body = json.dumps({"value": error or result}).encode()
            self.send_response(500 if error else 200)
            self.send_header("Content-Type", "application/json; charset=utf-8")
            self.send_header("Content-Length", str(len(body)))
            self.end_headers()
            self.wfile.write(body)

    server = http.server.ThreadingHTTPServer(("127.0.0.1", 0), Handler)
    threading.Thread(target=server.serve_forever, daemon=True).start()
    return server


def free_port():
    with socket.socket() as found:
        found.bind(("127.0.0.1", 0))
        return found.getsockname()[1]


def start(width=1400, height=900, downloads=None):
    """A Firefox with a window of this size, as Selenium drives it; `quit` ends it."""
    profile, port = tempfile.mkdtemp(prefix="page-firefox-"), free_port()
    wanted = PREFERENCES | {"marionette.port": port}
    if downloads:
        wanted |= {"browser.download.dir": str(downloads)}
    lines = [f"user_pref({json.dumps(name)}, {json.dumps(value)});" for name, value in wanted.items()]
    pathlib.Path(profile, "user.js").write_text("\n".join(lines))
    size = {"MOZ_HEADLESS_WIDTH": str(width), "MOZ_HEADLESS_HEIGHT": str(height), "HOME": profile}
    process = subprocess.Popen([FIREFOX, "--headless", "--marionette", "--no-remote", "--profile", profile, "about:blank"],
                               env=os.environ | size, stdout=subprocess.DEVNULL, stderr=subprocess.DEVNULL)
    server = server_for(Marionette(port))
    driver = webdriver.Remote(f"http://127.0.0.1:{server.server_port}", options=Options())
    driver.file_detector = UselessFileDetector()  # files are named, and not sent
    driver.set_script_timeout(120)

    def end():
        server.shutdown()
        process.terminate()
        process.wait(30)
        shutil.rmtree(profile, ignore_errors=True)

    driver.quit = end
    return driver
