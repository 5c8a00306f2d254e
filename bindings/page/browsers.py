"""Two browsers without a window, each through its own pipe or socket: what `run` needs of them and no more."""
import base64
import fcntl
import json
import os
import pathlib
import shutil
import socket
import subprocess
import tempfile
import time


def pipe():
    """A pipe whose numbers don't stand in the way of those that a browser is handed."""
    ends = os.pipe()
    high = tuple(fcntl.fcntl(it, fcntl.F_DUPFD_CLOEXEC, 20) for it in ends)
    for it in ends:
        os.close(it)
    return high


class Chromium:
    """Debian's Chromium, by its protocol for debuggers over a pipe."""

    name, commands, package = "Chromium", ("chromium",), "chromium"

    def __init__(self, program, is_dark=False):
        self.room = tempfile.TemporaryDirectory(ignore_cleanup_errors=True)
        read, to = pipe()
        self.answers, answers = pipe()
        self.to, self.rest, self.number, self.requested, self.session = to, b"", 0, [], None
        # (the browser reads its descriptor 3 and writes 4)
        words = [program, "--headless=new", "--remote-debugging-pipe", f"--user-data-dir={self.room.name}", "--no-first-run", "--disable-gpu", "--hide-scrollbars", "--disable-dev-shm-usage",
                 *(["--no-sandbox"] if os.geteuid() == 0 else []), "about:blank"]  # fmt: skip
        shell = ["bash", "-c", f'exec 3<&{read} 4>&{answers}; exec "$@"', "bash", *words]
        self.process = subprocess.Popen(shell, pass_fds=(read, answers), stdin=subprocess.DEVNULL, stdout=subprocess.DEVNULL, stderr=subprocess.DEVNULL)
        os.close(read)
        os.close(answers)
        target = next(it for it in self.call("Target.getTargets")["targetInfos"] if it["type"] == "page")["targetId"]
        self.session = self.call("Target.attachToTarget", targetId=target, flatten=True)["sessionId"]
        for it in ("Page.enable", "Runtime.enable", "Network.enable"):
            self.call(it)
        self.look(1280, 900, is_dark)

    def message(self):
        """The next message."""
        while b"\0" not in self.rest:
            octets = os.read(self.answers, 1 << 20)
            if not octets:
                raise ConnectionError("the browser has ended")
            self.rest += octets
        text, _, self.rest = self.rest.partition(b"\0")
        return json.loads(text)

    def call(self, method, **parameters):
        """Calls a method, and gives its result; notes what is requested meanwhile."""
        self.number += 1
        message = {"id": self.number, "method": method, "params": parameters, **({"sessionId": self.session} if self.session else {})}
        os.write(self.to, json.dumps(message).encode() + b"\0")
        while True:
            it = self.message()
            if it.get("method") == "Network.requestWillBeSent":
                self.requested.append(it["params"]["request"]["url"])
            if it.get("id") == self.number:
                if "error" in it:
                    raise RuntimeError(it["error"]["message"])
                return it["result"]

    def open(self, url):
        self.call("Page.navigate", url=url)

    def evaluate(self, expression):
        """The value of an expression in the page, a promise's too."""
        done = self.call("Runtime.evaluate", expression=expression, awaitPromise=True, returnByValue=True)
        if "exceptionDetails" in done:
            raise RuntimeError(done["exceptionDetails"]["exception"].get("description", "an exception"))
        return done["result"].get("value")

    def look(self, width, height, is_dark):
        """Sets the size of the page and its colours."""
        self.call("Emulation.setDeviceMetricsOverride", width=width, height=height, deviceScaleFactor=1, mobile=width < 500)
        self.call("Emulation.setEmulatedMedia", features=[{"name": "prefers-color-scheme", "value": "dark" if is_dark else "light"}])

    def picture(self, file):
        """Writes a picture of the whole page."""
        size = self.call("Page.getLayoutMetrics")["cssContentSize"]
        clip = {"x": 0, "y": 0, "width": size["width"], "height": size["height"], "scale": 1}
        pathlib.Path(file).write_bytes(base64.b64decode(self.call("Page.captureScreenshot", captureBeyondViewport=True, clip=clip)["data"]))

    def close(self):
        self.process.terminate()
        self.process.wait()
        os.close(self.to)
        os.close(self.answers)
        self.room.cleanup()


class Firefox:
    """Debian's Firefox ESR, by Marionette. It doesn't tell what is requested; a server of the test's own does."""

    name, commands, package = "Firefox", ("firefox-esr", "firefox"), "firefox-esr"
    requested = ()

    def __init__(self, program, is_dark=False):
        self.room = tempfile.TemporaryDirectory(ignore_cleanup_errors=True)
        with socket.socket() as free:
            free.bind(("127.0.0.1", 0))
            port = free.getsockname()[1]
        settings = {"marionette.port": port, "ui.systemUsesDarkTheme": int(is_dark), "datareporting.policy.dataSubmissionEnabled": False, "app.update.enabled": False}
        pathlib.Path(self.room.name, "user.js").write_text("".join(f"user_pref({json.dumps(name)}, {json.dumps(value)});\n" for name, value in settings.items()))
        words = [program, "--headless", "--no-remote", "--marionette", "--profile", self.room.name, "about:blank"]
        environment = {**os.environ, "HOME": self.room.name}
        self.process = subprocess.Popen(words, env=environment, stdin=subprocess.DEVNULL, stdout=subprocess.DEVNULL, stderr=subprocess.DEVNULL)
        for _ in range(600):
            try:
                self.socket = socket.create_connection(("127.0.0.1", port), timeout=120)
                break
            except OSError:
                time.sleep(0.2)
        self.stream, self.number = self.socket.makefile("rb"), 0
        self.message()
        self.call("WebDriver:NewSession", capabilities={})

    def message(self):
        """The next message: its length, a colon, and its text."""
        length = b""
        while not length.endswith(b":"):
            octet = self.stream.read(1)
            if not octet:
                raise ConnectionError("the browser has ended")
            length += octet
        return json.loads(self.stream.read(int(length[:-1])))

    def call(self, command, **parameters):
        self.number += 1
        text = json.dumps([0, self.number, command, parameters]).encode()
        self.socket.sendall(f"{len(text)}:".encode() + text)
        _, _, error, result = self.message()
        if error:
            raise RuntimeError(error["message"])
        return result

    def open(self, url):
        self.call("WebDriver:Navigate", url=url)

    def evaluate(self, expression):
        script = f"const done = arguments[0]; (async () => ({expression}))().then((it) => done([it]), (error) => done([null, String(error)]));"
        value, *error = self.call("WebDriver:ExecuteAsyncScript", script=script, args=[])["value"]
        if error:
            raise RuntimeError(error[0])
        return value

    def look(self, width, height, is_dark):
        """Sets the size of the window; its colours are those that it was started with."""
        self.call("WebDriver:SetWindowRect", width=width, height=height)

    def picture(self, file):
        pathlib.Path(file).write_bytes(base64.b64decode(self.call("WebDriver:TakeScreenshot", full=True)["value"]))

    def close(self):
        self.process.terminate()
        self.process.wait()
        self.socket.close()
        self.room.cleanup()


def installed(kind):
    """The browser's program, or nothing."""
    return next(filter(None, map(shutil.which, kind.commands)), None)
