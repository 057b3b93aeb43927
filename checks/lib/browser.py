"""A page in a headless Chromium, which is told what to do over two pipes (the Chrome DevTools Protocol)."""

from __future__ import annotations

import base64
import fcntl
import json
import os
import select
import subprocess
import time
from types import TracebackType
from typing import Any

# Waits until a page is there as a whole.
LOADED = "new Promise(done => document.readyState === 'complete' ? done() : addEventListener('load', done))"

# How many seconds an answer may take.
PATIENCE = 120.0


def _above(end: int) -> int:
    """A copy of a descriptor that is none of the two of the protocol."""
    copy = fcntl.fcntl(end, fcntl.F_DUPFD, 10)
    os.close(end)
    return copy


class Browser:
    """A browser with one page. Use it in `with`."""

    def __init__(self, program: str, folder: str) -> None:
        source, commands = map(_above, os.pipe())
        answers, target = map(_above, os.pipe())
        self._commands, self._answers = commands, answers

        def put_ends() -> None:
            os.dup2(source, 3)
            os.dup2(target, 4)

        words = [program, "--headless", "--no-sandbox", "--disable-gpu", "--remote-debugging-pipe"]
        self._process = subprocess.Popen(
            [*words, f"--user-data-dir={folder}"], pass_fds=(3, 4), preexec_fn=put_ends, stdin=subprocess.DEVNULL,
            stdout=subprocess.DEVNULL, stderr=subprocess.DEVNULL,
        )  # fmt: skip
        os.close(source)
        os.close(target)
        self._number = 0
        self._session: dict[str, str] = {}
        self._rest = b""
        #: What the page has asked the network for, and what it has said to the console.
        self.asked: list[str] = []
        self.said: list[str] = []
        page = self.call("Target.createTarget", url="about:blank")["targetId"]
        self._session = {"sessionId": self.call("Target.attachToTarget", targetId=page, flatten=True)["sessionId"]}
        for part in ("Page", "Runtime", "Network", "Log"):
            self.call(f"{part}.enable")

    def __enter__(self) -> "Browser":
        return self

    def __exit__(
        self, _kind: type[BaseException] | None, _error: BaseException | None, _trace: TracebackType | None
    ) -> None:
        self._process.kill()
        self._process.wait()
        os.close(self._commands)
        os.close(self._answers)

    def _message(self, deadline: float) -> Any:
        """The next message of the browser."""
        while b"\0" not in self._rest:
            if not select.select([self._answers], [], [], max(deadline - time.monotonic(), 0))[0]:
                raise TimeoutError("the browser does not answer")
            part = os.read(self._answers, 65_536)
            if not part:
                raise EOFError("the browser has ended")
            self._rest += part
        message, _, self._rest = self._rest.partition(b"\0")
        return json.loads(message)

    def _note(self, message: Any) -> None:
        """Keeps what the page asks the network for, and what it says."""
        if message.get("method") == "Network.requestWillBeSent":
            self.asked.append(message["params"]["request"]["url"])
        elif message.get("method") in ("Log.entryAdded", "Runtime.exceptionThrown", "Runtime.consoleAPICalled"):
            self.said.append(json.dumps(message["params"]))

    def call(self, method: str, **parameters: Any) -> Any:
        """What the browser answers to a method."""
        self._number += 1
        message = {"id": self._number, "method": method, "params": parameters, **self._session}
        os.write(self._commands, json.dumps(message).encode() + b"\0")
        deadline = time.monotonic() + PATIENCE
        while (answer := self._message(deadline)).get("id") != self._number:
            self._note(answer)
        if "error" in answer:
            raise ValueError(f"{method}: {answer['error']}")
        return answer["result"]

    def screen(self, width: int, height: int, scheme: str) -> None:
        """Sets the size of the screen in pixels, and whether the user wants `light` or `dark`."""
        self.call("Emulation.setDeviceMetricsOverride", width=width, height=height, deviceScaleFactor=1, mobile=False)
        self.call("Emulation.setEmulatedMedia", features=[{"name": "prefers-color-scheme", "value": scheme}])

    def open(self, address: str) -> None:
        """Opens a page, anew also where another place of the same page is shown."""
        for wanted in ("about:blank", address):
            self.call("Page.navigate", url=wanted)
            self.value(LOADED)

    def value(self, expression: str) -> Any:
        """What an expression of JavaScript gives, once it is there."""
        found = self.call("Runtime.evaluate", expression=expression, returnByValue=True, awaitPromise=True)
        if "exceptionDetails" in found:
            raise ValueError(f"{expression}: {found['exceptionDetails']}")
        return found["result"].get("value")

    def write(self, text: str) -> None:
        """Types a text."""
        self.call("Input.insertText", text=text)

    def picture(self, path: str) -> None:
        """Writes what the screen shows as a PNG."""
        with open(path, "wb") as target:
            target.write(base64.b64decode(self.call("Page.captureScreenshot", format="png")["data"]))
