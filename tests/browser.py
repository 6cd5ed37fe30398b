"""A real browser for tests: Chromium without a window, spoken to by its own protocol over two pipes."""

from __future__ import annotations

import base64
import json
import os
import shutil
import subprocess
import tempfile
import time
from typing import Any

# The names under which distributions install it.
NAMES = ["chromium", "chromium-browser", "google-chrome"]
WORDS = ["--headless=new", "--no-sandbox", "--disable-gpu", "--no-first-run", "--remote-debugging-pipe"]


def browser_path() -> str | None:
    return next((path for path in map(shutil.which, NAMES) if path), None)


class Browser:
    """One page of a browser. Each call waits for its answer."""

    def __init__(self, path: str) -> None:
        self.home = tempfile.TemporaryDirectory(ignore_cleanup_errors=True)
        to_read, self.to = os.pipe()
        self.answers, from_write = os.pipe()
        # The browser reads its file 3 and writes its file 4.
        script = f'exec 3<&{to_read} 4>&{from_write}; exec "$@"'
        self.process = subprocess.Popen(
            ["bash", "-c", script, "browser", path, *WORDS, f"--user-data-dir={self.home.name}", "about:blank"],
            pass_fds=[to_read, from_write],
            stdout=subprocess.DEVNULL,
            stderr=subprocess.DEVNULL,
        )
        os.close(to_read)
        os.close(from_write)
        self.held = b""
        self.number = 0
        self.session = ""
        targets = self.call("Target.getTargets")["targetInfos"]
        target = next(it["targetId"] for it in targets if it["type"] == "page")
        self.session = self.call("Target.attachToTarget", targetId=target, flatten=True)["sessionId"]
        self.call("Page.enable")

    def message(self) -> dict[str, Any]:
        while b"\0" not in self.held:
            piece = os.read(self.answers, 65536)
            if not piece:
                raise EOFError("the browser ended")
            self.held += piece
        first, _, self.held = self.held.partition(b"\0")
        found: dict[str, Any] = json.loads(first)
        return found

    def call(self, method: str, **parameters: Any) -> Any:
        self.number += 1
        asked: dict[str, Any] = {"id": self.number, "method": method, "params": parameters}
        if self.session:
            asked["sessionId"] = self.session
        os.write(self.to, json.dumps(asked).encode() + b"\0")
        while True:
            told = self.message()
            if told.get("id") == self.number:
                if "error" in told:
                    raise AssertionError(f"{method}: {told['error']}")
                return told["result"]

    def open(self, address: str) -> None:
        self.call("Page.navigate", url=address)
        while self.value("document.readyState") != "complete" or self.value("location.href") == "about:blank":
            time.sleep(0.02)

    def wait_for(self, script: str, seconds: float = 60) -> None:
        """Waits until a script's value is true."""
        until = time.monotonic() + seconds
        while not self.value(script):
            if time.monotonic() > until:
                raise AssertionError(f"{script} didn't come true in {seconds} seconds")
            time.sleep(0.02)

    def value(self, script: str) -> Any:
        told = self.call("Runtime.evaluate", expression=script, returnByValue=True, awaitPromise=True)
        if "exceptionDetails" in told:
            raise AssertionError(f"{script}: {told['exceptionDetails']}")
        return told["result"].get("value")

    def key(self, key: str, text: str = "") -> None:
        self.call("Input.dispatchKeyEvent", type="keyDown", key=key, text=text)
        self.call("Input.dispatchKeyEvent", type="keyUp", key=key)

    def width(self, pixels: int, height: int = 900) -> None:
        self.call("Emulation.setDeviceMetricsOverride", width=pixels, height=height, deviceScaleFactor=1, mobile=False)

    def processor_time(self) -> float:
        """The processor seconds of the processes that show pages, which other work on the machine changes little."""
        session, self.session = self.session, ""
        found = self.call("SystemInfo.getProcessInfo")["processInfo"]
        self.session = session
        return sum(float(it["cpuTime"]) for it in found if it["type"] == "renderer")

    def picture(self) -> bytes:
        return base64.b64decode(self.call("Page.captureScreenshot", format="png")["data"])

    def close(self) -> None:
        self.process.kill()
        self.process.wait()
        os.close(self.to)
        os.close(self.answers)
        self.home.cleanup()
