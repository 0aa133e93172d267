"""A browser without a window, which tests control by Chromium's DevTools protocol."""

import json
import shutil
import socket
import subprocess

import pytest

KEYS = {"Tab": ("Tab", 9, ""), "Enter": ("Enter", 13, "\r"), " ": ("Space", 32, " "), "ArrowDown": ("ArrowDown", 40, "")}


class Browser:
    def __init__(self, room):
        command = next(filter(shutil.which, ("chromium-headless-shell", "chromium", "google-chrome")), None)
        if not command:
            pytest.skip("no browser found: see tests/packages.txt")
        # The browser reads commands from descriptor 3, and writes answers to 4. Each is JSON that ends with NUL.
        self.pipe, theirs = socket.socketpair()
        there = theirs.fileno()
        # Root can't have the sandbox, and a container may lack /dev/shm.
        words = [command, "--headless", "--no-sandbox", "--disable-gpu", "--disable-dev-shm-usage", "--remote-debugging-pipe",
                 f"--user-data-dir={room}"]
        self.process = subprocess.Popen(["bash", "-c", f'exec "$@" 3<&{there} 4>&{there}', "bash", *words, "about:blank"],
                                        pass_fds=[there], stdout=subprocess.DEVNULL, stderr=subprocess.DEVNULL)
        theirs.close()
        self.left, self.count, self.of_page = b"", 0, {}
        target, = (it for it in self.call("Target.getTargets")["targetInfos"] if it["type"] == "page")
        self.of_page = {"sessionId": self.call("Target.attachToTarget", targetId=target["targetId"], flatten=True)["sessionId"]}

    def close(self):
        self.pipe.close()
        self.process.kill()
        self.process.wait()

    def call(self, method, **parameters):
        """Calls a method of the protocol, and returns its result."""
        self.count += 1
        asked = {"id": self.count, "method": method, "params": parameters, **self.of_page}
        self.pipe.sendall(json.dumps(asked).encode() + b"\0")
        while True:
            while b"\0" not in self.left:
                more = self.pipe.recv(1 << 20)
                assert more, "the browser ended"
                self.left += more
            said, _, self.left = self.left.partition(b"\0")
            answer = json.loads(said)
            if answer.get("id") == self.count:
                assert "error" not in answer, answer
                return answer["result"]

    def run(self, script):
        """The value of JavaScript in the page, or of the promise that it returns."""
        said = self.call("Runtime.evaluate", expression=script, returnByValue=True, awaitPromise=True)
        assert "exceptionDetails" not in said, said["exceptionDetails"]
        return said["result"].get("value")

    def set_screen(self, width=1000, height=900, scheme="light"):
        self.call("Emulation.setDeviceMetricsOverride", width=width, height=height, deviceScaleFactor=1, mobile=False)
        self.call("Emulation.setEmulatedMedia", features=[{"name": "prefers-color-scheme", "value": scheme}])

    def open(self, url):
        # From another page, since a new fragment alone loads nothing.
        for address in "about:blank", url:
            self.call("Page.navigate", url=address)
            while self.run("document.readyState + location.protocol") != f"complete{address.partition(':')[0]}:":
                pass

    def press(self, *keys):
        """Presses keys, or types texts."""
        for key in keys:
            if key in KEYS:
                code, number, text = KEYS[key]
                for kind in "keyDown", "keyUp":
                    self.call("Input.dispatchKeyEvent", type=kind, key=key, code=code, windowsVirtualKeyCode=number,
                              text=text if kind == "keyDown" else "")
            else:
                self.call("Input.insertText", text=key)
