"""A headless Chromium, driven by the WebDriver protocol of Debian's chromium-driver."""

import http.client
import json
import base64
import pathlib
import subprocess
import time
import typing

ELEMENT = "element-6066-11e4-a52e-4f735466cecf"  # the name by which WebDriver tells an element
ENTER, TAB, SHIFT, SPACE = "\ue007", "\ue004", "\ue008", " "

# Runs before the page's own script: it notes breaches of the policy, and lets the clock be set forward.
WATCH = """
window.breaches = [];
document.addEventListener('securitypolicyviolation', event => window.breaches.push(event.violatedDirective + ' ' + event.blockedURI));
window.setForward = 0;
const now = Date.now;
Date.now = () => now() + window.setForward;
"""


class NotDone(RuntimeError):
    """The driver can't do what it is told, as the page doesn't have it, or the page still asks."""


class Browser:
    def __init__(self, folder: pathlib.Path, port: int) -> None:
        words = ["chromedriver", f"--port={port}"]
        self.driver = subprocess.Popen(words, stdout=subprocess.PIPE, stderr=subprocess.DEVNULL, text=True)
        self.port = port
        self.await_driver()
        self.session = ""
        wanted = {
            "browserName": "chrome",
            "goog:loggingPrefs": {"browser": "ALL"},
            "goog:chromeOptions": {
                "args": [
                    "--headless=new",
                    "--no-sandbox",
                    "--disable-gpu",
                    "--hide-scrollbars",
                    f"--user-data-dir={folder}",
                    "--window-size=1280,900",
                ]
            },
        }
        self.session = str(self.call("POST", "/session", {"capabilities": {"alwaysMatch": wanted}})["sessionId"])
        self.cdp("Page.addScriptToEvaluateOnNewDocument", source=WATCH)

    def await_driver(self) -> None:
        assert self.driver.stdout is not None
        for line in self.driver.stdout:
            if "successfully on port" in line:
                return
        raise RuntimeError(f"chromedriver does not listen on port {self.port}")

    def call(self, method: str, path: str, body: dict[str, object] | None = None) -> typing.Any:
        connection = http.client.HTTPConnection("127.0.0.1", self.port, timeout=600)
        prefix = f"/session/{self.session}" if self.session else ""
        connection.request(
            method, prefix + path, None if body is None else json.dumps(body), {"Content-Type": "application/json"}
        )
        value = json.loads(connection.getresponse().read())["value"]
        connection.close()
        if isinstance(value, dict) and "error" in value:
            raise NotDone(f"{value['error']}: {value['message'].splitlines()[0]}")
        return value

    def cdp(self, command: str, **parameters: object) -> typing.Any:
        return self.call("POST", "/goog/cdp/execute", {"cmd": command, "params": parameters})

    def open(self, address: str) -> None:
        self.call("POST", "/url", {"url": address})

    def run(self, script: str, *words: object) -> typing.Any:
        return self.call("POST", "/execute/sync", {"script": script, "args": list(words)})

    def texts(self, selector: str) -> list[str]:
        """What a reader sees of each such element."""
        found = self.run(
            "return [...document.querySelectorAll(arguments[0])].filter(n => n.checkVisibility()).map(n => n.innerText.trim())",
            selector,
        )
        return [str(text) for text in found]

    def text(self, selector: str) -> str:
        return " ".join(self.texts(selector))

    def count(self, selector: str) -> int:
        return int(self.run("return document.querySelectorAll(arguments[0]).length", selector))

    def find(self, selector: str) -> str:
        return str(self.call("POST", "/element", {"using": "css selector", "value": selector})[ELEMENT])

    def click(self, selector: str) -> None:
        self.call("POST", f"/element/{self.find(selector)}/click", {})

    def put(self, selector: str, text: str) -> None:
        """A text in a field, in place of what is there."""
        field = self.find(selector)
        self.call("POST", f"/element/{field}/clear", {})
        if text:
            self.call("POST", f"/element/{field}/value", {"text": text})

    def upload(self, selector: str, path: pathlib.Path) -> None:
        self.call("POST", f"/element/{self.find(selector)}/value", {"text": str(path)})

    def keys(self, *signs: str) -> None:
        """Keys on the keyboard, wherever the focus is."""
        acts: list[dict[str, str]] = []
        for sign in signs:
            for one in sign:
                acts += [{"type": "keyDown", "value": one}, {"type": "keyUp", "value": one}]
        self.call("POST", "/actions", {"actions": [{"type": "key", "id": "keys", "actions": acts}]})

    def chord(self, held: str, sign: str) -> None:
        acts = [
            {"type": "keyDown", "value": held},
            {"type": "keyDown", "value": sign},
            {"type": "keyUp", "value": sign},
            {"type": "keyUp", "value": held},
        ]
        self.call("POST", "/actions", {"actions": [{"type": "key", "id": "keys", "actions": acts}]})

    def wait(self, script: str, *words: object, seconds: float = 60.0) -> bool:
        """Whether a condition in the page comes to hold."""
        end = time.monotonic() + seconds
        while time.monotonic() < end:
            if self.run(f"return Boolean({script})", *words):
                return True
            time.sleep(0.05)
        return False

    def settle(self) -> None:
        """Waits until the page asks nothing; a list of a hundred incidents takes minutes on a busy machine."""
        time.sleep(0.1)
        if not self.wait("document.body.getAttribute('aria-busy') !== 'true'", seconds=600):
            raise NotDone("the page still asks")

    def size(self, width: int, height: int) -> None:
        self.cdp("Emulation.setDeviceMetricsOverride", width=width, height=height, deviceScaleFactor=1, mobile=False)

    def save_into(self, folder: pathlib.Path) -> None:
        """What the page saves comes into this folder, and what it copies can be read back."""
        self.cdp("Browser.setDownloadBehavior", behavior="allow", downloadPath=str(folder))
        self.cdp("Browser.grantPermissions", permissions=["clipboardReadWrite", "clipboardSanitizedWrite"])

    def copied(self) -> str:
        return str(self.run("return await navigator.clipboard.readText()"))

    def scheme(self, name: str) -> None:
        self.cdp("Emulation.setEmulatedMedia", features=[{"name": "prefers-color-scheme", "value": name}])

    def picture(self, path: pathlib.Path, is_whole: bool = True) -> None:
        path.write_bytes(
            base64.b64decode(self.cdp("Page.captureScreenshot", format="png", captureBeyondViewport=is_whole)["data"])
        )

    def console(self) -> list[str]:
        """What the console got since it was last read: severity and text."""
        return [f"{line['level']} {line['message']}" for line in self.call("POST", "/se/log", {"type": "browser"})]

    def close(self) -> None:
        try:
            self.call("DELETE", "")
        finally:
            self.driver.terminate()
            self.driver.wait(10)
