"""A headless Chromium, driven over its DevTools socket by the standard library alone."""
import asyncio
import base64
import contextlib
import itertools
import json
import os
import shutil
import subprocess
import tempfile
import time
from pathlib import Path

import web_socket

NAMES = ["chromium", "chromium-headless-shell", "chromium-browser", "google-chrome"]
# How long anything is waited for, in seconds; a server with run-time checks, or a busy machine, is waited for longer.
TIMES = int(os.environ.get("COLMJURR_PATIENCE", "1"))
PATIENCE = 90 * TIMES


def found():
    """The path of a browser, or None."""
    return next(filter(None, map(shutil.which, NAMES)), None)


@contextlib.contextmanager
def running():
    """Runs a browser, to which each `Browser` connects."""
    with tempfile.TemporaryDirectory(ignore_cleanup_errors=True) as folder:
        process = subprocess.Popen(
            [found(), "--headless=new", "--remote-debugging-port=0", f"--user-data-dir={folder}", "--no-first-run", "--disable-gpu",
             "--disable-extensions", "--disable-background-networking", "--hide-scrollbars", "--force-device-scale-factor=1",
             "--ignore-certificate-errors", *(["--no-sandbox"] if os.geteuid() == 0 else []), "about:blank"],
            stdin=subprocess.DEVNULL, stdout=subprocess.DEVNULL, stderr=subprocess.DEVNULL)
        try:
            Browser.address = told_address(Path(folder, "DevToolsActivePort"))
            yield
        finally:
            process.terminate()
            process.wait(PATIENCE)


def told_address(path):
    """The address of the browser's DevTools, which it writes to this file."""
    for _ in range(PATIENCE * 10):
        if path.exists() and len(words := path.read_text().split()) == 2:
            return f"ws://127.0.0.1:{words[0]}{words[1]}"
        time.sleep(0.1)
    raise AssertionError("the browser doesn't say where its DevTools are")


class Navigated(Exception):
    """The page that was asked has given way to the next one."""


class Browser:
    address = None

    async def connect(self):
        self.socket = await web_socket.connect(self.address, [])
        self.numbers, self.answers, self.pages, self.targets = itertools.count(1), {}, {}, []
        self.listening = asyncio.create_task(self.listen())
        return self

    async def listen(self):
        while True:
            told = json.loads(await self.socket.recv())
            if "id" in told:
                self.answers.pop(told["id"]).set_result(told)
            elif told.get("sessionId") in self.pages:
                self.pages[told["sessionId"]].take(told["method"], told["params"])

    async def ask(self, method, session=None, **words):
        number = next(self.numbers)
        self.answers[number] = asyncio.get_running_loop().create_future()
        asked = {"id": number, "method": method, "params": words}
        await self.socket.send(json.dumps(asked | ({"sessionId": session} if session else {})))
        told = await asyncio.wait_for(self.answers[number], PATIENCE)
        if "navigated" in told.get("error", {}).get("message", ""):
            raise Navigated
        assert "error" not in told, (method, told["error"])
        return told["result"]

    async def open(self, url, width=900, height=700):
        """A page at this address, in a window of so many pixels."""
        target = (await self.ask("Target.createTarget", url="about:blank"))["targetId"]
        self.targets.append(target)
        session = (await self.ask("Target.attachToTarget", targetId=target, flatten=True))["sessionId"]
        page = Page(self, session)
        self.pages[session] = page
        for domain in ("Page", "Runtime", "Log"):
            await self.ask(f"{domain}.enable", session)
        await self.ask("Performance.enable", session, timeDomain="threadTicks")
        await self.ask("Emulation.setDeviceMetricsOverride", session, width=width, height=height, deviceScaleFactor=1, mobile=False)
        await self.ask("Page.navigate", session, url=url)
        await page.until("document.readyState === 'complete'")
        return page

    async def disconnect(self):
        for target in self.targets:
            await self.ask("Target.closeTarget", targetId=target)
        self.listening.cancel()
        self.socket.writer.close()


class Page:
    def __init__(self, browser, session):
        self.browser, self.session = browser, session
        # What the console has of errors, and what nobody caught.
        self.errors = []

    def take(self, method, told):
        if method == "Runtime.exceptionThrown":
            self.errors.append(told["exceptionDetails"].get("exception", {}).get("description", "exception"))
        elif method == "Runtime.consoleAPICalled" and told["type"] in ("error", "assert"):
            self.errors.append(str(told["args"]))
        elif method == "Log.entryAdded" and told["entry"]["level"] == "error":
            self.errors.append(f"{told['entry']['source']}: {told['entry']['text']}")

    async def evaluate(self, expression):
        told = await self.browser.ask(
            "Runtime.evaluate", self.session, expression=expression, returnByValue=True, awaitPromise=True)
        assert "exceptionDetails" not in told, told.get("exceptionDetails")
        return told["result"].get("value")

    async def until(self, expression, patience=PATIENCE):
        """Waits until this holds in the page."""
        for _ in range(int(patience * 20)):
            with contextlib.suppress(Navigated):
                if await self.evaluate(expression):
                    return
            await asyncio.sleep(0.05)
        raise AssertionError(f"{expression} doesn't hold after {patience} s; {await self.evaluate('document.body.innerText')}")

    async def drawn(self):
        """Waits until what was asked for is drawn: a frame that is begun now comes after it, and the next one after that frame's end."""
        await self.evaluate("new Promise(next => requestAnimationFrame(() => requestAnimationFrame(() => next())))")

    async def busy_time(self):
        """How long the page's thread has had the processor for tasks, in milliseconds."""
        told = await self.browser.ask("Performance.getMetrics", self.session)
        return 1000 * next(each["value"] for each in told["metrics"] if each["name"] == "TaskDuration")

    async def wheel(self, x, y, across, down):
        """Turns the wheel of the mouse at a place in the window."""
        await self.browser.ask("Input.dispatchMouseEvent", self.session, type="mouseWheel", x=x, y=y, deltaX=across, deltaY=down)

    async def screenshot(self):
        """The bytes of a PNG of the window."""
        told = await self.browser.ask("Page.captureScreenshot", self.session, format="png")
        return base64.b64decode(told["data"])
