"""Drives a Chromium without a window, by its debugging protocol over a pipe."""
import base64
import json
import os
import select
import shutil
import subprocess
import tempfile
import time

NAMES = ("chromium", "chromium-browser", "google-chrome", "google-chrome-stable")
FLAGS = ["--headless=new", "--remote-debugging-pipe", "--no-first-run", "--disable-gpu", "--disable-extensions", "--disable-sync",
         "--disable-background-networking", "--disable-component-update", "--disable-dev-shm-usage",
         "--force-device-scale-factor=1", "--force-color-profile=srgb"]


LONGEST = 120  # seconds without a word of the browser
THREADS = {"CrRendererMain": "page", "DedicatedWorker thread": "worker"}  # by their names in a trace


class Failed(Exception):
    """What the browser or the page did not do, in one line."""


class Gone(Failed):
    """The browser itself does not answer any more."""


def installed():
    """The path of a Chromium, or None."""
    return next((path for path in map(shutil.which, NAMES) if path), None)


class Browser:
    """A browser with one page. Commands and events are JSON texts, each ended by a 0."""

    def __init__(self, path, *flags):
        self.folder = tempfile.mkdtemp()
        to_browser, self.into = os.pipe()
        self.out, from_browser = os.pipe()
        # Chromium reads from 3 and writes to 4
        words = [path, *FLAGS, *flags, "--user-data-dir=" + self.folder] + (["--no-sandbox"] if os.getuid() == 0 else [])
        script = 'exec "$@" 3<&%d 4>&%d' % (to_browser, from_browser)
        self.process = subprocess.Popen(["bash", "-c", script, "bash", *words, "about:blank"], pass_fds=(to_browser, from_browser),
                                        stdin=subprocess.DEVNULL, stdout=subprocess.DEVNULL, stderr=subprocess.DEVNULL,
                                        start_new_session=True)
        os.close(to_browser)
        os.close(from_browser)
        self.numbers, self.read, self.events, self.session = 0, b"", [], None
        target = [it for it in self.call("Target.getTargets")["targetInfos"] if it["type"] == "page"][0]["targetId"]
        self.session = self.call("Target.attachToTarget", targetId=target, flatten=True)["sessionId"]
        for domain in ("Page", "Runtime", "DOM", "Network", "Log"):
            self.call(domain + ".enable")

    def close(self):
        """Ends the browser, and removes what it wrote."""
        try:
            self.session = None
            self.call("Browser.close")
            self.process.wait(10)
        except (Failed, OSError, subprocess.TimeoutExpired):
            self.process.kill()
            self.process.wait()
        os.close(self.into)
        os.close(self.out)
        shutil.rmtree(self.folder, ignore_errors=True)

    def message(self):
        """The next message of the browser."""
        while b"\0" not in self.read:
            if not select.select([self.out], [], [], LONGEST)[0]:
                raise Gone("the browser was silent for %d seconds" % LONGEST)
            part = os.read(self.out, 1 << 20)
            if not part:
                raise Gone("the browser ended")
            self.read += part
        text, self.read = self.read.split(b"\0", 1)
        return json.loads(text)

    def call(self, method, **parameters):
        """Does a command, and returns its result; keeps the events that come before."""
        self.numbers += 1
        command = {"id": self.numbers, "method": method, "params": parameters}
        if self.session:
            command["sessionId"] = self.session
        os.write(self.into, json.dumps(command).encode() + b"\0")
        while True:
            told = self.message()
            if told.get("id") == self.numbers:
                if "error" in told:
                    raise Failed("%s: %s" % (method, told["error"]["message"]))
                return told["result"]
            if "method" in told:
                self.events.append(told)

    def evaluate(self, script):
        """The value of a script in the page."""
        told = self.call("Runtime.evaluate", expression=script, returnByValue=True, awaitPromise=True)
        if "exceptionDetails" in told:
            details = told["exceptionDetails"]
            raise Failed("%s: %s" % (script[:80], details.get("exception", {}).get("description", details["text"])))
        return told["result"].get("value")

    def until(self, script, what, seconds=30):
        """Waits until a script's value is true, and returns it."""
        end = time.monotonic() + seconds
        while time.monotonic() < end:
            value = self.evaluate(script)
            if value:
                return value
            time.sleep(0.02)
        raise Failed("not within %d seconds: %s" % (seconds, what))

    def open(self, address):
        """Loads a page."""
        told = self.call("Page.navigate", url=address)
        if "errorText" in told:
            raise Failed("%s: %s" % (address, told["errorText"]))
        self.until("document.readyState === 'complete'", "loading %s" % address)

    def save_in(self, folder):
        """From now on the browser keeps each download in this folder, under a name of its own, and tells how far it is."""
        self.call("Browser.setDownloadBehavior", behavior="allowAndName", downloadPath=folder, eventsEnabled=True)

    def downloads(self):
        """What the browser has told of downloads since they were forgotten, in order."""
        return [it["params"] for it in self.events if it["method"].startswith("Browser.download")]

    def forget_downloads(self):
        self.events = [it for it in self.events if not it["method"].startswith("Browser.download")]

    def downloaded(self, folder, seconds=20):
        """Waits for the download that was begun since; returns its name and bytes, or None if it did not come to a good end."""
        end = time.monotonic() + seconds
        while time.monotonic() < end:
            told = self.downloads()
            ends = [it["state"] for it in told if it.get("state") in ("completed", "canceled")]
            if ends:
                begun, path = told[0], os.path.join(folder, told[0]["guid"])
                if ends[0] == "canceled":
                    return None
                with open(path, "rb") as file:
                    data = file.read()
                os.remove(path)
                return begun["suggestedFilename"], data
            self.evaluate("0")  # takes in what the browser tells
            time.sleep(0.005)
        return None

    def picture(self, path, whole=False):
        """Writes a picture of the window, or of the whole page."""
        data = self.call("Page.captureScreenshot", format="png", captureBeyondViewport=whole)["data"]
        with open(path, "wb") as file:
            file.write(base64.b64decode(data))

    def drop(self, path):
        """Drops a file on the page, as a hand does."""
        data = {"items": [], "files": [path], "dragOperationsMask": 1}
        for kind in ("dragEnter", "dragOver", "drop"):
            self.call("Input.dispatchDragEvent", type=kind, x=60, y=60, data=data)

    def choose(self, selector, path):
        """Chooses a file in an input of the page."""
        root = self.call("DOM.getDocument")["root"]["nodeId"]
        node = self.call("DOM.querySelector", nodeId=root, selector=selector)["nodeId"]
        self.call("DOM.setFileInputFiles", nodeId=node, files=[path])

    def key(self, name, code):
        """Presses and releases a key."""
        for kind in ("rawKeyDown", "keyUp"):
            self.call("Input.dispatchKeyEvent", type=kind, key=name, code=name, windowsVirtualKeyCode=code)

    def tasks(self, act):
        """Does something; returns the milliseconds of processor time of each task meanwhile, of the "page" and of its "worker"."""
        self.call("Tracing.start", traceConfig={"includedCategories": ["toplevel"], "excludedCategories": ["*"]},
                  transferMode="ReportEvents")
        act()
        self.call("Tracing.end")
        while not any(it["method"] == "Tracing.tracingComplete" for it in self.events):
            self.events.append(self.message())
        told = [it for event in self.events if event["method"] == "Tracing.dataCollected" for it in event["params"]["value"]]
        self.events = [it for it in self.events if not it["method"].startswith("Tracing.")]
        names = {(it["pid"], it["tid"]): THREADS.get(it["args"]["name"]) for it in told if it["name"] == "thread_name"}
        found = {name: [] for name in THREADS.values()}
        for it in told:
            name = names.get((it["pid"], it["tid"]))
            if name and "tdur" in it and it["name"].endswith("::RunTask"):
                found[name].append(it["tdur"] / 1000)
        if not found["page"]:
            raise Failed("the browser told of no task of the page")
        return found

    def complaints(self):
        """What the page or the browser found wrong: exceptions, errors, and requests that were made."""
        found = []
        for it in self.events:
            given = it["params"]
            if it["method"] == "Runtime.exceptionThrown":
                details = given["exceptionDetails"]
                found.append(details.get("exception", {}).get("description", details["text"]))
            if it["method"] == "Log.entryAdded" and given["entry"]["level"] == "error":
                found.append("%s %s" % (given["entry"]["text"], given["entry"].get("url", "")[:80]))
        return found

    def requests(self):
        """The addresses that were asked for."""
        return [it["params"]["request"]["url"] for it in self.events if it["method"] == "Network.requestWillBeSent"]
