"""Drives a Firefox without a window, for the tools beside this module that try pages and caches. It is no tool.

Firefox listens on a socket of this machine (Marionette, its own protocol for tests): a message is its length in
bytes, a colon, and a list in JSON. So no package is needed but Firefox itself. A profile is a folder of the tool's
own.
"""
import base64
import json
import os
import shutil
import socket
import subprocess
import time

NAMES = ("firefox-esr", "firefox")
SECONDS = 60
# Nothing but the pages of the tool is to be fetched, and nothing is to be asked of the network before the cache has
# answered.
PREFS = {
    "marionette.port": 0,
    "app.normandy.enabled": False,
    "app.update.enabled": False,
    "browser.aboutConfig.showWarning": False,
    "browser.newtabpage.enabled": False,
    "browser.region.network.url": "",
    "browser.safebrowsing.downloads.remote.enabled": False,
    "browser.safebrowsing.malware.enabled": False,
    "browser.safebrowsing.phishing.enabled": False,
    "browser.search.update": False,
    "browser.shell.checkDefaultBrowser": False,
    "browser.startup.homepage": "about:blank",
    "browser.startup.page": 0,
    "datareporting.healthreport.uploadEnabled": False,
    "datareporting.policy.dataSubmissionEnabled": False,
    "dom.security.https_first": False,
    "extensions.getAddons.cache.enabled": False,
    "extensions.update.enabled": False,
    "network.captive-portal-service.enabled": False,
    "network.connectivity-service.enabled": False,
    "network.http.rcwn.enabled": False,
    "services.settings.server": "data:,",
    "startup.homepage_welcome_url": "about:blank",
    "toolkit.telemetry.enabled": False,
}


# What a page writes by `console.log` and the like is kept apart from the other messages.
LOGGED = "const logged = Cc['@mozilla.org/consoleAPI-storage;1'].getService(Ci.nsIConsoleAPIStorage);"


class BrowserFault(Exception):
    """What the browser answered in the place of a result."""


class NoBrowser(Exception):
    """Firefox does not start on this machine at all."""


def find_browser():
    """The path of a Firefox, or None."""
    return next(filter(None, map(shutil.which, NAMES)), None)


def write_prefs(profile, more):
    """The settings of a profile, with these beside those that each has."""
    with open(os.path.join(profile, "user.js"), "w", encoding="utf-8") as file:
        for name, value in {**PREFS, **more}.items():
            file.write(f"user_pref({json.dumps(name)}, {json.dumps(value)});\n")


class Browser:
    """A Firefox that runs with a profile. It ends with the `with` that has it, at the latest."""
    sessions = 0

    def __init__(self, browser, profile, prefs=()):
        os.makedirs(profile, exist_ok=True)
        write_prefs(profile, dict(prefs))
        self.port_file = os.path.join(profile, "MarionetteActivePort")
        if os.path.exists(self.port_file):
            os.remove(self.port_file)
        home = os.path.join(profile, "home")
        os.makedirs(home, exist_ok=True)
        self.log = open(os.path.join(profile, "firefox.log"), "ab")
        words = ["--headless", "--no-remote", "--marionette", "--remote-allow-system-access", "--profile", profile,
                 "about:blank"]
        self.process = subprocess.Popen(
            [browser, *words],
            stdin=subprocess.DEVNULL, stdout=self.log, stderr=self.log, start_new_session=True,
            env={**os.environ, "HOME": home, "MOZ_CRASHREPORTER_DISABLE": "1", "TZ": "UTC", "LC_ALL": "C.UTF-8"})
        self.count = 0
        self.socket = self.file = None

    def __enter__(self):
        try:
            self.connect()
        except BaseException as fault:
            self.end()
            if isinstance(fault, BrowserFault) and not Browser.sessions:
                raise NoBrowser(str(fault)) from fault
            raise
        Browser.sessions += 1
        return self

    def __exit__(self, *_):
        self.end()

    def connect(self):
        """Waits for the socket and begins a session."""
        until = time.monotonic() + SECONDS
        while not os.path.exists(self.port_file) or not os.path.getsize(self.port_file):
            if self.process.poll() is not None:
                raise BrowserFault(f"Firefox ended with status {self.process.returncode} before it listened")
            if time.monotonic() > until:
                raise BrowserFault("Firefox does not listen")
            time.sleep(0.05)
        with open(self.port_file, encoding="ascii") as file:
            port = int(file.read())
        self.socket = socket.create_connection(("127.0.0.1", port), SECONDS)
        self.file = self.socket.makefile("rb")
        self.receive()
        self.ask("WebDriver:NewSession", capabilities={"alwaysMatch": {"pageLoadStrategy": "normal"}})

    def receive(self):
        """One message."""
        digits = b""
        while (one := self.file.read(1)) != b":":
            if not one:
                raise BrowserFault("Firefox closed its socket")
            digits += one
        return json.loads(self.file.read(int(digits)))

    def ask(self, command, **words):
        """What a command gives."""
        self.count += 1
        message = json.dumps([0, self.count, command, words]).encode()
        self.socket.sendall(b"%d:%s" % (len(message), message))
        _, _, fault, result = self.receive()
        if fault:
            raise BrowserFault(f"{command}: {fault.get('error')}: {fault.get('message')}")
        return result.get("value") if isinstance(result, dict) and "value" in result else result

    def go(self, url):
        self.ask("WebDriver:Navigate", url=url)

    def run(self, script, *words):
        """What a script in the page returns; `arguments` are its words."""
        return self.ask("WebDriver:ExecuteScript", script=script, args=list(words))

    def run_inside(self, script, *words):
        """What a script returns that runs in the browser itself."""
        self.ask("Marionette:SetContext", value="chrome")
        try:
            return self.run(script, *words)
        finally:
            self.ask("Marionette:SetContext", value="content")

    def clear_console(self):
        self.run_inside("Services.console.reset();" + LOGGED + "logged.clearEvents()")

    def complaints(self):
        """What the console says of pages from files: errors and warnings, of scripts and of what a page may not do."""
        return self.run_inside(LOGGED + """
            const isOfPage = one => one instanceof Ci.nsIScriptError
                && (`${one.sourceName} ${one.errorMessage}`.includes("file://")
                    || /CSP|Content.Security/i.test(one.category + one.errorMessage));
            const told = Services.console.getMessageArray().filter(isOfPage).map(one => one.errorMessage);
            const written = logged.getEvents().filter(one => String(one.filename).startsWith("file:"));
            return told.concat(written.map(one => String(one.arguments[0])));
            """)

    def resize(self, width, height):
        """Gives a page this room. A window has at least 500 points, so for less the page is made narrower within it."""
        self.ask("WebDriver:SetWindowRect", width=max(width, 500), height=height)
        self.run_inside("window.gBrowser.selectedBrowser.style.maxWidth = arguments[0]", f"{width}px" if width < 500
                        else "")

    def picture(self, whole=False):
        """A PNG of what is seen, or of the whole page."""
        return base64.b64decode(self.ask("WebDriver:TakeScreenshot", full=whole))

    def press(self, keys):
        """Keys that are pressed one after the other, where the focus is."""
        actions = [{"type": kind, "value": key} for key in keys for kind in ("keyDown", "keyUp")]
        self.ask("WebDriver:PerformActions", actions=[{"type": "key", "id": "keys", "actions": actions}])

    def quit(self):
        """Lets Firefox end by itself, so that all is written that it has to write."""
        self.ask("Marionette:Quit", flags=["eAttemptQuit"])
        self.process.wait(SECONDS)

    def end(self):
        """Ends what still runs."""
        if self.process.poll() is None:
            self.process.terminate()
            try:
                self.process.wait(10)
            except subprocess.TimeoutExpired:
                self.process.kill()
                self.process.wait()
        for one in (self.file, self.socket, self.log):
            if one:
                one.close()
