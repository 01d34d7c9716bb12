"""A page in Debian's Chromium, driven by its driver and selenium."""
import json
import os
import re
import time

CHROMIUM, DRIVER = "/usr/bin/chromium", "/usr/bin/chromedriver"
FLAGS = "--headless=new", "--no-sandbox", "--disable-dev-shm-usage", "--disable-gpu"
# How often a session is asked for, and how many seconds a script may take on a machine with much else to do.
TRIES, SCRIPT_SECONDS = 4, 300
FRAMES = "const f = arguments[0]; requestAnimationFrame(() => requestAnimationFrame(() => f()))"


def lacking():
    """What is needed and isn't there."""
    words = [it for it in (CHROMIUM, DRIVER) if not os.path.exists(it)]
    try:
        import selenium  # noqa: F401
    except ImportError:
        words.append("python3-selenium")
    return words


def begun(start):
    """A session. The driver gives up if Chromium hasn't begun within a minute, as on a machine with much else to do: then
    it is asked again."""
    from selenium.common.exceptions import SessionNotCreatedException

    for _ in range(TRIES - 1):
        try:
            return start()
        except SessionNotCreatedException:
            pass
    return start()


class Browser:
    def __init__(self, folder):
        from selenium import webdriver
        from selenium.webdriver.chrome.options import Options
        from selenium.webdriver.chrome.service import Service

        self.folder = folder
        options = Options()
        options.binary_location = CHROMIUM
        for it in FLAGS:
            options.add_argument(it)
        options.set_capability("goog:loggingPrefs", {"browser": "ALL", "performance": "ALL"})
        self.driver = begun(lambda: webdriver.Chrome(service=Service(DRIVER), options=options))
        self.driver.set_script_timeout(SCRIPT_SECONDS)
        self.size(1280, 1000)
        self.scheme("light")

    def quit(self):
        self.driver.quit()

    def say(self, command, **words):
        return self.driver.execute_cdp_cmd(command, words)

    def size(self, width, height):
        self.say("Emulation.setDeviceMetricsOverride", width=width, height=height, deviceScaleFactor=1, mobile=False)

    def scheme(self, name):
        self.say("Emulation.setEmulatedMedia", features=[{"name": "prefers-color-scheme", "value": name}])

    def js(self, code, *words):
        return self.driver.execute_script(code, *words)

    def settle(self):
        self.driver.execute_async_script(FRAMES)

    def open(self, page, at=""):
        """Opens a page, and waits until all of it is read."""
        self.driver.get("about:blank")
        self.driver.get(f"file://{self.folder}/{page}.html{at}")
        for _ in range(600):
            if self.js("return window.allRead || 0"):
                break
            time.sleep(0.05)
        self.settle()

    def at(self):
        return int(self.js("return document.getElementById('slider').value"))

    def goto(self, record):
        self.js("location.hash = '#' + arguments[0]", record)
        self.settle()
        self.settle()

    def key(self, *keys):
        from selenium.webdriver.common.action_chains import ActionChains

        for it in keys:
            ActionChains(self.driver).send_keys(it).perform()
        self.settle()

    def click(self, x, y):
        for kind, buttons in (("mousePressed", 1), ("mouseReleased", 0)):
            self.say("Input.dispatchMouseEvent", type=kind, x=x, y=y, button="left", clickCount=1, buttons=buttons)
        self.settle()

    def search(self, words):
        """Searches, and returns what the page says was found."""
        self.js("document.getElementById('query').value = arguments[0]", words)
        self.js("document.getElementById('search').requestSubmit()")
        self.settle()
        return self.text("#found")

    def text(self, selector):
        return self.js("return document.querySelector(arguments[0]).textContent", selector)

    def texts(self, selector):
        return self.js("return [...document.querySelectorAll(arguments[0])].map(e => e.textContent)", selector)

    def processes(self):
        rows = "[...document.querySelectorAll('#processes tbody tr')]"
        return self.js(f"return {rows}.map(r => [...r.cells].map(c => c.textContent))")

    def complaints(self):
        return [it["message"] for it in self.driver.get_log("browser") if it["level"] == "SEVERE"]

    def network(self):
        """What the page asked for, and what of it was blocked, each by its address."""
        names, asked, blocked = {}, [], {}
        for it in self.driver.get_log("performance"):
            said = json.loads(it["message"])["message"]
            if said["method"] == "Network.requestWillBeSent":
                names[said["params"]["requestId"]] = said["params"]["request"]["url"]
                asked.append(said["params"]["request"]["url"])
            if said["method"] == "Network.loadingFailed":
                blocked[names.get(said["params"]["requestId"])] = said["params"].get("blockedReason")
        return asked, blocked

    def strangers(self):
        """What the page asked for beside itself."""
        own = re.compile(f"file://{re.escape(self.folder)}/|about:|data:")
        return [it for it in self.network()[0] if not own.match(it)]
