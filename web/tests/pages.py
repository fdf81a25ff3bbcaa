"""The page in a real browser: jmapd over journals, nginx before it by examples/nginx.conf, and windows of chromium, for the cases beside this file."""

import contextlib
import json
import shutil
import ssl
import subprocess
import sys
import time
import urllib.request
from pathlib import Path

TOP = Path(__file__).resolve().parents[2]
sys.path.insert(0, str(TOP / "examples"))

from peers import free_port
from served import Served

SECONDS = 30
ZONES = [{"name": "America/New_York", "rule": "EST5EDT,M3.2.0,M11.1.0"}, {"name": "Europe/Zurich", "rule": "CET-1CEST,M3.5.0,M10.5.0/3"}]
USING = ["urn:ietf:params:jmap:core", "urn:ietf:params:jmap:calendars"]
TOOLS = ("chromium", "chromedriver", "nginx", "openssl")
# What is said to a window before a page is loaded: it keeps what the page asks for, and what its policy keeps it from.
WATCH = """
window.asked = [];
window.kept_off = [];
const asking = window.fetch;
window.fetch = (address, options) => { if (options?.body) window.asked.push(JSON.parse(options.body)); return asking(address, options); };
document.addEventListener("securitypolicyviolation", (event) => window.kept_off.push(event.violatedDirective));
"""
# The button of the first event with a title.
FIND = "(title) => [...document.querySelectorAll('.event')].find((it) => it.querySelector('.title').textContent === title)"


def missing():
    """What is needed and isn't here, or None."""
    try:
        import selenium
    except ImportError:
        return "python3-selenium"
    return next((it for it in TOOLS if not shutil.which(it)), None)


def until(holds, what, seconds=SECONDS):
    """What `holds` gives once that is true. Where it looked at a part of the page that the page has just drawn anew, it looks again."""
    end = time.monotonic() + seconds
    while not (found := unless_redrawn(holds)):
        if time.monotonic() > end:
            raise AssertionError(f"after {seconds} s: {what}")
        time.sleep(0.1)
    return found


def unless_redrawn(holds):
    from selenium.common.exceptions import StaleElementReferenceException

    try:
        return holds()
    except StaleElementReferenceException:
        return False


class Site:
    """A server over journals in a folder, and nginx before it; the server may be ended and started again."""

    def __init__(self, program, folder):
        self.program, self.folder, self.port, self.tls_port = program, Path(folder), free_port(), free_port()
        self.address = f"https://localhost:{self.tls_port}"
        (self.folder / "journals").mkdir()
        users = [{"name": name, "token": f"t-{name}", "accounts": ["A1"]} for name in ("ann", "bob")]
        users.append({"name": "eve", "token": "t-eve", "accounts": ["A1"], "readOnly": ["A1"]})
        site = {"baseUrl": self.address, "accounts": [{"id": "A1", "name": "Team"}], "users": users, "zones": ZONES}
        (self.folder / "site.json").write_text(json.dumps(site))
        key = ["-keyout", "key.pem", "-out", "certificate.pem"]
        words = ["openssl", "req", "-x509", "-newkey", "ec", "-pkeyopt", "ec_paramgen_curve:prime256v1", "-nodes", "-subj", "/CN=localhost", "-days", "1", *key]
        subprocess.run(words, cwd=folder, check=True, capture_output=True)
        # Where root starts nginx, its workers read the files as nobody.
        shutil.copytree(TOP / "web", self.folder / "page")
        for it in [self.folder, *(self.folder / "page").rglob("*"), self.folder / "page"]:
            it.chmod(0o755)
        values = {"FOLDER": str(folder), "PAGE": str(self.folder / "page"), "JMAPD_PORT": str(self.port), "TLS_PORT": str(self.tls_port)}
        # The page opens no WebSocket.
        values["SOCKETS_PORT"] = values["JMAPD_PORT"]
        text = (TOP / "examples/nginx.conf").read_text()
        for name, value in values.items():
            text = text.replace(name, value)
        (self.folder / "nginx.conf").write_text(text)

    @contextlib.contextmanager
    def serving(self):
        self.start()
        with open(self.folder / "nginx.errors", "w", encoding="utf-8") as errors:
            self.proxy = subprocess.Popen(["nginx", "-p", str(self.folder), "-c", str(self.folder / "nginx.conf")], stderr=errors)
        try:
            until(self.is_up, "nginx doesn't serve")
            yield self
        finally:
            self.proxy.terminate()
            self.proxy.wait(SECONDS)
            self.server.end()

    def is_up(self):
        try:
            return bool(self.did(("Core/echo", {})))
        except OSError:
            return False

    def start(self):
        words = [self.program, "listen", "--config", "site.json", "--journals", "journals", "--workers", "4"]
        self.server = Served(words, self.folder, self.port)
        if not self.server.is_up():
            raise AssertionError(f"jmapd ended with {self.server.ended()}")

    def kill(self):
        """Ends the server by SIGKILL."""
        self.server.end()

    def read(self, path, token="t-ann", body=None):
        request = urllib.request.Request(f"{self.address}{path}", body, {"Authorization": f"Bearer {token}"})
        with urllib.request.urlopen(request, timeout=SECONDS, context=ssl.create_default_context(cafile=self.folder / "certificate.pem")) as answer:
            return json.load(answer)

    def session(self):
        return self.read("/.well-known/jmap")

    def did(self, *calls, token="t-ann"):
        """The arguments of the responses to some calls of account A1, which another client makes."""
        made = [[name, {"accountId": "A1"} | arguments, str(place)] for place, (name, arguments) in enumerate(calls)]
        answer = self.read("/jmap", token, json.dumps({"using": USING, "methodCalls": made}).encode())
        return [arguments for _, arguments, _ in answer["methodResponses"]]

    def made(self, **events):
        """The ids of events that another client makes."""
        [answer] = self.did(("CalendarEvent/set", {"create": events}))
        assert not answer["notCreated"], answer["notCreated"]
        return {key: it["id"] for key, it in answer["created"].items()}

    def titled(self, title):
        """The events whose title has a text in it."""
        [found] = self.did(("CalendarEvent/query", {"filter": {"title": title}}))
        [got] = self.did(("CalendarEvent/get", {"ids": found["ids"]}))
        return got["list"]


class Window:
    """A window of the browser, in which somebody uses the page."""

    def __init__(self, browser, address, token):
        from selenium.webdriver.common.by import By
        from selenium.webdriver.common.keys import Keys

        self.browser, self.css, self.keys = browser, By.CSS_SELECTOR, Keys
        browser.switch_to.new_window("window")
        self.handle = browser.current_window_handle
        browser.set_window_size(1280, 900)
        browser.execute_cdp_cmd("Page.addScriptToEvaluateOnNewDocument", {"source": WATCH})
        browser.execute_cdp_cmd("Emulation.setTimezoneOverride", {"timezoneId": "Europe/Zurich"})
        self.address = address
        browser.get(address)
        if token:
            self.sign_in(token)

    def __enter__(self):
        self.browser.switch_to.window(self.handle)
        return self

    def __exit__(self, *_):
        return False

    def one(self, css):
        return until(lambda: next(iter(self.browser.find_elements(self.css, css)), None), f"no {css}")

    def all(self, css):
        return self.browser.find_elements(self.css, css)

    def run(self, script, *values):
        return self.browser.execute_script(script, *values)

    def status(self):
        return self.one("#status").text

    def sign_in(self, token):
        self.one("#sign-in [name=token]").send_keys(token, self.keys.ENTER)
        until(lambda: self.status() != "", "nothing was said of signing in")

    def go(self, view, date):
        self.run("location.hash = arguments[0]", f"#{view}/{date}")
        until(lambda: self.one("#date").get_property("value") == date, f"the page didn't go to {date}")

    def texts(self, css):
        """The texts of all elements, at one moment."""
        return self.run("return [...document.querySelectorAll(arguments[0])].map((it) => it.textContent)", css)

    def titles(self):
        return self.texts(".event .title")

    def sees(self, title, seconds=SECONDS):
        return until(lambda: title in self.titles(), f"{title!r} isn't among {self.titles()}", seconds)

    def told(self, title):
        """All that the button of an event says."""
        self.sees(title)
        return self.run(f"return ({FIND})(arguments[0]).textContent", title)

    def press_event(self, title, *keys):
        """Presses keys on an event, or clicks on it. The page may draw it anew meanwhile."""

        def pressed():
            event = self.run(f"return ({FIND})(arguments[0])", title)
            event.send_keys(*keys) if keys else event.click()
            return True

        self.sees(title)
        until(pressed, f"{title} can't be pressed")

    def drag(self, title, right, down):
        """Drags an event by so many pixels."""
        from selenium.webdriver.common.action_chains import ActionChains

        self.sees(title)
        event = self.run(f"return ({FIND})(arguments[0])", title)
        ActionChains(self.browser).click_and_hold(event).move_by_offset(round(right / 2), round(down / 2)).move_by_offset(round(right / 2), round(down / 2)).release().perform()

    def fill(self, **values):
        """Puts values into the dialog, as a hand would leave them there."""
        for name, value in values.items():
            field = self.one(f"#editor [name={name}]")
            script = "const [field, value] = arguments; if (field.type === 'checkbox') field.checked = value; else field.value = value;"
            self.run(script + "for (const type of ['input', 'change']) field.dispatchEvent(new Event(type, { bubbles: true }));", field, value)

    def choose(self, name, words):
        """Sets the checkbox of this name whose label has these words."""
        [box] = [it for it in self.all(f"#editor [name={name}]") if words in it.find_element("xpath", "..").text]
        if not box.is_selected():
            box.click()

    def pick(self, which):
        self.one(f"#editor [name=which][value={which}]").click()

    def open(self, title):
        self.press_event(title)
        self.is_open()

    def is_open(self):
        until(lambda: self.run("return document.getElementById('editor').open"), "the dialog doesn't open")

    def press(self, name):
        self.one(f"#editor [name={name}]").click()

    def is_closed(self):
        def closed():
            return not self.run("return document.getElementById('editor').open")

        until(closed, f"the dialog stays open: {self.one('#trouble').text}")

    def trouble(self):
        return until(lambda: self.one("#trouble").text, "nothing was said")

    def add(self, **values):
        """Opens the dialog on a new event, and fills it."""
        self.one("[data-act=new]").click()
        self.is_open()
        self.fill(**values)


@contextlib.contextmanager
def browsing():
    """The browser, without a window that is used."""
    from selenium import webdriver
    from selenium.webdriver.chrome.service import Service

    options = webdriver.ChromeOptions()
    options.binary_location = shutil.which("chromium")
    for word in ("--headless=new", "--no-sandbox", "--disable-gpu", "--ignore-certificate-errors", "--lang=en-GB", "--disable-dev-shm-usage"):
        options.add_argument(word)
    options.add_experimental_option("prefs", {"intl.accept_languages": "en-GB"})
    browser = webdriver.Chrome(service=Service(shutil.which("chromedriver")), options=options)
    try:
        yield browser
    finally:
        browser.quit()
