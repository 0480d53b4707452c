"""A headless Chromium, driven over WebDriver's HTTP on loopback. Python's own modules alone."""
import base64
import http.client
import json
import os
import re
import shutil
import subprocess
import tempfile

# The name of an element's reference in WebDriver's JSON.
ELEMENT = "element-6066-11e4-a52e-4f735466cecf"

MISSING = """hostile/page: this script needs Chromium and its driver, and {} is not here.
They are Debian's packages `chromium` and `chromium-driver`: apt-get install chromium chromium-driver"""


class Fault(Exception):
    """What the driver says is wrong."""


def program(*names):
    """The path of the first of these programs that there is."""
    for name in names:
        path = shutil.which(name)
        if path:
            return path
    raise SystemExit(MISSING.format(names[0]))


class Browser:
    def __init__(self, words=(), seconds=120):
        self.folder = tempfile.mkdtemp(prefix="holzikra-browser-")
        self.seconds = seconds
        chromium = program("chromium", "chromium-browser", "google-chrome")
        self.driver = subprocess.Popen(
            [program("chromedriver"), "--port=0"], stdin=subprocess.DEVNULL, stdout=subprocess.PIPE, stderr=subprocess.DEVNULL, text=True
        )
        port = None
        for line in self.driver.stdout:
            found = re.search(r"successfully on port (\d+)", line)
            if found:
                port = int(found[1])
                break
        if port is None:
            raise SystemExit("hostile/page: chromedriver does not start")
        self.connection = http.client.HTTPConnection("127.0.0.1", port, timeout=seconds)
        self.session = ""
        options = {
            "binary": chromium,
            "args": ["--headless=new", "--no-sandbox", "--disable-gpu", f"--user-data-dir={self.folder}", "--window-size=1280,900", *words],
        }
        logs = {"browser": "ALL", "performance": "ALL"}
        wanted = {"browserName": "chrome", "goog:chromeOptions": options, "goog:loggingPrefs": logs, "unhandledPromptBehavior": "ignore"}
        made = self.ask("POST", "", {"capabilities": {"alwaysMatch": wanted}})
        self.session = "/" + made["sessionId"]
        self.ask("POST", "/timeouts", {"script": seconds * 1000, "pageLoad": seconds * 1000, "implicit": 0})

    def ask(self, method, path, body=None):
        data = None if method == "GET" else json.dumps(body or {})
        self.connection.request(method, f"/session{self.session}{path}", data, {"Content-Type": "application/json"})
        answer = json.loads(self.connection.getresponse().read())["value"]
        if isinstance(answer, dict) and "error" in answer:
            raise Fault(f"{answer['error']}: {answer['message'].splitlines()[0]}")
        return answer

    def open(self, url):
        self.ask("POST", "/url", {"url": url})

    def run(self, script, *arguments):
        """What a function body gives in the page."""
        return self.ask("POST", "/execute/sync", {"script": script, "args": list(arguments)})

    def find(self, selector):
        """The elements of a selector, in order."""
        found = self.ask("POST", "/elements", {"using": "css selector", "value": selector})
        return [one[ELEMENT] for one in found]

    def click(self, element):
        """Moves an element to the middle of what shows it, so that nothing that stays in its place lies over it, and clicks there."""
        self.run("arguments[0].scrollIntoView({block: 'center', inline: 'nearest'});", {ELEMENT: element})
        self.ask("POST", f"/element/{element}/click")

    def keys(self, *keys):
        """Presses keys one after the other."""
        actions = [{"type": kind, "value": key} for key in keys for kind in ("keyDown", "keyUp")]
        self.ask("POST", "/actions", {"actions": [{"type": "key", "id": "keyboard", "actions": actions}]})

    def size(self, width, height):
        self.command("Emulation.setDeviceMetricsOverride", width=width, height=height, deviceScaleFactor=1, mobile=False)

    def command(self, name, **parameters):
        """A command of the browser's own protocol."""
        return self.ask("POST", "/goog/cdp/execute", {"cmd": name, "params": parameters})

    def log(self, kind):
        """What was logged since the last call."""
        return self.ask("POST", "/se/log", {"type": kind})

    def requests(self):
        """The addresses that were asked for since the last call."""
        messages = [json.loads(one["message"])["message"] for one in self.log("performance")]
        return [one["params"]["request"]["url"] for one in messages if one["method"] == "Network.requestWillBeSent"]

    def screenshot(self, path):
        with open(path, "wb") as out:
            out.write(base64.b64decode(self.ask("GET", "/screenshot")))

    def close(self):
        try:
            self.ask("DELETE", "")
        except (Fault, OSError, http.client.HTTPException):
            pass
        self.driver.terminate()
        self.driver.wait()
        shutil.rmtree(self.folder, ignore_errors=True)


def address(path):
    """The address of a file."""
    return "file://" + "".join(chr(b) if chr(b).isalnum() or b in b"/._-" else f"%{b:02X}" for b in os.fsencode(os.path.abspath(path)))
