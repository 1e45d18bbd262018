"""A run of the page, a browser that shows it, and the hand that moves the pointer and presses keys: what the cases of `check` are written with."""
import contextlib
import hashlib
import http.client
import os
import pathlib
import re
import shutil
import signal
import statistics
import subprocess
import sys
import tempfile
import time

try:
    from selenium import webdriver
    from selenium.webdriver.common.action_chains import ActionChains
    from selenium.webdriver.common.by import By
    from selenium.webdriver.common.keys import Keys
except ImportError:
    webdriver = None

HERE = pathlib.Path(__file__).resolve().parent
EXAMPLES = HERE.parent
TAS = os.environ.get("TAS") or str(EXAMPLES.parent / "tas")
ROW, HEAD, CELL, LEFT = 20, 26, 18, 94  # pixels of the roll, as in roll.js
# Notes when keys were pressed, and when pictures were shown.
WATCH = """window.keys = []; window.pictures = [];
addEventListener("keydown", () => keys.push(performance.now()), true);
new MutationObserver(() => pictures.push([performance.now(), Number(document.body.dataset.shown)])).observe(document.body, {attributes: true, attributeFilter: ["data-shown"]});"""
there = webdriver and shutil.which("chromium") and shutil.which("chromedriver")


class Wrong(Exception):
    """Something isn't as it should be."""


def wanted(is_so, words):
    if not is_so:
        raise Wrong(words)


def cartridge(name):
    return subprocess.run([EXAMPLES / "cart", name], stdout=subprocess.PIPE, check=True).stdout


class Run:
    """`examples/page/run` on a cartridge and a movie of its own. Its globals may be others: `SILENCE=1`."""

    running = []

    def __init__(self, movie=None, cart="joystick", change=lambda image: image, words=(), **others):
        self.running.append(self)
        self.holder = tempfile.TemporaryDirectory()
        self.top = pathlib.Path(self.holder.name)
        self.cart, self.movie, self.folder = self.top / "game.bin", self.top / "game.movie", self.top / "desk"
        image = change(cartridge(cart))
        self.cart.write_bytes(image)
        self.movie.write_bytes(movie(image) if movie else (EXAMPLES / f"{cart}.movie").read_bytes())
        start = f"page = {{'__name__': 'page', '__file__': {str(HERE / 'run')!r}}}; exec(open(page['__file__']).read(), page); page.update({others!r}); page['main']()"
        self.child = subprocess.Popen([sys.executable, "-c", start, self.cart, self.movie, self.folder, *words], stdout=subprocess.PIPE, stderr=subprocess.PIPE, text=True)
        self.address = self.child.stdout.readline().strip()
        self.port, self.token = int(self.address.split(":")[2].split("/")[0]), self.address.split("/")[3]

    def desk(self):
        """The number of the desk's process."""
        return int(pathlib.Path(f"/proc/{self.child.pid}/task/{self.child.pid}/children").read_text().split()[0])

    def end(self, number=signal.SIGINT):
        """Ends it, and returns what it has printed; nothing of it may be left."""
        self.running.remove(self)
        desk = None
        with contextlib.suppress(OSError, IndexError):
            desk = self.desk()
        self.child.send_signal(number)
        out, errors = self.child.communicate(timeout=30)
        wanted("Traceback" not in errors, errors)
        wanted(not pathlib.Path(f"/proc/{desk}").exists(), "the desk has ended, too")
        return out, errors

    def request(self, method, path, body=None, **headers):
        """The status and the body of an answer; the path is what follows the token, or begins with a slash."""
        line = http.client.HTTPConnection("127.0.0.1", self.port, timeout=10)
        with contextlib.suppress(ConnectionError):  # the server doesn't read a body that is too long
            line.request(method, path if path.startswith("/") else f"/{self.token}/{path}", body, headers)
        answer = line.getresponse()
        return answer.status, answer.read()

    def sit(self):
        """Takes a seat as a page does, and returns what asks lines at it."""
        lease = self.request("POST", "sit", b"")[1].decode().split()[0]
        return lambda *lines: self.request("POST", f"{lease}/ask", "".join(line + "\n" for line in lines).encode())[1]


def browser(width=1280, height=860, more=()):
    options = webdriver.ChromeOptions()
    words = ["--headless=new", "--disable-gpu", "--disable-software-rasterizer", f"--window-size={width},{height}", "--disable-background-networking", *more]
    for word in words + (["--no-sandbox"] if os.geteuid() == 0 else []):
        options.add_argument(word)
    options.set_capability("goog:loggingPrefs", {"browser": "ALL"})
    return webdriver.Chrome(options=options)


class Page:
    """A page in a browser of its own."""

    running, pictures = [], None

    def __init__(self, run, width=1280, height=860):
        self.web = browser(width, height)
        self.running.append(self)
        self.web.get(run.address)
        self.until(lambda: self.shown() == 0, "the first picture")
        self.js(WATCH)

    def end(self):
        wrong = [entry["message"] for entry in self.web.get_log("browser") if entry["level"] == "SEVERE" and not re.search("favicon|status of 410|ERR_CONNECTION_REFUSED", entry["message"])]
        self.running.remove(self)
        self.web.quit()
        wanted(not wrong, f"the browser's log has {len(wrong)} faults, such as {wrong[:1]}")

    # ---- what it shows

    def js(self, script, *values):
        return self.web.execute_script(script, *values)

    def until(self, so, what, seconds=20):
        """Waits until something is so, and returns how long that took."""
        begin = time.monotonic()
        while not so():
            if time.monotonic() - begin > seconds:
                self.shot("failed")
                raise Wrong(f"{what}: not within {seconds} seconds; the page says {self.text('words')!r}, {self.text('status')!r}")
            time.sleep(0.02)
        return time.monotonic() - begin

    def says(self, name, words, seconds=20):
        """Waits until a part of the page has these words."""
        return self.until(lambda: words in self.text(name), f"{words!r} in {name}", seconds)

    def shown(self):
        return self.js("return document.body.dataset.shown === undefined ? null : Number(document.body.dataset.shown)")

    def text(self, name):
        return self.js("return document.getElementById(arguments[0]).textContent", name)

    def picture(self):
        return hashlib.sha256(self.js("return document.getElementById('picture').toDataURL()").encode()).hexdigest()

    def pixels(self):
        """The bytes of the picture, as a pixmap has them after its 15 first ones."""
        return bytes(self.js("return [...document.getElementById('picture').getContext('2d').getImageData(0, 0, 160, 210).data].filter((_, index) => index % 4 < 3)"))

    def input(self):
        """The frame at the cursor, as the status line has it."""
        found = re.search(r"[RLDUF.]{5} [RLDUF.]{5} [rsbAB.]{5}", self.text("status"))
        return found and found[0]

    def shot(self, name):
        if self.pictures:
            self.web.save_screenshot(str(self.pictures / f"{name}.png"))

    # ---- what the reader does

    def point(self, row, column):
        """The roll, and where a cell is from its middle; without a column the frame's number."""
        canvas = self.web.find_element(By.CSS_SELECTOR, "#roll canvas")
        size, top = canvas.size, self.js("return document.getElementById('roll').scrollTop")
        x = LEFT - 30 if column is None else LEFT + column * CELL + column // 5 * 8 + CELL / 2
        return canvas, int(x - size["width"] / 2), int(HEAD + row * ROW - top + ROW / 2 - size["height"] / 2)

    def drag(self, row, to, column):
        canvas, x, y = self.point(row, column)
        way = self.point(to, column)[2] - y
        ActionChains(self.web, duration=20).move_to_element_with_offset(canvas, x, y).click_and_hold().move_by_offset(0, way // 2).move_by_offset(0, way - way // 2).release().perform()

    def select(self, row, to):
        self.drag(row, row, None)
        self.drag(row, to, None)

    def keys(self, *keys):
        ActionChains(self.web).send_keys(*keys).perform()

    def with_key(self, held, key):
        ActionChains(self.web).key_down(held).send_keys(key).key_up(held).perform()

    def fill_in(self, name, words):
        field = self.web.find_element(By.ID, name)
        field.clear()
        field.send_keys(words, Keys.ENTER)

    def go(self, frame, seconds=120):
        """Goes to a frame by its number, and returns how long its picture took."""
        self.fill_in("goto", str(frame))
        self.focus()
        return self.until(lambda: self.shown() == frame, f"frame {frame}", seconds)

    def focus(self):
        self.js("document.getElementById('roll').focus()")

    def press(self, name):
        self.web.find_element(By.ID, name).click()

    def paste(self, words):
        self.js("const data = new DataTransfer(); data.setData('text/plain', arguments[0]); "
                "document.getElementById('roll').dispatchEvent(new ClipboardEvent('paste', {clipboardData: data, bubbles: true}))", words)


def percentiles(values):
    """What there is to say about some milliseconds."""
    values = sorted(values)
    return f"median {statistics.median(values):.1f} ms, 95th percentile {values[int(len(values) * .95)]:.1f} ms, longest {values[-1]:.1f} ms, of {len(values)}"
