"""The page that answers scripts, in a tab of Chromium, as somebody uses it."""

import base64
import json
import re
import subprocess
import sys
import time
import zlib
from contextlib import contextmanager
from pathlib import Path
from typing import Any, Callable, Iterator, List, Tuple, Union

import rsp

LINKED = 24000  # bytes of a script that an older link carries
TYPED = 4000  # bytes that are typed: Chromium takes long for more
LONGEST = 60  # seconds that the page may take
# What Selenium calls these keys.
TAB, ENTER, SHIFT, CONTROL, DOWN, F1, ESCAPE = [*"\ue004\ue007\ue008\ue009\ue015\ue031\ue00c"]
FIRST = "Eight sums at once"  # the example that is there at first
ENDLESS = "asm 0\nj 0\nnop\nend\n" + 5000 * "run 1000000\n"
SELECTED = "the('script').value.slice(the('script').selectionStart, the('script').selectionEnd)"


def linked(script: bytes, name: str = "packed") -> str:
    """The part of an address that carries a script, packed; or as it is, named `script`, as older ones."""
    packer = zlib.compressobj(9, zlib.DEFLATED, -15)
    data = packer.compress(script) + packer.flush() if name == "packed" else script
    return f"#bytes={len(script)}&{name}={base64.urlsafe_b64encode(data).decode().rstrip('=')}"


def way_of(number: int, script: bytes) -> str:
    """One of the three ways to give a script, in turns, as far as they carry its bytes."""
    is_typed = script.isascii() and script and b"\r" not in script
    if number % 3 == 0 and is_typed:
        return "typed"
    return "link" if number % 3 == 1 and len(script) <= LINKED else "file"


def replies_to(script: Union[str, bytes]) -> str:
    """The replies of the library for Linux."""
    return bytes(rsp.run_script(script)[0]).decode()


class Host:
    """A folder, served below a path by the command that the page names, at a port that is free."""

    def __init__(self, folder: Path) -> None:
        command = re.findall(r"<kbd>(.*?)</kbd>", (folder / "index.html").read_text())[0]
        program, *words = command.split()
        assert program == "python3", command
        self.folder = folder
        words, out, err = [sys.executable, "-u", *words, "0"], subprocess.PIPE, subprocess.DEVNULL
        self.process = subprocess.Popen(words, cwd=folder.parent, stdout=out, stderr=err, text=True)
        assert self.process.stdout
        self.url = f"{re.findall(r'http://[^ ]+/', self.process.stdout.readline())[0]}{folder.name}/"

    def url_of(self, name: str) -> str:
        """The address of a page, which may be in the folder that is named by its contents."""
        (path,) = (*self.folder.glob(name), *self.folder.glob(f"*/{name}"))
        return f"{self.url}{path.relative_to(self.folder)}"

    def close(self) -> None:
        self.process.terminate()
        self.process.wait(LONGEST)


class Page:
    """The page in a tab. Its downloads go to the folder `saved`."""

    def __init__(self, driver: Any, saved: Path) -> None:
        self.driver, self.folder = driver, saved
        self.log: List[Any] = []

    def call(self, method: str, **params: Any) -> Any:
        """The answer to a command of DevTools."""
        return self.driver.execute_cdp_cmd(method, params)

    def value(self, expression: str) -> Any:
        """The value of an expression, which may use `the`, `all`, `probes`; None if a dialog opens."""
        function = f"(({{ the, all }}) => ({expression}))(globalThis.probes ?? {{}})"
        found = self.call("Runtime.evaluate", expression=function, awaitPromise=True, returnByValue=True)
        assert "exceptionDetails" not in (found or {}), f"{expression}: {found}"
        return found["result"].get("value") if found else None

    def until(self, expression: str) -> None:
        """Waits until an expression is true."""
        end = f"const end = Date.now() + {1000 * LONGEST}"
        look = f"() => ({expression}) || Date.now() > end ? done() : setTimeout(look, 5)"
        self.value(f"new Promise((done) => {{ {end}; const look = {look}; look(); }})")
        assert self.value(expression), f"{expression} doesn't become true"

    def open(self, url: str) -> None:
        """Opens an address in a new page, also one that differs only after its #, without a question."""
        self.value("onbeforeunload = null")
        if "#" in url:
            self.driver.get("about:blank")
        self.driver.get(url)
        self.until("document.readyState === 'complete'")

    def visit(self, host: Host) -> None:
        """Opens the page in a browser that has no draft."""
        self.open(host.url)
        if self.value("localStorage.length"):
            self.value("(onpagehide = null, localStorage.clear())")
            self.open(host.url)
        self.ready()

    def ready(self) -> None:
        """Waits until the page has begun, and its first example is answered."""
        begun = "(the('ran').textContent || the('said').textContent || the('script').value)"
        is_running = "the('run').getAttribute('aria-disabled') === 'true'"
        self.until(f"document.readyState === 'complete' && !the('absent') && !({is_running}) && {begun}")

    def text(self, name: str) -> str:
        return str(self.value(f"the('{name}').textContent"))

    @property
    def script(self) -> str:
        """The text of the script."""
        return str(self.value("the('script').value"))

    @property
    def address(self) -> str:
        return str(self.value("location.href"))

    def click(self, name: str) -> None:
        self.value(f"the('{name}').click()")

    def count(self) -> int:
        """How many replies are shown."""
        return int(self.value("probes.count()"))

    def select(self, start: int, end: int = -1) -> None:
        """Puts the caret into the script, or selects a part of it."""
        self.value(f"(the('script').focus(), the('script').setSelectionRange({start}, {max(start, end)}))")

    def insert(self, at: int, text: str) -> None:
        """Types a text somewhere in the script."""
        self.select(at)
        self.call("Input.insertText", text=text)
        self.painted()

    def type(self, script: str) -> None:
        """Types another script over the one that is there. A long one is put there at once."""
        if len(script) <= TYPED:
            self.value("(the('script').focus(), the('script').select())")
            self.call("Input.insertText", text=script)
        else:
            self.value(f"(the('script').value = {json.dumps(script)}, 0)")
            self.value("the('script').dispatchEvent(new Event('input'))")

    def press(self, key: str, *held: str) -> None:
        """Presses a key while others are held, and lets them go."""
        from selenium.webdriver import ActionChains

        keys: Any = ActionChains(self.driver, duration=0)
        for act, given in (keys.key_down, held), (keys.send_keys, (key,)), (keys.key_up, held):
            for it in given:
                act(it)
        keys.perform()

    def tap(self, x: float, y: float) -> None:
        """Clicks a place of the screen."""
        for kind in "mousePressed", "mouseReleased":
            self.call("Input.dispatchMouseEvent", type=kind, x=x, y=y, button="left", clickCount=1)

    def scroll(self, top: str) -> None:
        """Scrolls script and replies."""
        self.value(f"(the('surface').scrollTop = {top}, 0)")
        self.painted()

    def choose(self, number: int) -> None:
        """Chooses an example."""
        self.value(f"(the('example').value = {number}, 0)")
        self.value("the('example').dispatchEvent(new Event('change'))")

    def answer(self, is_accepted: bool) -> str:
        """Answers a dialog, and returns its text."""
        from selenium.webdriver.support.expected_conditions import alert_is_present
        from selenium.webdriver.support.wait import WebDriverWait

        dialog = WebDriverWait(self.driver, LONGEST, 0.05).until(alert_is_present())
        text = str(dialog.text)
        dialog.accept() if is_accepted else dialog.dismiss()
        return text

    def message_after(self, act: Callable[[], object]) -> str:
        """Does something, and returns what the page says of it."""
        self.value("(the('said').textContent = '')")
        act()
        self.until("the('said').textContent")
        return self.text("said")

    def give_file(self, name: str, path: Path) -> None:
        """Chooses a file for an input of the page."""
        self.driver.find_element("id", name).send_keys(str(path))

    def open_file(self, name: str, data: bytes, called: str = "given.rsp") -> str:
        """Opens a file in an input, and returns what the page says."""
        (self.folder / called).write_bytes(data)
        return self.message_after(lambda: self.give_file(name, self.folder / called))

    def open_link(self, fragment: str) -> str:
        return self.message_after(lambda: self.value(f"(location.hash = '{fragment}')"))

    def open_image(self, data: bytes) -> None:
        """Opens an image that is taken."""
        assert self.open_file("image-file", data, "given.bin") == "Runs begin with given.bin."

    def give(self, script: bytes, way: str) -> None:
        """Gives a script in one of the three ways."""
        if way == "typed":
            self.type(script.decode())
        elif way == "link":
            self.open_link(linked(script, "script"))
            self.ended()
        else:
            self.open_file("script-file", script)

    def answered(self, script: str) -> None:
        """Types a script, and runs it."""
        self.type(script)
        self.click("run")
        self.ended()
        self.painted()

    def run(self) -> str:
        """Runs the script, and returns the replies that are shown."""
        self.click("run")
        return self.replies()

    def replies(self) -> str:
        """The replies that are shown when no run is under way."""
        self.ended()
        return str(self.value("probes.replies()"))

    def ended(self) -> str:
        """What the page says of a run that has ended."""
        self.until("the('run').getAttribute('aria-disabled') !== 'true'")
        return self.text("ran")

    def saved(self, button: str, name: str) -> bytes:
        """What a button saves, in a file of this name. Chromium drops all above ten a second."""
        time.sleep(0.12)
        self.click(button)
        return self.download(name)

    def saved_script(self) -> bytes:
        return self.saved("save-script", "script.rsp")

    def download(self, name: str) -> bytes:
        """A file that the page has saved, when it is whole."""
        end = time.monotonic() + LONGEST
        while True:
            begun = self.events("Page.downloadWillBegin")
            guids = {it["guid"] for it in begun if it["suggestedFilename"] == name}
            ended = self.events("Page.downloadProgress")
            if guids & {it["guid"] for it in ended if it["state"] == "completed"}:
                break
            assert time.monotonic() < end, f"{name} isn't saved"
            time.sleep(0.01)
        self.log.clear()
        data = (self.folder / name).read_bytes()
        (self.folder / name).unlink()
        return data

    def events(self, method: str) -> List[Any]:
        """What Chromium has logged of events of a kind since the last download."""
        self.log += [json.loads(it["message"])["message"] for it in self.driver.get_log("performance")]
        return [it["params"] for it in self.log if it["method"] == method]

    def read_aloud(self) -> List[Tuple[str, str, str]]:
        """The role, the name and the value of each node that a program gets which reads the page aloud."""
        nodes = self.call("Accessibility.getFullAXTree")["nodes"]
        fields = ("role", "name", "value")
        found = [[it.get(name, {}).get("value", "") for name in fields] for it in nodes if not it["ignored"]]
        return [(role, name, value) for role, name, value in found]

    def settle(self) -> None:
        """Lets the page do what is under way."""
        self.value("new Promise((done) => setTimeout(done, 100))")

    def painted(self) -> None:
        """Waits until what was drawn is painted."""
        self.value("probes.painted()")

    @contextmanager
    def sized(
        self, width: int, height: int, *, pixel: float = 1, text: int = 100, is_mobile: bool = False
    ) -> Iterator[None]:
        """A screen of another size, with so many pixels for one of the page, and text of so many per cent."""
        screen = {"width": width, "height": height, "deviceScaleFactor": pixel, "mobile": is_mobile}
        self.call("Emulation.setDeviceMetricsOverride", **screen)
        self.value(f"(document.documentElement.style.fontSize = '{text}%')")
        self.settle()
        try:
            yield
        finally:
            self.value("(document.documentElement.style.fontSize = '')")
            self.call("Emulation.clearDeviceMetricsOverride")

    @contextmanager
    def preferring(self, **features: str) -> Iterator[None]:
        """A browser with features, such as a scheme of colours, by their names in CSS; or a touched one."""
        given = [{"name": name.replace("_", "-"), "value": value} for name, value in features.items()]
        self.call("Emulation.setEmulatedMedia", features=given)
        self.call("Emulation.setTouchEmulationEnabled", enabled="pointer" in features)
        self.settle()
        try:
            yield
        finally:
            self.call("Emulation.setEmulatedMedia", features=[])
            self.call("Emulation.setTouchEmulationEnabled", enabled=False)
