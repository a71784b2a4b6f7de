"""Programs and tests in Chromium: a server on this machine's own address gives its page files, and takes
their output."""

import shutil
import threading
from functools import cached_property
from http.server import SimpleHTTPRequestHandler, ThreadingHTTPServer
from pathlib import Path
from typing import Any, Dict, List, Optional, Tuple

from lib.packages import need
from lib.processes import Ended
from lib.systems.runners import Runner
from rsp_tools.kit import web
from rsp_tools.kit.toolchain import llvm
from rsp_tools.systems import places

PAGES = places.TOP / "tests/systems/wasm"
PROGRAMS = ("chromium", "chromedriver", "python:selenium")
# As root Chromium has no sandbox of its own; a small window, with room for replies beside scripts, is painted
# sooner; gc() is for machines that are dropped.
WORDS = """
--headless=new --no-sandbox --disable-gpu --disable-dev-shm-usage --no-first-run
--window-size=1000,400 --js-flags=--expose-gc
""".split()
LONGEST = 1800  # seconds that a script in a page may take
PROBES = places.TOP / "tests/page/probes.js"  # what tests ask of a page
HEADERS = ("stddef", "stdint", "stdio", "stdlib", "string", "time")


def start_chromium(saved: Path, *words: str) -> Any:
    """A Chromium of its own, with more words, whose downloads go to a folder. It leaves dialogs to the tests,
    and logs what a page requests and opens. `quit()` ends it."""
    from selenium import webdriver
    from selenium.webdriver.chrome.service import Service

    options = webdriver.ChromeOptions()
    options.binary_location = str(shutil.which("chromium"))
    for word in (*WORDS, *words):
        options.add_argument(word)
    # Chromium asks before it saves file after file, and where nobody answers it saves none.
    several = "profile.default_content_setting_values.automatic_downloads"
    options.add_experimental_option("prefs", {"download.default_directory": str(saved), several: 1})
    # That a page is left without a question is the rule of chromedriver, except with a socket.
    options.set_capability("webSocketUrl", True)
    options.set_capability("unhandledPromptBehavior", {"default": "ignore", "beforeUnload": "ignore"})
    options.set_capability("goog:loggingPrefs", {"performance": "ALL"})
    driver = webdriver.Chrome(service=Service(str(shutil.which("chromedriver"))), options=options)
    driver.set_script_timeout(LONGEST)
    driver.execute_cdp_cmd("Page.addScriptToEvaluateOnNewDocument", {"source": PROBES.read_text()})
    return driver


class Handler(SimpleHTTPRequestHandler):
    """Answers the page. The first part of a path names a folder."""

    server: "Server"

    def translate_path(self, path: str) -> str:
        _, name, *rest = path.split("?")[0].split("/")
        folder = self.server.folders.get(name)
        return str(folder.joinpath(*rest)) if folder and ".." not in rest else "/nothing"

    def log_message(self, *_: Any) -> None:
        """Logs nothing."""

    def guess_type(self, path: Any) -> str:
        return self.server.types.get(Path(path).name) or super().guess_type(path)

    def end_headers(self) -> None:
        self.send_header("Cache-Control", "no-store")
        super().end_headers()

    def do_POST(self) -> None:
        self.server.output = self.rfile.read(int(self.headers["Content-Length"]))
        self.send_response(204)
        self.end_headers()


class Server(ThreadingHTTPServer):
    """Serves some folders, files of some names with other types, and has the page's last output."""

    daemon_threads = True

    def __init__(self, folders: Dict[str, Path], types: Optional[Dict[str, str]] = None) -> None:
        super().__init__(("127.0.0.1", 0), Handler)
        self.folders, self.types, self.output = folders, types or {}, b""
        threading.Thread(target=self.serve_forever, daemon=True).start()

    def handle_error(self, *_: Any) -> None:
        """Logs nothing: a page that is ended takes no answer."""


class Chromium(Runner):
    """WebAssembly in a browser. `folder` is the library's, with rsp.js. Programs in C are linked with the
    objects of which the library was linked, which are made again. They keep their 64-bit memory, because
    binaryen can't read their table of functions."""

    programs = PROGRAMS

    def __init__(self, name: str, folder: Path, at: Path) -> None:
        super().__init__(name, folder, at)
        self.ending = ".wasm"
        self.server = Server({"tests": PAGES, "at": at, "library": folder})
        for header in HEADERS:
            (at / f"{header}.h").write_text('#include "libc.h"\n')

    @cached_property
    def driver(self) -> Any:
        """A Chromium with the page that runs what it is given."""
        driver = start_chromium(self.at)
        driver.get(f"http://127.0.0.1:{self.server.server_address[1]}/tests/page.html")
        return driver

    @cached_property
    def objects(self) -> List[Path]:
        """What the library was linked of."""
        need("rt")
        (self.at / "way").mkdir()
        return web.objects(self.at / "way")

    @cached_property
    def libc(self) -> Path:
        """What programs need of the C library."""
        made = self.at / "libc.o"
        llvm("clang", *web.CLANG, "-O2", "-fno-builtin", "-c", "-o", made, PAGES / "libc.c")
        return made

    def static(self) -> List[str]:
        return [str(it) for it in [*self.objects, self.libc]]

    def libraries(self) -> Dict[str, List[str]]:
        return {"static": self.static()}

    def compile(self, source: Path, *words: str, name: str = "", library: Optional[List[str]] = None) -> Path:
        """Compiles a program, or with `-c` a part of one. `-Wl,` gives words to the linker."""
        part = self.at / f"{name or source.stem}.o"
        defined = [it for it in words if it.startswith("-D")] or ["-Dmain=test_main"]
        places_of = [f"-I{PAGES}", f"-I{self.at}", f"-I{places.HEADER.parent}"]
        llvm("clang", *web.CLANG, "-O2", *places_of, *defined, "-c", "-o", part, source)
        if "-c" in words:
            return part
        linked = [word for it in words if it.startswith("-Wl,") for word in it.split(",")[1:]]
        libraries = self.static() if library is None else library
        more = [Path(it) for it in [*words, *libraries] if it.endswith(".o")]
        made = self.at / f"{name or source.stem}{self.ending}"
        web.link(made, [part, *more], "--export=test_main", "--import-undefined", *linked)
        return made

    def does(self, url: str, library: str, *words: object) -> Tuple[bytes, int]:
        """The output of a program of WebAssembly or a test in JavaScript over a library, and its status."""
        job = {"url": url, "library": library, "words": [str(it) for it in words]}
        self.server.output = b""
        script = "const [job, done] = arguments; does(job).then(done, () => done(1));"
        status = self.driver.execute_async_script(script, job)
        return self.server.output, status

    def run(self, program: Path, *words: object) -> "Ended[str]":
        output, status = self.does(f"/at/{program.name}", "/library", *words)
        return Ended([program], status, output.decode(errors="replace"))

    def test(self, name: str, *words: object, library: str = "/library") -> bytes:
        """The output of a test in JavaScript, which has to end well."""
        output, status = self.does(f"/tests/{name}", library, *words)
        assert status == 0, f"{name}: {output[:2000]!r}"
        return output

    def says(self, name: str, text: str) -> str:
        """The output of code that imports the package."""
        (self.at / name).write_text(text.replace('from "rsp"', 'from "/library/rsp.js"'))
        return self.test("code.js", f"/at/{name}").decode()

    def stop(self) -> None:
        if "driver" in vars(self):
            self.driver.quit()
        self.server.shutdown()
        self.server.server_close()
