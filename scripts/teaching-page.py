#!/usr/bin/env python3
"""teaching-page.py PROGRAM: hands scripts in on the page of examples/teaching-server, which runs them by this program.

In Debian's chromium, where that is installed, and else by http.client. A line for each case, and a last line
'N passed, M failed'."""

from __future__ import annotations

import fcntl
import html
import http.client
import json
import os
import re
import select
import shutil
import subprocess
import sys
import tempfile
import threading
import time
import traceback
from pathlib import Path
from urllib.parse import urlencode

EXAMPLE = Path(__file__).resolve().parent.parent / "examples/teaching-server"
SECONDS = 60
# Of a page that was answered: the status, and the text that is seen.
Page = tuple[int, str]


def text_of(markup: str) -> str:
    """What is seen of a page, without what stands in the box."""
    without_box = re.sub(r"<textarea.*?</textarea>", "", markup, flags=re.S)
    return html.unescape(re.sub(r"<[^>]*>", "", without_box))


def post(port: int, body: bytes | None, headers: dict[str, str] | None = None) -> tuple[http.client.HTTPResponse, str]:
    connection = http.client.HTTPConnection("127.0.0.1", port, timeout=SECONDS)
    connection.request("POST", "/", body, {"Content-Type": "application/x-www-form-urlencoded", **(headers or {})})
    answer = connection.getresponse()
    return answer, answer.read().decode()


def form_of(script: str) -> bytes:
    return urlencode({"script": script}).encode()


class Client:
    """Hands in without a browser."""

    def __init__(self, port: int) -> None:
        self.port = port

    def hand_in(self, scripts: list[str]) -> list[Page]:
        pages: list[Page] = [(0, "")] * len(scripts)

        def one(at: int) -> None:
            answer, markup = post(self.port, form_of(scripts[at]))
            pages[at] = answer.status, text_of(markup)

        threads = [threading.Thread(target=one, args=(at,)) for at in range(len(scripts))]
        for it in threads:
            it.start()
        for it in threads:
            it.join()
        return pages

    def close(self) -> None:
        pass


class Chromium:
    """Types scripts into the box, presses the button, and reads what the browser shows."""

    def __init__(self, port: int, room: Path) -> None:
        self.url, self.number = f"http://127.0.0.1:{port}/", 0
        read_end, self.output = os.pipe()
        self.input, write_end = os.pipe()
        words = ["chromium", "--headless=new", "--remote-debugging-pipe", f"--user-data-dir={room}", "--no-first-run",
                 "--disable-gpu", "--disable-dev-shm-usage", "--disable-background-networking",
                 *(["--no-sandbox"] if os.geteuid() == 0 else [])]
        # it reads 3 and writes 4
        ends = [fcntl.fcntl(it, fcntl.F_DUPFD, 10) for it in (read_end, write_end)]
        start = f'exec "$@" 3<&{ends[0]} 4>&{ends[1]} {ends[0]}<&- {ends[1]}>&-'
        self.process = subprocess.Popen(
            ["bash", "-c", start, "bash", *words], pass_fds=ends, stdin=subprocess.DEVNULL, stdout=subprocess.DEVNULL,
            stderr=subprocess.DEVNULL, env={**os.environ, "HOME": str(room)})
        for it in (read_end, write_end, *ends):
            os.close(it)
        self.got = b""

    def call(self, method: str, session: str | None = None, **params: object) -> dict:
        self.number += 1
        message = {"id": self.number, "method": method, "params": params, **({"sessionId": session} if session else {})}
        os.write(self.output, json.dumps(message).encode() + b"\0")
        while True:
            while b"\0" not in self.got:
                is_there = select.select([self.input], [], [], SECONDS)[0]
                part = os.read(self.input, 1 << 16) if is_there else b""
                if not part:
                    raise OSError("chromium says no more")
                self.got += part
            line, self.got = self.got.split(b"\0", 1)
            answer = json.loads(line)
            if answer.get("id") == self.number:
                return answer["result"]

    def evaluate(self, session: str, code: str) -> object:
        return self.call("Runtime.evaluate", session, expression=code, returnByValue=True)["result"].get("value")

    def wait(self, session: str, code: str) -> object:
        end = time.monotonic() + SECONDS
        while time.monotonic() < end:
            found = self.evaluate(session, code)
            if found:
                return found
            time.sleep(0.02)
        raise OSError(f"chromium waits for {code}")

    def hand_in(self, scripts: list[str]) -> list[Page]:
        sessions = []
        for script in scripts:
            target = self.call("Target.createTarget", url=self.url)["targetId"]
            session = str(self.call("Target.attachToTarget", targetId=target, flatten=True)["sessionId"])
            self.wait(session, "document.readyState == 'complete' && !!document.querySelector('textarea')")
            self.evaluate(session, f"document.querySelector('textarea').value = {json.dumps(script)}; window.waits = 1")
            sessions.append(session)
        for session in sessions:
            self.evaluate(session, "setTimeout(() => document.querySelector('button').click())")
        pages = []
        for session in sessions:
            self.wait(session, "!window.waits && document.readyState == 'complete' && !!document.querySelector('h1')")
            status = self.evaluate(session, "performance.getEntriesByType('navigation')[0].responseStatus")
            pages.append((int(str(status)), str(self.evaluate(session, "document.body.innerText"))))
        return pages

    def close(self) -> None:
        os.close(self.output)
        os.close(self.input)
        try:
            self.process.wait(10)
        except subprocess.TimeoutExpired:
            self.process.kill()
            self.process.wait()


RIGHT = '{ s = 0; for (i = 1; i <= NF; i++) s += $i; print s > "answers/a.txt"; print "a sum: " s }'
PEEK = """BEGIN {
    print "a peek: " (getline line < "solutions/a.txt")
    print "cheap" > "answers/../solutions/a.txt"
}"""
MARKUP = """BEGIN {
    print "<b id=made>bold</b></pre><script>document.title = 'taken'</script>"
    getline x < "</pre><i>&amp;"
} # </textarea><script>document.title = 'taken'</script>"""
ENDLESS = "BEGIN { while (1) n++ }"


def cases(port: int, driver: Client | Chromium, hand_ins: Path) -> None:
    """Each case, told as it ends; those that need no browser by http.client."""

    def one(name: str, script: str, status: int, *wanted: str) -> None:
        page = driver.hand_in([script])[0]
        tell(name, page[0] == status and all(it in page[1] for it in wanted), page)

    one("a right answer", RIGHT, 200, "The answer is right.", "The script came to its end: status 0, ",
        ", 0 requests denied.", "a sum: 6\na sum: 9\n", "open\n0:0 read *\n")
    one("a wrong answer", '{ print 6 > "answers/a.txt" }', 200, "The answer is wrong.", "status 0, ")
    one("no script", "", 200, "There is no answer.", "status 0, ")
    one("a script of several lines that is refused", "BEGIN {\n\tprint )\n}", 200, "The script was not run: status 3, ",
        "awkbox: script 2:8 S")
    one("a script that asks for the solution", PEEK, 200, "There is no answer.", "A fault ended the run: status 2, ",
        ", 2 requests denied.", "a peek: -1\n", "awkbox: 3:19 F7 ", '2:23 read "solutions/a.txt": no rule allows it\n',
        '3:19 write "answers/../solutions/a.txt": no rule allows it', 'refused\n2:23 read "solutions/a.txt"\n')
    one("a script that never ends", ENDLESS, 200, "The run took all the steps that it may take: status 4, ")
    one("markup in the output, in a denial and in the script", MARKUP, 200,
        "<b id=made>bold</b></pre><script>document.title = 'taken'</script>\n", '3:5 read "</pre><i>&amp;": no rule')
    one("a script with other letters", 'BEGIN { print "\u00e4 \u20ac \U0001f600" }', 200, "\u00e4 \u20ac \U0001f600\n")
    one("a body that is too large", "#" * 70_000, 413, "The script is too large: nothing was run.")
    before = set(hand_ins.iterdir())
    pages = driver.hand_in([ENDLESS] * 5)
    told = sorted(status for status, _ in pages)
    tell("five hand-ins at once", told == [200] * 4 + [503] and len(set(hand_ins.iterdir()) - before) == 4, pages)

    answer, markup = post(port, form_of(MARKUP))
    tell("markup is escaped", "<script" not in markup and markup.count("&lt;script") == 3, markup)
    rule = answer.headers["Content-Security-Policy"]
    tell("a script in the page would not run", rule.startswith("default-src 'none';"), rule)
    for name, body, headers in (
        ("the form of another page", b"script=1", {"Origin": "http://example.org"}),
        ("a form for another name", b"script=1", {"Host": "example.org"}),
        ("a form without a length", None, {"Transfer-Encoding": "chunked"}),
    ):
        answer, markup = post(port, body, headers)
        tell(f"{name} is refused", answer.status == 400 and "takes no such request" in markup, markup)
    rooms = sorted(hand_ins.iterdir())
    scripts = {(it / "script.awk").read_text() for it in rooms}
    tell("each hand-in has a folder of its own", len(rooms) == 13 and len(scripts) == 8, (len(rooms), scripts))


passed = failed = 0


def tell(name: str, held: bool, seen: object) -> None:
    global passed, failed
    passed, failed = passed + held, failed + (not held)
    print(f"{'ok  ' if held else 'FAIL'} {name}" + ("" if held else f"\n     | {str(seen)[:2000]}"), flush=True)


def main() -> int:
    room = Path(tempfile.mkdtemp(prefix="awkbox-page-"))
    hand_ins, log = room / "hand-ins", room / "server.log"
    hand_ins.mkdir()
    words = [sys.executable, EXAMPLE / "server.py", "--awkbox", sys.argv[1], "--hand-ins", hand_ins, "--port", "0",
             "--steps", "5000000"]
    with log.open("w") as opened:
        server = subprocess.Popen(words, stdout=subprocess.PIPE, stderr=opened, text=True)
    driver: Client | Chromium | None = None
    try:
        port = int(server.stdout.readline().rstrip("/\n").rpartition(":")[2])
        if shutil.which("chromium"):
            driver = Chromium(port, room / "browser")
        else:
            print("no chromium: the page is tried without a browser")
            driver = Client(port)
        cases(port, driver, hand_ins)
    except (OSError, ValueError, KeyError):
        tell("the page is there", False, traceback.format_exc() + log.read_text())
    finally:
        if driver:
            driver.close()
        server.terminate()
        server.wait()
        shutil.rmtree(room, ignore_errors=True)
    print(f"{passed} passed, {failed} failed")
    return failed > 0


if __name__ == "__main__":
    sys.exit(main())
