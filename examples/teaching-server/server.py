#!/usr/bin/env python3
"""A page on which students hand in awk scripts, each of which is run under the policy and marked."""

import argparse
import html
import json
import re
import subprocess
import tempfile
import threading
from http.server import BaseHTTPRequestHandler, ThreadingHTTPServer
from pathlib import Path
from urllib.parse import parse_qs

HERE = Path(__file__).resolve().parent
MAX_BODY = 64 * 1024
MAX_SHOWN = 16 * 1024  # bytes of each text of a run
HEADERS = {
    "Content-Type": "text/html; charset=utf-8", "X-Content-Type-Options": "nosniff", "Cache-Control": "no-store",
    "Content-Security-Policy": "default-src 'none'; form-action 'self'; frame-ancestors 'none'",
}


def page(result: str, script: str) -> bytes:
    question, task = (html.escape((HERE / "class" / it).read_text()) for it in ("question.txt", "tasks/a.txt"))
    return f"""<!DOCTYPE html>
<html lang="en"><title>awk: hand in</title>
{result}<h1>The task</h1><p>{question}</p><pre>{task}</pre>
<form method="post" accept-charset="utf-8"><textarea name="script" rows="20" cols="100" aria-label="Your script">
{html.escape(script)}</textarea>
<p><button>Hand in</button></p></form></html>
""".encode("utf-8", "replace")


def part(title: str, text: str) -> str:
    return f"<h2>{title}</h2><pre>{html.escape(text)}</pre>\n" if text else ""


def start_of(file: Path) -> str:
    with file.open("rb") as opened:
        found = opened.read(MAX_SHOWN + 1)
    return found[:MAX_SHOWN].decode("utf-8", "replace") + ("\n[cut]" if len(found) > MAX_SHOWN else "")


def mark(answer: Path) -> str:
    right = (HERE / "class/solutions/a.txt").read_bytes()
    if not answer.is_file():
        return "There is no answer."
    with answer.open("rb") as opened:
        return "The answer is right." if opened.read(len(right) + 1) == right else "The answer is wrong."


def denials(log: Path) -> str:
    lines = log.read_text().splitlines()
    found = [it.split(" ", 3) for it in lines[:50] if it.endswith('"')]
    told = [f"{place} {kind} {text[:500]}: " + ("no rule allows it" if rule == "none" else f"rule {rule} denies it")
            for place, kind, rule, text in found]
    return "\n".join(told + [f"[{len(lines) - len(told)} more]"] * (len(lines) > len(told)))


def ending(status: int, report: Path) -> str:
    told = report.read_text() if report.exists() else ""
    if not told.endswith("\n"):
        return f"The run {'took too long' if status in (124, 137, 152) else 'failed'}: status {status}."
    run = json.loads(told)
    how = {"status": "The script came to its end", "cut": "The run took all the steps that it may take",
           "fault": "A fault ended the run", "refused": "The script was not run"}[run["outcome"]]
    return f"{how}: status {run['exit_status']}, {run['steps']} steps, {run['denials']} requests denied."


def hand_in(words: argparse.Namespace, script: bytes) -> str:
    """Runs the script in a folder of its own, and tells of it as HTML."""
    room = Path(tempfile.mkdtemp(dir=words.hand_ins))
    base, logs, program, policy = room / "base", room / "logs", room / "script.awk", HERE / "policy.toml"
    for folder in (base / "tasks", base / "answers", logs):
        folder.mkdir(parents=True)
    program.write_bytes(script)
    (base / "tasks/a.txt").write_bytes((HERE / "class/tasks/a.txt").read_bytes())
    with (room / "check").open("wb") as said:
        subprocess.run([words.awkbox, "check", "--policy", policy, "--base", base, "-f", program], env={}, timeout=15,
                       stdin=subprocess.DEVNULL, stdout=said, stderr=said)
    env = {"PATH": "/usr/bin:/bin", "awkbox": words.awkbox, "policy": policy, "logs": logs, "steps": str(words.steps)}
    with (room / "output").open("wb") as output, (room / "messages").open("wb") as messages:
        ran = subprocess.run(["bash", "-c", '. "$0" && host "$@"', HERE / "host.sh", base, program, "tasks/a.txt"],
                             env=env, stdin=subprocess.DEVNULL, stdout=output, stderr=messages)
    log = next(logs.glob("*.log"), room / "none")
    return (f"<h1>{mark(base / 'answers/a.txt')}</h1>\n<p>{ending(ran.returncode, log.with_suffix('.json'))}</p>\n"
            + part("Output", start_of(room / "output")) + part("Messages", start_of(room / "messages"))
            + part("Denied", denials(log)) + part("What check said before the run", start_of(room / "check")))


class Handler(BaseHTTPRequestHandler):
    timeout = 20  # seconds without a byte of the request
    runs = threading.BoundedSemaphore(4)
    words: argparse.Namespace
    names: set[str]

    def answer(self, status: int, said: str = "", result: str = "", script: str = "") -> None:
        body = page(f"<h1>{said}</h1>\n" if said else result, script)
        self.send_response(status)
        for name, value in {**HEADERS, "Content-Length": str(len(body))}.items():
            self.send_header(name, value)
        self.end_headers()
        self.wfile.write(body)

    def is_ours(self) -> bool:
        host = self.headers.get("Host", "")  # the form of another server's page has another Origin
        return {host, re.sub("^https?://", "", self.headers.get("Origin", host))} <= self.names

    def do_GET(self) -> None:
        self.answer(200) if self.is_ours() and self.path == "/" else self.answer(404, "There is no such page.")

    def do_POST(self) -> None:
        length = self.headers.get("Content-Length", "")
        if not self.is_ours() or self.path != "/" or not re.fullmatch("[0-9]{1,9}", length):
            return self.answer(400, "This page takes no such request.")
        body = self.rfile.read(min(int(length), 16 * MAX_BODY))  # a browser shows no answer before it has sent all
        if int(length) > MAX_BODY:
            return self.answer(413, "The script is too large: nothing was run.")
        script = parse_qs(body.decode("ascii", "replace"), errors="surrogateescape").get("script", [""])[0]
        if not self.runs.acquire(blocking=False):
            return self.answer(503, "Too many scripts are running: hand it in again in a moment.", "", script)
        try:
            result = hand_in(self.words, script.replace("\r\n", "\n").encode("utf-8", "surrogateescape"))
        except (OSError, subprocess.TimeoutExpired) as failure:
            self.log_error("%s", failure)
            return self.answer(500, "The server failed: hand it in again later.", "", script)
        finally:
            self.runs.release()
        self.answer(200, "", result, script)


if __name__ == "__main__":
    parser = argparse.ArgumentParser(description=__doc__)
    parser.add_argument("--awkbox", required=True, metavar="PROGRAM", type=lambda it: Path(it).resolve(strict=True))
    parser.add_argument("--hand-ins", required=True, metavar="FOLDER", type=lambda it: Path(it).resolve(strict=True))
    parser.add_argument("--steps", type=int, default=100_000, help="how many steps a run may take")
    parser.add_argument("--address", default="127.0.0.1", help="another one may be reached from other machines")
    parser.add_argument("--port", type=int, default=8000)
    parser.add_argument("--name", help="what stands for ADDRESS:PORT in the browser, where it is something else")
    try:
        words = parser.parse_args()
        server = ThreadingHTTPServer((words.address, words.port), Handler)
    except (OSError, OverflowError) as failure:
        parser.error(str(failure))
    Handler.words = words
    Handler.names = {words.name or f"{words.address}:{server.server_port}", f"localhost:{server.server_port}"}
    print(f"http://{words.address}:{server.server_port}/", flush=True)
    server.serve_forever()
