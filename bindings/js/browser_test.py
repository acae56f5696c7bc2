#!/usr/bin/env python3
"""Reads recordings in Chromium and in Firefox, by the modules in a folder that `make -C bindings js` made:

    bindings/js/browser_test.py FOLDER

A page of this machine's own, under a Content-Security-Policy that allows WebAssembly, prints the names of the tasks in
examples/recording.stream, which must be those that crates/perf_uses prints, and counts the samples of
examples/events.data and pipe.data, as the lines of perf have them: by the module whose memory has 32 bits, and by that
of 64. A line says of each browser whether it passed, failed or was skipped; the status is 0 if none failed.
"""
import re
import sys
import tempfile
import threading
from collections import Counter
from functools import partial
from http.server import SimpleHTTPRequestHandler, ThreadingHTTPServer
from pathlib import Path

sys.dont_write_bytecode = True
sys.path.insert(0, str(Path(__file__).resolve().parents[1] / "web"))
from browser import BROWSERS  # noqa: E402

TOP = Path(__file__).resolve().parents[2]
POLICY = "default-src 'none'; script-src 'self' 'unsafe-inline' 'wasm-unsafe-eval'; connect-src 'self'"
# The bits of a module's memory, and the page's query for that module.
MODULES = {32: "", 64: "?wide"}
PAGE = """<!doctype html>
<meta charset="utf-8">
<pre>nothing</pre>
<script type="module">
const lines = [];
try {
    const { load } = await import(location.search === "?wide" ? "./wide.mjs" : "./perf_event_data.mjs");
    const ped = await load();
    const bytes = await (await fetch("recording.stream")).arrayBuffer();
    const { config, length } = ped.readAttribute(bytes);
    for (const frame of ped.stream(bytes, config, { start: length })) {
        if (frame.name === "comm") {
            lines.push(`${frame.time} ${frame.fields.tid} is ${new TextDecoder().decode(frame.fields.comm)}`);
        }
    }
    for (const name of ["events.data", "pipe.data"]) {
        const counts = new Map();
        for (const frame of ped.open(await (await fetch(name)).arrayBuffer()).frames("time")) {
            if (frame.event && frame.name === "sample") {
                const key = `task ${frame.tid}, event ${frame.event.number}`;
                counts.set(key, (counts.get(key) ?? 0) + 1);
            }
        }
        counts.forEach((count, key) => lines.push(`${key}: ${count}`));
    }
} catch (error) {
    lines.push(error.message);
}
document.querySelector("pre").textContent = lines.join("\\n");
</script>
"""


class Files(SimpleHTTPRequestHandler):
    """The module, the recordings and the page."""

    def translate_path(self, path):
        if path in ("/recording.stream", "/events.data", "/pipe.data"):
            return f"{TOP}/examples{path}"
        return super().translate_path(path)

    def do_GET(self):
        if self.path.removeprefix("/") not in MODULES.values():
            super().do_GET()
            return
        self.send_response(200)
        self.send_header("Content-Type", "text/html")
        self.send_header("Content-Security-Policy", POLICY)
        self.end_headers()
        self.wfile.write(PAGE.encode())

    def log_message(self, *_):
        pass


def text_of_page(browser, port, query):
    """The text of the page in a browser."""
    try:
        browser.go(f"http://127.0.0.1:{port}/{query}")
        return browser.wait("const text = document.querySelector('pre').textContent; return text !== 'nothing' && text")
    except AssertionError as error:
        return str(error)


def texts_of_pages(kind, port):
    """The text of the page by each module, in a kind of browser."""
    with tempfile.TemporaryDirectory() as room:
        browser = kind(room)
        try:
            return {bits: text_of_page(browser, port, query) for bits, query in MODULES.items()}
        finally:
            browser.close()


def keys_of(lines):
    """The task and the event of each sample in lines of frames."""
    found = [re.match(r"\d+ \d+ (\d+) .* Sample .*\btid=(\d+)", line) for line in lines]
    return [f"task {task}, event {event}" for event, task in (it.groups() for it in found if it)]


def main(folder):
    server = ThreadingHTTPServer(("127.0.0.1", 0), partial(Files, directory=folder))
    threading.Thread(target=server.serve_forever, daemon=True).start()
    printed = (TOP / "crates/perf_uses/stdout").read_text().splitlines()
    names = [line for line in printed if re.match("[0-9]+ [0-9]+ is ", line)]
    frames = [(TOP / f"examples/{name}.time").read_text().splitlines() for name in ("events", "pipe")]
    counts = [f"{key}: {count}" for lines in frames for key, count in Counter(keys_of(lines)).items()]
    status = 0
    for kind in BROWSERS:
        if kind.missing():
            print(f"skipped: in {kind.NAME}: no {kind.missing()}")
            continue
        for bits, text in texts_of_pages(kind, server.server_address[1]).items():
            found = text.splitlines()
            if names and counts and found == names + counts:
                print(f"passed: in {kind.NAME}, memory of {bits} bits: {len(names)} names, {len(counts)} counts of samples")
            else:
                status = 1
                print(f"FAILED: in {kind.NAME}, memory of {bits} bits", *found, "not", *names, *counts, sep="\n")
    return status


if __name__ == "__main__":
    if len(sys.argv) != 2:
        print(__doc__, file=sys.stderr)
        sys.exit(2)
    sys.exit(main(sys.argv[1]))
