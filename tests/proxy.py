#!/usr/bin/env python3
"""Runs `orb proxy` before an nginx with files of five kinds, and compares what curl gets of each by the proxy, with and
without `Sec-Fetch-Mode: no-cors`, and the log; then has a headless Chromium load a page through it with parts of another
site, and reads in Chromium's own log which reply it got: proxy.py PROGRAM."""

import os
import re
import shutil
import struct
import subprocess
import sys
import tempfile
import time
import zlib

from loopback import SECONDS, connect, free_port, start_nginx

PROGRAM = sys.argv[1]


def chunk(kind, data):
    return struct.pack(">I", len(data)) + kind + data + struct.pack(">I", zlib.crc32(kind + data))


# One black pixel.
PNG = b"\x89PNG\r\n\x1a\n" + b"".join([
    chunk(b"IHDR", struct.pack(">IIBBBBB", 1, 1, 8, 2, 0, 0, 0)), chunk(b"IDAT", zlib.compress(bytes(4))), chunk(b"IEND", b""),
])

# It takes the others from another site. Its title says what came of them: what the script set, and the width of the image.
PAGE = b"""<!DOCTYPE html><title>a page</title>
<img src="http://localhost:PORT/image.png"><script src="http://localhost:PORT/script.bin"></script>
<script>onload = () => fetch("http://localhost:PORT/data.json", {mode: "no-cors"}).then(
  r => { document.title = ["script", a, "image", document.images[0].naturalWidth].join(" "); });</script>
"""

# A path, what it has, its type, and whether a no-cors request gets it.
FILES = [
    ("page.html", PAGE, "text/html", False),
    ("script.bin", b"var a = 1;\n", "application/octet-stream", True),
    ("image.png", PNG, "image/png", True),
    ("data.json", b"[1, 2]\n", "application/json", False),
    ("chunked.js", b"var b = '<!--#echo var=\"none\" -->';\n", "text/javascript", True),
]


def serve_files(folder, port):
    """An nginx that gives the files."""
    os.mkdir(os.path.join(folder, "files"))
    server = "root %s/files;" % folder
    for name, content, kind, _ in FILES:
        with open(os.path.join(folder, "files", name), "wb") as file:
            file.write(content.replace(b"PORT", b"%d" % port))
        included = "ssi on; ssi_types %s;" % kind if name == "chunked.js" else ""
        server += "\n        location = /%s { types {} default_type %s; %s }" % (name, kind, included)
    return start_nginx(folder, port, server)


def fetch(url, proxy=None, fields=()):
    """The status and the body of a response."""
    words = ["curl", "-sS", "--max-time", str(SECONDS), "--noproxy", "" if proxy else "*", "-w", "%{http_code}", url]
    if proxy:
        words += ["-x", "http://127.0.0.1:%d" % proxy, "--retry", "10", "--retry-connrefused", "--retry-delay", "1"]
    for field in fields:
        words += ["-H", field]
    said = subprocess.run(words, capture_output=True, check=True, timeout=SECONDS * 2).stdout
    return said[-3:], said[:-3]


def by_curl(upstream):
    """Asks for each file twice. What differs from what is owed."""
    port = free_port()
    count = 2 * len(FILES)
    proxy = subprocess.Popen([PROGRAM, "proxy", "127.0.0.1:%d" % port, str(count)], stdout=subprocess.PIPE)
    wrong = []
    try:
        for name, _, _, allowed in FILES:
            url = "http://127.0.0.1:%d/%s" % (upstream, name)
            direct = fetch(url)
            if fetch(url, port) != direct:
                wrong.append(name + " of a page")
            owed = direct if allowed else (b"403", b"")
            if fetch(url, port, ["Sec-Fetch-Mode: no-cors"]) != owed:
                wrong.append(name + " without CORS")
        log, _ = proxy.communicate(timeout=SECONDS)
    finally:
        proxy.kill()
    if log != b"".join(b"%d 0\n" % (n + 1) for n in range(count)):
        wrong.append("log %r" % log)
    return wrong


def by_browser(upstream, folder):
    """Loads the page in Chromium: it gets the image and the script, and in the place of the JSON a reply. What differs."""
    port = free_port()
    seen = os.path.join(folder, "seen.json")
    # The proxy takes one connection after the other, so the browser may open none ahead of its need.
    settings = os.path.join(folder, "profile", "Default")
    os.makedirs(settings)
    with open(os.path.join(settings, "Preferences"), "w") as file:
        file.write('{"net": {"network_prediction_options": 2}}')
    with open(os.path.join(folder, "log"), "w+b") as log:
        proxy = subprocess.Popen([PROGRAM, "proxy", "127.0.0.1:%d" % port, "1000"], stdout=log)
        try:
            time.sleep(1)
            words = [
                "chromium", "--headless", "--no-sandbox", "--disable-gpu", "--user-data-dir=" + os.path.join(folder, "profile"),
                "--proxy-server=http://127.0.0.1:%d" % port, "--proxy-bypass-list=<-loopback>", "--virtual-time-budget=5000",
                "--log-net-log=" + seen, "--dump-dom", "http://127.0.0.1:%d/page.html" % upstream,
            ]
            page = subprocess.run(words, capture_output=True, timeout=SECONDS * 3).stdout
        finally:
            proxy.kill()
            proxy.wait()
        log.seek(0)
        whole = log.read().count(b" 0\n")
    wrong = [] if b"<title>script 1 image 1</title>" in page else ["page %r" % page[:300]]
    with open(seen, encoding="utf-8", errors="replace") as file:
        rules = re.findall(r"Orb-Rule: ([a-z-]+)", file.read())
    if set(rules) != {"json"}:
        wrong.append("rules %r of a browser" % rules)
    # the page, the image, the script and the JSON; the browser asks for more, some of it by other schemes
    return wrong if whole >= 4 else wrong + ["%d whole exchanges of a browser" % whole]


def main():
    folder = tempfile.mkdtemp()
    os.chmod(folder, 0o755)
    upstream = free_port()
    nginx = serve_files(folder, upstream)
    try:
        connect(upstream).close()
        wrong = by_curl(upstream)
        browser = shutil.which("chromium") is not None
        if browser:
            wrong += by_browser(upstream, folder)
    finally:
        nginx.terminate()
        nginx.wait()
        shutil.rmtree(folder, ignore_errors=True)
    if wrong:
        sys.exit("proxy: DIFFERS: " + ", ".join(wrong))
    print("proxy: %d answers as owed%s" % (2 * len(FILES), ", and a page in Chromium" if browser else "; there is no Chromium"))


main()
