"""The tables of bench/har.sh: har.py PROGRAM INPUT."""

import base64
import json
import os
import sys

from measure import best_seconds, print_head, print_row, run_kilobytes

PROGRAM, INPUT = sys.argv[1:]
LOG = 50_000_000
BODY = 1_000_000_000
ROUNDS = 5
JSON_LOAD = ["python3", "-c", "import json, sys; json.load(sys.stdin.buffer)"]


def headers(fields):
    return [{"name": name, "value": value} for name, value in fields]


def entry(number, mime, content):
    """What the network panel of a browser saves of a request, with the members that no rule reads among it."""
    url = "https://example.test/assets/%d/resource?version=%d" % (number, number * 7)
    sent = [
        ("Accept", "*/*"), ("Accept-Encoding", "gzip, deflate, br, zstd"), ("Accept-Language", "en-GB,en;q=0.9"),
        ("Cookie", "session=%032x" % number), ("Referer", "https://other.test/"), ("Sec-Fetch-Dest", "script"),
        ("Sec-Fetch-Mode", "no-cors"), ("Sec-Fetch-Site", "cross-site"), ("User-Agent", "Mozilla/5.0 (X11; Linux x86_64)"),
    ]
    got = [
        ("Cache-Control", "public, max-age=31536000"), ("Content-Encoding", "br"), ("Content-Type", mime),
        ("Date", "Tue, 01 Dec 2026 12:00:00 GMT"), ("ETag", '"%x"' % number), ("Server", "example"),
        ("Vary", "Accept-Encoding"), ("X-Content-Type-Options", "nosniff"),
    ]
    timings = {"blocked": 1.25, "dns": -1, "connect": -1, "send": 0.1, "wait": 18.625, "receive": 2.5, "ssl": -1}
    return {
        "_initiator": {"type": "parser", "url": "https://other.test/", "lineNumber": number},
        "_priority": "High", "_resourceType": "script", "cache": {}, "connection": str(number), "pageref": "page_1",
        "request": {
            "method": "GET", "url": url, "httpVersion": "h3", "headers": headers(sent), "queryString": [], "cookies": [],
            "headersSize": -1, "bodySize": 0,
        },
        "response": {
            "status": 200, "statusText": "", "httpVersion": "h3", "headers": headers(got), "cookies": [],
            "content": dict({"size": 1000, "mimeType": mime}, **content), "redirectURL": "", "headersSize": -1, "bodySize": 512,
        },
        "serverIPAddress": "192.0.2.1", "startedDateTime": "2026-12-01T12:00:00.000Z", "time": 22.475, "timings": timings,
    }


def contents():
    script = "function f%d(a, b) {\n  \"use strict\";\n  return a < b ? [a, \"\\u00e9\"] : {c: b};\n}\n"
    page = "<!DOCTYPE html>\n<title>A page</title>\n<p class=\"a\">Some text, and <a href=\"/b\">a link</a>.</p>\n"
    data = json.dumps([{"id": n, "name": "name %d" % n, "tags": ["a", "b"], "share": n / 7} for n in range(200)])
    image = b"\x89PNG\r\n\x1a\n" + bytes(n * 37 % 251 for n in range(12_000))
    return [
        ("text/javascript", {"text": "".join(script % n for n in range(150))}),
        ("text/html", {"text": page * 120}),
        ("application/json", {"text": data}),
        ("image/png", {"text": base64.b64encode(image).decode(), "encoding": "base64"}),
    ]


def write_log(path, total):
    """Entries of four kinds in turn, up to so many bytes at least."""
    kinds = contents()
    with open(path, "w", encoding="utf-8") as out:
        size = out.write('{"log":{"version":"1.2","creator":{"name":"bench","version":"1"},"pages":[],"entries":[')
        number = 0
        while size < total:
            text = json.dumps(entry(number, *kinds[number % len(kinds)]), ensure_ascii=False, indent=2)
            size += out.write(("," if number else "") + text)
            number += 1
        out.write("]}}")
    return number


def write_response(path, total):
    piece = b"<p>Some text of a page.</p>\n" * 4096
    with open(path, "wb") as out:
        out.write(b"HTTP/1.1 200 OK\r\nServer: example\r\n\r\n")
        for _ in range(0, total, len(piece)):
            out.write(piece)


def print_table(programs):
    size = os.path.getsize(INPUT)
    print_head("Over %.1f MB" % (size / 1e6), "seconds", "MB/s", "kB at the most")
    times = best_seconds(programs.values(), INPUT, ROUNDS)
    for (name, words), each in zip(programs.items(), times):
        print_row([name, "%.2f" % each, "%.0f" % (size / 1e6 / each), run_kilobytes(words, INPUT)])


print("A log of %d entries:\n" % write_log(INPUT, LOG))
print_table({"`orb har`": [PROGRAM, "har"], "`jq -c .`": ["jq", "-c", "."], "`json.load`": JSON_LOAD})
print("\nA response:\n")
write_response(INPUT, BODY)
print_table({"`orb type`": [PROGRAM, "type"], "`dd bs=8192`": ["dd", "bs=8192", "status=none"]})
