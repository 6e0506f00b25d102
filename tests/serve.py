#!/usr/bin/env python3
"""Runs `orb serve` on a free port of the loopback with clients of five kinds, one after the other, and compares what each
gets back, the log, and the status: serve.py PROGRAM."""

import socket
import struct
import subprocess
import sys

from loopback import SECONDS, connect, free_port

PROGRAM = sys.argv[1]
REQUEST = b"GET / HTTP/1.1\r\nSec-Fetch-Mode: no-cors\r\n\r\n"
RESPONSE = b"HTTP/1.1 200 OK\r\nContent-Type: text/javascript\r\nContent-Length: 2\r\n\r\nx;"
POST = b"POST / HTTP/1.1\r\nHost: 127.0.0.1\r\nContent-Length: 3\r\n\r\nabc"

# What a client sends, how it ends, and what it gets back.
CLIENTS = [
    (REQUEST + RESPONSE, "end", RESPONSE),
    (REQUEST[:20], "end", b""),
    (REQUEST[:20], "reset", b""),
    (POST, "wait", b""),
    (REQUEST + RESPONSE + REQUEST + RESPONSE, "end", RESPONSE + RESPONSE),
]
LOG = b"1 0\n2 3\n3 5\n4 2\n5 0\n"


def talk(port, sent, ending):
    """What comes back. A client that resets its connection hears nothing; one that waits doesn't end its half."""
    with connect(port) as client:
        client.sendall(sent)
        if ending == "reset":
            client.setsockopt(socket.SOL_SOCKET, socket.SO_LINGER, struct.pack("ii", 1, 0))
            return b""
        if ending == "end":
            client.shutdown(socket.SHUT_WR)
        back = b""
        try:
            while piece := client.recv(4096):
                back += piece
        except ConnectionResetError:
            pass
        return back


def main():
    port = free_port()
    words = [PROGRAM, "serve", "127.0.0.1:%d" % port, str(len(CLIENTS))]
    server = subprocess.Popen(words, stdout=subprocess.PIPE, stderr=subprocess.PIPE)
    try:
        answers = [talk(port, sent, ending) for sent, ending, _ in CLIENTS]
        log, said = server.communicate(timeout=SECONDS)
    finally:
        server.kill()
    owed = [back for _, _, back in CLIENTS]
    if (answers, log, said, server.returncode) != (owed, LOG, b"", 0):
        sys.exit("serve: DIFFERS: %r, log %r, line %r, status %d" % (answers, log, said, server.returncode))
    print("serve: %d connections as owed" % len(CLIENTS))


main()
