"""The line of bench/serve.sh: serve.py PROGRAM COUNT."""

import socket
import subprocess
import sys
import tempfile
import time

from loopback import connect, free_port, peak

PROGRAM, COUNT = sys.argv[1], int(sys.argv[2])
RECORDING = (
    b"GET / HTTP/1.1\r\nSec-Fetch-Mode: no-cors\r\n\r\n"
    b"HTTP/1.1 200 OK\r\nContent-Type: text/javascript\r\nContent-Length: 2\r\n\r\nx;"
)


def talk(port):
    with connect(port) as client:
        client.sendall(RECORDING)
        client.shutdown(socket.SHUT_WR)
        back = b""
        while piece := client.recv(4096):
            back += piece
    return len(back)


port = free_port()
words = [PROGRAM, "serve", "127.0.0.1:%d" % port, str(COUNT)]
log = tempfile.TemporaryFile()
server = subprocess.Popen(words, stdout=log)
first = talk(port)
early = peak(server)
start = time.perf_counter()
for _ in range(COUNT - 2):
    if talk(port) != first:
        sys.exit("another answer")
spent = time.perf_counter() - start
late = peak(server)
talk(port)
status = server.wait(timeout=10)
log.seek(0)
if log.read().count(b" 0\n") != COUNT or status != 0:
    sys.exit("not all were served")
print("%d connections of one exchange each: %.0f a second; memory %s kB after the first, %s kB after the last"
      % (COUNT, (COUNT - 2) / spent, early, late))
