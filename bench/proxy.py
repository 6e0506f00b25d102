"""The table of bench/proxy.sh: proxy.py PROGRAM COUNT."""

import os
import shutil
import subprocess
import sys
import tempfile
import time

from loopback import connect, free_port, peak, start_nginx
from measure import print_head, print_row

PROGRAM, COUNT = sys.argv[1], int(sys.argv[2])
ROUNDS = 4
BODY = b"var a = 1;" * 1000

TINYPROXY = """
Port %(port)d
Listen 127.0.0.1
Timeout 10
MaxClients 100
LogLevel Critical
LogFile "%(folder)s/log"
PidFile "%(folder)s/pid"
"""


def nginx(scratch, name, port, location):
    folder = os.path.join(scratch, name)
    os.mkdir(folder)
    return start_nginx(folder, port, "location / { %s }" % location)


def tinyproxy(scratch, port):
    path = os.path.join(scratch, "tinyproxy.conf")
    with open(path, "w") as file:
        file.write(TINYPROXY % {"folder": scratch, "port": port})
    return subprocess.Popen(["tinyproxy", "-d", "-c", path], stdout=subprocess.DEVNULL, stderr=subprocess.DEVNULL)


def ask(port, request):
    """How many bytes come back to a request on a connection of its own."""
    size = 0
    with connect(port) as client:
        client.sendall(request)
        while piece := client.recv(65536):
            size += len(piece)
    return size


def times(port, request, count):
    """The seconds that each of so many exchanges takes."""
    spent = []
    for _ in range(count):
        start = time.perf_counter()
        if ask(port, request) < len(BODY):
            sys.exit("a short answer")
        spent.append(time.perf_counter() - start)
    return spent


def compare(ports, request, count):
    """Asks each proxy in turn, round by round, and prints what that took."""
    all_times = {name: [] for name in ports}
    for _ in range(ROUNDS):
        for name, port in ports.items():
            all_times[name] += times(port, request, count // ROUNDS)
    print_head("program", "exchanges a second", "median", "p99")
    for name, spent in all_times.items():
        spent.sort()
        cells = spent[len(spent) // 2], spent[len(spent) * 99 // 100]
        print_row([name, "%.0f" % (len(spent) / sum(spent))] + ["%.3f ms" % (1000 * cell) for cell in cells])


def main():
    scratch = tempfile.mkdtemp()
    os.chmod(scratch, 0o755)
    upstream, ours, theirs, tiny = (free_port() for _ in range(4))
    with open(os.path.join(scratch, "script"), "wb") as file:
        file.write(BODY)
    running = [
        nginx(scratch, "upstream", upstream, "root %s; types {} default_type text/javascript;" % scratch),
        nginx(scratch, "before", theirs, "proxy_pass http://127.0.0.1:%d;" % upstream),
        tinyproxy(scratch, tiny),
    ]
    orb = subprocess.Popen([PROGRAM, "proxy", "127.0.0.1:%d" % ours, str(COUNT)], stdout=subprocess.DEVNULL)
    running.append(orb)
    request = (
        b"GET http://127.0.0.1:%d/script HTTP/1.1\r\nHost: 127.0.0.1:%d\r\nSec-Fetch-Mode: no-cors\r\nConnection: close\r\n\r\n"
        % (upstream, upstream)
    )
    ports = {"orb proxy": ours, "nginx proxy_pass": theirs, "tinyproxy": tiny}
    try:
        for port in [upstream, *ports.values()]:
            ask(port, request)
        early = peak(orb)
        compare(ports, request, COUNT // 2)
        times(ours, request, COUNT // 2 - 2)
        late = peak(orb)
        print("orb proxy: memory %s kB after the first connection, %s kB after %d" % (early, late, COUNT - 1))
    finally:
        for process in running:
            process.terminate()
            process.wait()
        shutil.rmtree(scratch, ignore_errors=True)


main()
