"""Servers on ports of the loopback, for the scripts of tests/ and of bench/."""

import os
import re
import socket
import subprocess
import time

SECONDS = 20

NGINX = """
pid %(folder)s/pid; daemon off; worker_processes 1; error_log stderr crit;
events {}
http {
    access_log off; client_body_temp_path %(folder)s/body; proxy_temp_path %(folder)s/proxy;
    fastcgi_temp_path %(folder)s/fastcgi; uwsgi_temp_path %(folder)s/uwsgi; scgi_temp_path %(folder)s/scgi;
    server { listen 127.0.0.1:%(port)d; %(server)s }
}
"""


def free_port():
    with socket.socket() as probe:
        probe.bind(("127.0.0.1", 0))
        return probe.getsockname()[1]


def connect(port):
    """A connection to the port, once something listens there."""
    deadline = time.monotonic() + SECONDS
    while True:
        try:
            return socket.create_connection(("127.0.0.1", port), timeout=SECONDS)
        except ConnectionRefusedError:
            if time.monotonic() > deadline:
                raise
            time.sleep(0.01)


def start_nginx(folder, port, server):
    """An nginx with this server at the port, which keeps its files in the folder."""
    config = os.path.join(folder, "nginx.conf")
    with open(config, "w") as file:
        file.write(NGINX % {"folder": folder, "port": port, "server": server})
    return subprocess.Popen(["nginx", "-p", folder, "-c", config])


def peak(process):
    """The most kilobytes that a process had."""
    with open("/proc/%d/status" % process.pid) as status:
        return re.search(r"VmHWM:\s*(\d+) kB", status.read())[1]
