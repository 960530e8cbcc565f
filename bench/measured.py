"""Web servers whose speed isn't what is measured, and how a program is measured beside them."""
import asyncio
import contextlib
import mmap
import os
import selectors
import shutil
import socket
import ssl
import subprocess
import sys
import time

sys.dont_write_bytecode = True
sys.path.append(os.path.join(os.path.dirname(os.path.abspath(__file__)), "../tests"))
from servers import PROGRAM, free_port

# The generated site: pages of so many bytes, with so many links.
PAGE_BYTES = 10_000
LINKS = 12
# Files go into memory where that is offered: where a disk's files were just taken away, making new ones takes it long, so each
# program would be measured by the one before it.
MEMORY = "/dev/shm"
# Sixteen requests that come together would wait for one process to read them one after another.
PROCESSES = 4


def need(wgetr, *programs):
    """Ends the script if wgetr or one of the other programs isn't there."""
    missing = [program for program in programs if not shutil.which(program, path=os.environ["PATH"] + ":/usr/sbin")]
    if missing:
        sys.exit(f"{', '.join(missing)} is needed, and isn't there: apt-get install haproxy nginx-light wget wget2 openssl iproute2")
    if not os.access(wgetr, os.X_OK):
        sys.exit(f"{wgetr} isn't built yet: ./wgetr -h builds it")


def page_name(k):
    return "index.html" if k == 0 else f"p{k}.html"


def make_site(folder, pages):
    """Page k leads to the pages 12k + 1 to 12k + 12, so that all are near the start, and else to others all over."""
    os.mkdir(folder, 0o755)
    for k in range(pages):
        near = [LINKS * k + i for i in range(1, LINKS + 1)]
        targets = [to if to < pages else (to * 7919) % pages for to in near]
        links = "\n".join(f'<a href="{page_name(to)}">page {to}</a>' if to else '<a href="./">page 0</a>' for to in targets)
        text = f"<!DOCTYPE html>\n<title>{k}</title>\n{links}\n<p>"
        with open(os.path.join(folder, page_name(k)), "w") as out:
            out.write(text + "x" * (PAGE_BYTES - len(text)))


def wait_for(port, host="127.0.0.1"):
    """Waits until somebody listens at the port."""
    for _ in range(200):
        with socket.socket() as probe:
            if probe.connect_ex((host, port)) == 0:
                return
        time.sleep(0.05)
    sys.exit(f"nobody listens at port {port}")


NGINX = """daemon off;
worker_processes 2;
pid {folder}/nginx.pid;
error_log {folder}/error.log;
events {{ worker_connections 1024; }}
http {{
  types {{ text/html html htm; text/css css; text/plain txt; image/png png; image/svg+xml svg; application/javascript js; }}
  default_type application/octet-stream;
  log_format paths "$request_uri";
  log_format numbers "$connection_requests";
  access_log {log} paths;
  access_log {log}.numbers numbers;
  keepalive_requests 1000000;
  client_body_temp_path {folder}/body; proxy_temp_path {folder}/proxy; fastcgi_temp_path {folder}/fcgi;
  uwsgi_temp_path {folder}/uwsgi; scgi_temp_path {folder}/scgi;
  server {{ listen 127.0.0.1:{port}; root {root}; absolute_redirect on; port_in_redirect on; }}
}}
"""


@contextlib.contextmanager
def nginx(folder, root, log):
    """nginx over the files below root; gives its port. Each request's path becomes a line of the log, and which request it is of its
    connection one of LOG.numbers."""
    port = free_port()
    configuration = os.path.join(folder, f"nginx-{port}.conf")
    with open(configuration, "w") as out:
        out.write(NGINX.format(folder=folder, root=root, log=log, port=port))
    program = shutil.which("nginx", path=os.environ["PATH"] + ":/usr/sbin")
    # A folder that only its owner may enter is closed to nginx where its workers are another user.
    server = subprocess.Popen([program, "-p", folder, "-e", os.path.join(folder, "error.log"), "-c", configuration,
                               "-g", f"user {os.environ.get('USER', 'root')};" if os.geteuid() == 0 else ""])
    try:
        wait_for(port)
        yield port
    finally:
        server.terminate()
        server.wait()


async def answer_slowly(pages, delay, fresh, early, log, numbers, reader, writer):
    """Answers the requests of a connection, each that long after it came, the first later still, and so much earlier as this server
    is late."""
    number = 0
    with contextlib.suppress(ConnectionError, asyncio.IncompleteReadError):
        while True:
            head = await reader.readuntil(b"\r\n\r\n")
            path = head.split(b" ", 2)[1].decode()
            number += 1
            await asyncio.sleep(max(0, delay + (fresh if number == 1 else 0) - early[0]))
            body = pages.get(path)
            ends = b"connection: close" in head.lower()
            status, body = ("404 Not Found", b"") if body is None else ("200 OK", body)
            log.write(path + "\n")
            numbers.write(f"{number}\n")
            # (wget2 keeps only a connection of which this is said, as nginx says it)
            writer.write(f"HTTP/1.1 {status}\r\nContent-Type: text/html\r\nContent-Length: {len(body)}\r\n"
                         f"Connection: {'close' if ends else 'keep-alive'}\r\n\r\n".encode() + body)
            await writer.drain()
            if ends:
                break
    writer.close()


def serve_slowly(root, delay, fresh, early, address, log_path, tls):
    """Serves the files below root, which it holds in memory, until it is ended; by TLS if it is told how."""
    pages = {}
    for folder, _, names in os.walk(root):
        for name in names:
            path = os.path.join(folder, name)
            with open(path, "rb") as file:
                pages["/" + os.path.relpath(path, root)] = file.read()
    pages["/"] = pages["/index.html"]

    async def run():
        with open(log_path, "a", buffering=1) as log, open(log_path + ".numbers", "a", buffering=1) as numbers:
            server = await asyncio.start_server(lambda r, w: answer_slowly(pages, delay, fresh, early, log, numbers, r, w),
                                                *address, backlog=1024, reuse_port=True, ssl=tls)
            await server.serve_forever()

    # The selector that asyncio would take wakes up to a millisecond late, which is a twentieth of the delay.
    asyncio.SelectorEventLoop(selectors.SelectSelector()).run_until_complete(run())


@contextlib.contextmanager
def connection_to(address, tls):
    """A connection to a server, by TLS if it speaks that. Whose certificate it has doesn't matter."""
    context = ssl.SSLContext(ssl.PROTOCOL_TLS_CLIENT)
    context.check_hostname, context.verify_mode = False, ssl.CERT_NONE
    with socket.create_connection(address) as client:
        with context.wrap_socket(client, server_hostname="a.test") if tls else contextlib.nullcontext(client) as secured:
            yield secured


def lateness(address, delay, tls):
    """How much later than that a client that asks alone has its answer: the median of some requests. Over a new connection that is
    without what TLS takes to begin."""
    took = []
    for _ in range(100):
        began = time.monotonic()
        with connection_to(address, tls) as client:
            began = time.monotonic() if tls else began
            client.sendall(b"GET / HTTP/1.1\r\nConnection: close\r\n\r\n")
            while client.recv(65536):
                pass
        took.append(time.monotonic() - began)
    return sorted(took)[50] - delay


@contextlib.contextmanager
def slow(root, delay, log, fresh=0, host="127.0.0.1", tls=None):
    """A server, by TLS if it is told how, whose answer a client that asks alone has that many seconds after it asked, and over a new
    connection so many more; gives its port. It logs as nginx does."""
    port = free_port()
    address = host, port
    # What all processes of the server see.
    early = memoryview(mmap.mmap(-1, 8)).cast("d")
    children = []
    for _ in range(PROCESSES):
        child = os.fork()
        if child == 0:
            serve_slowly(root, delay, fresh, early, address, log, tls)
        children.append(child)
    try:
        wait_for(port, host)
        # The other processes listen a moment later at most.
        time.sleep(1)
        early[0] = max(0, lateness(address, delay + fresh, tls))
        late = fresh + lateness(address, delay + fresh, tls)
        print(f"  (one client has an answer after {(delay + late) * 1000:.1f} ms, where {early[0] * 1000:.1f} ms are the server's own)", flush=True)
        yield port
    finally:
        for child in children:
            os.kill(child, 15)
            os.waitpid(child, 0)


def measure(words, output):
    """Runs a program; gives the seconds that passed, those of the processor, the most bytes held, and the exit status."""
    began = time.monotonic()
    child = os.fork()
    if child == 0:
        os.dup2(os.open(os.devnull, os.O_RDONLY), 0)
        os.dup2(os.open(output, os.O_WRONLY | os.O_CREAT | os.O_TRUNC, 0o644), 1)
        os.dup2(os.open(output + ".errors", os.O_WRONLY | os.O_CREAT | os.O_TRUNC, 0o644), 2)
        os.execvp(words[0], words)
    _, status, usage = os.wait4(child, 0)
    wall = time.monotonic() - began
    return wall, usage.ru_utime + usage.ru_stime, usage.ru_maxrss * 1024, os.waitstatus_to_exitcode(status)


def run(name, words, folder, log, output):
    """Measures a program over a site that a server here logs, and prints a line of the table; gives requests, addresses, files, seconds
    and bytes held."""
    for path in (log, log + ".numbers"):
        open(path, "w").close()
    wall, processor, held, status = measure(words, output)
    with open(log) as lines:
        paths = [line.strip() for line in lines]
    with open(log + ".numbers") as lines:
        connections = sum(line == "1\n" for line in lines)
    files = sum(len(names) for _, _, names in os.walk(folder))
    shutil.rmtree(folder, ignore_errors=True)
    print(f"  {name:18} {len(paths):7} requests of {len(set(paths)):6} addresses over {connections:6} connections, {files:6} files {wall:8.2f} s"
          f" {processor:7.2f} s of processor {held / 1e6:7.0f} MB {len(paths) / wall:7.0f} a second, status {status}", flush=True)
    return len(paths), len(set(paths)), files, wall, held, processor, connections
