"""The server on loopback of the tests. What it answers is a table, or a function of the request."""
import collections
import contextlib
import os
import socket
import sys
import threading

PROGRAM = os.path.join(os.path.dirname(os.path.dirname(os.path.abspath(__file__))), "crates", "wgetr", "out", "wgetr")
NOT_FOUND = b"HTTP/1.1 404 Not Found\r\nContent-Type: text/plain\r\nContent-Length: 0\r\n\r\n"
# The program reads these: no proxy of whoever runs the tests is asked.
for variable in ("https_proxy", "http_proxy", "no_proxy"):
    os.environ.pop(variable, None)

# What came over a connection: the path, the whole head, the port that it came to, and which request of its connection it is, from 1.
Request = collections.namedtuple("Request", "path head port nth")


def need(wgetr):
    """Ends the script if wgetr isn't there."""
    if not os.access(wgetr, os.X_OK):
        sys.exit(f"{wgetr} isn't built yet: ./wgetr -h builds it")


def free_port():
    with socket.socket() as probe:
        probe.bind(("127.0.0.1", 0))
        return probe.getsockname()[1]


def response(body, kind="text/plain", status="200 OK", more=""):
    """A response with this body; `more` are further fields, each with its line's end."""
    head = f"HTTP/1.1 {status}\r\nContent-Type: {kind}\r\nContent-Length: {len(body)}\r\n{more}\r\n"
    return head.encode("latin-1") + body


class Site:
    """A server on loopback that answers each path by a table, and keeps the paths that it was asked for.

    An answer is bytes, or a function of the connection and the request that sends what it likes and says whether the connection
    is kept. A connection is closed after `most` requests (None: it is kept for any number), and if `idle` seconds pass between two.
    With `greet` no request is read: that function gets the connection instead. It listens at some ports of its own choice, or at
    these addresses.
    """

    def __init__(self, answers=None, most=1, idle=None, greet=None, ports=1, addresses=None):
        self.answers, self.most, self.idle, self.greet = answers or {}, most, idle, greet
        # What was asked for, where from each connection came, and how many connections are being served.
        self.asked, self.opened, self.serving = [], [], 0
        self.change = threading.Condition()
        self.listeners = [socket.create_server(it, backlog=256) for it in addresses or [("127.0.0.1", 0)] * ports]
        self.ports = [it.getsockname()[1] for it in self.listeners]
        self.port, self.host = self.ports[0], f"127.0.0.1:{self.ports[0]}"
        self.accepting = [threading.Thread(target=self.accept, args=(it,), daemon=True) for it in self.listeners]
        for thread in self.accepting:
            thread.start()

    def __enter__(self):
        return self

    def __exit__(self, *_):
        self.close()

    def url(self, path=""):
        return f"http://{self.host}/{path}"

    def accept(self, listener):
        port = listener.getsockname()[1]
        with contextlib.suppress(OSError):
            while True:
                connection, _ = listener.accept()
                with self.change:
                    self.serving += 1
                threading.Thread(target=self.serve, args=(connection, port), daemon=True).start()

    def serve(self, connection, port):
        try:
            with connection, contextlib.suppress(OSError):
                with self.change:
                    self.opened.append(connection.getpeername())
                    self.change.notify_all()
                if self.greet:
                    self.greet(connection)
                else:
                    self.serve_requests(connection, port)
        finally:
            with self.change:
                self.serving -= 1
                self.change.notify_all()

    def serve_requests(self, connection, port):
        nth, is_kept = 0, True
        while is_kept and nth != self.most:
            connection.settimeout(self.idle if nth else None)
            head = connection.recv(65536)
            connection.settimeout(None)
            while b"\r\n\r\n" not in head:
                piece = connection.recv(65536) if head else b""
                if not piece:
                    return
                head += piece
            nth += 1
            is_kept = self.answer(connection, Request(head.split(b" ", 2)[1].decode(), head, port, nth))

    def answer(self, connection, request):
        """Notes a request and answers it. Whether the connection is kept."""
        with self.change:
            self.asked.append(request.path)
            self.change.notify_all()
        answer = self.answers.get(request.path, NOT_FOUND)
        if callable(answer):
            return answer(connection, request)
        connection.sendall(answer)
        return True

    def wait_until_idle(self, seconds):
        """Waits until what clients that are gone had sent is read, for so many seconds at most, so that nothing of it is noted later."""
        with socket.create_connection(("127.0.0.1", self.port)) as last:
            # Connections are accepted in their order.
            name = last.getsockname()
            with self.change:
                self.change.wait_for(lambda: name in self.opened, seconds)
        with self.change:
            self.change.wait_for(lambda: not self.serving, seconds)

    def close(self):
        # Else a thread might take the connections of the next server, whose socket has this one's number.
        for listener in self.listeners:
            # (a test may have done so before)
            with contextlib.suppress(OSError):
                listener.shutdown(socket.SHUT_RDWR)
        for thread in self.accepting:
            thread.join()
        for listener in self.listeners:
            listener.close()
