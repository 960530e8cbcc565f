"""A network of its own for bench/https: a name server, an authority, and web servers with TLS and without.

It is for a process that has a network and mounts of its own (`unshare --mount --net`), so that the configurations of `examples/`
are run as they are: their name server is this one, and the system's list of authorities has this authority alone.
"""
import contextlib
import os
import socket
import ssl
import struct
import subprocess
import sys
import threading

sys.dont_write_bytecode = True
sys.path.append(os.path.join(os.path.dirname(os.path.abspath(__file__)), "../tests"))
from servers import Site, response

# The name server, which is the one of examples/https-proxy-nginx.conf; the web servers; and an address that nobody has.
NAMES, SERVER, NOBODY = "127.0.0.53", "127.0.7.1", "fd00::1"
# Web servers with which no TLS is possible: one that speaks none, and one that wants the client's certificate.
PLAIN_SERVER, CLIENT_SERVER = "127.0.7.2", "127.0.7.3"
AUTHORITIES = "/etc/ssl/certs/ca-certificates.crt"
# The first byte of a connection that begins with TLS (RFC 8446, section 5.1).
HANDSHAKE = b"\x16"

# Hosts whose certificate counts. `both.test` also has an address that can't be reached.
GOOD = ("a.test", "b.test", "both.test")
# Hosts whose certificate doesn't, and what is wrong with it.
BAD = {"expired.test": "it has expired", "foreign.test": "an authority that isn't in the list signed it",
       "self-signed.test": "it signed itself", "wrong-name.test": "it is of another host"}
# A host that its certificate names only as the common name, beside another one that counts (RFC 6125, section 6.4.4).
COMMON_NAME = "common-name.test"
PLAIN, CLIENT = "plain.test", "client.test"
# A host that has no address.
UNKNOWN = "unknown.test"
ADDRESSES = {PLAIN: PLAIN_SERVER, CLIENT: CLIENT_SERVER}


def openssl(folder, *words):
    subprocess.run(["openssl", *words], cwd=folder, check=True, stdin=subprocess.DEVNULL, capture_output=True)


def sign(folder, host, named, common=None, days=30, authority="authority"):
    """A key and a certificate for a host, with the name that it has there and its common name, if this is another."""
    openssl(folder, "req", "-newkey", "ec", "-pkeyopt", "ec_paramgen_curve:prime256v1", "-nodes", "-keyout", f"{host}.key", "-out", f"{host}.csr",
            "-subj", f"/CN={common or named}", "-addext", f"subjectAltName=DNS:{named}")
    by = ["-CA", f"{authority}.pem", "-CAkey", f"{authority}.key", "-CAcreateserial"] if authority else ["-key", f"{host}.key"]
    openssl(folder, "x509", "-req", "-in", f"{host}.csr", "-copy_extensions", "copy", "-days", str(days), *by, "-out", f"{host}.pem")


def make_certificates(folder):
    for name in ("authority", "foreigner"):
        openssl(folder, "req", "-x509", "-newkey", "ec", "-pkeyopt", "ec_paramgen_curve:prime256v1", "-nodes", "-keyout", f"{name}.key",
                "-out", f"{name}.pem", "-days", "30", "-subj", f"/CN={name}")
    for host in (*GOOD, CLIENT):
        sign(folder, host, host)
    sign(folder, "expired.test", "expired.test", days=-1)
    sign(folder, "foreign.test", "foreign.test", authority="foreigner")
    sign(folder, "self-signed.test", "self-signed.test", authority=None)
    sign(folder, "wrong-name.test", "a.test")
    sign(folder, COMMON_NAME, "a.test", common=COMMON_NAME)


def context_of(folder, host):
    """What a server needs to speak TLS as this host."""
    context = ssl.SSLContext(ssl.PROTOCOL_TLS_SERVER)
    context.load_cert_chain(os.path.join(folder, f"{host}.pem"), os.path.join(folder, f"{host}.key"))
    return context


def contexts(folder):
    """What a server of all hosts needs: the one that a client names decides on the certificate (RFC 6066, section 3)."""
    by_host = {host: context_of(folder, host) for host in (*GOOD, *BAD, COMMON_NAME)}
    first = ssl.SSLContext(ssl.PROTOCOL_TLS_SERVER)

    def choose(connection, name, _):
        if name not in by_host:
            return ssl.ALERT_DESCRIPTION_UNRECOGNIZED_NAME
        connection.context = by_host[name]
        return None

    first.sni_callback = choose
    return first


class Web(Site):
    """The web server of all hosts: at port 80 in the clear, at port 443 by TLS. It answers whole addresses by a table, keeps its
    connections, and notes which addresses are asked for, how many TLS connections there were, and what came without TLS to port 443."""

    def __init__(self, tls, answers=None):
        self.tls, self.handshakes, self.clear = tls, 0, []
        super().__init__(answers, most=None, addresses=[(SERVER, 80), (SERVER, 443)])

    def serve_requests(self, connection, port):
        if port == 443:
            self.serve_secured(connection, port)
        else:
            super().serve_requests(connection, port)

    def serve_secured(self, connection, port):
        first = connection.recv(1, socket.MSG_PEEK)
        if first not in (HANDSHAKE, b""):
            self.clear.append(first)
            return
        with self.tls.wrap_socket(connection, server_side=True) as secured:
            self.handshakes += 1
            super().serve_requests(secured, port)

    def answer(self, connection, request):
        host = next(line[len("Host: "):] for line in request.head.decode().split("\r\n") if line.lower().startswith("host: "))
        scheme = "https" if request.port == 443 else "http"
        return super().answer(connection, request._replace(path=f"{scheme}://{host}{request.path}"))


@contextlib.contextmanager
def no_tls(folder):
    """The servers with which no TLS is possible; gives what came to them in the clear, or from a client without a certificate."""
    wrong = []

    def answer_plainly(connection):
        first = connection.recv(65536)
        if not first.startswith(HANDSHAKE):
            wrong.append(first)
        connection.sendall(response(b"", status="400 Bad Request"))

    def want_certificate(connection):
        context = context_of(folder, CLIENT)
        context.verify_mode = ssl.CERT_REQUIRED
        context.load_verify_locations(os.path.join(folder, "authority.pem"))
        with context.wrap_socket(connection, server_side=True) as secured:
            wrong.append(secured.recv(65536))

    with Site(greet=answer_plainly, addresses=[(PLAIN_SERVER, 443)]), Site(greet=want_certificate, addresses=[(CLIENT_SERVER, 443)]):
        yield wrong


def answer_name(query):
    """The answer of the name server to a query: the addresses of a host that is here, else that there is none (RFC 1035, section 4)."""
    at, labels = 12, []
    while query[at]:
        labels.append(query[at + 1:at + 1 + query[at]].decode())
        at += 1 + query[at]
    host, question, kind = ".".join(labels).lower(), query[12:at + 5], struct.unpack_from(">H", query, at + 1)[0]
    addresses = []
    if host == UNKNOWN or not host.endswith(".test"):
        status = 3
    else:
        status = 0
        addresses += [socket.inet_pton(socket.AF_INET, ADDRESSES.get(host, SERVER))] if kind == 1 else []
        addresses += [socket.inet_pton(socket.AF_INET6, NOBODY)] if kind == 28 and host == "both.test" else []
    records = b"".join(struct.pack(">HHHIH", 0xC00C, kind, 1, 60, len(it)) + it for it in addresses)
    return query[:2] + struct.pack(">HHHHH", 0x8580 | status, 1, len(addresses), 0, 0) + question + records


def serve_names(listener):
    while True:
        query, client = listener.recvfrom(8192)
        with contextlib.suppress(IndexError, struct.error, UnicodeDecodeError):
            listener.sendto(answer_name(query), client)


def replace(path, text, folder):
    """Puts a text in a file's place, for this process and its children alone."""
    own = os.path.join(folder, os.path.basename(path))
    with open(own, "w", encoding="utf-8") as out:
        out.write(text)
    subprocess.run(["mount", "--bind", own, path], check=True)


def enter(folder):
    """Makes this process's network: its loopback, name server and authority. Gives what a server of all hosts needs for TLS."""
    subprocess.run(["ip", "link", "set", "lo", "up"], check=True)
    listener = socket.socket(socket.AF_INET, socket.SOCK_DGRAM)
    listener.bind((NAMES, 53))
    threading.Thread(target=serve_names, args=(listener,), daemon=True).start()
    make_certificates(folder)
    replace("/etc/resolv.conf", f"nameserver {NAMES}\n", folder)
    with open(os.path.join(folder, "authority.pem"), encoding="utf-8") as authority:
        replace(AUTHORITIES, authority.read(), folder)
    return contexts(folder)
