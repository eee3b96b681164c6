"""Sockets of all benches: where they connect, and where they listen."""

import contextlib
import socket
import threading


def connect(to, timeout=None, own=None):
    """A connection to a port of this machine, to a host and a port, or to the path of a Unix socket. Each piece that is
    sent leaves by itself. It may come from an address of its `own`."""
    if isinstance(to, str):
        line = socket.socket(socket.AF_UNIX)
        line.settimeout(timeout)
        line.connect(to)
        return line
    line = socket.create_connection(to if isinstance(to, tuple) else ('127.0.0.1', to), timeout, own and (own, 0))
    line.setsockopt(socket.IPPROTO_TCP, socket.TCP_NODELAY, 1)
    return line


def may_listen(address):
    """Whether this machine can listen at an address of IPv6."""
    try:
        with socket.socket(socket.AF_INET6) as trial:
            trial.bind((address, 0))
        return True
    except OSError:
        return False


def to_end(line):
    """What comes, and whether the connection ends with it; not, where nothing comes for its timeout."""
    text = b''
    with contextlib.suppress(ConnectionResetError):
        try:
            while more := line.recv(65536):
                text += more
        except TimeoutError:
            return text, False
    return text, True


def cut(*lines):
    """Ends connections, also under who reads them."""
    for line in lines:
        with contextlib.suppress(OSError):
            line.shutdown(socket.SHUT_RDWR)
        line.close()


class Door:
    """A listener on loopback that hands each connection to `serve`, in a thread of its own."""

    def __init__(self, serve, port=0):
        self.serve = serve
        self.open(port)

    def open(self, port):
        self.listener = socket.create_server(('127.0.0.1', port))
        self.port, self.is_open = self.listener.getsockname()[1], True
        threading.Thread(target=self.accept, args=(self.listener,), daemon=True).start()

    def accept(self, listener):
        with contextlib.suppress(OSError):
            while True:
                line = listener.accept()[0]
                line.setsockopt(socket.IPPROTO_TCP, socket.TCP_NODELAY, 1)
                threading.Thread(target=self.serve, args=(line,), daemon=True).start()

    def close(self):
        """(A thread in `accept` holds a socket that is only closed.)"""
        self.is_open = False
        cut(self.listener)
