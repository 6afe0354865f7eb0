"""Connections to the program. A `Wire` carries bytes, which a test chooses and compares itself; how the connection ends is a value. A `Client`
carries JSON values through Python's http.client, which checks the form of each reply and raises if the connection ends."""
import contextlib
import http.client
import json
import re
import socket
import struct

LENGTH = re.compile(rb"\r\nContent-Length: ([0-9]+)\r\n\r\n", re.IGNORECASE)
SECONDS = 60


class Wire:
    """A connection that sends bytes, and reads bytes or whole replies. It raises no error when the other side ends the connection: what is
    read is then shorter. `was_reset` says whether the other side reset it. `unread` has the bytes that were received and not yet returned."""

    def __init__(self, port, host="127.0.0.1", seconds=SECONDS):
        self.socket = socket.create_connection((host, port), timeout=seconds)
        self.socket.setsockopt(socket.IPPROTO_TCP, socket.TCP_NODELAY, 1)
        self.unread, self.was_reset = b"", False

    def send(self, message):
        """Sends a message. False if the connection has ended."""
        try:
            self.socket.sendall(message)
        except ConnectionError:
            self.was_reset = True
            return False
        return True

    def more(self):
        """Reads more bytes. False if the connection has ended."""
        try:
            piece = self.socket.recv(1 << 20)
        except ConnectionError:
            self.was_reset, piece = True, b""
        self.unread += piece
        return bool(piece)

    def take(self, count):
        """Returns the first `count` of the unread bytes."""
        taken, self.unread = self.unread[:count], self.unread[count:]
        return taken

    def read(self, count):
        """Returns the next `count` bytes, or fewer if the connection ends."""
        while len(self.unread) < count and self.more():
            pass
        return self.take(count)

    def reply(self):
        """Returns the next whole reply, or as much of it as came before the connection ended. `Content-Length` must be its last field."""
        while not (found := LENGTH.search(self.unread)) and self.more():
            pass
        return self.read(found.end() + int(found[1])) if found else self.take(len(self.unread))

    def rest(self):
        """Returns all bytes that come until the connection ends."""
        while self.more():
            pass
        return self.take(len(self.unread))

    def ask(self, message):
        """Sends a message, and reads its reply."""
        self.send(message)
        return self.reply()

    def more_within(self, seconds):
        """Reads more bytes. False if the connection has ended; None if within some seconds neither bytes nor the end came."""
        usual = self.socket.gettimeout()
        self.socket.settimeout(max(seconds, 0.01))
        try:
            return self.more()
        except TimeoutError:
            return None
        finally:
            self.socket.settimeout(usual)

    def is_closed(self, seconds):
        """Whether the next thing from the other side is the end of the connection, and comes within some seconds."""
        return self.more_within(seconds) is False

    def finish(self):
        """Ends the output of the connection; replies can still be read."""
        try:
            self.socket.shutdown(socket.SHUT_WR)
        except OSError:
            pass

    def reset(self):
        """Closes the connection with a reset."""
        self.socket.setsockopt(socket.SOL_SOCKET, socket.SO_LINGER, struct.pack("ii", 1, 0))
        self.close()

    def close(self):
        self.socket.close()

    def __enter__(self):
        return self

    def __exit__(self, *_):
        self.close()


def exchange(port, data):
    """Sends bytes on a connection of their own, then ends its output. Returns all that comes back, and whether the connection was reset."""
    with Wire(port) as wire:
        wire.send(data)
        wire.finish()
        return wire.rest(), wire.was_reset


def bytes_back(port, data):
    """Sends bytes on a connection of their own. Returns all that comes back, also if the connection ends with a reset."""
    return exchange(port, data)[0]


def replies_to(port, messages):
    """Sends messages on a connection of their own. Returns all that comes back. Raises `ConnectionResetError` if the connection ends with a
    reset."""
    found, was_reset = exchange(port, messages)
    if was_reset:
        raise ConnectionResetError(f"the connection was reset after {found[-300:]!r}")
    return found


class Client:
    """A connection that sends requests with JSON and reads the replies. A body is a value, or its text."""

    def __init__(self, port):
        self.connection = http.client.HTTPConnection("127.0.0.1", port, timeout=SECONDS)

    def exchange(self, method, target, body=None):
        """Sends a request. Returns the status and the bytes of the reply's body."""
        text = body if body is None or isinstance(body, str) else json.dumps(body)
        self.connection.request(method, target, text and text.encode())
        reply = self.connection.getresponse()
        return reply.status, reply.read()

    def ask(self, method, target, body=None):
        """Sends a request. Returns the status and the value of the reply."""
        status, body = self.exchange(method, target, body)
        return status, json.loads(body)

    def close(self):
        self.connection.close()


def ask_once(port, method, target, body=None):
    """Sends one request on a connection of its own. Returns the status and the value of the reply."""
    with contextlib.closing(Client(port)) as client:
        return client.ask(method, target, body)
