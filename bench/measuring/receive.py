"""Reads from the connections to the systems that are measured."""


def receive(connection, system, size=1 << 18):
    """Returns the bytes that come next, at most `size`. Raises `OSError` if the system has closed the connection."""
    piece = connection.recv(size)
    if not piece:
        raise OSError(f"{system} has closed the connection")
    return piece
