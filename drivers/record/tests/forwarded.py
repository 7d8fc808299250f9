"""A port at which a server that has only a socket answers, too."""
import contextlib
import socket
import threading


def pump(one, other):
    """Hands on what comes from one connection, until it ends."""
    with contextlib.suppress(OSError):
        while piece := one.recv(65536):
            other.sendall(piece)
    for it in (one, other):
        with contextlib.suppress(OSError):
            it.shutdown(socket.SHUT_RDWR)


def forward(listener, path):
    """Joins each connection that comes to one of its own to the socket, until the listener is shut down."""
    with contextlib.suppress(OSError):
        while True:
            came = listener.accept()[0]
            own = socket.socket(socket.AF_UNIX)
            own.connect(path)
            for pair in ((came, own), (own, came)):
                threading.Thread(target=pump, args=pair, daemon=True).start()


@contextlib.contextmanager
def forwarded(path):
    """The address of such a port, as HOST:PORT."""
    with socket.create_server(("127.0.0.1", 0)) as listener:
        thread = threading.Thread(target=forward, args=(listener, path), daemon=True)
        thread.start()
        try:
            yield f"127.0.0.1:{listener.getsockname()[1]}"
        finally:
            listener.shutdown(socket.SHUT_RDWR)
            thread.join()
