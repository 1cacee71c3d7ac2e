"""A relay that hands on what it reads some time later, each way."""
import queue
import socket
import threading
import time


def hand_on(source, target, delay):
    """Writes to the target what comes from the source, each piece so many seconds after it came."""
    pieces = queue.Queue()

    def write():
        while True:
            due, piece = pieces.get()
            time.sleep(max(0, due - time.perf_counter()))
            try:
                if not piece:
                    target.shutdown(socket.SHUT_WR)
                    return
                target.sendall(piece)
            except OSError:
                return

    threading.Thread(target=write, daemon=True).start()
    piece = b"first"
    while piece:
        try:
            piece = source.recv(65_536)
        except OSError:
            piece = b""
        pieces.put((time.perf_counter() + delay, piece))


def relay(port, delay):
    """The port of a new relay to this port, with so many seconds of delay each way."""
    listener = socket.create_server(("127.0.0.1", 0))

    def accept():
        while True:
            near, _ = listener.accept()
            far = socket.create_connection(("127.0.0.1", port))
            for end in near, far:
                end.setsockopt(socket.IPPROTO_TCP, socket.TCP_NODELAY, 1)
            for source, target in (near, far), (far, near):
                threading.Thread(
                    target=hand_on, args=(source, target, delay), daemon=True
                ).start()

    threading.Thread(target=accept, daemon=True).start()
    return listener.getsockname()[1]
