"""A crowd before the page: connections that say nothing, each of which is opened again once the page has closed it."""
import select
import socket
import threading


class Crowd:
    """So many connections, from `with` on."""

    def __init__(self, http, count):
        self.http, self.count, self.opened, self.ends, self.wires = http, count, 0, False, {}
        self.closed = select.epoll()

    def open(self):
        wire = socket.socket()
        wire.setblocking(False)
        wire.connect_ex(("127.0.0.1", self.http))
        self.wires[wire.fileno()] = wire
        self.closed.register(wire, select.EPOLLRDHUP | select.EPOLLHUP | select.EPOLLERR)
        self.opened += 1

    def run(self):
        for _ in range(self.count):
            self.open()
        while not self.ends:
            for number, _ in self.closed.poll(0.1):
                self.closed.unregister(number)
                self.wires.pop(number).close()
                self.open()

    def __enter__(self):
        self.thread = threading.Thread(target=self.run, daemon=True)
        self.thread.start()
        return self

    def __exit__(self, *_):
        self.ends = True
        self.thread.join()
        for wire in self.wires.values():
            wire.close()
        self.closed.close()
