"""Lines by which a client comes to a modem: a TCP port, a Unix socket, a terminal of its own (a pty), or standard input and output. One
client at a time.

    with TcpLine("127.0.0.1", 12345) as line:
        line.serve(Modem(card, line.write))

`serve` goes on until `stop` is called, by another thread or a signal."""
import contextlib
import os
import re
import select
import socket
import sys
import tty

# what a client hasn't taken yet; one that lets more than this stand is dropped
MOST_WAITING = 1 << 20
PART = 4096
BUSY = b"\r\nBUSY\r\n"


class _Line:
    """What both have: bytes that wait for the client, and a pair of sockets by which the loop is woken."""

    def __init__(self):
        self._waiting = bytearray()
        self._woken, self._waker = socket.socketpair()
        self._is_stopped = False

    def __enter__(self):
        return self

    def __exit__(self, *_):
        self.close()

    def stop(self):
        """Has `serve` end."""
        self._is_stopped = True
        with contextlib.suppress(OSError):
            self._waker.send(b"\0")

    def write(self, content):
        """Takes bytes for the client; those for nobody are lost, as on a line that isn't connected."""
        self._waiting += content
        self._send()

    def serve(self, modem):
        while not self._is_stopped:
            with modem.lock:
                seconds = modem.seconds_to_poll()
            readable, writable, _ = select.select([self._woken, *self._read_from()], self._write_to(), [], seconds)
            with modem.lock:
                self._turn(modem, readable, writable)
                if modem.seconds_to_poll() == 0:
                    modem.poll()

    def close(self):
        self._woken.close()
        self._waker.close()

    def _send(self):
        raise NotImplementedError

    def _read_from(self):
        raise NotImplementedError

    def _write_to(self):
        raise NotImplementedError

    def _turn(self, modem, readable, writable):
        raise NotImplementedError


class _SocketLine(_Line):
    """A socket at which clients come. `log` takes a line when one comes or goes."""

    def __init__(self, server, log):
        super().__init__()
        self.log, self._client, self._server = log, None, server

    def _who(self, _address):
        return "another program"

    @property
    def has_client(self):
        """Whether a client is there."""
        return self._client is not None

    def close(self):
        if self._client:
            self._client.close()
        self._server.close()
        super().close()

    def _read_from(self):
        return [self._server, *([self._client] if self._client else [])]

    def _write_to(self):
        return [self._client] if self._client and self._waiting else []

    def _turn(self, modem, readable, writable):
        if self._client in readable:
            self._receive(modem)
        if self._client and self._client in writable:
            self._send()
        if self._client and len(self._waiting) > MOST_WAITING:
            self._drop(modem, "it takes nothing more")
        if self._server in readable:
            self._accept(modem)

    def _accept(self, modem):
        client, address = self._server.accept()
        if self._client:
            self.log(f"  {self._who(address)} is turned away: the modem has a client")
            with contextlib.suppress(OSError):
                client.sendall(BUSY)
            client.close()
            return
        self.log(f"  a client came: {self._who(address)}")
        client.setblocking(False)
        self._client, self._waiting = client, bytearray()
        modem.arrive()

    def _receive(self, modem):
        try:
            content = self._client.recv(PART)
        except BlockingIOError:
            return
        except OSError:
            content = b""
        if content:
            modem.take(content)
        else:
            self._drop(modem, "")

    def _drop(self, modem, why):
        self.log("  the client went away" + (f": {why}" if why else ""))
        self._client.close()
        self._client, self._waiting = None, bytearray()
        modem.leave()

    def _send(self):
        if not self._client:
            self._waiting.clear()
            return
        with contextlib.suppress(OSError):
            # a client that is gone is seen when it is read from
            sent = self._client.send(self._waiting)
            del self._waiting[:sent]


class TcpLine(_SocketLine):
    """A TCP port."""

    def __init__(self, host, port, log=lambda line: None):
        family = socket.getaddrinfo(host, port, type=socket.SOCK_STREAM)[0][0]
        super().__init__(socket.create_server((host, port), family=family), log)
        # a client's socket has what its server's has: what is said goes at once
        self._server.setsockopt(socket.IPPROTO_TCP, socket.TCP_NODELAY, 1)

    @property
    def address(self):
        """The address and the port at which it listens."""
        return self._server.getsockname()[:2]

    def _who(self, address):
        return address[0]


class UnixLine(_SocketLine):
    """A Unix socket, which its owner alone can connect to. Its file is removed at the end."""

    def __init__(self, path, log=lambda line: None):
        server = socket.socket(socket.AF_UNIX)
        before = os.umask(0o177)
        try:
            server.bind(path)
        except OSError:
            server.close()
            raise
        finally:
            os.umask(before)
        server.listen()
        super().__init__(server, log)
        self.path = path

    def close(self):
        super().close()
        with contextlib.suppress(OSError):
            os.remove(self.path)


class PtyLine(_Line):
    """A terminal of its own, which a client opens by its name as it opens a serial port. That a client closes it isn't seen."""

    def __init__(self):
        super().__init__()
        self._ours, self._theirs = os.openpty()
        tty.setraw(self._theirs)
        os.set_blocking(self._ours, False)
        self.name = os.ttyname(self._theirs)

    def close(self):
        os.close(self._ours)
        os.close(self._theirs)
        super().close()

    def _read_from(self):
        return [self._ours]

    def _write_to(self):
        return [self._ours] if self._waiting else []

    def _turn(self, modem, readable, writable):
        if self._ours in readable:
            with contextlib.suppress(BlockingIOError):
                modem.take(os.read(self._ours, PART))
        if self._ours in writable:
            self._send()

    def _send(self):
        # a terminal that nobody reads from takes some thousand bytes; the last of what waits is what counts then
        del self._waiting[:-MOST_WAITING]
        with contextlib.suppress(BlockingIOError):
            sent = os.write(self._ours, self._waiting)
            del self._waiting[:sent]


class StandardLine(_Line):
    """Standard input and output: what is typed, or comes by a pipe, a line of commands each. Of what the modem says no empty line is shown."""

    def _read_from(self):
        return [sys.stdin]

    def _write_to(self):
        return []

    def _turn(self, modem, readable, writable):
        if sys.stdin not in readable:
            return
        content = os.read(sys.stdin.fileno(), PART)
        modem.take(content.replace(b"\n", b"\r") or b"\r")
        if not content:
            self.stop()

    def _send(self):
        *lines, rest = re.split(rb"[\r\n]+", bytes(self._waiting))
        self._waiting = bytearray(rest)
        for line in filter(None, lines):
            sys.stdout.buffer.write(line + b"\n")
        sys.stdout.buffer.flush()
