"""What the trials share: the program, a server as a process on loopback, replays of scripts, and replies as bytes.
A trial leaves with status 0 where the program isn't there; KUBE_EMU names another one."""

import os
import re
import socket
import subprocess
import sys
import tempfile
import time

TOP = os.path.abspath(os.path.join(os.path.dirname(os.path.abspath(__file__)), "..", ".."))
PROGRAM = os.environ.get("KUBE_EMU", os.path.join(TOP, "crates/kube_emu/out/kube_emu"))
STORE_FILES = ["choice", "left", "right"]
PIECE_AT_MOST = 4096


def need_program():
    """Leaves where there is no program to try."""
    if not os.access(PROGRAM, os.X_OK):
        print(f"{os.path.basename(sys.argv[0])}: skipped, the program isn't proved here")
        sys.exit(0)


def history(name):
    """The bytes of an example."""
    with open(os.path.join(TOP, "examples", name), "rb") as file:
        return file.read()


def free_port():
    with socket.socket() as probe:
        probe.bind(("127.0.0.1", 0))
        return probe.getsockname()[1]


class Server:
    """`kube_emu serve`, started on a port of its own. It is ended by its process id."""

    def __init__(self, document, store, connections, options=()):
        self.port = free_port()
        self.told = tempfile.TemporaryFile()
        self.printed = tempfile.TemporaryFile()
        words = [PROGRAM, "serve", f"--store={store}", f"--port={self.port}", f"--connections={connections}", *options]
        with tempfile.TemporaryFile() as source:
            source.write(document)
            source.seek(0)
            self.process = subprocess.Popen(words, stdin=source, stdout=self.printed, stderr=self.told)
        for _ in range(400):
            if b"serving" in self.text(self.told):
                return
            if self.process.poll() is not None:
                break
            time.sleep(0.025)
        self.stop()
        raise SystemExit(f"the server didn't start: {self.text(self.printed)!r} {self.text(self.told)!r}")

    @staticmethod
    def text(file):
        return os.pread(file.fileno(), 1 << 20, 0)

    def is_alive(self):
        return self.process.poll() is None

    def connect(self, timeout=10):
        client = socket.create_connection(("127.0.0.1", self.port), timeout=timeout)
        client.setsockopt(socket.IPPROTO_TCP, socket.TCP_NODELAY, 1)
        return client

    def end(self, timeout=30):
        """The status and the printed bytes of a server that ends by itself."""
        try:
            status = self.process.wait(timeout)
        except subprocess.TimeoutExpired:
            status = None
            self.stop()
        return status, self.text(self.printed)

    def stop(self):
        if self.process.poll() is None:
            self.process.kill()
        self.process.wait()


class Reply:
    """A reply at the front of bytes: its code, whether it closes, its body and the whole of it."""

    def __init__(self, code, closes, body, whole):
        self.code, self.closes, self.body, self.whole = code, closes, body, whole


def take_reply(data, is_head=False):
    """The reply at the front of these bytes, or None where it isn't whole."""
    end = data.find(b"\r\n\r\n")
    if end < 0:
        return None
    head = bytes(data[:end])
    line = re.match(rb"HTTP/1\.1 (\d{3}) [^\r\n]*", head)
    length = re.search(rb"\r\nContent-Length: (\d+)(?=\r\n|$)", head)
    if not line or not length:
        raise ValueError(f"no reply: {head[:200]!r}")
    whole = end + 4 + (0 if is_head else int(length[1]))
    if len(data) < whole:
        return None
    return Reply(int(line[1]), b"\r\nConnection: close" in head, bytes(data[end + 4 : whole]), bytes(data[:whole]))


def replay(document, store, script, options=(), timeout=600):
    """The status of a replay, and what it printed."""
    with tempfile.NamedTemporaryFile() as file:
        file.write(script)
        file.flush()
        words = [PROGRAM, "replay", f"--store={store}", f"--script={file.name}", *options]
        done = subprocess.run(words, input=document, stdout=subprocess.PIPE, stderr=subprocess.DEVNULL, timeout=timeout, check=False)
    return done.returncode, done.stdout


def take_printed(printed):
    """The sends of a replay as pairs of connection and bytes, and the line behind them."""
    sends, at = [], 0
    while printed.startswith(b"> ", at):
        line = printed.index(b"\n", at)
        connection, count = printed[at + 2 : line].split()
        at = line + 1 + int(count)
        sends.append((int(connection), printed[line + 1 : at]))
    return sends, printed[at:]
