"""Slow and failing streams, for the programs that print a bundle's answers.

What arrives is the whole output, or a prefix of it with a message on standard error; never anything else.
"""
import fcntl
import os
import resource
import signal
import socket
import subprocess
import tempfile
import time

from bundles import bundle, record, siglist, tcp, v4

SECONDS = 60
COUNT = 930
HERE = os.path.dirname(os.path.abspath(__file__))

# Each packet has a label of its own, so that a line in another's place shows: its window is a record's.
BUNDLE = bundle([v4(tcp(options="", window=n + 1)) for n in range(COUNT)],
                siglist([record(window=(1, n + 1), count=0, label=10000 + n) for n in range(COUNT)], entries=()))
OUTPUT = "".join([f"packets {COUNT}\n"] + [f"syn exact {10000 + n}\n" for n in range(COUNT)]).encode()
assert len(BUNDLE) <= 65535 and len(OUTPUT) > 3 * 4096


def slow_pipe():
    """A pipe of one page, whose writer does not wait."""
    out, into = os.pipe()
    fcntl.fcntl(into, fcntl.F_SETPIPE_SZ, 4096)
    os.set_blocking(into, False)
    return out, into


def slow_socket():
    ours, theirs = socket.socketpair()
    theirs.setsockopt(socket.SOL_SOCKET, socket.SO_SNDBUF, 4096)
    theirs.setblocking(False)
    return ours.detach(), theirs.detach()


def read_all(stream, size=1000, pause=0.0):
    pieces = []
    while piece := os.read(stream, size):
        pieces.append(piece)
        time.sleep(pause)
    os.close(stream)
    return b"".join(pieces)


class Streams:
    """Runs a program, given as words; `status` is its status where the output is cut."""

    def __init__(self, words, name, status):
        self.words, self.status = words, status
        self.cut = f"{name}: standard output could not be written, and ends early\n".encode()
        self.unread = f"{name}: standard input could not be read\n".encode()
        self.passed, self.faults = 0, []

    def judge(self, name, process, output, expected, message=b"", status=0):
        messages = process.communicate(timeout=SECONDS)[1]
        if (process.returncode, output, messages) == (status, expected, message):
            self.passed += 1
        else:
            self.faults.append(f"{name}: status {process.returncode}, {len(output)} bytes, prefix {OUTPUT.startswith(output)}, "
                               f"messages {messages[:200]!r}")

    def judge_file(self, name, process, file, *expected):
        process.wait(timeout=SECONDS)
        file.seek(0)
        self.judge(name, process, file.read(), *expected)

    def start(self, stdout, words=None, data=BUNDLE, **more):
        with tempfile.TemporaryFile() as file:
            file.write(data)
            file.seek(0)
            more.setdefault("stdin", file)
            return subprocess.Popen(words or self.words, stdout=stdout, stderr=subprocess.PIPE, **more)

    # ---- slow, and in the end whole

    def late_reader(self, name, ends, delay):
        out, into = ends()
        process = self.start(into)
        os.close(into)
        time.sleep(delay)
        self.judge(f"{name}, its reader {delay} s late", process, read_all(out, pause=0.001), OUTPUT)

    def late_input(self):
        """Input that comes late and in pieces, at a descriptor that does not wait; the program is stopped and continued on the way."""
        out, into = os.pipe()
        os.set_blocking(out, False)
        with tempfile.TemporaryFile() as file:
            process = self.start(file, stdin=out)
            os.close(out)
            try:
                for at in range(0, len(BUNDLE), 9000):
                    time.sleep(0.05)
                    os.write(into, BUNDLE[at:at + 9000])
                process.send_signal(signal.SIGSTOP)
                time.sleep(0.05)
                process.send_signal(signal.SIGCONT)
            except BrokenPipeError:
                pass  # it ended early, which its output tells
            os.close(into)
            self.judge_file("input late and in pieces", process, file, OUTPUT)

    # ---- cut

    def no_room(self):
        """Python ignores SIGXFSZ, and so does what it starts here."""
        with tempfile.TemporaryFile() as file:
            limit = lambda: resource.setrlimit(resource.RLIMIT_FSIZE, (5000, 5000))  # noqa: E731
            process = self.start(file, preexec_fn=limit, restore_signals=False)
            self.judge_file("a file of at most 5,000 bytes", process, file, OUTPUT[:5000], self.cut, self.status)
        with open("/dev/full", "wb") as full:
            self.judge("/dev/full", self.start(full), b"", b"", self.cut, self.status)

    def full_disk(self):
        """A file system of 8 KiB, where this may make one; it is gone with the process."""
        script = 'mount -t tmpfs -o size=8k tmpfs "$0" || exit; "$@" >"$0/out"; status=$?; cat "$0/out"; exit $status'
        with tempfile.TemporaryDirectory() as folder:
            made = ["unshare", "-m", "sh", "-c", script, folder]
            if os.getuid() != 0 or subprocess.run([*made, "true"], capture_output=True).returncode != 0:
                return
            process = self.start(subprocess.PIPE, words=[*made, *self.words])
            output, process.stdout = process.stdout.read(), None
            self.judge("a full disk", process, output, OUTPUT[:8192], self.cut, self.status)

    def not_open(self, closed):
        with open(os.devnull, "rb") as readable:
            self.judge("output open for reading only", self.start(readable), b"", b"", self.cut, self.status)
        if closed:
            words = ["sh", "-c", 'exec "$@" >&-', "sh", *self.words]
            self.judge("output closed", self.start(subprocess.DEVNULL, words=words), b"", b"", self.cut, self.status)

    def reader_leaves(self, ended):
        """Python ignores SIGPIPE, and so does what it starts here. `ended`: a program that finds it not ignored is ended by it. Else
        it ignores the signal by itself."""
        found = (b"", -signal.SIGPIPE) if ended else (self.cut, self.status)
        kinds = [("SIGPIPE ignored", False, self.cut, self.status), ("SIGPIPE not ignored", True, *found)]
        for name, restored, message, status in kinds:
            out, into = slow_pipe()
            os.set_blocking(into, True)
            process = self.start(into, restore_signals=restored)
            os.close(into)
            output = os.read(out, 100)
            os.close(out)
            self.judge(f"the reader leaves, {name}", process, output, OUTPUT[:100], message, status)

    def unreadable(self):
        folder = os.open(HERE, os.O_RDONLY)
        self.judge("input is a folder", self.start(subprocess.DEVNULL, stdin=folder), b"", b"", self.unread, self.status)
        os.close(folder)

    def run(self, closed=True, ended=True):
        """`closed`: the program finds a closed descriptor closed; `ended`: SIGPIPE as it was when it was started."""
        for delay in (0, 0.05, 0.2, 0.5):
            self.late_reader("a pipe", slow_pipe, delay)
        for delay in (0, 0.3):
            self.late_reader("a socket", slow_socket, delay)
        self.late_input()
        self.no_room()
        self.full_disk()
        self.not_open(closed)
        self.reader_leaves(ended)
        self.unreadable()
        return self
