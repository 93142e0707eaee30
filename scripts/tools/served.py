"""What checks share: a server or a proxy that one runs and asks over raw sockets, the built programs, and waits that no slow machine fails."""

import _thread
import atexit
import os
import socket
import subprocess
import sys
import tempfile
import threading
import time

from driver_messages import DEADLINE, message, receive
from program_path import program_of


def check(what, holds, *told):
    """Ends the program where it doesn't hold: with status 1, or from another thread than the main one by interrupting that."""
    if holds:
        return
    words = f"FAILED: {what}: {' '.join(str(one) for one in told)}"
    if threading.current_thread() is not threading.main_thread():
        print(words, file=sys.stderr, flush=True)
        _thread.interrupt_main()
    sys.exit(words)


def expect(what, holds, *told):
    """Does so, and prints what holds."""
    check(what, holds, *told)
    print(what)


def wait_until(holds, step=0.01):
    """Waits until this holds, for DEADLINE seconds at most, and looks each `step` seconds. Returns what it was at last."""
    until = time.monotonic() + DEADLINE
    while not (found := holds()) and time.monotonic() < until:
        time.sleep(step)
    return found


def is_asleep(process):
    """Returns true if a process sleeps until something comes: one that waits for a processor doesn't."""
    try:
        with open(f"/proc/{process.pid}/stat", encoding="ascii", errors="replace") as file:
            return file.read().rsplit(")", 1)[1].split()[0] == "S"
    except OSError:
        return False


def comes_to_rest(process, looks=20):
    """Waits until a process is asleep at so many looks in a row: then it has done what it can. Returns false if it ends, or isn't at rest
    within DEADLINE seconds."""
    until, in_row = time.monotonic() + DEADLINE, 0
    while in_row < looks and process.poll() is None and time.monotonic() < until:
        in_row = in_row + 1 if is_asleep(process) else 0
        time.sleep(0.01)
    return in_row >= looks


def at_best(measure, most, tries=20):
    """Returns the least that is measured, up to the first time that it is below `most`: the machine may have other work meanwhile."""
    least = measure()
    for _ in range(tries - 1):
        if least < most:
            break
        least = min(least, measure())
    return least


def program_words(words):
    """Returns these words, or those of the program that ./bsonwire runs."""
    return words or [program_of("bsonwire")]


def proxy_words(words):
    """Returns these words, or those of the program that ./bsonproxy runs."""
    return words or [program_of("bsonproxy")]


def connect_to(port):
    """Returns a connection to this port, over which bytes go as soon as they are sent."""
    link = socket.create_connection(("127.0.0.1", port), timeout=DEADLINE)
    link.setsockopt(socket.IPPROTO_TCP, socket.TCP_NODELAY, 1)
    return link


def memory_of(process):
    """Returns the KiB of memory that a process holds."""
    with open(f"/proc/{process.pid}/status", encoding="utf-8") as file:
        return next(int(line.split()[1]) for line in file if line.startswith("VmRSS"))


def server_words(words):
    """Returns these words, or those of the server that ./bsonserver runs."""
    return words or [program_of("bsonserver")]


def reply(link):
    """Returns the body of the next reply, or None if the connection ends before."""
    begun = receive(link, 4)
    if len(begun) < 4:
        return None
    size = int.from_bytes(begun, "little") - 4
    rest = receive(link, size)
    return rest[17:] if len(rest) == size else None


def ask(link, body, number=1):
    """Sends a message with this body. Returns the body of the reply."""
    link.sendall(message(number, body))
    return reply(link)


def start(room, words, **how):
    """Starts a program that says where it listens, and ends with the script. Returns it, and its address. `how` is for Popen."""
    path = os.path.join(room, f"output-{time.monotonic_ns()}")
    with open(path, "wb") as output:
        program = subprocess.Popen(words, stdout=output, **how)
    atexit.register(program.kill)
    while b"\n" not in open(path, "rb").read(4096):
        check("the program listens", program.poll() is None, words[0], program.returncode)
        time.sleep(0.01)
    host, port = open(path, "rb").readline().decode().split()[1].rsplit(":", 1)
    return program, (host, int(port))


class Server:
    """The server, with standard input that is held open, as a context. Its port is read from the file of --port-file."""

    def __init__(self, command_line, *words):
        self.room = tempfile.TemporaryDirectory()
        port = os.path.join(self.room.name, "port")
        self.process = subprocess.Popen(
            [*command_line, "--until-stdin-closes", "--port-file", port, *words, "127.0.0.1:0"], stdin=subprocess.PIPE, stdout=subprocess.PIPE)
        self.port = self.read_port(port)
        self.output = None

    def read_port(self, path):
        until = time.monotonic() + DEADLINE
        while time.monotonic() < until:
            if os.path.exists(path):
                with open(path, encoding="ascii") as file:
                    text = file.read()
                if text.endswith("\n"):
                    return int(text)
            check("the server listens", self.process.poll() is None, self.process.returncode)
            time.sleep(0.01)
        sys.exit("FAILED: no port was written")

    def connect(self):
        return connect_to(self.port)

    def end(self):
        """Closes standard input. Returns the status and the lines of the output."""
        try:
            self.output = self.process.communicate(timeout=DEADLINE)[0].decode()
        except subprocess.TimeoutExpired:
            self.process.kill()
            self.output = self.process.communicate()[0].decode()
            check(f"the server ends within {DEADLINE} seconds", False, self.output)
        return self.process.returncode, self.output.splitlines()

    def __enter__(self):
        return self

    def __exit__(self, *_):
        if self.output is None:
            self.end()
        self.room.cleanup()


class Proxy:
    """The proxy to a server with an `address`, with standard input that is held open, as a context. A script is written to a file for it."""

    def __init__(self, words, server, *options, script=None):
        self.room = tempfile.TemporaryDirectory()
        self.path, rules = (os.path.join(self.room.name, name) for name in ("output", "rules"))
        if script is not None:
            with open(rules, "w", encoding="utf-8") as out:
                out.write(script)
            options = ("--script", rules, *options)
        with open(self.path, "wb") as output:
            self.process = subprocess.Popen(
                [*words, "serve", "--until-stdin-closes", *options, "127.0.0.1:0", "{}:{}".format(*server.address)], stdin=subprocess.PIPE, stdout=output)
        while not (lines := self.lines()):
            check("the proxy listens", self.process.poll() is None, self.process.returncode)
            time.sleep(0.01)
        self.port = int(lines[0].rsplit(":", 1)[1])

    def lines(self):
        """Returns the lines that it has written."""
        with open(self.path, encoding="utf-8") as file:
            return [line[:-1] for line in file if line.endswith("\n")]

    def told_once(self, holds):
        """Returns the lines behind the first one, once this holds of them."""
        wait_until(lambda: holds(self.lines()[1:]))
        return self.lines()[1:]

    def told(self, count=1):
        """Returns the lines behind the first one, once there are so many."""
        return self.told_once(lambda lines: len(lines) >= count)

    def connect(self):
        return connect_to(self.port)

    def __enter__(self):
        return self

    def __exit__(self, *_):
        self.process.kill()
        self.process.wait()
        self.process.stdin.close()
        self.room.cleanup()
