"""For the checks and the benchmarks: the program, servers of it, and the count of what was checked.

SYN names the program. Without it that of crates/syn/out is meant, which ./demo builds. A check that
is told to end, by SIGTERM, ends what it has started and removes what it has made.
"""
import os
import pathlib
import signal
import socket
import subprocess
import sys
import tempfile
import time

TOP = pathlib.Path(__file__).resolve().parents[1]
SYN = pathlib.Path(os.environ.get("SYN", TOP / "crates/syn/out/syn")).resolve()

# So that each `finally` and each `with` comes to its end.
signal.signal(signal.SIGTERM, lambda number, _: sys.exit(128 + number))


class Failed(Exception):
    """What should hold does not."""


def need_program():
    """Ends here where the program is not built."""
    if not SYN.exists():
        sys.exit(f"{sys.argv[0]}: {SYN} is not built: run ./demo, or see checks/quick")


def free_ports(count):
    """So many ports of this machine that nobody listens at."""
    probes = [socket.socket() for _ in range(count)]
    for probe in probes:
        probe.bind(("127.0.0.1", 0))
    ports = [probe.getsockname()[1] for probe in probes]
    for probe in probes:
        probe.close()
    return ports


def memory(process, field="VmRSS"):
    """The memory that the process has, or has had at most with VmHWM, in MiB."""
    status = pathlib.Path(f"/proc/{process.pid}/status").read_text()
    return int(status.split(f"{field}:")[1].split()[0]) / 1024


class Served:
    """A `syn serve` of an image, which serves once it is made, and is killed at the end.

    Its log goes into a file: a pipe that nobody reads would stop it.
    """

    def __init__(self, image, *more):
        self.port = free_ports(1)[0]
        self.address = f"127.0.0.1:{self.port}"
        self.words = [SYN, "serve", image, self.address, *more]
        self.start()

    def start(self):
        """Starts it, again where it was killed, with an empty log."""
        self.file = tempfile.TemporaryFile()
        self.process = subprocess.Popen(
            self.words, stdin=subprocess.DEVNULL, stdout=subprocess.PIPE, stderr=self.file
        )
        if not self.logs("serving"):
            self.kill()
            raise Failed(f"a server told {self.log()!r}")

    def log(self):
        """What it has told so far. The place where it writes stays."""
        return os.pread(self.file.fileno(), os.fstat(self.file.fileno()).st_size, 0).decode()

    def logs(self, line, seconds=60):
        """Waits until it has told this line, and says whether it has."""
        ends = time.monotonic() + seconds
        while not (has := f"{line}\n" in self.log()) and time.monotonic() < ends:
            if self.process.poll() is not None:
                return f"{line}\n" in self.log()
            time.sleep(0.01)
        return has

    def kill(self):
        """Kills it, and waits until it has ended."""
        self.process.kill()
        return self.end()

    def end(self):
        """How it ended, what it printed, and its log."""
        output = self.process.communicate(timeout=60)[0]
        return self.process.returncode, output.decode(), self.log()

    def __enter__(self):
        return self

    def __exit__(self, *_):
        self.kill()


class Tally:
    """What was checked, and what was not so."""

    def __init__(self):
        self.passed, self.faults = 0, []

    def wants(self, is_so, fault):
        """Counts it where it is so, and else keeps the fault."""
        if is_so:
            self.passed += 1
        else:
            self.faults.append(fault)

    def end(self):
        """Tells the first faults and the counts, and ends the program."""
        for fault in self.faults[:20]:
            print(fault)
        print(f"{self.passed} passed, {len(self.faults)} failed")
        sys.exit(len(self.faults) > 0)
