"""For checks/live_folders: two servers with folders, and the process that runs their sessions."""
import os
import pathlib
import subprocess
import time

from program import SYN, Failed, Served

SIDES = "left", "right"
# So many seconds without a change say that all has come to rest.
STILL = 12


def seen(folder):
    """What the folder has: the bytes and the mode of each file, and None for a directory."""
    found = {}
    for where, dirs, files in os.walk(folder):
        # What belongs to syn itself is no part of the folder.
        if ".syn" in dirs:
            dirs.remove(".syn")
        at = os.path.relpath(where, folder)
        for name in dirs:
            found[os.path.normpath(os.path.join(at, name))] = None
        for name in files:
            path = os.path.normpath(os.path.join(at, name))
            full = os.path.join(folder, path)
            # What is being written has a longer name than a replica has.
            if len(name) <= 64:
                found[path] = (pathlib.Path(full).read_bytes(), os.stat(full).st_mode & 0o777)
    return found


class Machines:
    """The two servers and the process that runs their sessions. What was mounted at a folder before
    is that folder, and `left_image` says where the image of the left one lies."""

    def __init__(self, left_image="left.img"):
        subprocess.run([SYN, "format", "archive", "7", "last"], check=True, capture_output=True)
        self.images = {"left": left_image, "right": "right.img"}
        self.servers = {}
        for user, side in enumerate(SIDES):
            words = ["--folder", side, "--user", str(user + 1)]
            subprocess.run([SYN, "format", "replica", "7", self.images[side]], check=True,
                           capture_output=True)
            os.makedirs(side, exist_ok=True)
            self.servers[side] = Served(self.images[side], *words)
        self.start_sync()

    def start_sync(self):
        left, right = (self.servers[side].address for side in SIDES)
        self.log = open("sync.log", "ab")
        self.sync = subprocess.Popen([SYN, "sync", "last", left, right, "--every", "1"],
                                     stdin=subprocess.DEVNULL, stdout=self.log, stderr=self.log)

    def kill_one(self, source):
        """Kills one of the three, and starts it again after a moment."""
        victim = source.choice([*SIDES, "sync"])
        if victim == "sync":
            self.sync.kill()
            self.sync.wait()
            time.sleep(source.random() * 0.2)
            self.start_sync()
        else:
            server = self.servers[victim]
            server.kill()
            time.sleep(source.random() * 0.2)
            server.start()

    def replica(self, side):
        """What the replica of the side has, as lines of `show`, without its position."""
        told = subprocess.run([SYN, "show", "--served", self.servers[side].address],
                              capture_output=True, check=False)
        return told.stdout.decode().splitlines()[1:]

    def prefer_folders(self):
        """Settles what a folder and its replica have otherwise, as a person would: with the server
        stopped, the folder goes over the replica."""
        for user, (side, server) in enumerate(self.servers.items()):
            server.kill()
            words = ["reconcile", "--prefer", "folder", side, self.images[side],
                     str(user + 1)]
            subprocess.run([SYN, *words], check=False, capture_output=True)
            server.start()

    def end(self):
        self.sync.kill()
        self.sync.wait()
        for server in self.servers.values():
            server.kill()


def until(is_so, fault, seconds=60):
    """Waits until it is so."""
    ends = time.monotonic() + seconds
    while not is_so():
        if time.monotonic() > ends:
            raise Failed(fault)
        time.sleep(0.1)


def settle(machines):
    """Waits until folders and replicas are the same, or have stayed apart at the same paths for
    some looks and sessions, and answers these paths."""
    last, since = None, time.monotonic()
    while True:
        try:
            left, right = (seen(side) for side in SIDES)
        except OSError:
            continue
        apart = sorted(path for path in left.keys() | right.keys()
                       if left.get(path, 0) != right.get(path, 0))
        now = apart, machines.replica("left"), machines.replica("right")
        if not apart and now[1] == now[2]:
            return []
        if now != last:
            last, since = now, time.monotonic()
        if time.monotonic() - since > STILL:
            return apart
        time.sleep(0.3)
