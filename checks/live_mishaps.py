"""For checks/live_folders: what may happen to folders and images that are kept the same."""
import contextlib
import os
import pathlib
import subprocess
import time

from folder_trees import Skipped
from live_machines import SIDES, Machines, seen, until
from program import SYN, Failed

# So many seconds are a few looks at a folder, and a few sessions.
LOOKS = 5


@contextlib.contextmanager
def mounted(at, *words):
    """What the words name is mounted there meanwhile."""
    os.makedirs(at, exist_ok=True)
    mount = ["mount", *words, at]
    if os.geteuid() != 0 or subprocess.run(mount, capture_output=True, check=False).returncode:
        raise Skipped("no file system of its own can be mounted here")
    try:
        yield
    finally:
        # It may be unmounted by then.
        subprocess.run(["umount", at], capture_output=True, check=False)


@contextlib.contextmanager
def kept_same(*words):
    """Two folders that are kept the same meanwhile."""
    machines = Machines(*words)
    try:
        yield machines
    finally:
        machines.end()


def write(path, content):
    """Saves the file as an editor does: beside its place, and then over it."""
    beside = f"{path}-{'x' * 64}"
    pathlib.Path(beside).write_bytes(content)
    os.rename(beside, path)


def are_equal(wanted):
    """Both folders have these files and nothing else."""
    found = [{path: content and content[0] for path, content in seen(side).items()}
             for side in SIDES]
    return found == [wanted, wanted]


def logs(server, text):
    """The log of the server has a line that begins so."""
    return any(line.startswith(text) for line in server.log().splitlines())


def folder_on_a_full_disk():
    """What finds no room in a folder is told, stays in its replica, and comes once there is some."""
    files = {f"f{number:02}": os.urandom(16000) for number in range(30)}
    with mounted("left", "-t", "tmpfs", "-o", "size=256k", "none"), kept_same() as machines:
        pathlib.Path("left/mine").write_bytes(b"mine")
        for name, content in files.items():
            write(f"right/{name}", content)
        left = machines.servers["left"]
        until(lambda: logs(left, "folder refused 9 f"), "no full disk is told")
        time.sleep(LOOKS)
        for name, content in files.items():
            here = pathlib.Path("left", name)
            if here.exists() and here.read_bytes() != content:
                raise Failed(f"{name} is not whole")
            if pathlib.Path("right", name).read_bytes() != content:
                raise Failed(f"{name} is lost")
        subprocess.run(["mount", "-o", "remount,size=8m", "left"], check=True)
        until(lambda: are_equal(files | {"mine": b"mine"}), "the folders differ with room")


def image_on_a_full_disk():
    """What finds no room in an image is told, stays in the folder, and is carried once there is
    room and the server is started anew."""
    files = {f"f{number:02}": os.urandom(16000) for number in range(30)}
    with mounted("disk", "-t", "tmpfs", "-o", "size=256k", "none"):
        with kept_same("disk/left.img") as machines:
            left = machines.servers["left"]
            pathlib.Path("left/first").write_bytes(b"first")
            until(lambda: are_equal({"first": b"first"}), "the first file is not carried")
            for name, content in files.items():
                write(f"left/{name}", content)
            until(lambda: logs(left, "folder refused"), "no full disk is told")
            time.sleep(LOOKS)
            here = {path: content[0] for path, content in seen("left").items()}
            if here != files | {"first": b"first"}:
                raise Failed("the folder lost what its replica has no room for")
            for path, content in seen("right").items():
                if content[0] != here[path]:
                    raise Failed(f"{path} is not whole")
            left.kill()
            subprocess.run(["mount", "-o", "remount,size=16m", "disk"], check=True)
            left.start()
            until(lambda: are_equal(files | {"first": b"first"}), "the folders differ with room")


def unmounted_folder():
    """A folder that is not mounted empties nothing. What is edited meanwhile comes once it is."""
    os.mkdir("disk")
    with mounted("left", "--bind", "disk"), kept_same() as machines:
        left = machines.servers["left"]
        files = {f"f{number}": b"first" for number in range(5)}
        for name, content in files.items():
            write(f"left/{name}", content)
        until(lambda: are_equal(files), "the first files are not carried")
        subprocess.run(["umount", "left"], check=True)
        until(lambda: logs(left, "folder refused 5 Absent"), "an empty folder is not told")
        write("right/f1", b"later")
        write("right/new", b"new")
        time.sleep(LOOKS)
        if os.listdir("left"):
            raise Failed(f"something was written where nothing is mounted: {os.listdir('left')}")
        files |= {"f1": b"later", "new": b"new"}
        for name, content in files.items():
            if pathlib.Path("right", name).read_bytes() != content:
                raise Failed(f"{name} is lost on the other side")
        mount = ["mount", "--bind", "disk", "left"]
        subprocess.run(mount, check=True)
        until(lambda: are_equal(files), "the folders differ once it is mounted")


def times_of_the_past():
    """What is saved while the clock is behind is carried, however it is saved: each save has an
    earlier time than the one before, or the same time and length."""
    with kept_same():
        files = {}
        for number in range(3):
            past = time.time() - 86400 * (number + 1)
            for side in SIDES:
                in_place, beside = f"{side}/{side}0", f"{side}/{side}1"
                text = f"{side} {number}".encode()
                pathlib.Path(in_place).write_bytes(text)
                os.utime(in_place, (past, past))
                write(beside, text)
                os.utime(beside, (past, past))
                files |= {f"{side}0": text, f"{side}1": text}
            until(lambda: are_equal(files), f"save {number} is not carried")
        for side in SIDES:
            place, there = f"{side}/{side}0", os.stat(f"{side}/{side}0")
            text = f"{side} 9".encode()
            pathlib.Path(place).write_bytes(text)
            os.utime(place, ns=(there.st_atime_ns, there.st_mtime_ns))
            files[f"{side}0"] = text
        until(lambda: are_equal(files), "a save with the same time and length is not carried")


MISHAPS = folder_on_a_full_disk, image_on_a_full_disk, unmounted_folder, times_of_the_past
