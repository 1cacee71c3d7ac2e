"""Trees of files for checks/folders: random ones, and in replicas and folders; and the program."""
import os
import pathlib
import pty
import stat
import subprocess

from program import SYN, Failed

MODES = [0o644, 0o644, 0o600, 0o755, 0o444]
# What has this name in a folder belongs to syn itself.
OWN = ".syn"
NAMES = ["a", "b", "c", "a b", "line\nfeed", "é", "x" * 64, "-n", "~", "#"]


class Skipped(Exception):
    """This cannot be tried on this machine."""


def syn(*words, given=b"", wanted=0, user=None):
    """Runs the program, as another user where one is given. It has to end with this status."""
    done = subprocess.run([SYN, *words], input=given, capture_output=True, check=False, user=user)
    if done.returncode != wanted:
        raise Failed(f"{words}: status {done.returncode}: {done.stderr.decode(errors='replace')}")
    return done.stdout.decode() + done.stderr.decode()


def expect(holds, what):
    """Fails where it does not hold."""
    if not holds:
        raise Failed(what)


def plain(content):
    """A file with the bytes, of the mode of a new one."""
    return content, 0o644


def random_tree(source, size):
    """A tree: the bytes and the mode of each file, and none for a directory, by its path."""
    tree = {}
    places = [""]
    for _ in range(size):
        path = source.choice(places) + source.choice(NAMES)
        if path in tree or path.count("/") > 5 or len(path.encode()) > 200:
            continue
        if source.random() < 0.4:
            tree[path] = None
            places.append(path + "/")
        else:
            content = source.randbytes(source.choice([0, 1, 400, 16384]))
            tree[path] = content, source.choice(MODES)
    return tree


def changed(source, tree):
    """Another tree that has something in common with this one."""
    other = dict(tree)
    for path in list(tree):
        if source.random() < 0.2:
            for below in [name for name in other if name == path or name.startswith(path + "/")]:
                del other[below]
    for path in [path for path in other if other[path] is not None]:
        if source.random() < 0.2:
            other[path] = other[path][0], source.choice(MODES)
    for path, content in random_tree(source, 6).items():
        above = [part for part in other if path.startswith(part + "/")]
        free = path not in other and all(other[part] is None for part in above)
        if free and ("/" not in path or path.rsplit("/", 1)[0] in other):
            other[path] = content
    return other


def put_into(image, tree):
    """A new replica with the tree."""
    syn("format", "replica", "7", image)
    for path in sorted(tree):
        if tree[path] is None:
            syn("mkdir", image, "1", "--", path)
        else:
            content, mode = tree[path]
            syn("put", image, "1", "--", path, given=content)
            if mode != 0o644:
                syn("chmod", image, "1", "--", path, f"{mode:o}")


def write(folder, tree):
    """Writes the tree into a new folder."""
    os.mkdir(folder)
    for path in sorted(tree):
        place = os.path.join(folder, path)
        if tree[path] is None:
            os.mkdir(place)
        else:
            content, mode = tree[path]
            pathlib.Path(place).write_bytes(content)
            os.chmod(place, mode)


def read(folder):
    """The tree that stands in the folder, without what belongs to syn itself."""
    tree = {}
    for above, folders, files in os.walk(folder):
        if OWN in folders:
            folders.remove(OWN)
        for name in folders + files:
            place = os.path.join(above, name)
            content = None
            if not os.path.isdir(place):
                mode = stat.S_IMODE(os.stat(place).st_mode)
                content = pathlib.Path(place).read_bytes(), mode
            tree[os.path.relpath(place, folder)] = content
    return tree


def overlaid(old, new):
    """The new tree put over the old one; none where a name is in the way as another kind."""
    for path, content in new.items():
        if path in old and (old[path] is None) != (content is None):
            return None
    return {**old, **new}


def edits_between(old, new):
    """The kinds of the fewest edits that make the old tree the new one, in their order."""
    gone = [path for path in old if path not in new or (old[path] is None) != (new[path] is None)]
    below = [path for path in old if any(path.startswith(other + "/") for other in gone)]
    left = {path: old[path] for path in old if path not in gone and path not in below}
    kinds = ["rm" for path in gone if path not in below]
    # What becomes shorter makes room for what becomes longer.
    for path in left:
        if new[path] is not None and len(left[path][0]) > len(new[path][0]):
            kinds += ["put"]
            left[path] = (new[path][0], left[path][1])
    for path in sorted(new, key=lambda path: [name.encode() for name in path.split("/")]):
        if new[path] is None:
            kinds += [] if path in left else ["mkdir"]
            continue
        content, mode = left.get(path, (None, 0o644))
        kinds += ["put"] if content != new[path][0] else []
        kinds += ["chmod"] if mode != new[path][1] else []
    return kinds


def position_of(image):
    """How many events the replica has."""
    return int(syn("check", image).split()[6])


def on_terminal(*words):
    """What the command writes to a terminal."""
    said = []
    parent, child = pty.openpty()
    with subprocess.Popen([SYN, *words], stdout=subprocess.PIPE, stderr=child) as program:
        os.close(child)
        while True:
            try:
                said.append(os.read(parent, 65536))
            except OSError:
                break
        program.wait()
    os.close(parent)
    return b"".join(said)
