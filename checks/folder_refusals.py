"""What checks/folders tries of folders that no replica can have, or that cannot be read."""
import os
import pathlib
import shutil
import subprocess
import time

from folder_trees import Skipped, expect, plain, position_of, put_into, read, syn, write
from program import SYN, Failed, Served


def import_refused(_source):
    """What can stand in no replica is told, all of it, and nothing is edited."""
    put_into("image", {"large": plain(b"old"), "d": None, "d/pipe": plain(b"old")})
    os.mkdir("folder")
    os.mkdir("folder/d")
    pathlib.Path("folder/a").write_bytes(b"a")
    pathlib.Path("folder/large").write_bytes(bytes(16385))
    pathlib.Path("folder/" + "n" * 65).write_bytes(b"")
    pathlib.Path(b"folder/\xff\n".decode("utf-8", "surrogateescape")).write_bytes(b"")
    os.symlink("/", "folder/link")
    os.mkfifo("folder/d/pipe")
    told = syn("import", "image", "1", "folder", wanted=1)
    expect(told.startswith("syn: refused 7 Full\n") and told.count("\n") == 6, told)
    expect(position_of("image") == 3, "something was edited")
    told = syn("import", "--skip", "image", "1", "folder")
    expect(told.startswith("ok 4\n") and told.count("skipped") == 5, told)
    syn("export", "image", "out")
    kept = {"a": b"a", "large": b"old", "d/pipe": b"old"}
    expect(read("out") == {"d": None} | {path: plain(kept[path]) for path in kept},
           "what is skipped stays")
    syn("import", "image", "1", "none", wanted=1)
    pathlib.Path("file").write_bytes(b"")
    syn("import", "image", "1", "file", wanted=1)
    syn("import", "none", "1", "folder", wanted=1)
    write("room", {f"{number}": plain(bytes([number]) * 16384) for number in range(30)})
    write("little", {"f": plain(b"f")})
    for number in range(24):
        syn("import", "image", "1", "room" if number % 2 else "little")


def past_limits(_source):
    """What passes a limit is told by its path, and nothing is edited."""
    syn("format", "replica", "7", "image")
    write("names", {"a": plain(b"a"), "many": None} | {f"many/{n}": plain(b"") for n in range(257)})
    os.symlink("/", "names/many/link")
    told = syn("import", "image", "1", "names", wanted=1)
    expect(told == 'syn: refused 7 Full\nsyn: "many" has more than 256 names\n', told)
    told = syn("import", "--skip", "image", "1", "names")
    expect(told == 'ok 1\nsyn: skipped "many" has more than 256 names\n', told)
    told = syn("import", "--skip", "image", "1", "names/many", wanted=1)
    expect(told == 'syn: refused 7 Full\nsyn: "." has more than 256 names\n', told)
    os.remove("names/many/0")
    expect(syn("import", "--skip", "image", "1", "names").startswith("ok 258\n"), "the most names")
    tree = {f"d{d}": None for d in range(5)}
    tree |= {f"d{d}/{n}": plain(b"") for d in range(5) for n in range(204)}
    write("count", tree)
    told = syn("import", "image", "1", "count", wanted=1)
    expect('syn: "." has more than 1023 files and directories\n' in told, told)
    os.remove("count/d0/0")
    os.remove("count/d1/0")
    syn("format", "replica", "7", "image")
    expect(syn("import", "image", "1", "count") == "ok 1023\n", "the most files")
    write("room", {f"{n}": plain(bytes(16384)) for n in range(33)})
    told = syn("import", "image", "1", "room", wanted=1)
    expect('syn: "." takes more than 526336 bytes in all\n' in told, told)
    deep = ["/".join("d" * count) for count in range(1, 11)]
    write("deep", {path: None for path in deep})
    put_into("image", {path: None for path in deep[:8]})
    told = syn("import", "image", "1", "deep", deep[7], wanted=1)
    expect(told.startswith(f'syn: refused 7 Full\nsyn: "{deep[8]}" lies too deep'), told)
    expect(syn("import", "--skip", "image", "1", "deep", deep[7]).startswith("ok 16\n"), "as deep")
    told = syn("export", "--update", "image", "room", wanted=1)
    expect('syn: "." takes more than 526336 bytes in all\n' in told, told)


def past_limits_together(_source):
    """What passes a limit only beside the rest is told: where, which limit, and how far."""
    tree = {f"d{d}": None for d in range(3)}
    tree |= {f"d{d}/{n}": plain(b"") for d in range(3) for n in range(200)}
    told = joined("nodes", tree, tree)
    expect(told == "syn: with it at papers the replica would have 1207 files and directories, "
           "and it may have 1023\nsyn: refused 7 Full\n", told)
    tree = {f"{n}": plain(bytes(16384)) for n in range(20)}
    told = joined("bytes", tree, tree)
    expect(told == "syn: with it at papers the replica would take 655753 bytes in all, "
           "and it may take 526336\nsyn: refused 7 Full\n", told)
    told = joined("names", {f"{n}": plain(b"") for n in range(256)}, {})
    expect(told == "syn: with papers its directory would have more than 256 names\n"
           "syn: refused 7 Full\n", told)
    whole = {f"z{n:02}": plain(bytes(16384)) for n in range(32)}
    put_into("way.img", whole)
    write("way", {"a": plain(bytes(16384))} | whole | {"z00": plain(b"")})
    told = syn("import", "-v", "way.img", "1", "way")
    expect(told == "ok 34\nput z00\nput a\n", "what becomes shorter makes room first: " + told)


def joined(name, tree, more):
    """What is told of a folder that a replica refuses beside what it has, in a file and served."""
    image = name + ".img"
    put_into(image, tree)
    write(name, more)
    told = syn("import", image, "1", name, "papers", wanted=1)
    with Served(image) as server:
        served = syn("import", "--served", server.address, "1", name, "papers", wanted=1)
    expect(served == told, f"{served} is told of what is served, and {told} of a file")
    return told


def of_others(_source):
    """What may not be read is told by its path. What cannot be written is refused."""
    user = 65534 if os.geteuid() == 0 else None
    os.chmod(".", 0o777)
    syn("format", "replica", "7", "image", user=user)
    syn("put", "image", "1", "a", given=b"a", user=user)
    write("folder", {"a": plain(b""), "b": plain(b"b"), "d": None, "d/c": plain(b"")})
    os.chmod("folder", 0o777)
    os.chmod("folder/a", 0)
    os.chmod("folder/d", 0)
    told = syn("import", "image", "1", "folder", wanted=1, user=user)
    wanted = 'syn: refused 7 Full\nsyn: "a" may not be read\nsyn: "d" may not be read\n'
    expect(told == wanted, told)
    told = syn("import", "--skip", "-v", "image", "1", "folder", user=user)
    expect(told.startswith("ok 2\n") and told.endswith("put b\n"), told)
    told = syn("export", "--update", "image", "folder", wanted=1, user=user)
    expect(told == 'syn: refused 7 Full\nsyn: "a" may not be read\n', told)
    os.chmod("folder/d", 0o755)
    os.mkdir("locked")
    if user is not None:
        os.chown("locked", user, -1)
    for mode, read_too in (0o500, 0), (0, 1):
        os.chmod("locked", mode)
        told = syn("-v", "export", "image", "locked", wanted=1, user=user)
        expect("Permission denied" in told, told)
        told = syn("-v", "import", "image", "1", "locked", "at", wanted=read_too, user=user)
        expect("Permission denied" in told or not read_too, told)
    os.chmod("locked", 0o700)
    expect(os.listdir("locked") == [], "a folder that cannot be written")


def on_full_disk(tree):
    """An import and an export of the tree, on a disk that has too little room for it at first."""
    syn("format", "replica", "7", "disk/image")
    expect("refused 9 Device" in syn("import", "disk/image", "1", "folder", wanted=1), "an import")
    expect(position_of("disk/image") == 0, "an import that had no room made an edit")
    shutil.copy("disk/image", "image")
    os.remove("disk/image")
    syn("import", "image", "1", "folder")
    told = syn("-v", "export", "image", "disk/out", wanted=1)
    expect("refused 9 Device" in told and "No space left" in told, told)
    left = read("disk/out")
    expect(len(left) < 30 and left.items() <= tree.items(), "whole files")
    expect(sorted(os.listdir("disk/out")) == sorted(left), "what was beside its place is left")
    subprocess.run(["mount", "-o", "remount,size=4m", "disk"], check=True)
    syn("export", "--update", "image", "disk/out")
    expect(read("disk/out") == tree, "an export that had room in the end")


def full_disk(source):
    """A full disk refuses an import 9 whole, and leaves whole files of an export, if any, and nothing
    beside them. An export that has room ends it later."""
    tree = {f"f{number:02}": plain(source.randbytes(16000)) for number in range(30)}
    write("folder", tree)
    os.mkdir("disk")
    mount = ["mount", "-t", "tmpfs", "-o", "size=256k", "none", "disk"]
    if os.geteuid() != 0 or subprocess.run(mount, capture_output=True, check=False).returncode:
        raise Skipped("no file system of its own can be mounted here")
    try:
        on_full_disk(tree)
    finally:
        subprocess.run(["umount", "disk"], check=True)


def tells_change(paths, *words):
    """The command tells in the end that one of the paths changed, and edits nothing then."""
    for _ in range(300):
        syn("format", "replica", "7", "image")
        done = subprocess.run([SYN, *words], capture_output=True, check=False)
        if done.returncode != 0:
            told = done.stderr.decode()
            expect(told.startswith("syn: refused 13 Touched\n"), told)
            expect(any(f"syn: {path} changed while the folder was read\n" in told
                       for path in paths), told)
            expect(position_of("image") == 0, "something was edited")
            return
    raise Failed(f"no change of {paths} was told")


def changing(_source):
    """A folder that changes while it is read is told, and nothing is edited or written.

    A directory that comes and goes is told itself where it was listed and then gone, and otherwise
    as a change of what the folder lists.
    """
    write("folder", {f"f{number:03}": plain(b"old") for number in range(200)})
    writer = ["python3", "-c",
              "while True:\n with open('folder/f150', 'w') as file:\n  file.write('new')"]
    maker = ["python3", "-c",
             "import os\nwhile True:\n os.mkdir('folder/d')\n os.rmdir('folder/d')"]
    for other, paths in (writer, ["f150"]), (maker, [".", "d"]):
        with subprocess.Popen(other) as child:
            try:
                tells_change(paths, "import", "image", "1", "folder")
                tells_change(paths, "export", "--update", "image", "folder")
            finally:
                child.kill()
    pathlib.Path("folder/f150").write_bytes(b"new")
    shutil.rmtree("folder/d", ignore_errors=True)
    syn("format", "replica", "7", "image")
    expect(syn("import", "image", "1", "folder") == "ok 200\n", "an import in the end")


def refused(_source):
    """What is in the way is told, and nothing outside is written."""
    put_into("image", {"d": None, "d/f": plain(b"f"), "g": plain(b"g")})
    os.mkdir("outside")
    os.mkdir("links")
    os.symlink("../outside", "links/d")
    os.symlink("../outside/new", "links/g")
    for option in "--update", "--delete":
        told = syn("export", option, "image", "links", wanted=1)
        wanted = '"d" is neither a file nor a directory', '"g" is neither a file nor a directory'
        expect("refused 7 Full" in told and all(line in told for line in wanted), told)
    expect(os.listdir("outside") == [] and len(os.listdir("links")) == 2, "links were followed")
    os.mkdir("strange")
    pathlib.Path("strange/" + "n" * 65).write_bytes(b"")
    pathlib.Path(b"strange/\xff".decode("utf-8", "surrogateescape")).write_bytes(b"")
    pathlib.Path("strange/large").write_bytes(bytes(16385))
    os.mkfifo("strange/pipe")
    before = sorted(os.listdir("strange"))
    told = syn("export", "--delete", "image", "strange", wanted=1)
    expect(told.count("\n") == 5 and sorted(os.listdir("strange")) == before, told)
    syn("export", "--update", "image", "strange")
    expect(sorted(os.listdir("strange")) == sorted(before + ["d", "g"]), "an update among others")
    os.symlink("strange", "itself")
    syn("export", "--update", "image", "itself")
    pathlib.Path("file").write_bytes(b"")
    syn("export", "--update", "image", "file", wanted=1)
    syn("export", "image", "none/none", wanted=1)
    syn("export", "image", "", wanted=1)
