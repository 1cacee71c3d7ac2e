"""A check of a crate alone, over the libraries that stand in out/.

It is what checks/wrong_bodies and checks/slow_functions run, and what crates.txt says.
"""
import functools
import pathlib
import re
import shutil
import subprocess

TOP = pathlib.Path(__file__).resolve().parents[1]
KIT = pathlib.Path(shutil.which("rt")).resolve().parents[1]
BELOW = dict(re.findall(r"^([a-z_]+)[^:\n]*:(.*)$", (TOP / "crates.txt").read_text(), re.M))


@functools.cache
def libraries_below(crate):
    """Ours that the crate stands on, each once."""
    found = dict.fromkeys(name for name in BELOW[crate].split() if name in BELOW)
    for name in list(found):
        found |= libraries_below(name)
    return found


def rlib(crate):
    path = TOP / "crates" / crate / "out/rlib" / f"{crate}.rlib"
    if not path.is_dir():
        raise ValueError(f"{crate} is not built: run rt ci, or rt check in a crate above it")
    return path


def command(crate, functions, seen):
    """The command that checks the crate in the current folder: these functions, or all.

    It takes what earlier checks left in the folder `seen`.
    """
    root = "main" if (TOP / "crates" / crate / "src/main.rt").exists() else "lib"
    words = [KIT / "bin/rattle", "check", "--crate-name", crate, f"src/{root}.rt", "--jobs", "1"]
    for name in ["std", *BELOW[crate].split()]:
        library = rlib(name) if name in BELOW else KIT / "rlibs" / f"{name}.rlib"
        words += ["--extern", f"{name}={library}"]
    for folder in [KIT / "rlibs", *(rlib(name).parent for name in libraries_below(crate))]:
        words += ["-L", f"dependency={folder}"]
    words += ["--antt-project", KIT / "rattle/logic/antt-project.json"]
    words += ["--logic-built", KIT / "logic_built", "--incremental", seen]
    words += ["--links", f"{crate}="]
    for function in functions:
        words += ["--only", function]
    return words


def checked(crate, functions, seen, folder):
    """Runs that check in the folder, and gives what it printed and how it ended."""
    return subprocess.run(
        command(crate, functions, seen),
        cwd=folder,
        stdin=subprocess.DEVNULL,
        stdout=subprocess.PIPE,
        stderr=subprocess.STDOUT,
        text=True,
    )
