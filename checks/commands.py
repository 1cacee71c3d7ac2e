"""For the checks that run commands one by one: what a command answers, and what an image has."""
import pathlib
import subprocess
import tempfile

from program import SYN, Tally

TALLY = Tally()
MOST_TOLD = 20


def wants(is_so, fault):
    """Counts it, and tells the fault at once: a run takes minutes."""
    TALLY.wants(is_so, fault)
    if not is_so and len(TALLY.faults) <= MOST_TOLD:
        print(fault, flush=True)


def syn(*words, given=b""):
    """The status, the output and the errors of a command."""
    got = subprocess.run([SYN, *words], input=given, capture_output=True, timeout=120)
    return got.returncode, got.stdout.decode(), got.stderr.decode()


def done(*words, given=b""):
    """The output of a command that is done."""
    status, output, errors = syn(*words, given=given)
    if status != 0:
        raise AssertionError(f"{words}: {status} {output}{errors}")
    return output


def put(image, path, text):
    done("put", image, "1", path, given=text.encode())


def files_in(folder):
    """The texts of the files in the folder, by path, but for what is the folder's own."""
    top = pathlib.Path(folder)
    found = (file for file in top.rglob("*") if file.is_file())
    paths = (file.relative_to(top) for file in found)
    return {str(path): (top / path).read_text() for path in paths if ".syn" not in path.parts}


def tree(image):
    """What stands in the image, by path."""
    with tempfile.TemporaryDirectory() as folder:
        target = pathlib.Path(folder, "t")
        target.mkdir()
        done("export", image, str(target))
        return files_in(target)
