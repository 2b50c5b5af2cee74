"""Compiles a program without a proof, for tests that run it many times: the one that `rt try` makes is copied while it runs."""
import os, shutil, subprocess, tempfile, time
from pathlib import Path

CRATES = Path(__file__).resolve().parent.parent / "crates"
# How many inputs `rt try` runs the program for, so that there is time to copy it.
INPUTS = 40


def compiled(crate, file):
    """Copies the program of this crate into a file. Returns whether it could; what `rt try` says is printed if it couldn't."""
    with tempfile.TemporaryDirectory() as folder:
        inputs, made = Path(folder, "inputs"), Path(folder, "made")
        inputs.mkdir()
        made.mkdir()
        for number in range(INPUTS):
            Path(inputs, str(number)).write_text("{a}")
        words = ["rt", "try", "--seconds", "900", "--cases", str(inputs), "--", "--help"]
        with open(Path(folder, "said"), "w+b") as said:
            tried = subprocess.Popen(words, cwd=CRATES / crate, env={**os.environ, "TMPDIR": str(made)},
                                     stdin=subprocess.DEVNULL, stdout=subprocess.DEVNULL, stderr=said)
            while not (is_copied := is_found(made, file)) and tried.poll() is None:
                time.sleep(0.05)
            tried.terminate()
            tried.wait()
            said.seek(0)
            if not is_copied:
                print(said.read().decode(errors="replace"))
            return is_copied


def is_found(made, file):
    """Copies the program that stands below this folder. Returns whether there is one that runs; folders may go meanwhile."""
    try:
        return any(is_whole(each, file) for each in made.rglob("program"))
    except FileNotFoundError:
        return False


def is_whole(program, file):
    """Copies a program. Returns whether the copy runs: it doesn't while the program is being written."""
    try:
        shutil.copy(program, file)
        return subprocess.run([file, "--help"], capture_output=True).returncode == 0
    except OSError:
        return False
