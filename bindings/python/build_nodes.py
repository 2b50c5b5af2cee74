"""Compiles `graphql_parser/nodes.c` for the Python that runs this, into a folder:

    python3 build_nodes.py FOLDER

Without a C compiler or Python's headers it says so and makes nothing: the package then makes nodes in Python.
"""

import os
import shlex
import subprocess
import sys
import sysconfig
from pathlib import Path

SOURCE = Path(__file__).resolve().parent / "graphql_parser" / "nodes.c"


def compiled(folder):
    """The module in the folder, which is made anew if the source is newer; None if it can't be made."""
    module = Path(folder).resolve() / f"_nodes_c{sysconfig.get_config_var('EXT_SUFFIX')}"
    if module.exists() and module.stat().st_mtime > SOURCE.stat().st_mtime:
        return module
    made = module.with_suffix(".new")
    flags = ["-std=c11", "-O2", "-Wall", "-Wextra", "-fPIC", "-shared", *shlex.split(os.environ.get("CFLAGS", ""))]
    headers = {f"-I{sysconfig.get_path(name)}" for name in ("include", "platinclude")}
    command = [*shlex.split(os.environ.get("CC", "cc")), *flags, *sorted(headers), "-o", str(made), SOURCE.name]
    why = "only CPython takes it"
    if sys.implementation.name == "cpython":
        try:
            # From its folder, so that the module has the source's name and not its path.
            done = subprocess.run(command, cwd=SOURCE.parent, capture_output=True, text=True)
            why = None if done.returncode == 0 else done.stderr
        except OSError as error:
            why = str(error)
    if why is not None:
        print(f"nodes.c isn't compiled, so nodes are made in Python: {why}", file=sys.stderr)
        return None
    os.replace(made, module)
    return module


if __name__ == "__main__":
    if len(sys.argv) != 2:
        sys.exit("usage: build_nodes.py FOLDER")
    compiled(sys.argv[1])
