"""Makes the package, for `pip install ./bindings/python`: the modules, their types, the shared object, and the module in C
if it can be compiled.

The shared object is taken from the folder that the environment variable GRAPHQL_PARSER_LIB names, or from `bindings/out`,
where `bindings/build.sh` leaves it. This is a build backend, as PEP 517 has it, that makes a wheel, as PEP 427 has it, and
a source distribution, which has no shared object. Both are the same byte for byte if what goes into them is: their files
have the time SOURCE_DATE_EPOCH.

`tools/release` has two settings: `nodes=no` leaves the module in C out, for a wheel that any Python 3 takes, and
`platform=manylinux` names the oldest C library that the wheel runs with, as PEP 600 has it, in place of this machine.
"""

import base64
import gzip
import hashlib
import io
import os
import platform
import re
import sys
import sysconfig
import tarfile
import tempfile
import time
import zipfile
from pathlib import Path

from build_nodes import compiled

HERE = Path(__file__).resolve().parent
PACKAGE = HERE / "graphql_parser"
SHARED_OBJECT = "libgraphql_parser.so.1"
LICENCES = ("LICENSE-APACHE", "LICENSE-MIT")

METADATA = """\
Metadata-Version: 2.1
Name: graphql_parser
Version: {version}
Summary: A parser of GraphQL requests and schema files whose every function is proved
License: MIT OR Apache-2.0
Requires-Python: >=3.8
Provides-Extra: graphql-core
Requires-Dist: graphql-core (>=3.2,<3.3); extra == 'graphql-core'
Description-Content-Type: text/markdown

{readme}"""

WHEEL = """\
Wheel-Version: 1.0
Generator: graphql_parser
Root-Is-Purelib: false
{tags}"""

# The oldest C library that wheels are named for: what needs an older one is named for this, which older versions of pip
# know too.
OLDEST_GLIBC = (2, 17)


def shared_object():
    folders = [os.environ.get("GRAPHQL_PARSER_LIB"), HERE.parent / "out"]
    paths = [Path(folder) / SHARED_OBJECT for folder in folders if folder]
    for path in paths:
        if path.exists():
            return path
    raise SystemExit(
        f"{SHARED_OBJECT} is missing, looked for at: {', '.join(map(str, paths))}. "
        "bindings/build.sh makes it; or name its folder in GRAPHQL_PARSER_LIB."
    )


def module_in_c():
    """The name and the bytes of the module in C; none if it can't be compiled."""
    with tempfile.TemporaryDirectory() as folder:
        module = compiled(folder)
        return {f"graphql_parser/{module.name}": module.read_bytes()} if module else {}


def version():
    return re.search(r'^__version__ = "(.*)"$', (PACKAGE / "__init__.py").read_text(), re.MULTILINE).group(1)


def metadata():
    return METADATA.format(version=version(), readme=(HERE / "README.md").read_text()).encode()


def licences():
    """The names and the bytes of the licences: beside this file in a source distribution, and else at the top."""
    folder = HERE if (HERE / LICENCES[0]).exists() else HERE.parent.parent
    return {name: (folder / name).read_bytes() for name in LICENCES}


def time_of_files():
    """Seconds since 1970. An archive of zip can't have a time before 1980."""
    return max(int(os.environ.get("SOURCE_DATE_EPOCH", 0)), 315532800)


def platforms_of(libraries):
    """The platforms on which these libraries run, by what they need of the C library: the versions that they name."""
    if platform.libc_ver()[0] != "glibc":
        raise SystemExit("platform=manylinux needs a machine with glibc")
    named = re.findall(rb"\bGLIBC_(\d+)\.(\d+)", b"\0".join(libraries))
    needed = max([OLDEST_GLIBC, *((int(major), int(minor)) for major, minor in named)])
    names = ["manylinux2014"] if needed == OLDEST_GLIBC else []
    return [f"{name}_{platform.machine()}" for name in [*names, "manylinux_{}_{}".format(*needed)]]


def build_wheel(wheel_directory, config_settings=None, metadata_directory=None):
    settings = config_settings or {}
    in_c = {} if settings.get("nodes") == "no" else module_in_c()
    libraries = {**in_c, f"graphql_parser/{SHARED_OBJECT}": shared_object().read_bytes()}
    python = f"cp{sys.version_info.major}{sys.version_info.minor}"
    python = f"{python}-{python}{sys.abiflags}" if in_c else "py3-none"
    platforms = [re.sub(r"[-.]", "_", sysconfig.get_platform())]
    if settings.get("platform") == "manylinux":
        platforms = platforms_of(libraries.values())
    about = f"graphql_parser-{version()}.dist-info/"
    modules = (path for path in sorted(PACKAGE.iterdir()) if path.is_file() and path.suffix != ".c")
    files = {f"graphql_parser/{path.name}": path.read_bytes() for path in modules}
    files.update(libraries)
    files.update({about + name: held for name, held in licences().items()})
    files[about + "METADATA"] = metadata()
    files[about + "WHEEL"] = WHEEL.format(tags="".join(f"Tag: {python}-{one}\n" for one in platforms)).encode()
    digests = {name: base64.urlsafe_b64encode(hashlib.sha256(held).digest()).decode().rstrip("=") for name, held in files.items()}
    rows = [f"{name},sha256={digest},{len(files[name])}\n" for name, digest in digests.items()]
    files[about + "RECORD"] = "".join([*rows, about + "RECORD,,\n"]).encode()
    wheel = f"graphql_parser-{version()}-{python}-{'.'.join(platforms)}.whl"
    with zipfile.ZipFile(Path(wheel_directory) / wheel, "w") as archive:
        for name, held in files.items():
            entry = zipfile.ZipInfo(name, time.gmtime(time_of_files())[:6])
            entry.compress_type = zipfile.ZIP_DEFLATED
            entry.external_attr = (0o100755 if name in libraries else 0o100644) << 16
            archive.writestr(entry, held)
    return wheel


def build_sdist(sdist_directory, config_settings=None):
    name = f"graphql_parser-{version()}"
    beside = ("README.md", "build_nodes.py", "build_wheel.py", "pyproject.toml")
    modules = (path for path in PACKAGE.iterdir() if path.is_file())
    files = {path: (HERE / path).read_bytes() for path in beside}
    files.update({f"graphql_parser/{path.name}": path.read_bytes() for path in modules})
    files.update(licences())
    files["PKG-INFO"] = metadata()
    archived = io.BytesIO()
    with tarfile.open(fileobj=archived, mode="w", format=tarfile.PAX_FORMAT) as archive:
        for path, held in sorted(files.items()):
            entry = tarfile.TarInfo(f"{name}/{path}")
            entry.size = len(held)
            entry.mtime = time_of_files()
            archive.addfile(entry, io.BytesIO(held))
    packed = gzip.compress(archived.getvalue(), mtime=0)
    (Path(sdist_directory) / f"{name}.tar.gz").write_bytes(packed)
    return f"{name}.tar.gz"
