"""The package as pip installs it, and its types."""

import ast
import contextlib
import importlib
import inspect
import os
import platform
import shutil
import subprocess
import sys
import tarfile
import tempfile
import unittest
import venv
import zipfile
from pathlib import Path

import build_nodes
import build_wheel
import graphql_parser

HERE = Path(__file__).resolve().parent


class Package(unittest.TestCase):
    def test_pip_installs_what_runs_on_its_own(self):
        with tempfile.TemporaryDirectory() as folder:
            venv.create(folder, with_pip=False, symlinks=True, system_site_packages=True)
            python = os.path.join(folder, "bin", "python")
            # Where graphql-core is, should this interpreter be of a venv of its own.
            outside = {key: value for key, value in os.environ.items() if key != "GRAPHQL_PARSER_LIB"}
            command = [sys.executable, "-m", "pip", "--python", python, "install", "--quiet", "--no-deps", "--no-index", str(HERE)]
            done = subprocess.run(command, capture_output=True, text=True)
            self.assertEqual(done.returncode, 0, done.stdout + done.stderr)
            program = (
                "import graphql_parser; print(graphql_parser.__file__, graphql_parser.__version__); "
                "graphql_parser.check_query('{a}'); print(graphql_parser.parse_query('{a}')['kind'])"
            )
            done = subprocess.run([python, "-c", program], cwd=folder, env=outside, capture_output=True, text=True)
            self.assertEqual(done.returncode, 0, done.stderr)
            file, version, kind = done.stdout.split()
            self.assertTrue(os.path.realpath(file).startswith(os.path.realpath(folder)), file)
            self.assertEqual((version, kind), (graphql_parser.__version__, "Document"))
            beside = set(os.listdir(os.path.dirname(file)))
            self.assertLessEqual({"py.typed", "__init__.pyi", "libgraphql_parser.so.1"}, beside)

    def test_the_module_in_c_is_in_the_package_where_it_can_be_compiled(self):
        with tempfile.TemporaryDirectory() as folder:
            is_compiled = build_nodes.compiled(folder) is not None
        for compiler, has_module in ((os.environ.get("CC", "cc"), is_compiled), ("no-compiler", False)):
            with self.subTest(compiler=compiler), tempfile.TemporaryDirectory() as folder:
                program = f"import build_wheel; print(build_wheel.build_wheel({folder!r}))"
                done = subprocess.run(
                    [sys.executable, "-c", program], cwd=HERE, env={**os.environ, "CC": compiler}, capture_output=True, text=True
                )
                self.assertEqual(done.returncode, 0, done.stderr)
                wheel = done.stdout.strip()
                names = zipfile.ZipFile(Path(folder, wheel)).namelist()
                self.assertEqual(any("_nodes_c" in name for name in names), has_module)
                self.assertEqual("-py3-none-" not in wheel, has_module)
                self.assertFalse(any(name.endswith(".c") for name in names))

    def test_a_missing_shared_object_is_told(self):
        with tempfile.TemporaryDirectory() as folder:
            shutil.copytree(HERE / "graphql_parser", Path(folder, "python", "graphql_parser"))
            for name in ("build_nodes.py", "build_wheel.py", "pyproject.toml", "README.md"):
                shutil.copy(HERE / name, Path(folder, "python", name))
            outside = {**os.environ, "GRAPHQL_PARSER_LIB": folder}
            program = "import build_wheel; build_wheel.build_wheel('.')"
            done = subprocess.run(
                [sys.executable, "-c", program], cwd=Path(folder, "python"), env=outside, capture_output=True, text=True
            )
            self.assertEqual(done.returncode, 1)
            self.assertIn("libgraphql_parser.so.1 is missing", done.stderr)
            self.assertIn("bindings/build.sh", done.stderr)


    def test_a_file_has_the_time_that_the_environment_says(self):
        for seconds, year in (("1000000000", 2001), ("0", 1980)):
            with self.subTest(seconds=seconds), tempfile.TemporaryDirectory() as folder, epoch(seconds):
                wheel = build_wheel.build_wheel(folder, {"nodes": "no"})
                self.assertEqual({entry.date_time[0] for entry in zipfile.ZipFile(Path(folder, wheel)).infolist()}, {year})
                first = Path(folder, build_wheel.build_sdist(folder)).read_bytes()
                self.assertEqual(Path(folder, build_wheel.build_sdist(folder)).read_bytes(), first)

    @unittest.skipIf(platform.libc_ver()[0] != "glibc", "the C library is another")
    def test_a_wheel_is_named_for_the_oldest_c_library(self):
        machine = platform.machine()
        for named, wanted in (
            (b"GLIBC_2.2.5\0GLIBC_2.14\0", ["manylinux2014", "manylinux_2_17"]),
            (b"GLIBC_2.9\0GLIBC_PRIVATE\0", ["manylinux2014", "manylinux_2_17"]),
            (b"GLIBC_2.34\0GLIBC_2.4\0", ["manylinux_2_34"]),
        ):
            self.assertEqual(build_wheel.platforms_of([b"", named]), [f"{one}_{machine}" for one in wanted])
        with tempfile.TemporaryDirectory() as folder:
            name = build_wheel.build_wheel(folder, {"nodes": "no", "platform": "manylinux"})
            wheel = zipfile.ZipFile(Path(folder, name))
            about = f"graphql_parser-{graphql_parser.__version__}.dist-info"
            tags = [line.split(" ")[1] for line in wheel.read(f"{about}/WHEEL").decode().splitlines() if line.startswith("Tag: ")]
            held = wheel.namelist()
        self.assertTrue(name.startswith(f"graphql_parser-{graphql_parser.__version__}-py3-none-manylinux"), name)
        self.assertEqual(name, f"graphql_parser-{graphql_parser.__version__}-py3-none-{'.'.join(tag.split('-')[2] for tag in tags)}.whl")
        self.assertLessEqual({f"{about}/LICENSE-APACHE", f"{about}/LICENSE-MIT"}, set(held))

    def test_the_sources_have_all_but_the_library(self):
        with tempfile.TemporaryDirectory() as folder:
            name = build_wheel.build_sdist(folder)
            top = f"graphql_parser-{graphql_parser.__version__}"
            self.assertEqual(name, f"{top}.tar.gz")
            held = tarfile.open(Path(folder, name)).getnames()
        modules = {f"{top}/graphql_parser/{path.name}" for path in (HERE / "graphql_parser").iterdir() if path.is_file()}
        beside = {f"{top}/{one}" for one in ("PKG-INFO", "pyproject.toml", "build_nodes.py", "build_wheel.py", "README.md", "LICENSE-MIT")}
        self.assertLessEqual(modules | beside, set(held))
        self.assertFalse([one for one in held if ".so" in one])


@contextlib.contextmanager
def epoch(seconds):
    """With this SOURCE_DATE_EPOCH."""
    kept = os.environ.get("SOURCE_DATE_EPOCH")
    os.environ["SOURCE_DATE_EPOCH"] = seconds
    try:
        yield
    finally:
        del os.environ["SOURCE_DATE_EPOCH"]
        if kept is not None:
            os.environ["SOURCE_DATE_EPOCH"] = kept


class GraphqlCore(unittest.TestCase):
    """What `parse` says of a graphql-core whose nodes it can't give. Here it is a package of that name with a version alone."""

    def said(self, written):
        """What two calls of `parse` raise, where `written` is the package."""
        program = (
            "import graphql_parser; graphql_parser.parse_query('{a}')\n"
            "for _ in range(2):\n"
            "    try: graphql_parser.parse('{a}')\n"
            "    except ImportError as error: print(error)"
        )
        with tempfile.TemporaryDirectory() as folder:
            Path(folder, "graphql").mkdir()
            Path(folder, "graphql", "__init__.py").write_text(written)
            environment = {**os.environ, "PYTHONPATH": os.pathsep.join([folder, str(HERE)])}
            done = subprocess.run([sys.executable, "-c", program], env=environment, capture_output=True, text=True)
        first, second = done.stdout.splitlines() or self.fail(done.stderr)
        self.assertEqual(second, first)
        return first

    def test_an_older_one_is_told_with_its_version(self):
        for version in ("1.1.1", "2.3.2", "3.0.6", "3.1.7", "another"):
            with self.subTest(version=version):
                needs = f"graphql_parser needs graphql-core 3.2 or later, and found {version}"
                self.assertEqual(self.said(f"__version__ = {version!r}"), needs + ": pip install 'graphql-core>=3.2,<3.3'")
        self.assertIn("and found a module graphql without a version: pip", self.said(""))

    def test_a_later_one_is_asked_for_its_nodes(self):
        for version in ("3.2.0", "3.2.0rc2", "3.10.1", "4.0.0"):
            with self.subTest(version=version):
                self.assertEqual(self.said(f"__version__ = {version!r}"), "No module named 'graphql.error'")


class Types(unittest.TestCase):
    """The stub says what the module has."""

    def setUp(self):
        self.stub = ast.parse((HERE / "graphql_parser" / "__init__.pyi").read_text()).body
        own = [node for node in self.stub if isinstance(node, ast.ImportFrom) and node.level]
        self.imported = [(node.module, name) for node in own for name in node.names]

    def test_each_signature(self):
        declared = {node.name: node for node in self.stub if isinstance(node, (ast.FunctionDef, ast.ClassDef))}
        imported = {name.asname for _, name in self.imported}
        self.assertEqual(set(declared) | imported | {"LARGEST_LIMIT"}, set(graphql_parser.__all__))
        for name, node in declared.items():
            if isinstance(node, ast.FunctionDef):
                with self.subTest(name=name):
                    signature = inspect.signature(getattr(graphql_parser, name))
                    self.assertEqual(arguments_of(node), [(one.name, one.kind, one.default) for one in signature.parameters.values()])

    def test_each_import(self):
        self.assertIn("Kind", [name.asname for _, name in self.imported])
        for module, name in self.imported:
            with self.subTest(name=name.asname):
                found = importlib.import_module(f"graphql_parser.{module}")
                self.assertIs(getattr(found, name.name), getattr(graphql_parser, name.asname))


def arguments_of(node):
    """The names, kinds and defaults of a function's arguments."""
    either, only_named = inspect.Parameter.POSITIONAL_OR_KEYWORD, inspect.Parameter.KEYWORD_ONLY
    empty = inspect.Parameter.empty
    defaults = [ast.literal_eval(default) for default in node.args.defaults]
    defaults = [empty] * (len(node.args.args) - len(defaults)) + defaults
    found = [(one.arg, either, default) for one, default in zip(node.args.args, defaults)]
    named = zip(node.args.kwonlyargs, node.args.kw_defaults)
    return found + [(one.arg, only_named, ast.literal_eval(default)) for one, default in named]


if __name__ == "__main__":
    unittest.main()
