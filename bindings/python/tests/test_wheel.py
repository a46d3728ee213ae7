"""The build backend: what the wheel has, and that its record is right."""

import base64
import csv
import hashlib
import importlib.util
import io
import os
import shlex
import shutil
import sys
import sysconfig
import tempfile
import unittest
import zipfile
from importlib import metadata
from pathlib import Path
from unittest import mock

import tz

HERE = Path(__file__).resolve().parent.parent
SPEC = importlib.util.spec_from_file_location("backend", HERE / "backend.py")
backend = importlib.util.module_from_spec(SPEC)
SPEC.loader.exec_module(backend)
LIBRARY = {"win32": "tz.dll", "darwin": "libtz.dylib"}.get(sys.platform, "libtz.so")


def has_compiler():
    """Whether the module in C can be made."""
    linker = shlex.split(sysconfig.get_config_var("LDSHARED") or "")
    header = Path(sysconfig.get_path("include"), "Python.h")
    return backend.is_extensible() and bool(shutil.which(linker[0])) and header.is_file()


class Wheel(unittest.TestCase):
    def test_wheel(self):
        """The wheel for any CPython, and that for this one."""
        self.check("py3-none", "no", [])
        if has_compiler():
            version = f"cp3{sys.version_info[1]}"
            self.check(f"{version}-{version}", "yes", [backend.EXTENSION])

    def check(self, tag, extension, extra):
        with tempfile.TemporaryDirectory() as room:
            name = backend.build_wheel(room, {"extension": extension})
            self.assertRegex(name, rf"^tz_python-[0-9.]+-{tag}-[a-z0-9_]+\.whl$")
            with zipfile.ZipFile(Path(room, name)) as archive:
                files = {file: archive.read(file) for file in archive.namelist()}
        info = name.split(f"-{tag}")[0] + ".dist-info"
        about = ("METADATA", "WHEEL", "RECORD", "LICENSE-MIT", "LICENSE-APACHE", "NOTICE")
        sources = (
            "__init__.py",
            "_arrays.py",
            "_columns.py",
            "_library.py",
            "_structures.py",
            "_zone.py",
        )
        module = (*sources, "py.typed", LIBRARY, *extra)
        expected = {*(f"tz/{file}" for file in module), *(f"{info}/{file}" for file in about)}
        self.assertEqual(set(files), expected)
        self.assertIn(f"\nTag: {tag}-", files[f"{info}/WHEEL"].decode())
        for file in (*sources, "py.typed"):
            self.assertEqual(files[f"tz/{file}"], (HERE / "src" / "tz" / file).read_bytes())
        recorded = {}
        for file, digest, length in csv.reader(io.StringIO(files[f"{info}/RECORD"].decode())):
            recorded[file] = digest, length
        self.assertEqual(set(recorded), expected)
        self.assertEqual(recorded.pop(f"{info}/RECORD"), ("", ""))
        for file, (digest, length) in recorded.items():
            sha256 = base64.urlsafe_b64encode(hashlib.sha256(files[file]).digest()).rstrip(b"=")
            self.assertEqual((digest, length), ("sha256=" + sha256.decode(), str(len(files[file]))))

    def test_extension(self):
        """It is made without a warning, and installed where it can be made."""
        if not has_compiler():
            print("no compiler for C: the module in C is not tested")
            self.assertEqual(tz.implementation, "ctypes")
            return
        with tempfile.TemporaryDirectory() as room:
            backend.compile_extension(room, "-Wall", "-Wextra", "-Werror")
        self.assertEqual(tz.implementation, os.environ.get("TZ_IMPLEMENTATION", "C"))

    def test_without_a_compiler(self):
        with mock.patch.object(backend, "compile_extension", side_effect=FileNotFoundError("cc")):
            self.assertEqual(backend.extension(None), {})
            with self.assertRaises(FileNotFoundError):
                backend.extension({"extension": "yes"})
        with mock.patch.object(backend, "is_extensible", return_value=False):
            self.assertEqual(backend.extension({}), {})
        with self.assertRaises(ValueError):
            backend.extension({"extension": "maybe"})

    def test_version(self):
        self.assertEqual(tz.__version__, backend.VERSION)
        self.assertEqual(tz.__version__, metadata.version("tz-python"))

    def test_metadata(self):
        with tempfile.TemporaryDirectory() as room:
            info = Path(room, backend.prepare_metadata_for_build_wheel(room))
            text = (info / "METADATA").read_text("utf-8")
        self.assertIn("Name: tz-python\n", text)
        self.assertIn((HERE / "README.md").read_text("utf-8"), text)
        with self.assertRaises(backend.UnsupportedOperation):
            backend.build_sdist(room)


if __name__ == "__main__":
    unittest.main()
