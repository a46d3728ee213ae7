"""Builds the wheel (PEP 517): cargo makes the C library, which is packed with the module.

It needs a clone of the repository and cargo, and no network. The module in C for single calls is
compiled where Python.h and a compiler are, and then the wheel is for this version of CPython alone.
`--config-settings extension=no` leaves it out, and with `extension=yes` it has to be made.
"""

import base64
import hashlib
import json
import re
import shlex
import subprocess
import sys
import sysconfig
import tempfile
import zipfile
from pathlib import Path

HERE = Path(__file__).resolve().parent
TOP = HERE.parent.parent
HEADER = (TOP / "bindings" / "c" / "tz.h").read_text("utf-8")
NAME, VERSION = "tz_python", re.search('#define TZ_VERSION "(.*)"', HEADER)[1]
INFO = f"{NAME}-{VERSION}.dist-info"
PLATFORM = re.sub("[-.]", "_", sysconfig.get_platform())
EXTENSION = "_single" + (sysconfig.get_config_var("EXT_SUFFIX") or "")
CARGO = "cargo build --release --offline --package tz-c --message-format json-render-diagnostics"
ABOUT = f"""\
Metadata-Version: 2.1
Name: tz-python
Version: {VERSION}
Summary: Time zones for datetime, and whole columns of them, by a proved library
License: MIT OR Apache-2.0
Requires-Python: >=3.9
Description-Content-Type: text/markdown

"""


class UnsupportedOperation(Exception):
    """What this backend does not build."""


def shared_library():
    lines = subprocess.run(CARGO.split(), cwd=TOP, stdout=subprocess.PIPE, check=True).stdout
    made = [line for line in map(json.loads, lines.splitlines()) if "filenames" in line]
    libraries = [line for line in made if "cdylib" in line["target"]["crate_types"]]
    files = [Path(name) for line in libraries for name in line["filenames"]]
    return next(file for file in files if file.suffix in (".so", ".dylib", ".dll"))


def is_extensible():
    """Whether this Python takes the module in C, and says how one is linked."""
    is_locked = not sysconfig.get_config_var("Py_GIL_DISABLED")
    has_linker = bool(sysconfig.get_config_var("LDSHARED"))
    return sys.implementation.name == "cpython" and is_locked and has_linker


def compile_extension(to, *options):
    """The module in C, made in a folder."""
    linker, position = map(sysconfig.get_config_var, ("LDSHARED", "CCSHARED"))
    folders = f"-I{sysconfig.get_path('include')}", f"-I{TOP / 'bindings' / 'c'}"
    made = Path(to) / EXTENSION
    flags = ["-O2", "-DTZ_NO_ABI_CHECK", *options, *folders]
    files = [str(HERE / "src" / "tz" / "_single.c"), "-o", str(made)]
    command = [*shlex.split(linker), *shlex.split(position or ""), *flags, *files]
    subprocess.run(command, stdout=subprocess.PIPE, stderr=subprocess.STDOUT, check=True, text=True)
    return made


def extension(config_settings):
    """The file of the module in C, if it can be made."""
    wanted = (config_settings or {}).get("extension", "auto")
    if wanted not in ("auto", "yes", "no"):
        raise ValueError(f"extension is yes or no, not {wanted!r}")
    if wanted == "no" or (wanted == "auto" and not is_extensible()):
        return {}
    try:
        with tempfile.TemporaryDirectory() as room:
            return {f"tz/{EXTENSION}": compile_extension(room).read_bytes()}
    except (OSError, subprocess.CalledProcessError) as error:
        if wanted == "yes":
            raise
        print(f"single calls are not compiled: {error}\n{getattr(error, 'stdout', '')}")
        return {}


def tag(is_extended):
    version = f"cp{sys.version_info[0]}{sys.version_info[1]}"
    return f"{version}-{version}-{PLATFORM}" if is_extended else f"py3-none-{PLATFORM}"


def metadata(is_extended):
    licenses = ("LICENSE-APACHE", "LICENSE-MIT", "NOTICE")
    files = {f"{INFO}/{name}": (TOP / name).read_bytes() for name in licenses}
    files[f"{INFO}/METADATA"] = ABOUT.encode() + (HERE / "README.md").read_bytes()
    wheel = f"Wheel-Version: 1.0\nGenerator: tz\nRoot-Is-Purelib: false\nTag: {tag(is_extended)}\n"
    return {**files, f"{INFO}/WHEEL": wheel.encode()}


def prepare_metadata_for_build_wheel(metadata_directory, config_settings=None):
    (Path(metadata_directory) / INFO).mkdir()
    for name, data in metadata(bool(extension(config_settings))).items():
        (Path(metadata_directory) / name).write_bytes(data)
    return INFO


def build_wheel(wheel_directory, config_settings=None, metadata_directory=None):
    sources = [*sorted((HERE / "src" / "tz").glob("*.py")), HERE / "src" / "tz" / "py.typed"]
    files = {f"tz/{path.name}": path.read_bytes() for path in [*sources, shared_library()]}
    extra = extension(config_settings)
    files.update({**extra, **metadata(bool(extra))})
    record = []
    for name, data in files.items():
        digest = base64.urlsafe_b64encode(hashlib.sha256(data).digest()).decode().rstrip("=")
        record.append(f"{name},sha256={digest},{len(data)}\n")
    files[f"{INFO}/RECORD"] = "".join([*record, f"{INFO}/RECORD,,\n"]).encode()
    wheel = f"{NAME}-{VERSION}-{tag(bool(extra))}.whl"
    with zipfile.ZipFile(Path(wheel_directory) / wheel, "w") as archive:
        for name, data in files.items():
            archive.writestr(zipfile.ZipInfo(name), data, zipfile.ZIP_DEFLATED)
    return wheel


def build_sdist(sdist_directory, config_settings=None):
    raise UnsupportedOperation("the module is built from a clone of the whole repository")
