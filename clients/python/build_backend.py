"""Builds the package for pip, with nothing but Python and a C compiler: so `pip install` needs no network. These are the hooks of PEP 517 and of
PEP 660.

For `Locks.in_process` it builds the C extension `_pashkure` with the C library, which it finds in the folder that PASHKURE_LIB_DIR names, and else
by pkg-config. If something is missing, the package has a module `_pashkure` in its place, whose import says what.
"""
import base64
import hashlib
import json
import os
import pathlib
import re
import shutil
import subprocess
import sys
import sysconfig
import tarfile
import tempfile
import zipfile

HERE = pathlib.Path(__file__).resolve().parent
PROJECT = (HERE / "pyproject.toml").read_text(encoding="utf-8")


def _said(field):
    """What pyproject.toml says of the package. A line of it is read as JSON: Python before 3.11 has no reader for TOML."""
    return json.loads(re.search(f"^{field} = (.*)$", PROJECT, re.M)[1])


NAME = _said("name")
VERSION = re.search('^__version__ = "(.*)"$', (HERE / NAME / "__init__.py").read_text(encoding="utf-8"), re.M)[1]
INFO = f"{NAME}-{VERSION}.dist-info"
EXTENSION = "_pashkure"
METADATA = f"""\
Metadata-Version: 2.1
Name: {NAME}
Version: {VERSION}
Summary: {_said("description")}
Requires-Python: {_said("requires-python")}
{"".join(f"Classifier: {classifier}" + chr(10) for classifier in _said("classifiers"))}Description-Content-Type: text/markdown

{(HERE / "README.md").read_text(encoding="utf-8")}"""
PARTS = {"METADATA": METADATA, "WHEEL": "Wheel-Version: 1.0\nGenerator: build_backend\nRoot-Is-Purelib: {}\nTag: {}\n",
         "entry_points.txt": f"[console_scripts]\n{NAME} = {_said(NAME)}\n"}  # fmt: skip


def build_wheel(folder, settings=None, metadata=None):
    """Writes a wheel of the package into the folder. Returns the wheel's name."""
    paths = sorted(path for path in (HERE / NAME).rglob("*") if path.suffix in (".py", ".typed"))
    return _wheel(folder, {path.relative_to(HERE).as_posix(): path.read_bytes() for path in paths})


def build_editable(folder, settings=None, metadata=None):
    """As `build_wheel`, of a wheel that only says where the sources are. So what is changed there needs no new wheel."""
    return _wheel(folder, {f"{NAME}.pth": f"{HERE}\n".encode()})


def build_sdist(folder, settings=None):
    """Writes an archive of the sources into the folder. Returns the archive's name."""
    with tarfile.open(pathlib.Path(folder, f"{NAME}-{VERSION}.tar.gz"), "w:gz", format=tarfile.PAX_FORMAT) as out:
        for name in "README.md", "build_backend.py", "pyproject.toml", f"{EXTENSION}.c", NAME:
            out.add(HERE / name, f"{NAME}-{VERSION}/{name}", filter=lambda item: None if "__pycache__" in item.name else item)
    return f"{NAME}-{VERSION}.tar.gz"


def extension(folder):
    """Builds the C extension in this folder, and returns its path. Raises `OSError` that says what is missing."""
    compiler, headers = os.environ.get("CC") or "cc", sysconfig.get_path("include")
    library, include = _library()
    if not shutil.which(compiler):
        raise OSError(f"no C compiler {compiler} is on the PATH")
    if not pathlib.Path(headers, "Python.h").is_file():
        raise OSError(f"there is no Python.h in {headers} (Debian's package python3-dev)")
    to = pathlib.Path(folder, f"{EXTENSION}{sysconfig.get_config_var('EXT_SUFFIX')}")
    flags = ["-std=c11", "-O2", "-shared", "-fPIC", f"-I{headers}", f"-I{include}", "-o", str(to)]
    words = [compiler, *flags, str(HERE / f"{EXTENSION}.c"), str(library / "libpashkure.a")]
    done = subprocess.run(words, check=False, stdout=subprocess.PIPE, stderr=subprocess.STDOUT, text=True)
    if done.returncode:
        raise OSError(f"{compiler} did not build {EXTENSION}.c: {done.stdout}")
    return to


def _library():
    """The folder of libpashkure.a, and that of its headers."""
    given = os.environ.get("PASHKURE_LIB_DIR")
    library = pathlib.Path(given or _told("libdir"))
    if not (library / "libpashkure.a").is_file():
        raise OSError(f"there is no libpashkure.a in {library} (`./mmdetect library DIR` writes it into DIR/lib)")
    return library.resolve(), library.resolve().parent / "include" if given else pathlib.Path(_told("includedir")).resolve()


def _told(variable):
    """What pkg-config says of the library."""
    try:
        told = subprocess.run(["pkg-config", f"--variable={variable}", NAME], check=True, stdout=subprocess.PIPE, stderr=subprocess.DEVNULL, text=True)
    except (OSError, subprocess.CalledProcessError):
        raise OSError("PASHKURE_LIB_DIR is not set, and pkg-config knows no pashkure (`./mmdetect library DIR` writes the library)") from None
    return told.stdout.strip()


def _with_extension(files):
    """Adds the C extension, or what says why there is none. Returns the tag of the wheel."""
    with tempfile.TemporaryDirectory() as folder:
        try:
            built = extension(folder)
        except OSError as error:
            files[f"{EXTENSION}.py"] = f"raise ImportError({f'pashkure was installed without its C extension: {error}'!r})\n".encode()
            return "py3-none-any"
        files[built.name] = built.read_bytes()
        python = f"cp{sys.version_info[0]}{sys.version_info[1]}"
        return f"{python}-{python}-{sysconfig.get_platform().replace('-', '_').replace('.', '_')}"


def _wheel(folder, files):
    tag = _with_extension(files)
    about = {**PARTS, "WHEEL": PARTS["WHEEL"].format("true" if tag.endswith("-any") else "false", tag)}
    files.update({f"{INFO}/{name}": text.encode() for name, text in about.items()})
    digests = {path: base64.urlsafe_b64encode(hashlib.sha256(data).digest()).rstrip(b"=").decode() for path, data in files.items()}
    files[f"{INFO}/RECORD"] = "".join([*(f"{path},sha256={digests[path]},{len(files[path])}\n" for path in digests), f"{INFO}/RECORD,,\n"]).encode()
    name = f"{NAME}-{VERSION}-{tag}.whl"
    with zipfile.ZipFile(pathlib.Path(folder, name), "w") as out:
        for path, data in files.items():
            entry = zipfile.ZipInfo(path, (2020, 1, 1, 0, 0, 0))  # so that the same sources give the same bytes
            entry.external_attr = 0o644 << 16
            out.writestr(entry, data, zipfile.ZIP_DEFLATED)
    return name
