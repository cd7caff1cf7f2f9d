"""Compiles the package's module over the C library that pkg-config finds, and makes a wheel of it for pip.

It needs a C compiler (CC, or cc), the headers of Python and `pkg-config`, and passes on CFLAGS and LDFLAGS. One wheel
serves Python 3.9 and later. The same sources, compiler, zlib and SOURCE_DATE_EPOCH give the same bytes.
"""
import base64
import gzip
import hashlib
import io
import os
import pathlib
import platform
import re
import shlex
import shutil
import subprocess
import sysconfig
import tarfile
import tempfile
import time
import zipfile

HERE = pathlib.Path(__file__).resolve().parent
PACKAGE = "gix_config_value"
LICENSES = ("LICENSE-APACHE", "LICENSE-MIT")
SOURCES = ("_core.c", "_core.h", "_entries.c", "pyproject.toml", "wheel_of_package.py")
MODULE = "_core.abi3.so"
# the C library of manylinux2014, which a wheel for any Linux may ask for
OLDEST_GLIBC = 17


# a file of the repository that the archive of the sources has too
VERSION = "VERSION"
PLACES = {VERSION: "crates/gix_config_value_c/VERSION"}


def _said(key):
    """The value of a key of pyproject.toml."""
    text = (HERE / "pyproject.toml").read_text(encoding="utf-8")
    return re.search(rf'^{key} = (?:\[{{name = )?"(.*)"(?:}}\])?$', text, re.MULTILINE).group(1)


def _shared(name):
    """A file that the repository has in another place, beside the archive's sources or in the repository."""
    for place in (HERE / name, HERE.parent / PLACES.get(name, name)):
        if place.exists():
            return place.read_bytes()
    raise SystemExit(f"{HERE} has no {name}: build_sdist in the repository makes an archive of the sources that has it")


def _version():
    return _shared(VERSION).decode().strip()


def _words(variable, default=""):
    return shlex.split(os.environ.get(variable) or default)


def _library(asked):
    """What pkg-config says about the C library."""
    command = [*_words("PKG_CONFIG", "pkg-config"), asked, PACKAGE]
    if not shutil.which(command[0]):
        raise SystemExit(f"{command[0]}, which finds the C library {PACKAGE}, is not installed")
    run = subprocess.run(command, stdout=subprocess.PIPE, stderr=subprocess.DEVNULL, text=True, check=False)
    if run.returncode != 0:
        raise SystemExit(f"the C library {PACKAGE} is missing: build.sh or install.sh of the repository installs it "
                         "into a PREFIX, where PKG_CONFIG_PATH=PREFIX/lib/pkgconfig lets pkg-config find it")
    # pkg-config writes a backslash before a space
    return re.sub(r"\\(.)", r"\1", run.stdout.strip())


def _compiled():
    """The bytes of the module, which exports only its entry point."""
    found, wanted = _library("--modversion"), _version()
    if found != wanted:
        raise SystemExit(f"pkg-config finds {PACKAGE} {found}, and the package needs {wanted}")
    include, folder = _library("--variable=includedir"), _library("--variable=libdir")
    with tempfile.TemporaryDirectory() as work:
        module = pathlib.Path(work, MODULE)
        subprocess.run([*_words("CC", "cc"), "-std=c99", "-O2", "-fPIC", "-fvisibility=hidden",
                        "-Werror=implicit-function-declaration", *_words("CFLAGS"),
                        f"-I{sysconfig.get_path('include')}", f"-I{include}", "-shared", "_core.c", "_entries.c",
                        f"{folder}/lib{PACKAGE}.a", *_words("LDFLAGS"), "-Wl,--exclude-libs,ALL", "-s", "-o", module],
                       cwd=HERE, check=True)
        return module.read_bytes()


def _tag(module):
    """The tag of what the module needs: the stable ABI of 3.9, and the C library whose version its symbols name."""
    machine = platform.machine()
    if platform.libc_ver()[0] != "glibc":
        return f"cp39-abi3-{re.sub('[^A-Za-z0-9]', '_', sysconfig.get_platform())}"
    newest = max([OLDEST_GLIBC, *map(int, re.findall(rb"GLIBC_2\.(\d+)", module))])
    older = f".manylinux2014_{machine}" if newest == OLDEST_GLIBC else ""
    return f"cp39-abi3-manylinux_2_{newest}_{machine}{older}"


def _metadata():
    # the docstring of the package is the description on its page
    description = re.match(r'"""(.*?)"""', (HERE / PACKAGE / "__init__.py").read_text("utf-8"), re.DOTALL)[1]
    classifiers = ("Development Status :: 4 - Beta", "Intended Audience :: Developers",
                   "Operating System :: POSIX :: Linux", "Programming Language :: C",
                   "Programming Language :: Python :: 3", "Topic :: Software Development :: Version Control :: Git",
                   "Typing :: Typed")
    return "".join([
        f"Metadata-Version: 2.4\nName: {_said('name')}\nVersion: {_version()}\n",
        f"Summary: {_said('description')}\nAuthor: {_said('authors')}\nLicense-Expression: {_said('license')}\n",
        *(f"License-File: {name}\n" for name in LICENSES),
        *(f"Classifier: {classifier}\n" for classifier in classifiers),
        f"Requires-Python: {_said('requires-python')}\nDescription-Content-Type: text/plain\n\n{description}",
    ]).encode()


def _package():
    """The files of the package, by their names, without files that Python or a compiler left there."""
    return {f"{PACKAGE}/{file.name}": file.read_bytes() for file in sorted((HERE / PACKAGE).iterdir())
            if file.suffix in (".py", ".pyi", ".typed")}


def _tests():
    return {f"tests/{file.name}": file.read_bytes() for file in sorted((HERE / "tests").glob("*.py"))}


def _time():
    return max(int(os.environ.get("SOURCE_DATE_EPOCH", 0)), 315532800)  # a zip begins in 1980


def _record(name, data):
    digest = base64.urlsafe_b64encode(hashlib.sha256(data).digest()).rstrip(b"=").decode()
    return f"{name},sha256={digest},{len(data)}\n"


def build_wheel(wheel_directory, config_settings=None, metadata_directory=None):
    """Writes the wheel, and returns its file name."""
    module = _compiled()
    name = f"{_said('name')}-{_version()}"
    info, tag = f"{name}.dist-info", _tag(module)
    files = {**_package(), f"{PACKAGE}/{MODULE}": module, f"{info}/METADATA": _metadata()}
    files.update((f"{info}/licenses/{license}", _shared(license)) for license in LICENSES)
    tags = "".join(f"Tag: cp39-abi3-{one}\n" for one in tag.rpartition("-")[2].split("."))
    files[f"{info}/WHEEL"] = f"Wheel-Version: 1.0\nGenerator: {__name__}\nRoot-Is-Purelib: false\n{tags}".encode()
    records = "".join(_record(path, data) for path, data in files.items())
    files[f"{info}/RECORD"] = f"{records}{info}/RECORD,,\n".encode()
    wheel = f"{name}-{tag}.whl"
    with zipfile.ZipFile(pathlib.Path(wheel_directory, wheel), "w") as archive:
        for path, data in files.items():
            entry = zipfile.ZipInfo(path, time.gmtime(_time())[:6])
            entry.compress_type, entry.create_system = zipfile.ZIP_DEFLATED, 3
            entry.external_attr = (0o100755 if path.endswith(".so") else 0o100644) << 16
            archive.writestr(entry, data)
    return wheel


def build_sdist(sdist_directory, config_settings=None):
    """Writes an archive of the sources, and returns its name. From it a wheel can be made if the C library is there."""
    name = f"{_said('name')}-{_version()}"
    files = {**_package(), **_tests(), **{source: (HERE / source).read_bytes() for source in SOURCES},
             **{name: _shared(name) for name in (*LICENSES, VERSION)}, "PKG-INFO": _metadata()}
    with (open(pathlib.Path(sdist_directory, f"{name}.tar.gz"), "wb") as file,
          gzip.GzipFile("", "wb", fileobj=file, mtime=_time()) as packed,
          tarfile.open(fileobj=packed, mode="w", format=tarfile.PAX_FORMAT) as archive):
        for path, data in files.items():
            entry = tarfile.TarInfo(f"{name}/{path}")
            entry.size, entry.mtime = len(data), _time()
            archive.addfile(entry, io.BytesIO(data))
    return f"{name}.tar.gz"
