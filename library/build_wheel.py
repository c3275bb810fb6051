"""Makes the wheel that `pip install ./library` installs, and the sdist (PEP 517): the package n2kdec, with the library that it calls.

The library is the file that the variable N2KDEC_LIBRARY names; otherwise the one that library/build makes, if the command rt of the
Rattle kit is installed. Without both the wheel contains no library, and the package calls the system's libn2kdec.so.1; if that is
missing too, no wheel is made, and an error says why. The sdist never contains the library.
"""
import base64
import ctypes
import gzip
import hashlib
import io
import os
import pathlib
import re
import shutil
import struct
import subprocess
import tarfile
import tempfile
import zipfile

HERE = pathlib.Path(__file__).resolve().parent
# The processors of an ELF file.
PROCESSORS = {62: "x86_64", 183: "aarch64"}


def _version():
    return re.search(r'^__version__ = "([0-9.]+)"$', (HERE / "n2kdec/__init__.py").read_text(encoding="utf-8"), re.M)[1]


def _package():
    """The files of the package, by name."""
    names = [*sorted(it.name for it in HERE.glob("n2kdec/*.py")), "py.typed"]
    return {f"n2kdec/{name}": (HERE / "n2kdec" / name).read_bytes() for name in names}


def _platform(library):
    """The platform of a library, by the rule of PEP 600: which glibc it needs, if it needs nothing else."""
    processor = PROCESSORS[struct.unpack_from("<H", library, 18)[0]]
    needs = set(re.findall(rb"\0(lib[^\0/]+\.so[.0-9]*)(?=\0)", library)) - {b"libn2kdec.so.1"}
    glibc = [int(it) for it in re.findall(rb"\0GLIBC_2\.([0-9]+)[.0-9]*(?=\0)", library)]
    return f"manylinux_2_{max(17, *glibc)}_{processor}" if needs == {b"libc.so.6"} and glibc else f"linux_{processor}"


def _library():
    """The bytes of the library, or None where the system has it."""
    named = os.environ.get("N2KDEC_LIBRARY")
    if named:
        return pathlib.Path(named).read_bytes()
    if shutil.which("rt") and (HERE / "build").exists():
        with tempfile.TemporaryDirectory() as folder:
            subprocess.run([HERE / "build", folder], check=True)
            return pathlib.Path(folder, "libn2kdec.so.1").read_bytes()
    try:
        ctypes.CDLL("libn2kdec.so.1")
    except OSError as error:
        raise SystemExit(f"{error}: install the package libn2kdec1, or name the library by N2KDEC_LIBRARY") from error
    return None


def _metadata(version):
    return (
        f"Metadata-Version: 2.1\nName: n2kdec\nVersion: {version}\n"
        "Summary: Proved decoder of recorded NMEA 2000 traffic\nRequires-Python: >=3.9\n"
    ).encode()


def prepare_metadata_for_build_wheel(metadata_directory, config_settings=None):
    """Writes what pip asks for first, before anything is built, and gives its folder's name."""
    version = _version()
    about = pathlib.Path(metadata_directory, f"n2kdec-{version}.dist-info")
    about.mkdir()
    (about / "METADATA").write_bytes(_metadata(version))
    return about.name


def _digest(content):
    return base64.urlsafe_b64encode(hashlib.sha256(content).digest()).rstrip(b"=").decode()


def build_wheel(wheel_directory, config_settings=None, metadata_directory=None):
    """Writes the wheel into a folder, and gives its name. The same files make the same bytes."""
    version, library, files = _version(), _library(), _package()
    tag = "py3-none-any" if library is None else f"py3-none-{_platform(library)}"
    if library is not None:
        files["n2kdec/libn2kdec.so.1"] = library
    about = f"n2kdec-{version}.dist-info"
    files[f"{about}/METADATA"] = _metadata(version)
    files[f"{about}/WHEEL"] = (
        f"Wheel-Version: 1.0\nGenerator: n2kdec\nRoot-Is-Purelib: {str(library is None).lower()}\nTag: {tag}\n"
    ).encode()
    record = "".join(f"{name},sha256={_digest(content)},{len(content)}\n" for name, content in files.items())
    files[f"{about}/RECORD"] = f"{record}{about}/RECORD,,\n".encode()
    name = f"n2kdec-{version}-{tag}.whl"
    with zipfile.ZipFile(pathlib.Path(wheel_directory, name), "w", zipfile.ZIP_DEFLATED) as wheel:
        for path, content in files.items():
            entry = zipfile.ZipInfo(path)
            entry.external_attr = 0o644 << 16
            entry.compress_type = zipfile.ZIP_DEFLATED
            wheel.writestr(entry, content)
    return name


def build_sdist(sdist_directory, config_settings=None):
    """Writes the sdist into a folder, and gives its name. The same files make the same bytes."""
    version = _version()
    files = {name: (HERE / name).read_bytes() for name in ("build_wheel.py", "pyproject.toml")}
    files = {"PKG-INFO": _metadata(version), **files, **_package()}
    name, time = f"n2kdec-{version}.tar.gz", int(os.environ.get("SOURCE_DATE_EPOCH") or 0)
    with open(pathlib.Path(sdist_directory, name), "wb") as out, gzip.GzipFile("", "wb", mtime=time, fileobj=out) as packed, \
            tarfile.open(fileobj=packed, mode="w", format=tarfile.PAX_FORMAT) as sdist:
        for path, content in files.items():
            entry = tarfile.TarInfo(f"n2kdec-{version}/{path}")
            entry.size, entry.mtime = len(content), time
            sdist.addfile(entry, io.BytesIO(content))
    return name
