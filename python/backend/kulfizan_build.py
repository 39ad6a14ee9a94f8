"""The build backend (PEP 517) of the package: a wheel by `zipfile` with the shared library in it, by the standard library alone.

The library is the file that the environment variable KULFIZAN_LIBRARY names, else kulfizan/libkulfizan.so, else the one that
`make lib` writes into ../target/lib. Two wheels of one source and one library have the same bytes.
"""
import base64
import hashlib
import io
import os
import pathlib
import re
import tarfile
import zipfile

HERE = pathlib.Path(__file__).resolve().parent.parent
PACKAGE = HERE / "kulfizan"
LIBRARY = "libkulfizan.so"
TAG = "py3-none-linux_x86_64"
EPOCH = (1980, 1, 1, 0, 0, 0)
SUMMARY = "The AG2014 mortality table and later fits of its model: figures of which every printed digit is proved"


def version():
    """The version that the package names itself."""
    return re.search(r'^__version__ = "([^"]+)"$', (PACKAGE / "__init__.py").read_text(), re.M)[1]


def library():
    """The bytes of the shared library."""
    named = os.environ.get("KULFIZAN_LIBRARY")
    places = [pathlib.Path(named)] if named else [PACKAGE / LIBRARY, HERE.parent / "target" / "lib" / LIBRARY]
    for place in places:
        if place.is_file():
            return place.read_bytes()
    looked = " and ".join(map(str, places))
    raise SystemExit(f"kulfizan: no {LIBRARY} at {looked}: `make lib` builds it, and KULFIZAN_LIBRARY names another")


def sources():
    """The package's own files by their names in a wheel, in order; the library is none of them."""
    found = sorted(path for path in PACKAGE.rglob("*") if path.is_file() and path.suffix not in (".pyc", ".so"))
    return {path.relative_to(HERE).as_posix(): path.read_bytes() for path in found}


def metadata():
    """The files of the wheel's dist-info folder, but for RECORD."""
    described = f"Metadata-Version: 2.1\nName: kulfizan\nVersion: {version()}\nSummary: {SUMMARY}\n"
    described += "Requires-Python: >=3.9\nClassifier: Operating System :: POSIX :: Linux\nClassifier: Typing :: Typed\n"
    wheel = f"Wheel-Version: 1.0\nGenerator: kulfizan_build\nRoot-Is-Purelib: false\nTag: {TAG}\n"
    return {"METADATA": described, "WHEEL": wheel, "entry_points.txt": "[console_scripts]\nkulfizan = kulfizan.cli:main\n"}


def folder():
    """The name of the dist-info folder."""
    return f"kulfizan-{version()}.dist-info"


def recorded(files):
    """The text of RECORD: each file's name, digest and size, and its own name alone."""
    rows = []
    for name, data in files.items():
        digest = base64.urlsafe_b64encode(hashlib.sha256(data).digest()).decode().rstrip("=")
        rows.append(f"{name},sha256={digest},{len(data)}\n")
    return "".join(rows) + f"{folder()}/RECORD,,\n"


def contents():
    """The files of the wheel, in order."""
    files = {**sources(), f"kulfizan/{LIBRARY}": library()}
    files.update((f"{folder()}/{name}", text.encode()) for name, text in metadata().items())
    return {**files, f"{folder()}/RECORD": recorded(files).encode()}


# ---- the calls of PEP 517

def get_requires_for_build_wheel(config_settings=None):
    return []


def get_requires_for_build_sdist(config_settings=None):
    return []


def prepare_metadata_for_build_wheel(metadata_directory, config_settings=None):
    where = pathlib.Path(metadata_directory) / folder()
    where.mkdir(parents=True)
    for name, text in metadata().items():
        (where / name).write_text(text)
    return where.name


def build_wheel(wheel_directory, config_settings=None, metadata_directory=None):
    name = f"kulfizan-{version()}-{TAG}.whl"
    files = contents()
    with zipfile.ZipFile(pathlib.Path(wheel_directory) / name, "w", zipfile.ZIP_DEFLATED) as wheel:
        for path, data in files.items():
            entry = zipfile.ZipInfo(path, EPOCH)
            entry.compress_type = zipfile.ZIP_DEFLATED
            entry.external_attr = (0o100755 if path.endswith(".so") else 0o100644) << 16
            wheel.writestr(entry, data)
    return name


def build_sdist(sdist_directory, config_settings=None):
    """The package's folder with the library in it, so that a wheel can be built of it elsewhere."""
    root = f"kulfizan-{version()}"
    files = {**sources(), f"kulfizan/{LIBRARY}": library()}
    files["pyproject.toml"] = (HERE / "pyproject.toml").read_bytes()
    files["backend/kulfizan_build.py"] = pathlib.Path(__file__).read_bytes()
    files["PKG-INFO"] = metadata()["METADATA"].encode()
    with tarfile.open(pathlib.Path(sdist_directory) / f"{root}.tar.gz", "w:gz", format=tarfile.PAX_FORMAT) as archive:
        for path, data in files.items():
            entry = tarfile.TarInfo(f"{root}/{path}")
            entry.size, entry.mode = len(data), 0o644
            archive.addfile(entry, io.BytesIO(data))
    return f"{root}.tar.gz"
