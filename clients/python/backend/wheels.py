"""Builds the wheel of this folder by the standard library alone, so that `pip install clients/python` asks no network.

These are the hooks of PEP 517 and PEP 660 that pip calls, in this folder.
"""
import base64
import hashlib
import io
import os
import tarfile
import tomllib
import zipfile

PACKAGE = "locks_client"
TAG = "py3-none-any"
LONG_AGO = (1980, 1, 1, 0, 0, 0)  # the time of each file in the wheel, so that equal sources make equal wheels


def project():
    """What pyproject.toml says of the project."""
    with open("pyproject.toml", "rb") as file:
        return tomllib.load(file)["project"]


def stem(about):
    """The name and the version, as file names have them."""
    return f"{about['name'].replace('-', '_')}-{about['version']}"


def sources():
    """The files of the package."""
    names = sorted(os.listdir(PACKAGE))
    return [f"{PACKAGE}/{name}" for name in names if name.endswith((".py", ".typed"))]


def metadata(about):
    """The text of METADATA."""
    lines = ["Metadata-Version: 2.1", f"Name: {about['name']}", f"Version: {about['version']}"]
    lines += [f"Summary: {about['description']}", f"Requires-Python: {about['requires-python']}"]
    return "\n".join(lines) + "\n"


def described(about):
    """The files that describe the project, by their paths in the wheel."""
    folder = f"{stem(about)}.dist-info"
    scripts = "".join(f"{name} = {entry}\n" for name, entry in about["scripts"].items())
    return {
        f"{folder}/METADATA": metadata(about).encode(),
        f"{folder}/WHEEL": f"Wheel-Version: 1.0\nGenerator: wheels\nRoot-Is-Purelib: true\nTag: {TAG}\n".encode(),
        f"{folder}/entry_points.txt": f"[console_scripts]\n{scripts}".encode(),
    }


def recorded(files, record):
    """The text of RECORD: a line for each file, with its digest and its length."""
    lines = []
    for path, data in files.items():
        digest = base64.urlsafe_b64encode(hashlib.sha256(data).digest()).rstrip(b"=").decode()
        lines.append(f"{path},sha256={digest},{len(data)}")
    return "\n".join([*lines, f"{record},,"]) + "\n"


def wheel_of(files, about, folder):
    """Writes a wheel of these files and those that describe the project. Its name."""
    files = files | described(about)
    record = f"{stem(about)}.dist-info/RECORD"
    files[record] = recorded(files, record).encode()
    name = f"{stem(about)}-{TAG}.whl"
    with zipfile.ZipFile(os.path.join(folder, name), "w") as wheel:
        for path, data in files.items():
            wheel.writestr(entry_of(path), data, zipfile.ZIP_DEFLATED)
    return name


def entry_of(path):
    """How the wheel lists a file."""
    entry = zipfile.ZipInfo(path, LONG_AGO)
    entry.external_attr = 0o644 << 16
    return entry


def read(path):
    """The bytes of a file."""
    with open(path, "rb") as file:
        return file.read()


def build_wheel(wheel_directory, config_settings=None, metadata_directory=None):
    """Writes the wheel. Its name."""
    return wheel_of({path: read(path) for path in sources()}, project(), wheel_directory)


def build_editable(wheel_directory, config_settings=None, metadata_directory=None):
    """Writes a wheel that points to this folder. Its name."""
    return wheel_of({f"{PACKAGE}.pth": f"{os.getcwd()}\n".encode()}, project(), wheel_directory)


def build_sdist(sdist_directory, config_settings=None):
    """Writes an archive of the sources. Its name."""
    about = project()
    name = f"{stem(about)}.tar.gz"
    extra = {f"{stem(about)}/PKG-INFO": metadata(about).encode()}
    with tarfile.open(os.path.join(sdist_directory, name), "w:gz") as archive:
        for path in ["pyproject.toml", "README.md", "backend/wheels.py", *sources()]:
            archive.add(path, f"{stem(about)}/{path}")
        for path, data in extra.items():
            info = tarfile.TarInfo(path)
            info.size = len(data)
            archive.addfile(info, io.BytesIO(data))
    return name
