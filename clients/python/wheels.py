"""Builds the package, as PEP 517 asks it of a backend. It needs nothing but Python, so that pip needs no network."""
import base64
import hashlib
import io
import tarfile
import tomllib
import zipfile
from pathlib import Path

HERE = Path(__file__).resolve().parent
PROJECT = tomllib.loads((HERE / "pyproject.toml").read_text())["project"]
NAME = f"{PROJECT['name']}-{PROJECT['version']}"
WHEEL = "Wheel-Version: 1.0\nGenerator: wheels\nRoot-Is-Purelib: true\nTag: py3-none-any\n"


def metadata():
    lines = [("Metadata-Version", "2.1"), *((word.capitalize(), PROJECT[word]) for word in ("name", "version"))]
    lines += [("Summary", PROJECT["description"]), ("Requires-Python", PROJECT["requires-python"])]
    lines += [("Classifier", classifier) for classifier in PROJECT["classifiers"]]
    return "".join(f"{name}: {value}\n" for name, value in lines).encode()


def package():
    """The package's files by their names."""
    files = (path for path in (HERE / PROJECT["name"]).iterdir() if path.suffix == ".py" or path.name == "py.typed")
    return {f"{PROJECT['name']}/{path.name}": path.read_bytes() for path in sorted(files)}


def recorded(name, content):
    digest = base64.urlsafe_b64encode(hashlib.sha256(content).digest()).rstrip(b"=").decode()
    return f"{name},sha256={digest},{len(content)}\n"


def build_wheel(wheel_directory, config_settings=None, metadata_directory=None):
    info = f"{NAME}.dist-info"
    files = {**package(), f"{info}/METADATA": metadata(), f"{info}/WHEEL": WHEEL.encode()}
    record = "".join(recorded(name, content) for name, content in files.items()) + f"{info}/RECORD,,\n"
    path = Path(wheel_directory, f"{NAME}-py3-none-any.whl")
    with zipfile.ZipFile(path, "w", zipfile.ZIP_DEFLATED) as wheel:
        for name, content in {**files, f"{info}/RECORD": record.encode()}.items():
            # as of 1980, so that equal files give equal wheels
            entry = zipfile.ZipInfo(name)
            entry.compress_type, entry.external_attr = zipfile.ZIP_DEFLATED, 0o644 << 16
            wheel.writestr(entry, content)
    return path.name


def build_sdist(sdist_directory, config_settings=None):
    files = {**package(), **{name: (HERE / name).read_bytes() for name in ("pyproject.toml", "wheels.py")}, "PKG-INFO": metadata()}
    path = Path(sdist_directory, f"{NAME}.tar.gz")
    with tarfile.open(path, "w:gz", format=tarfile.PAX_FORMAT) as archive:
        for name, content in files.items():
            entry = tarfile.TarInfo(f"{NAME}/{name}")
            entry.size = len(content)
            archive.addfile(entry, io.BytesIO(content))
    return path.name
