"""Builds the wheel with the standard library alone, so that `pip install ./python` wants no network.

The program goes along if ../release has it. The wheel is then one for Linux on x86-64.
"""
import base64
import hashlib
import io
import pathlib
import re
import tarfile
import zipfile

HERE = pathlib.Path(__file__).resolve().parent
TEXT = re.compile(r'^([\w-]+) = "(.*)"$', re.M)
PROGRAM = HERE.parent / "release" / "hyperball-x86_64-linux"


def build_wheel(wheel_directory, config_settings=None, metadata_directory=None):
    files = {f"hyperball/{path.name}": path.read_bytes() for path in sorted((HERE / "hyperball").iterdir()) if path.is_file()}
    if not PROGRAM.is_file():
        return write_wheel(wheel_directory, "py3-none-any", files)
    files[f"hyperball/{PROGRAM.name}"] = PROGRAM.read_bytes()
    return write_wheel(wheel_directory, "py3-none-linux_x86_64", files)


def build_editable(wheel_directory, config_settings=None, metadata_directory=None):
    return write_wheel(wheel_directory, "py3-none-any", {"hyperball.pth": f"{HERE}\n".encode()})


def build_sdist(sdist_directory, config_settings=None):
    stem = "{name}-{version}".format(**project())
    with tarfile.open(pathlib.Path(sdist_directory, f"{stem}.tar.gz"), "w:gz") as archive:
        for name in ("pyproject.toml", "backend.py", "README.md", "hyperball"):
            archive.add(HERE / name, f"{stem}/{name}", filter=lambda file: None if "__pycache__" in file.name else file)
        about = tarfile.TarInfo(f"{stem}/PKG-INFO")
        about.size = len(metadata().encode())
        archive.addfile(about, io.BytesIO(metadata().encode()))
    return f"{stem}.tar.gz"


def project():
    """The texts of pyproject.toml's table of the project."""
    return dict(TEXT.findall(tables()["project"]))


def entry_points():
    """The text of entry_points.txt: by what networkx finds the package."""
    return "".join(f"[{group}]\n" + "".join(f"{name} = {place}\n" for name, place in TEXT.findall(table)) + "\n"
                   for group, table in ((name.split('"')[1], table) for name, table in tables().items() if "entry-points" in name))


def tables():
    """The tables of pyproject.toml, by their names."""
    parts = re.split(r"^\[(.*)\]\n", (HERE / "pyproject.toml").read_text(), flags=re.M)
    return dict(zip(parts[1::2], parts[2::2]))


def metadata():
    about = project()
    return ("Metadata-Version: 2.1\nName: {name}\nVersion: {version}\nSummary: {description}\n"
            "Requires-Python: {requires-python}\n".format(**about)
            + "Description-Content-Type: text/markdown\n\n" + (HERE / "README.md").read_text())


def write_wheel(folder, tag, files):
    stem = "{name}-{version}".format(**project())
    info = f"{stem}.dist-info"
    wheel = f"Wheel-Version: 1.0\nGenerator: hyperball\nRoot-Is-Purelib: {str(tag.endswith('any')).lower()}\nTag: {tag}\n"
    files = {**files, f"{info}/METADATA": metadata().encode(), f"{info}/WHEEL": wheel.encode(),
             f"{info}/entry_points.txt": entry_points().encode()}
    record = "".join(f"{name},sha256={digest(text)},{len(text)}\n" for name, text in files.items()) + f"{info}/RECORD,,\n"
    with zipfile.ZipFile(pathlib.Path(folder, f"{stem}-{tag}.whl"), "w", zipfile.ZIP_DEFLATED) as archive:
        for name, text in {**files, f"{info}/RECORD": record.encode()}.items():
            entry = zipfile.ZipInfo(name)  # of one date, so that the same files make the same wheel
            entry.external_attr = (0o100755 if name.endswith(PROGRAM.name) else 0o100644) << 16
            entry.compress_type = zipfile.ZIP_DEFLATED
            archive.writestr(entry, text)
    return f"{stem}-{tag}.whl"


def digest(text):
    return base64.urlsafe_b64encode(hashlib.sha256(text).digest()).rstrip(b"=").decode()
