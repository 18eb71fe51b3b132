"""Builds the wheel of the module (PEP 517) with Python's own library: the module's files and, beside them, the proved shared library.

The library is the one that NDIGOMARR_LIBRARY names, or the checkout's, which tools/library proves and writes.
"""
import base64
import hashlib
import os
import pathlib
import shutil
import subprocess
import zipfile

HERE = pathlib.Path(__file__).resolve().parent.parent
NAME, VERSION, TAG = "ndigomarr", "0.1.0", "py3-none-linux_x86_64"
LIBRARY = "libndigomarr.so"


def library():
    """The path of the shared library, made as the sources stand."""
    named = os.environ.get("NDIGOMARR_LIBRARY")
    if named:
        return pathlib.Path(named)
    root = HERE.parent.parent
    made = root / "target/lib" / LIBRARY
    # with the kit at hand the library is that of the sources as they stand; what has not changed is not proved again
    if shutil.which("rt") or not made.exists():
        subprocess.run([root / "tools/library"], check=True)
    return made


def metadata():
    text = (HERE / "README.md").read_text(encoding="utf-8")
    return f"Metadata-Version: 2.1\nName: {NAME}\nVersion: {VERSION}\nRequires-Python: >=3.8\nLicense: MIT\nDescription-Content-Type: text/markdown\n\n{text}"


def line_of(path, content):
    digest = base64.urlsafe_b64encode(hashlib.sha256(content).digest()).rstrip(b"=").decode()
    return f"{path},sha256={digest},{len(content)}\n"


def build_wheel(wheel_directory, config_settings=None, metadata_directory=None):
    info = f"{NAME}-{VERSION}.dist-info"
    files = {f"{NAME}/{path.name}": path.read_bytes() for path in sorted((HERE / NAME).iterdir()) if path.is_file()}
    files[f"{NAME}/{LIBRARY}"] = library().read_bytes()
    files[f"{info}/METADATA"] = metadata().encode()
    files[f"{info}/WHEEL"] = f"Wheel-Version: 1.0\nGenerator: {NAME}\nRoot-Is-Purelib: false\nTag: {TAG}\n".encode()
    record = "".join(line_of(path, content) for path, content in files.items()) + f"{info}/RECORD,,\n"
    wheel = f"{NAME}-{VERSION}-{TAG}.whl"
    with zipfile.ZipFile(pathlib.Path(wheel_directory) / wheel, "w", zipfile.ZIP_DEFLATED) as out:
        for path, content in {**files, f"{info}/RECORD": record.encode()}.items():
            out.writestr(path, content)
    return wheel
