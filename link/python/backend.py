"""What pip asks when it installs the module (PEP 517 and 660): a wheel of tankcurve/ with the shared object in it. Only the standard library
is used, so that nothing is fetched. The shared object is made from the archive; where there is none, one that `build` has made before is taken."""

import base64
import hashlib
import re
import subprocess
import tempfile
import zipfile
from pathlib import Path

HERE = Path(__file__).resolve().parent
PACKAGE = HERE / "tankcurve"
SHARED = "libtankcurve.so"
TAG = "py3-none-linux_x86_64"


def _version():
    found = re.search(r"^VERSION = 0x([0-9a-f]{2})([0-9a-f]{2})([0-9a-f]{2})$", (PACKAGE / "_header.py").read_text(), re.M)
    return ".".join(str(int(part, 16)) for part in found.groups())


def _shared_object(folder):
    """The shared object's bytes."""
    made = subprocess.run([HERE / "build", folder], capture_output=True, text=True)
    if made.returncode == 0:
        return (Path(folder) / SHARED).read_bytes()
    if (PACKAGE / SHARED).exists():
        return (PACKAGE / SHARED).read_bytes()
    raise RuntimeError(made.stderr.strip())


def _wheel(folder, files):
    name = f"tankcurve-{_version()}"
    info = f"{name}.dist-info"
    files = {
        **files,
        f"{info}/METADATA": (
            f"Metadata-Version: 2.1\nName: tankcurve\nVersion: {_version()}\nRequires-Python: >=3.9\n"
            "Summary: Kernel regression in exact whole numbers, by proved calls\n"
        ).encode(),
        f"{info}/WHEEL": f"Wheel-Version: 1.0\nGenerator: tankcurve\nRoot-Is-Purelib: false\nTag: {TAG}\n".encode(),
    }
    record = ""
    with zipfile.ZipFile(Path(folder) / f"{name}-{TAG}.whl", "w", zipfile.ZIP_DEFLATED) as wheel:
        for path, contents in files.items():
            wheel.writestr(path, contents)
            digest = base64.urlsafe_b64encode(hashlib.sha256(contents).digest()).rstrip(b"=").decode()
            record += f"{path},sha256={digest},{len(contents)}\n"
        wheel.writestr(f"{info}/RECORD", f"{record}{info}/RECORD,,\n")
    return f"{name}-{TAG}.whl"


def build_wheel(wheel_directory, config_settings=None, metadata_directory=None):
    files = {f"tankcurve/{path.name}": path.read_bytes() for path in sorted([*PACKAGE.glob("*.py"), PACKAGE / "py.typed"])}
    with tempfile.TemporaryDirectory() as folder:
        files[f"tankcurve/{SHARED}"] = _shared_object(folder)
    return _wheel(wheel_directory, files)


def build_editable(wheel_directory, config_settings=None, metadata_directory=None):
    subprocess.run([HERE / "build"], check=True)
    return _wheel(wheel_directory, {"tankcurve.pth": f"{HERE}\n".encode()})


def build_sdist(sdist_directory, config_settings=None):
    raise RuntimeError("there is no archive of sources: install the folder")
