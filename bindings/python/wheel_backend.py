"""Writes the wheel of this package, for pip: a build backend that needs no other package, and so no network."""
import base64
import hashlib
import re
import zipfile
from pathlib import Path

HERE = Path(__file__).resolve().parent
SONAME = "libcroner.so.1"
METADATA = """Metadata-Version: 2.1
Name: croner-proved
Version: {version}
Summary: Cron patterns and their runs, by a library whose answers are proved
License: MIT
Requires-Python: >=3.9
"""
WHEEL = """Wheel-Version: 1.0
Generator: {generator}
Root-Is-Purelib: {is_pure}
Tag: {tag}
"""


def record(name, data):
    """The line of a file in the list of all."""
    digest = base64.urlsafe_b64encode(hashlib.sha256(data).digest()).rstrip(b"=").decode()
    return f"{name},sha256={digest},{len(data)}\n"


def build_wheel(wheel_directory, config_settings=None, metadata_directory=None):
    """Writes the wheel into a folder, with the library if it lies in the package's; gives the name of its file."""
    version = re.search(r'(?m)^version = "(.*)"$', (HERE / "pyproject.toml").read_text(encoding="utf-8"))[1]
    has_library = (HERE / "croner" / SONAME).exists()
    tag = f"py3-none-{'linux_x86_64' if has_library else 'any'}"
    info = f"croner_proved-{version}.dist-info"
    files = {f"croner/{it.name}": it.read_bytes() for it in sorted((HERE / "croner").iterdir()) if it.is_file()}
    files[f"{info}/METADATA"] = METADATA.format(version=version).encode()
    files[f"{info}/WHEEL"] = WHEEL.format(generator=__name__, is_pure=str(not has_library).lower(), tag=tag).encode()
    files[f"{info}/RECORD"] = ("".join(record(*it) for it in files.items()) + f"{info}/RECORD,,\n").encode()
    name = f"croner_proved-{version}-{tag}.whl"
    with zipfile.ZipFile(Path(wheel_directory, name), "w", zipfile.ZIP_DEFLATED) as wheel:
        for path, data in files.items():
            wheel.writestr(zipfile.ZipInfo(path), data, zipfile.ZIP_DEFLATED)
    return name
