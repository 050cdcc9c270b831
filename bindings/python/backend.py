"""Builds the wheel of perlwynos, as pip asks for it (PEP 517), with the standard library alone.

The shared object is made by the script `build` from the static library, where that is there; else the one that stands in
perlwynos/ is taken as it is.
"""

import base64
import hashlib
import os
import pathlib
import platform
import re
import subprocess
import sys
import zipfile

HERE = pathlib.Path(__file__).resolve().parent
PACKAGE = HERE / "perlwynos"
SHARED = PACKAGE / "libperlwynos.so"
TAG = "py3-none-linux_x86_64"

METADATA = """\
Metadata-Version: 2.1
Name: perlwynos
Version: {version}
Summary: Chain names of lipids to one CXSMILES line with the atom number of every chain carbon
Requires-Python: >=3.8
Description-Content-Type: text/markdown

{readme}"""

WHEEL = f"""\
Wheel-Version: 1.0
Generator: perlwynos backend
Root-Is-Purelib: false
Tag: {TAG}
"""


class UnsupportedOperation(Exception):
    """What this backend does not do."""


def build_sdist(sdist_directory, config_settings=None):
    raise UnsupportedOperation("perlwynos has no source distribution: its source is the project")


def build_wheel(wheel_directory, config_settings=None, metadata_directory=None):
    if (sys.platform, platform.machine()) != ("linux", "x86_64"):
        raise RuntimeError("the library of perlwynos is for x86-64 Linux")
    make_shared_object()
    version = re.search(r'^__version__ = "(.+)"$', text(PACKAGE / "__init__.py"), re.M).group(1)
    info = f"perlwynos-{version}.dist-info"
    files = {f"perlwynos/{path.name}": path.read_bytes() for path in sorted(PACKAGE.iterdir()) if path.is_file()}
    files[f"{info}/METADATA"] = METADATA.format(version=version, readme=text(HERE / "README.md")).encode()
    files[f"{info}/NOTICE"] = notice()
    files[f"{info}/WHEEL"] = WHEEL.encode()
    record = f"{info}/RECORD"
    files[record] = ("".join(f"{name},{digest(data)},{len(data)}\n" for name, data in files.items()) + f"{record},,\n").encode()
    wheel = f"perlwynos-{version}-{TAG}.whl"
    with zipfile.ZipFile(os.path.join(wheel_directory, wheel), "w", zipfile.ZIP_DEFLATED) as archive:
        for name, data in files.items():
            # The same bytes whenever it is made: no time of day, and modes of its own.
            entry = zipfile.ZipInfo(name)
            entry.compress_type = zipfile.ZIP_DEFLATED
            entry.external_attr = (0o755 if name.endswith(".so") else 0o644) << 16
            archive.writestr(entry, data)
    return wheel


def make_shared_object():
    library = os.environ.get("PERLWYNOS_LIB") or HERE.parent.parent / "target" / "staticlib"
    if not SHARED.exists() or pathlib.Path(library, "libcapi.a").exists():
        subprocess.run([HERE / "build"], check=True)


def notice():
    for path in (HERE / "NOTICE", HERE.parent.parent / "NOTICE"):
        if path.exists():
            return path.read_bytes()
    raise RuntimeError("the NOTICE of the project goes with the wheel: copy it to this folder")


def text(path):
    return path.read_text(encoding="utf-8")


def digest(data):
    return "sha256=" + base64.urlsafe_b64encode(hashlib.sha256(data).digest()).rstrip(b"=").decode()
