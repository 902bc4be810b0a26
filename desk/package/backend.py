"""The build backend (PEP 517, PEP 660): a wheel of the package with the proved library that desk/build has made.

It needs no setuptools, no network and no build isolation: a wheel is an archive of the files with three texts that say what they are.
Where the library has not been built the build ends, and says what to do.
"""
from __future__ import annotations

import base64
import hashlib
import stat
import sys
import sysconfig
import tomllib
import zipfile
from pathlib import Path

HERE = Path(__file__).resolve().parent
sys.path.insert(0, str(HERE.parent))

import carried  # noqa: E402

PROJECT = tomllib.loads((HERE / "pyproject.toml").read_text())["project"]
VERSION = next(line.split('"')[1] for line in (HERE / "deltawobble" / "version.py").read_text().splitlines() if line.startswith("__version__"))
NAME = "%s-%s" % (PROJECT["name"], VERSION)
INFO = NAME + ".dist-info"


def metadata() -> str:
    lines = ["Metadata-Version: 2.1", "Name: " + PROJECT["name"], "Version: " + VERSION, "Summary: " + PROJECT["description"],
             "Requires-Python: " + PROJECT["requires-python"], "License: " + PROJECT["license"]["text"], "Classifier: Operating System :: POSIX :: Linux"]
    for extra, needs in PROJECT["optional-dependencies"].items():
        lines += ["Provides-Extra: " + extra] + ['Requires-Dist: %s ; extra == "%s"' % (need, extra) for need in needs]
    return "\n".join(lines) + "\n"


def tag() -> str:
    """Any Python 3, on this machine's system and processor: the library is called by its C names."""
    return "py3-none-" + sysconfig.get_platform().replace("-", "_").replace(".", "_")


def infos() -> dict[str, bytes]:
    """The texts of the .dist-info folder, the record left out."""
    scripts = "[console_scripts]\n" + "".join("%s = %s\n" % item for item in PROJECT["scripts"].items())
    wheel = "Wheel-Version: 1.0\nGenerator: deltawobble %s\nRoot-Is-Purelib: false\nTag: %s\n" % (VERSION, tag())
    texts = {"METADATA": metadata(), "WHEEL": wheel, "entry_points.txt": scripts}
    return {"%s/%s" % (INFO, name): text.encode() for name, text in texts.items()} | {INFO + "/LICENSE": (carried.ROOT / "LICENSE").read_bytes()}


def written(folder: str, files: dict[str, bytes]) -> str:
    """The wheel of these files: its name. Times are fixed, so that the same files give the same wheel."""
    name = "%s-%s.whl" % (NAME, tag())
    record = ""
    with zipfile.ZipFile(Path(folder) / name, "w", zipfile.ZIP_DEFLATED) as wheel:
        for place, data in files.items():
            entry = zipfile.ZipInfo(place, (2020, 1, 1, 0, 0, 0))
            entry.compress_type = zipfile.ZIP_DEFLATED
            # pip keeps the bit that lets the host process run only for what is said to be a regular file
            mode = 0o755 if place.endswith(".so") or carried.is_program(place) else 0o644
            entry.external_attr = (stat.S_IFREG | mode) << 16
            wheel.writestr(entry, data)
            record += "%s,sha256=%s,%d\n" % (place, base64.urlsafe_b64encode(hashlib.sha256(data).digest()).rstrip(b"=").decode(), len(data))
        wheel.writestr(zipfile.ZipInfo(INFO + "/RECORD", (2020, 1, 1, 0, 0, 0)), record + INFO + "/RECORD,,\n")
    return name


def build_wheel(wheel_directory, config_settings=None, metadata_directory=None):
    try:
        files = {**carried.package_files(), **carried.built_files()}
    except carried.NotBuilt as error:
        sys.exit("deltawobble: %s" % error)
    shared = {"%s.data/data/%s" % (NAME, place): data for place, data in carried.made_texts().items()}
    return written(wheel_directory, {**files, **shared, **infos()})


def build_editable(wheel_directory, config_settings=None, metadata_directory=None):
    """`pip install -e`: the package stays here, and so does the library."""
    return written(wheel_directory, {"deltawobble.pth": (str(HERE) + "\n").encode(), **infos()})


def get_requires_for_build_wheel(config_settings=None):
    return []


get_requires_for_build_editable = get_requires_for_build_wheel


def build_sdist(sdist_directory, config_settings=None):
    sys.exit("deltawobble: there is no source package apart from the repository, since its proofs are part of it: python3 -m build --wheel")
