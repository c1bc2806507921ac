"""Builds the wheel of heal: the package, and the library that HEAL_LIBRARY names, else ../c/out/libheal.so.

    HEAL_LIBRARY=libheal.so pip wheel --no-deps bindings/python

It is a build backend (PEP 517) that needs nothing but Python. All times in the wheel are that of SOURCE_DATE_EPOCH, or else 1980,
so the same files give the same bytes.
"""

import base64
import hashlib
import os
import re
import sysconfig
import time
import zipfile

HERE = os.path.dirname(os.path.abspath(__file__))


def _project():
    """Returns the lines `key = "value"` of pyproject.toml: Python 3.9 can't read TOML."""
    with open(os.path.join(HERE, "pyproject.toml"), encoding="utf-8") as page:
        return dict(re.findall(r'^([a-z-]+) = "([^"]*)"$', page.read(), re.MULTILINE))


def _metadata(project):
    return (
        f"Metadata-Version: 2.1\nName: {project['name']}\nVersion: {project['version']}\n"
        f"Summary: {project['description']}\nRequires-Python: {project['requires-python']}\n"
    )


def _files(project, tag):
    """Returns the name and the bytes of each file of the wheel, but the list of them."""
    library = os.environ.get("HEAL_LIBRARY", os.path.join(HERE, "..", "c", "out", "libheal.so"))
    info = f"{project['name']}-{project['version']}.dist-info"
    wheel = f"Wheel-Version: 1.0\nGenerator: wheel_of_heal\nRoot-Is-Purelib: false\nTag: {tag}\n"
    files = {f"{info}/METADATA": _metadata(project).encode(), f"{info}/WHEEL": wheel.encode()}
    package = os.path.join(HERE, "heal")
    parts = sorted(name for name in os.listdir(package) if name.endswith((".py", ".typed")))
    for name, path in [*((name, os.path.join(package, name)) for name in parts), ("libheal.so", library)]:
        with open(path, "rb") as file:
            files[f"heal/{name}"] = file.read()
    return files, f"{info}/RECORD"


def _digest(data):
    return "sha256=" + base64.urlsafe_b64encode(hashlib.sha256(data).digest()).rstrip(b"=").decode()


def _entry(path, moment):
    """Returns the head of a file in the wheel."""
    entry = zipfile.ZipInfo(path, moment)
    entry.external_attr = (0o755 if path.endswith(".so") else 0o644) << 16
    entry.compress_type = zipfile.ZIP_DEFLATED
    return entry


def build_wheel(wheel_directory, config_settings=None, metadata_directory=None):
    """Writes the wheel into the folder, and returns its name."""
    project = _project()
    platform = re.sub(r"[-.]", "_", sysconfig.get_platform())
    tag = f"py3-none-{platform}"
    files, record = _files(project, tag)
    name = f"{project['name']}-{project['version']}-{tag}.whl"
    rows = [f"{path},{_digest(data)},{len(data)}" for path, data in files.items()]
    files[record] = "\n".join([*rows, f"{record},,", ""]).encode()
    # A wheel can't state a time before 1980.
    moment = max(time.gmtime(int(os.environ.get("SOURCE_DATE_EPOCH", "0")))[:6], (1980, 1, 1, 0, 0, 0))
    with zipfile.ZipFile(os.path.join(wheel_directory, name), "w") as wheel:
        for path, data in files.items():
            wheel.writestr(_entry(path, moment), data)
    return name
