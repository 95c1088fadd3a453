#!/usr/bin/env python3
"""Writes the wheel of the package, with libsazhonthil_ssh.so in it, by Python's own modules alone.

    build_wheel.py [FOLDER]

It is also what `pip wheel` and `pip install` call (pyproject.toml). The library is that of the variable SAZHONTHIL_SSH, or
the one that bindings/build.sh left in bindings/out/shared. The same files give the same wheel, byte by byte."""
import base64
import hashlib
import os
import pathlib
import platform
import re
import sys
import zipfile

HERE = pathlib.Path(__file__).resolve().parent
LIBRARY = "libsazhonthil_ssh.so"
METADATA = """Metadata-Version: 2.1
Name: sazhonthil
Version: {version}
Summary: {summary}
License: Apache-2.0
Requires-Python: >=3.8
Classifier: Programming Language :: Python :: 3
Classifier: Operating System :: POSIX :: Linux
Classifier: Typing :: Typed
Description-Content-Type: text/markdown

{description}"""
WHEEL = "Wheel-Version: 1.0\nGenerator: build_wheel.py\nRoot-Is-Purelib: false\nTag: {tag}\n"
SCRIPTS = "[console_scripts]\nsshc_show = sazhonthil.show:main\n"


def setting(name):
    return re.search(rf'^{name} = "(.*)"$', (HERE / "pyproject.toml").read_text(), re.M)[1]


def library():
    places = [os.environ.get("SAZHONTHIL_SSH"), HERE / "sazhonthil" / LIBRARY, HERE.parent / "out" / "shared" / LIBRARY]
    for place in places:
        if place and pathlib.Path(place).is_file():
            return pathlib.Path(place)
    sys.exit(f"no {LIBRARY}: bindings/build.sh makes it, or name it in the variable SAZHONTHIL_SSH")


def contents(tag):
    """The names in the wheel, each with its bytes."""
    version = setting("version")
    info = f"sazhonthil-{version}.dist-info"
    for path in sorted((HERE / "sazhonthil").iterdir()):
        if path.suffix == ".py" or path.name == "py.typed":
            yield f"sazhonthil/{path.name}", path.read_bytes()
    yield f"sazhonthil/{LIBRARY}", library().read_bytes()
    licence = HERE.parent.parent / "LICENSE"
    if licence.is_file():
        yield f"{info}/LICENSE", licence.read_bytes()
    described = {"version": version, "summary": setting("description"), "description": (HERE / "README.md").read_text()}
    yield f"{info}/METADATA", METADATA.format(**described).encode()
    yield f"{info}/WHEEL", WHEEL.format(tag=tag).encode()
    yield f"{info}/entry_points.txt", SCRIPTS.encode()


def write(folder):
    """Writes the wheel, and returns its name."""
    version, tag = setting("version"), f"py3-none-linux_{platform.machine()}"
    name = f"sazhonthil-{version}-{tag}.whl"
    record = []
    with zipfile.ZipFile(pathlib.Path(folder) / name, "w", zipfile.ZIP_DEFLATED) as wheel:

        def put(file, data):
            entry = zipfile.ZipInfo(file, (2020, 1, 1, 0, 0, 0))
            entry.compress_type, entry.external_attr = zipfile.ZIP_DEFLATED, (0o755 if file.endswith(".so") else 0o644) << 16
            wheel.writestr(entry, data)

        for file, data in contents(tag):
            put(file, data)
            digest = base64.urlsafe_b64encode(hashlib.sha256(data).digest()).rstrip(b"=").decode()
            record.append(f"{file},sha256={digest},{len(data)}")
        at = f"sazhonthil-{version}.dist-info/RECORD"
        put(at, "\n".join([*record, f"{at},,", ""]).encode())
    return name


# ---- what pip calls (PEP 517)


def build_wheel(wheel_directory, config_settings=None, metadata_directory=None):
    return write(wheel_directory)


def build_sdist(sdist_directory, config_settings=None):
    raise NotImplementedError("there is no package of sources: the library in it is built from a proved archive")


if __name__ == "__main__":
    print(write(sys.argv[1] if len(sys.argv) > 1 else "."))
