"""Source trees that are built without a network: their build backend stands in them and needs nothing."""

from __future__ import annotations

import io
import json
import tarfile
from collections.abc import Iterable
from pathlib import Path

# Its requirements come from a file that only a build reads, as those of a `setup.py` come from its code.
BACKEND = '''
import json, os, zipfile

def facts():
    with open("facts.json") as stream:
        return json.load(stream)

def metadata():
    it = facts()
    if it.get("fails"):
        raise ValueError(it["fails"])
    lines = ["Metadata-Version: 2.1", "Name: " + it["name"], "Version: " + it["version"]]
    return "\\n".join(lines + ["Requires-Dist: " + text for text in it["requires"]]) + "\\n"

def wheel(folder, module):
    it = facts()
    stem = it["name"].replace("-", "_")
    info = stem + "-" + it["version"] + ".dist-info"
    file = stem + "-" + it["version"] + "-py3-none-any.whl"
    tags = "Wheel-Version: 1.0\\nGenerator: test\\nRoot-Is-Purelib: true\\nTag: py3-none-any\\n"
    members = {**module, info + "/METADATA": metadata(), info + "/WHEEL": tags}
    members[info + "/RECORD"] = "".join(name + ",,\\n" for name in members) + info + "/RECORD,,\\n"
    with zipfile.ZipFile(os.path.join(folder, file), "w") as archive:
        for name, text in members.items():
            archive.writestr(name, text)
    return file

def build_wheel(folder, config_settings=None, metadata_directory=None):
    stem = facts()["name"].replace("-", "_")
    with open(stem + ".py") as stream:
        return wheel(folder, {stem + ".py": stream.read()})

def build_editable(folder, config_settings=None, metadata_directory=None):
    return wheel(folder, {"_" + facts()["name"] + ".pth": os.getcwd() + "\\n"})
'''
BUILD_SYSTEM = '[build-system]\nrequires = []\nbuild-backend = "backend"\nbackend-path = ["."]\n'


def source_files(name: str, version: str, requires: Iterable[str] = (), fails: str = "") -> dict[str, str]:
    """The files of a source tree but for its project file."""
    facts = {"name": name, "version": version, "requires": list(requires), "fails": fails}
    stem = name.replace("-", "_")
    return {"backend.py": BACKEND, "facts.json": json.dumps(facts), f"{stem}.py": f"VERSION = {version!r}\n"}


def uncertain_sdist(folder: Path, name: str, version: str, requires: Iterable[str] = (), fails: str = "") -> Path:
    """A source distribution whose metadata (of version 2.1) only a build tells."""
    files = source_files(name, version, requires, fails)
    head = f'[project]\nname = "{name}"\nversion = "{version}"\n'
    files["pyproject.toml"] = f'{head}dynamic = ["dependencies"]\n{BUILD_SYSTEM}'
    files["PKG-INFO"] = f"Metadata-Version: 2.1\nName: {name}\nVersion: {version}\n"
    path = folder / f"{name}-{version}.tar.gz"
    with tarfile.open(path, "w:gz") as archive:
        for file, text in files.items():
            member = tarfile.TarInfo(f"{name}-{version}/{file}")
            member.size = len(text.encode())
            archive.addfile(member, io.BytesIO(text.encode()))
    return path
