"""Packs the package for pip, which would have to fetch a tool for that else. pip calls `build_wheel` (PEP 517)."""
import base64
import hashlib
import pathlib
import re
import sys
import sysconfig
import zipfile

HERE = pathlib.Path(__file__).resolve().parent
PACKED = ("*.py", "py.typed", "libcepage.so")
FIELDS = {
    "Name": "name",
    "Version": "version",
    "Summary": "description",
    "Requires-Python": "requires-python",
    "License-Expression": "license",
}


def project():
    """The table `project` of pyproject.toml: its texts and its lists of texts."""
    table = (HERE / "pyproject.toml").read_text(encoding="utf-8").partition("[project]\n")[2]
    rows = re.findall(r'^([a-z-]+) = ("[^"]*"|\[[^]]*\])', table, re.M)
    return {name: re.findall(r'"([^"]*)"', value) for name, value in rows}


def is_bound():
    """Whether the shared object is packed with the package."""
    return (HERE / "cepage" / "libcepage.so").exists()


def licences(said):
    """The licence texts by their names. The shared object has code of others in it, whose notices go with it."""
    texts = {name: HERE / name for name in said["license-files"]}
    if is_bound():
        notices = [it / "THIRD-PARTY.md" for it in (HERE.parent.parent, HERE) if (it / "THIRD-PARTY.md").exists()]
        if not notices:
            sys.exit(f"packing: libcepage.so is packed with THIRD-PARTY.md of the repository: copy that to {HERE}")
        texts["THIRD-PARTY.md"] = notices[0]
    return texts


def metadata(said):
    lines = ["Metadata-Version: 2.4"]
    lines += [f"{field}: {said[name][0]}" for field, name in FIELDS.items()]
    lines += [f"License-File: {it}" for it in licences(said)]
    lines += [f"Classifier: {it}" for it in said["classifiers"]]
    lines += ["Description-Content-Type: text/markdown", "", (HERE / said["readme"][0]).read_text(encoding="utf-8")]
    return "\n".join(lines)


def tag():
    """Any Python, and any system, unless the shared object of this one is packed with it."""
    return "py3-none-" + (re.sub(r"[-.]", "_", sysconfig.get_platform()) if is_bound() else "any")


def row(name, data):
    """A row of the list of what is packed."""
    digest = base64.urlsafe_b64encode(hashlib.sha256(data).digest()).rstrip(b"=").decode()
    return f"{name},sha256={digest},{len(data)}\n"


def build_wheel(wheel_directory, config_settings=None, metadata_directory=None):
    said, tagged = project(), tag()
    name = f"{said['name'][0]}-{said['version'][0]}"
    files = {f"cepage/{file.name}": file.read_bytes() for it in PACKED for file in sorted((HERE / "cepage").glob(it))}
    files.update((f"{name}.dist-info/licenses/{text}", file.read_bytes()) for text, file in licences(said).items())
    files[f"{name}.dist-info/METADATA"] = metadata(said).encode()
    pure = str(tagged.endswith("-any")).lower()
    files[f"{name}.dist-info/WHEEL"] = f"Wheel-Version: 1.0\nGenerator: cepage\nRoot-Is-Purelib: {pure}\nTag: {tagged}\n".encode()
    record = f"{name}.dist-info/RECORD"
    rows = "".join(row(file, data) for file, data in files.items())
    with zipfile.ZipFile(pathlib.Path(wheel_directory) / f"{name}-{tagged}.whl", "w", zipfile.ZIP_DEFLATED) as wheel:
        for file, data in {**files, record: f"{rows}{record},,\n".encode()}.items():
            wheel.writestr(file, data)
    return f"{name}-{tagged}.whl"
