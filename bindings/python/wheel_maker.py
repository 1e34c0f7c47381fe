"""Makes the wheel that `pip install ./bindings/python` installs: the package,
and in it the shared library where one is found. pip calls `build_wheel`."""

import base64
import hashlib
import pathlib
import re
import sysconfig
import zipfile

from valvepigeon import _library

HERE = pathlib.Path(__file__).resolve().parent


def _project():
    text = (HERE / "pyproject.toml").read_text(encoding="utf-8")
    return dict(re.findall(r'^([a-z-]+) = "(.*)"$', text, re.MULTILINE))


def _package():
    """The package's files, names and contents; and whether it has a library."""
    files = {path.relative_to(HERE).as_posix(): path.read_bytes()
             for pattern in ("*.py", "py.typed")
             for path in sorted((HERE / "valvepigeon").glob(pattern))}
    library = _library.found()
    has_library = library is not None and library.is_file()
    if has_library:
        files["valvepigeon/" + _library.NAME] = library.read_bytes()
    return files, has_library


def _metadata(project):
    return ("Metadata-Version: 2.1\n"
            f"Name: {project['name']}\n"
            f"Version: {project['version']}\n"
            f"Summary: {project['description']}\n"
            f"Requires-Python: {project['requires-python']}\n").encode()


def _record(files, name):
    """A line for each file with its checksum; the record itself has none."""
    lines = []
    for path, content in files.items():
        digest = base64.urlsafe_b64encode(hashlib.sha256(content).digest())
        lines.append(f"{path},sha256={digest.decode().rstrip('=')},"
                     f"{len(content)}\n")
    return "".join(lines + [f"{name},,\n"]).encode()


def build_wheel(wheel_directory, config_settings=None, metadata_directory=None):
    project = _project()
    files, has_library = _package()
    platform = re.sub("[-.]", "_", sysconfig.get_platform())
    tag = "py3-none-" + (platform if has_library else "any")
    stem = f"{project['name']}-{project['version']}"
    files[f"{stem}.dist-info/METADATA"] = _metadata(project)
    files[f"{stem}.dist-info/WHEEL"] = (
        "Wheel-Version: 1.0\nGenerator: wheel_maker\n"
        f"Root-Is-Purelib: {str(not has_library).lower()}\n"
        f"Tag: {tag}\n").encode()
    record = f"{stem}.dist-info/RECORD"
    files[record] = _record(files, record)
    wheel = f"{stem}-{tag}.whl"
    with zipfile.ZipFile(pathlib.Path(wheel_directory) / wheel, "w") as archive:
        for path, content in files.items():
            archive.writestr(zipfile.ZipInfo(path), content,
                             zipfile.ZIP_DEFLATED)
    return wheel
