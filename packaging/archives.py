# SPDX-License-Identifier: MIT OR Apache-2.0
# The wheel, the tarball and the Debian package: the same bytes for the same sources, and nothing but Python's own
# library and dpkg-deb to make them.
import base64
import gzip
import hashlib
import io
import os
import subprocess
import tarfile
import tempfile
import time
import zipfile
from pathlib import Path
from typing import Iterable

from contents import LICENCES, SUMMARY, Fault, File, Layout, command, contents, moment, read, version

TAG = "py3-none-manylinux_2_34_x86_64"
EARLIEST = 315532800  # 1980-01-01, before which a zip has no dates
METADATA = """Metadata-Version: 2.1
Name: playcheck
Version: {version}
Summary: {summary}
License: MIT OR Apache-2.0
Requires-Python: >=3.9
Requires-Dist: PyYAML>=5.1
Description-Content-Type: text/markdown

"""
WHEEL = f"Wheel-Version: 1.0\nGenerator: playcheck\nRoot-Is-Purelib: false\nTag: {TAG}\n"
ENTRY_POINTS = "[console_scripts]\nplaycheck-ansible = playcheck_ansible.__main__:run\n"
CONTROL = """Package: playcheck
Version: {version}
Architecture: amd64
Maintainer: the playcheck authors
Installed-Size: {kilobytes}
Depends: libc6 (>= 2.34), python3 (>= 3.9), python3-yaml
Suggests: ansible-core
Section: admin
Priority: optional
Description: {summary}
 The verdict is either accepted, with the most module calls that a run makes,
 or one refusal with its code, place and host. A front end reads books in YAML.
"""
# Debian compiles the modules of a package where it is installed, and takes that away with it.
SCRIPT = "#!/bin/sh\nset -e\nif command -v {0} >/dev/null; then {0} -p playcheck {1}; fi\n"
POSTINST = SCRIPT.format("py3compile", "/usr/lib/playcheck")
PRERM = SCRIPT.format("py3clean", "")


# The wheel.


def metadata() -> dict[str, bytes]:
    """The files of .dist-info, but for the list of all files."""
    text = METADATA.format(version=version(), summary=SUMMARY).encode() + read("README.md")
    made = {"METADATA": text, "WHEEL": WHEEL.encode(), "entry_points.txt": ENTRY_POINTS.encode()}
    return {**made, **{name: read(name) for name in LICENCES}}


def record(files: Iterable[File], own: str) -> bytes:
    """The list of a wheel's files, each with its sum and its length."""
    lines = []
    for file in files:
        digest = base64.urlsafe_b64encode(hashlib.sha256(file.data).digest()).rstrip(b"=").decode()
        lines.append(f"{file.name},sha256={digest},{len(file.data)}\n")
    return "".join([*lines, f"{own},,\n"]).encode()


def wheel() -> tuple[str, bytes]:
    """The wheel's name and its bytes; installers make the command of the front end themselves."""
    name = f"playcheck-{version()}"
    info = f"{name}.dist-info"
    files = contents(Layout(f"{name}.data/scripts", "", f"{name}.data/data/share"))
    files += [File(f"{info}/{one}", data) for one, data in sorted(metadata().items())]
    files.append(File(f"{info}/RECORD", record(files, f"{info}/RECORD")))
    date = time.gmtime(max(moment(), EARLIEST))[:6]
    made = io.BytesIO()
    with zipfile.ZipFile(made, "w", zipfile.ZIP_DEFLATED) as archive:
        for file in files:
            entry = zipfile.ZipInfo(file.name, date)
            entry.compress_type = zipfile.ZIP_DEFLATED
            entry.create_system = 3  # Unix, so that the modes count
            entry.external_attr = (0o100000 | file.mode()) << 16
            archive.writestr(entry, file.data)
    return f"{name}-{TAG}.whl", made.getvalue()


# The tarball.


def tarball() -> tuple[str, bytes]:
    """The tarball's name and its bytes: a folder with bin, lib and share, which may lie anywhere."""
    top = f"playcheck-{version()}"
    files = contents(Layout(f"{top}/bin", f"{top}/lib/playcheck/", f"{top}/share"))
    files.append(File(f"{top}/bin/playcheck-ansible", command(), True))
    made = io.BytesIO()
    with tarfile.open(fileobj=made, mode="w") as archive:
        for file in sorted(files):
            entry = tarfile.TarInfo(file.name)
            entry.size, entry.mode, entry.mtime = len(file.data), file.mode(), moment()
            archive.addfile(entry, io.BytesIO(file.data))
    return f"{top}-linux-x86_64.tar.gz", gzipped(made.getvalue())


def gzipped(data: bytes) -> bytes:
    """Without a name and a time."""
    made = io.BytesIO()
    with gzip.GzipFile("", "wb", 9, made, mtime=0) as packed:
        packed.write(data)
    return made.getvalue()


# The Debian package.


def debian_files() -> list[File]:
    """The files of the package, as Debian wants them: pages of the manual packed, and one file on the licences."""
    files = contents(Layout("usr/bin", "usr/lib/playcheck/", "usr/share", "zsh/vendor-completions"))
    files.append(File("usr/bin/playcheck-ansible", command("/usr/bin/python3"), True))
    files.append(File("usr/share/doc/playcheck/copyright", read("NOTICE") + b"\n\n" + read("LICENSE-MIT")))
    return sorted(File(f"{file.name}.gz", gzipped(file.data)) if "/man/" in file.name else file for file in files)


def control_files(files: list[File]) -> list[File]:
    kilobytes = sum(len(file.data) + 1023 for file in files) // 1024
    control = CONTROL.format(version=version(), summary=SUMMARY, kilobytes=kilobytes)
    sums = "".join(f"{hashlib.md5(file.data, usedforsecurity=False).hexdigest()}  {file.name}\n" for file in files)
    return [File("DEBIAN/control", control.encode()), File("DEBIAN/md5sums", sums.encode()),
            File("DEBIAN/postinst", POSTINST.encode(), True), File("DEBIAN/prerm", PRERM.encode(), True)]


def write_tree(top: Path, files: Iterable[File]) -> None:
    """Writes files with their modes, whatever the mask of this process is."""
    for file in files:
        path = top / file.name
        path.parent.mkdir(parents=True, exist_ok=True)
        path.write_bytes(file.data)
        path.chmod(file.mode())
    for folder in (top, *(path for path in top.rglob("*") if path.is_dir())):
        folder.chmod(0o755)


def debian_package() -> tuple[str, bytes]:
    """The package's name and its bytes, by dpkg-deb, which takes the time of all files from the environment."""
    files = debian_files()
    name = f"playcheck_{version()}_amd64.deb"
    with tempfile.TemporaryDirectory() as folder:
        write_tree(Path(folder, "tree"), [*control_files(files), *files])
        words = ["dpkg-deb", "--root-owner-group", "-Zgzip", "-z9", "--build", "tree", name]
        told = {**os.environ, "SOURCE_DATE_EPOCH": str(moment()), "LC_ALL": "C"}
        done = subprocess.run(words, cwd=folder, env=told, check=False, stdout=subprocess.DEVNULL)
        if done.returncode:
            raise Fault(f"dpkg-deb ended with the status {done.returncode}")
        return name, Path(folder, name).read_bytes()
