# SPDX-License-Identifier: MIT OR Apache-2.0
# What pip asks for by pyproject.toml (PEP 517): the wheel of archives.py, for which nothing is to be fetched.
import sys
from pathlib import Path
from typing import Any, Optional

sys.dont_write_bytecode = True

from archives import metadata, wheel
from contents import Fault, version

Settings = Optional[dict[str, Any]]


class UnsupportedOperation(Exception):
    """A clone is the form in which the sources are had: there is no other archive of them."""


def build_wheel(wheel_directory: str, config_settings: Settings = None,
                metadata_directory: Optional[str] = None) -> str:
    try:
        name, data = wheel()
    except Fault as fault:
        sys.exit(f"playcheck: {fault}")
    Path(wheel_directory, name).write_bytes(data)
    return name


def prepare_metadata_for_build_wheel(metadata_directory: str, config_settings: Settings = None) -> str:
    folder = Path(metadata_directory, f"playcheck-{version()}.dist-info")
    folder.mkdir()
    for name, data in metadata().items():
        (folder / name).write_bytes(data)
    return folder.name


def build_sdist(sdist_directory: str, config_settings: Settings = None) -> str:
    raise UnsupportedOperation("there is no archive of the sources: take a clone")
