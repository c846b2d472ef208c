# SPDX-License-Identifier: MIT OR Apache-2.0
# Runs a program with a limit of time for it and all that it starts, and of what it prints.
import os
import selectors
import signal
import subprocess
import time
from typing import IO, Dict, List, Mapping, Optional, Tuple

from .limits import ALLOWANCE, OutOfTime
from .problems import Place, Problem

MOST_OUTPUT = 67_108_864
PART = 65_536


class TooMuch(Exception):
    """A program printed more than is read."""


def search_folders() -> List[str]:
    """The folders of the PATH that are named from the root on: others mean something of the current folder."""
    return [folder for folder in os.get_exec_path() if os.path.isabs(folder)]


def on_path(name: str) -> str:
    """The path of a program that is on the PATH, or nothing."""
    paths = (os.path.join(folder, name) for folder in search_folders())
    return next((path for path in paths if os.path.isfile(path) and os.access(path, os.X_OK)), "")


def without_relative(environment: Mapping[str, str]) -> Dict[str, str]:
    """An environment in which programs and libraries are looked for in folders that are named from the root on."""
    found = dict(environment)
    found["PATH"] = os.pathsep.join(search_folders())
    if "LD_LIBRARY_PATH" in found:
        parts = [part for part in found["LD_LIBRARY_PATH"].split(os.pathsep) if os.path.isabs(part)]
        found["LD_LIBRARY_PATH"] = os.pathsep.join(parts)
        if not parts:
            del found["LD_LIBRARY_PATH"]
    return found


def run_within(words: List[str], seconds: float, place: Optional[Place] = None,
               environment: Optional[Mapping[str, str]] = None, folder: Optional[str] = None) -> Tuple[str, str, int]:
    """What a program prints on its two outputs, and its status; where it takes or prints too much it is ended."""
    name = os.path.basename(words[0])
    ALLOWANCE.ask()
    ends = time.monotonic() + seconds
    try:
        with subprocess.Popen(words, stdin=subprocess.DEVNULL, stdout=subprocess.PIPE, stderr=subprocess.PIPE,
                              start_new_session=True, env=environment, cwd=folder) as child:
            try:
                assert child.stdout is not None and child.stderr is not None
                said, told = read_both(child.stdout, child.stderr, ends)
                status = child.wait(max(0.0, ends - time.monotonic()))
            except BaseException:
                os.killpg(child.pid, signal.SIGKILL)
                raise
    except (subprocess.TimeoutExpired, TimeoutError):
        raise Problem(place, f"{name} took more than {seconds} seconds") from None
    except TooMuch:
        raise Problem(place, f"{name} printed more than {MOST_OUTPUT:,} bytes") from None
    except OSError as error:
        raise Problem(place, f"{name} couldn't be run: {error.strerror or error}") from None
    if status == -signal.SIGXCPU:
        raise OutOfTime
    return said.decode("utf-8", "replace"), told.decode("utf-8", "replace"), status


def read_both(one: IO[bytes], other: IO[bytes], ends: float) -> Tuple[bytes, bytes]:
    """What two pipes give until both are closed."""
    found: Dict[int, bytearray] = {one.fileno(): bytearray(), other.fileno(): bytearray()}
    with selectors.DefaultSelector() as selector:
        for number in found:
            selector.register(number, selectors.EVENT_READ)
        while selector.get_map():
            ready = selector.select(max(0.0, ends - time.monotonic()))
            if not ready and time.monotonic() >= ends:
                raise TimeoutError
            for key, _ in ready:
                part = os.read(key.fd, PART)
                found[key.fd] += part
                if not part:
                    selector.unregister(key.fd)
            if sum(map(len, found.values())) > MOST_OUTPUT:
                raise TooMuch
    return bytes(found[one.fileno()]), bytes(found[other.fileno()])
