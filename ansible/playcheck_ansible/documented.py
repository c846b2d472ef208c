# SPDX-License-Identifier: MIT OR Apache-2.0
# Signatures of modules out of Ansible's own documentation, which `ansible-doc` prints where ansible-core is installed.
from __future__ import annotations

import json
import re
import zlib
from typing import Dict, List, Optional, Tuple

from .ansible_core import Trust, run_ansible
from .modules import BOOL_FIELD, FAILURE, PROFILE, Choices, Signature, are_choices, names_of, record_of
from .nodes import Record, Value
from .problems import Problem
from .tokens import VARIABLE

SECONDS = 300
MOST_UNDOCUMENTED = 4
UNDOCUMENTED = re.compile(r"module (\S+) missing documentation")
MOST_PARAMETERS = 64
MOST_ITEMS = 65536
TEXTS = ("str", "path", "sid", "bytes", "bits", "float", "json", "jsonarg")
Document = Record
DECLARED = re.compile(r"[a-z][a-z0-9_.]*")
LONGEST = 64
# When the documentation promises a field in each answer that isn't failed.
ALWAYS = re.compile(r"(always|success|on success|when successful|changed or success|success or changed)\.?", re.I)
# What the documentation calls required, and the module that is called in the end has a default for.
NOT_REQUIRED = {("package", "state"), ("package", "name"), ("dnf", "name")}
# Modules that take parameters which their documentation doesn't list: variables of a host, what another module has.
OPEN = ("add_host", "package")
# `package` hands its parameters on: all that it calls know this other name.
FURTHER_ALIASES = {"package": {"pkg": "name"}}
# Where the description of a parameter takes back that it is required.
NOT_ALWAYS = re.compile(r"\boptional\b|\benvironment\b|\benv\b|\bif (not|un)\s?\w*(set|specified|given|provided|defined)\b"
                        r"|\bnot required\b|\b(required|mandatory|needed) (if|when|only|for|unless)\b", re.I)
# A choice that stands for many, as `0-6`: such lists can't be compared.
RANGE = re.compile(r"-?\d+\s*(-|\.\.+|to)\s*\d+|.*[<>*].*")
NOT_FIELDS = ("failed", "skipped", "skip_reason", "results", "unreachable", "changed")


def documentation(names: List[str], trust: Trust, seconds: int = SECONDS,
                  again: int = MOST_UNDOCUMENTED) -> Dict[str, Document]:
    """What ansible-doc has on these modules; those that it doesn't know or that have no documentation are left out."""
    said, told, status = run_ansible("ansible-doc", ["-t", "module", "--json", *names], seconds, trust)
    if status and not said.strip():
        # It prints nothing on all the others where one has no documentation: the call is made again without that one.
        without = UNDOCUMENTED.search(told)
        if without and without[1] in names and again:
            others = [name for name in names if name != without[1]]
            return documentation(others, trust, seconds, again - 1) if others else {}
        raise Problem(None, f"ansible-doc ended with status {status}: {' '.join(told.split())[-200:]}")
    try:
        read = json.loads(said or "{}")
    except (ValueError, RecursionError) as error:
        raise Problem(None, f"ansible-doc printed no JSON: {error}") from None
    if not isinstance(read, dict) or not all(isinstance(document, dict) for document in read.values()):
        raise Problem(None, "ansible-doc printed no object of modules")
    return read


def signatures_of(documents: Dict[str, Document]) -> Tuple[List[Signature], Dict[str, str]]:
    """The signatures of the modules that can be declared, and the others with the reason."""
    signatures: List[Signature] = []
    left: Dict[str, str] = {}
    for name, document in sorted(documents.items()):
        reason = why_left(name, document)
        if reason:
            left[name] = reason
        else:
            signatures.append(signature_of(name, document))
    return signatures, left


def part(document: Document, *keys: str) -> Record:
    """A mapping inside of others; where one isn't there an empty one."""
    for key in keys:
        document = record_of(document.get(key))
    return document


def why_left(name: str, document: Document) -> str:
    returned, facts = part(document, "return"), part(document, "doc", "attributes", "facts")
    if name in PROFILE:
        return "it is built in"
    if "doc" not in document:
        return "it has no documentation"
    if "ansible_facts" in returned or facts.get("support") == "full":
        return "it sets facts"
    return "" if DECLARED.fullmatch(declared_name(name)) else "its name can't be declared"


def declared_name(name: str) -> str:
    """The name in the signatures: those that begin with `ansible.` are taken, and longer ones than the format has."""
    if name.startswith("ansible."):
        name = "ansible_" + name[len("ansible."):]
    return name if len(name) <= LONGEST else f"{name[:LONGEST - 9]}_{zlib.crc32(name.encode()):08x}"


def signature_of(name: str, document: Document) -> Signature:
    params: Record = {}
    unkinded: List[Value] = []
    options = {option: record_of(given) for option, given in sorted(part(document, "doc", "options").items())}
    required = [option for option, given in options.items() if is_required(name, option, given)]
    for option, given in options.items():
        kind = kind_of(given) if name != "package" else None
        if kind is None or not VARIABLE.fullmatch(option) or len(params) >= MOST_PARAMETERS:
            unkinded.append(option)
        else:
            params[option] = {"kind": kind, "required": option in required}
    ok: Record = {"changed": BOOL_FIELD}
    for option, returned in sorted(part(document, "return").items()):
        given = record_of(returned)
        kind = kind_of(given) if isinstance(returned, dict) else None
        if kind is not None and VARIABLE.fullmatch(option) and option not in NOT_FIELDS and len(ok) < MOST_PARAMETERS:
            ok[option] = {"kind": kind, "always": bool(ALWAYS.fullmatch(str(given.get("returned", "")).strip()))}
    choices: Record = {option: [*choices_of(given)] for option, given in options.items() if choices_of(given)}
    further: Record = {"name": name, "aliases": {**aliases_of(name, options)}, "asked": unkinded,
                       "required": [*required], **file_of(name, part(document, "doc")),
                       **({"open": True} if name in OPEN else {}), "choices": choices}
    return {"name": declared_name(name), "params": params, "ok": ok, "failure": FAILURE, "ansible": further}


def file_of(name: str, doc: Document) -> Dict[str, str]:
    """The file of a module's text: the documentation of those of ansible-core has all that they take."""
    file = doc.get("filename")
    return {"file": file} if "." in name and isinstance(file, str) and file.endswith(".py") else {}


def without_file(signature: Signature) -> Signature:
    """A signature for another machine: what the module's text takes beside its documentation is written down."""
    from .sources import arguments_in

    further = dict(part(signature, "ansible"))
    file, asked = further.pop("file", None), names_of(further.get("asked"))
    known = {*part(signature, "params"), *asked, *part(further, "aliases")}
    further["asked"] = [*asked, *(sorted(arguments_in(file) - known) if isinstance(file, str) else [])]
    return {**signature, "ansible": further}


def is_required(name: str, option: str, given: Document) -> bool:
    if given.get("required") is not True or option in ("free_form", "free-form") or (name, option) in NOT_REQUIRED:
        return False
    told = given.get("description") or ""
    return not NOT_ALWAYS.search(" ".join(map(str, told)) if isinstance(told, list) else str(told))


def aliases_of(name: str, options: Dict[str, Document]) -> Dict[str, str]:
    found = {alias: option for option, given in options.items() for alias in names_of(given.get("aliases"))}
    return {**found, **FURTHER_ALIASES.get(name, {})}


def choices_of(given: Document) -> Choices:
    """The choices of a parameter that can be compared: those of its own kind."""
    listed = given.get("choices")
    choices: List[Value] = [*listed] if isinstance(listed, (list, dict)) else []
    if any(RANGE.fullmatch(str(choice)) for choice in choices):
        return []
    kind = given.get("elements", "str") if given.get("type") == "list" else given.get("type", "str")
    wanted: Optional[type] = {"str": str, "int": int}.get(str(kind))
    if wanted is None or not are_choices(choices):
        return []
    return [choice for choice in choices if isinstance(choice, wanted)]


def kind_of(given: Document) -> Value:
    """The kind of a documented type, or None where the format has none for it."""
    kind = given.get("type", "str")
    if kind in TEXTS:
        return "text"
    if kind in ("int", "bool"):
        return kind
    if kind == "list":
        element = kind_of({"type": given.get("elements", "raw")})
        return {"list": element, "max": MOST_ITEMS} if element in ("text", "int", "bool") else None
    return None
