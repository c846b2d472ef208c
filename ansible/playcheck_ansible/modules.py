# SPDX-License-Identifier: MIT OR Apache-2.0
# What playcheck and Ansible know of modules: the profile's parameters, Ansible's further ones, and files of signatures.
from __future__ import annotations

import json
from dataclasses import dataclass, field
from typing import TYPE_CHECKING, Dict, Iterable, List, Set, Union

from .nodes import Record, Value
from .positions import read_text
from .problems import Place, Problem

if TYPE_CHECKING:
    from typing_extensions import TypeGuard

    from .books import Book

PREFIXES = ("ansible.builtin.", "ansible.legacy.")
PROGRAM = {"cmd": "text", "chdir": "text", "creates": "text", "removes": "text"}
# The parameters of the modules of the profile, with their kinds: docs/LANGUAGE.md.
PROFILE: Dict[str, Dict[str, str]] = {
    "ping": {"data": "text"},
    "command": PROGRAM,
    "shell": PROGRAM,
    "stat": {"path": "text"},
    "copy": {"dest": "text", "src": "text", "content": "text", "mode": "text"},
    "file": {"path": "text", "state": "text", "mode": "text", "owner": "text", "group": "text"},
    "service": {"name": "text", "state": "text", "enabled": "bool"},
    "setup": {"gather_subset": "list"},
    "debug": {"msg": "any"},
    "set_fact": {},
    "assert": {"that": "conditions", "fail_msg": "text"},
    "fail": {"msg": "text"},
    "meta": {},
}
# Other names of the same parameters.
ALIASES = {
    "file": {"dest": "path", "name": "path"},
    "stat": {"dest": "path", "name": "path"},
    "assert": {"msg": "fail_msg"},
}
# Ansible's further parameters that change nothing in the fields of the profile's shapes.
PASSED_OVER = {
    "command": {"stdin", "stdin_add_newline", "strip_empty_ends", "warn", "executable", "expand_argument_vars"},
    "shell": {"stdin", "stdin_add_newline", "strip_empty_ends", "warn", "executable"},
    "stat": {"follow", "get_checksum", "checksum_algorithm", "get_mime", "get_attributes", "get_md5", "checksum",
             "checksum_algo", "mime", "mime_type", "mime-type", "attr", "attributes"},
    "copy": {"attributes", "attr", "backup", "checksum", "decrypt", "directory_mode", "follow", "force", "group",
             "local_follow", "owner", "remote_src", "selevel", "serole", "setype", "seuser", "unsafe_writes",
             "validate"},
    "file": {"access_time", "access_time_format", "attributes", "attr", "follow", "force", "modification_time",
             "modification_time_format", "recurse", "selevel", "serole", "setype", "seuser", "src", "unsafe_writes"},
    "service": {"arguments", "args", "pattern", "runlevel", "sleep", "use"},
    "assert": {"quiet", "success_msg"},
}
# Ansible's further parameters that do.
CHANGES_FLOW = {"setup": {"filter", "fact_path", "gather_timeout"}, "debug": {"verbosity"}}
FREE_FORM = ("command", "shell")
# Documented modules whose arguments may be one text, with the parameter that it is.
FREE_TEXTS = {"raw": "free_form", "script": "free_form", "ansible.windows.win_command": "free_form",
              "ansible.windows.win_shell": "free_form", "win_command": "free_form", "win_shell": "free_form"}
INCLUDES = ("include", "include_tasks", "import_tasks", "include_role", "import_role", "import_playbook")
# Modules that may set names or groups which the book doesn't show.
SETS_UNKNOWN = ("include_vars", "package_facts", "service_facts", "set_stats", "gather_facts", "add_host", "group_by")
# Ansible's own modules that the profile lacks: one of them may be meant by a name that nothing knows.
CORE = ("add_host", "apt", "apt_key", "apt_repository", "assemble", "async_status", "blockinfile", "cron", "debconf",
        "dnf", "dpkg_selections", "expect", "fetch", "find", "gather_facts", "get_url", "getent", "git", "group",
        "group_by", "hostname", "include_vars", "iptables", "known_hosts", "lineinfile", "package", "package_facts",
        "pause", "pip", "raw", "reboot", "replace", "rpm_key", "script", "service_facts", "set_stats", "slurp",
        "subversion", "systemd", "systemd_service", "sysvinit", "tempfile", "template", "unarchive", "uri", "user",
        "validate_argument_spec", "wait_for", "wait_for_connection", "yum", "yum_repository")
UNKNOWN = "ansible-doc doesn't know it"
BOOL_FIELD: Record = {"kind": "bool", "always": True}
FAILURE: Record = {"changed": BOOL_FIELD, "msg": {"kind": "text", "always": True}}
MOST_DECLARED = 256
# A module with its parameters and answers, as docs/LANGUAGE.md has it; `ansible` is what the front end alone reads.
Signature = Record
Choices = List[Union[int, str]]


@dataclass
class Documented:
    """What Ansible's documentation says of a module beside its signature."""

    name: str  # Ansible's own
    fields: Set[str] = field(default_factory=set)  # those of an answer that have a kind
    choices: Dict[str, Choices] = field(default_factory=dict)  # a parameter to the values that it may have
    required: List[str] = field(default_factory=list)


@dataclass
class Modules:
    """The modules that a book may call: the profile's, and those of a file of signatures."""

    declared: List[Signature] = field(default_factory=list)
    unknown: Dict[str, str] = field(default_factory=dict)  # modules that were looked up in vain, with the reason
    unasked: str = ""  # why the others weren't looked up

    def __post_init__(self) -> None:
        self.parameters = dict(PROFILE)
        self.aliases = {name: dict(given) for name, given in ALIASES.items()}
        self.passed_over = {name: set(given) for name, given in PASSED_OVER.items()}
        self.written: Dict[str, str] = {}  # Ansible's name of a module to the one that it is declared under
        self.open: Set[str] = set()  # modules that take any parameter
        self.files: Dict[str, str] = {}  # of a module of a collection the file of its text
        self.documented: Dict[str, Documented] = {}  # of the modules whose signatures come of their documentation
        for module in self.declared:
            params = record_of(module.get("params"))
            self.parameters[name_of(module)] = {name: kind_of(param) for name, param in params.items()}
            self.take_documented(module)

    def take_documented(self, module: Signature) -> None:
        further = module.get("ansible")
        if not isinstance(further, dict):
            return
        name = name_of(module)
        file = further.get("file")
        self.written[ansible_name(module)] = name
        self.aliases[name] = {one: str(other) for one, other in record_of(further.get("aliases")).items()}
        self.passed_over[name] = set(names_of(further.get("asked")))
        self.open |= {name} if further.get("open") else set()
        if isinstance(file, str):
            self.files[name] = file
        choices = {option: choices_of(given) for option, given in record_of(further.get("choices")).items()}
        self.documented[name] = Documented(ansible_name(module), set(record_of(module.get("ok"))), choices,
                                           names_of(further.get("required")))

    def trusting(self) -> Modules:
        """These modules, with each field of an answer that documentation names as always there."""
        return Modules([always_there(module) if "ansible" in module else module for module in self.declared],
                       self.unknown, self.unasked)

    def has(self, name: str) -> bool:
        return name in self.parameters

    def undocumented(self, name: str, given: Iterable[str]) -> Set[str]:
        """Those of these parameters that the documentation of a module lacks and its text has."""
        known = {*self.parameters[name], *self.passed_over.get(name, ()), *self.aliases.get(name, {})}
        unknown = [one for one in given if one not in known] if name in self.files else []
        if not unknown:
            return set()
        from .sources import arguments_in  # read where it is wanted: few books give such a parameter

        return set(unknown) & arguments_in(self.files[name])

    def unjudged_name(self) -> str:
        """The name of the module that stands in the place of a task that isn't judged."""
        name = "not_judged"
        while self.has(name):
            name += "_"
        return name

    def signatures(self, book: Book) -> List[Signature]:
        """The signatures that the program is given, and that of the module in a task's place."""
        used = {key for task in book.tasks() for key in task.words.pairs}
        are_many = len(self.declared) >= MOST_DECLARED
        declared = [{key: part for key, part in module.items() if key != "ansible"} for module in self.declared
                    if name_of(module) in used or not are_many and "ansible" not in module]
        return [*declared, {"name": self.unjudged_name(), "params": {}, "ok": {"changed": BOOL_FIELD},
                            "failure": FAILURE}]


def name_of(module: Signature) -> str:
    return str(module["name"])


def ansible_name(module: Signature) -> str:
    """Ansible's name of a module whose signature comes of its documentation."""
    return str(record_of(module.get("ansible")).get("name", module["name"]))


def record_of(value: Value) -> Record:
    """A value that is to be a mapping; of what is none its form is told by whoever reads it whole."""
    return value if isinstance(value, dict) else {}


def names_of(value: Value) -> List[str]:
    return [one for one in value if isinstance(one, str)] if isinstance(value, list) else []


def choices_of(value: Value) -> Choices:
    return [one for one in value if isinstance(one, (int, str))] if isinstance(value, list) else []


def always_there(module: Signature) -> Signature:
    fields: Record = {name: {**one, "always": True} if isinstance(one, dict) else one
              for name, one in record_of(module.get("ok")).items()}
    return {**module, "ok": fields} if isinstance(module.get("ok"), dict) else module


def kind_of(param: object) -> str:
    kind = param.get("kind") if isinstance(param, dict) else None
    if isinstance(kind, str):
        return kind
    if isinstance(kind, dict) and "list" in kind:
        return "ints" if kind["list"] == "int" else "list"
    return "rec"


def read_signatures(paths: List[str]) -> Modules:
    declared: List[Signature] = []
    for path in paths:
        try:
            found = json.loads(read_text(path))
        except (ValueError, RecursionError) as error:
            raise Problem(Place(path), f"this is no JSON: {error}") from None
        if not isinstance(found, list) or not all(isinstance(module, dict) and isinstance(module.get("name"), str)
                                                  and isinstance(module.get("params"), dict) for module in found):
            raise Problem(Place(path), "a list of modules with `name` and `params` is wanted")
        for module in found:
            if not is_documentation(module.get("ansible", {})):
                raise Problem(Place(path), f"the field `ansible` of the module {module['name']} has another form")
        declared += found
    return Modules(declared)


def is_documentation(further: object) -> bool:
    """Whether the field that only playcheck-ansible reads has its form."""
    return (isinstance(further, dict) and isinstance(further.get("name", ""), str)
            and isinstance(further.get("file", ""), str)
            and is_names(further.get("asked", [])) and is_names(further.get("required", []))
            and isinstance(further.get("aliases", {}), dict) and is_names(list(further.get("aliases", {}).values()))
            and isinstance(further.get("choices", {}), dict)
            and all(map(are_choices, further.get("choices", {}).values())))


def is_names(found: object) -> TypeGuard[List[str]]:
    return isinstance(found, list) and all(isinstance(name, str) for name in found)


def are_choices(found: object) -> TypeGuard[Choices]:
    """Whether these are choices that are compared: texts alone, or whole numbers alone."""
    return is_names(found) or isinstance(found, list) and all(type(one) is int for one in found)


def short_name(key: str) -> str:
    """A module's name without the prefix that says it is Ansible's own."""
    for prefix in PREFIXES:
        if key.startswith(prefix):
            return key[len(prefix):]
    return key
