# SPDX-License-Identifier: MIT OR Apache-2.0
# Facts past the six of the profile: where facts are gathered, those that a book reads are set, perhaps or for certain.
from __future__ import annotations

import re
from typing import TYPE_CHECKING, Dict, Iterable, List, Match, Set

from .names import FACTS
from .nodes import Record, Value, texts_of
from .rewriting import changed_texts, rewrite_words

if TYPE_CHECKING:
    from .books import Book

TEXT, NUMBER, TRUTH = "", 0, False
TEXTS = """architecture userspace_architecture userspace_bits machine machine_id kernel kernel_version domain fqdn
nodename distribution_version distribution_major_version distribution_release distribution_file_variety pkg_mgr service_mgr
python_version user_id user_dir user_shell user_gecos virtualization_type virtualization_role product_name
product_version product_serial product_uuid system_vendor bios_date bios_version form_factor hostnqn
iscsi_iqn""".split()
NUMBERS = """processor_count processor_cores processor_threads_per_core memfree_mb swaptotal_mb swapfree_mb
uptime_seconds user_uid user_gid real_user_id real_group_id effective_user_id effective_group_id""".split()
ADDRESS = "address alias broadcast gateway interface macaddress netmask network prefix scope type".split()
FIELDS: Dict[str, Iterable[str]] = {
    "default_ipv4": ADDRESS, "default_ipv6": ADDRESS, "apparmor": ("status",),
    "date_time": """date time epoch iso8601 iso8601_basic iso8601_basic_short iso8601_micro year month day hour minute
                    second tz tz_offset weekday weekday_number weeknumber""".split(),
    "lsb": ("codename", "description", "id", "major_release", "release"),
    "selinux": ("config_mode", "mode", "status", "type"),
    "env": (),  # those that the book reads
}
# A name of `ansible_` to its value: only the kind counts.
DOCUMENTED: Record = {
    **{f"ansible_{name}": TEXT for name in TEXTS}, **{f"ansible_{name}": NUMBER for name in NUMBERS},
    "ansible_fips": TRUTH, "ansible_is_chroot": TRUTH, "ansible_python": {
        "executable": TEXT, "has_sslcontext": TRUTH, "type": TEXT,
        "version": {"major": NUMBER, "minor": NUMBER, "micro": NUMBER, "releaselevel": TEXT, "serial": NUMBER}},
    **{f"ansible_{name}": {field: TEXT for field in fields} for name, fields in FIELDS.items()},
}
READ = re.compile(r"\bansible_\w+")
FIELD = re.compile(r"(?<![\w.\]])ansible_facts(?:\.(\w+)|\[['\"](\w+)['\"]\])")
OF_ENVIRONMENT = re.compile(r"\bansible_env(?:\.([A-Za-z_]\w*)|\[['\"]([A-Za-z_]\w*)['\"]\])")


def documented_facts(book: Book, trusts: bool) -> None:
    """Notes for each play that gathers facts which further ones are set there."""
    read: Set[str] = set()
    fields: Record = {}
    plays = book.read_plays()
    for holder in (one for play in plays for one in play.holders()):
        rewrite_words(holder.words, plain_name)
        holder.evaluated = [changed_texts(node, plain_name) for node in holder.evaluated]
        for text in (text for node in [*holder.words.pairs.values(), *holder.evaluated] for text in texts_of(node)):
            if "ansible_" in text.value:
                read.update(READ.findall(text.value))
                fields.update(dict.fromkeys((one or other for one, other in OF_ENVIRONMENT.findall(text.value)), TEXT))
    found: Record = {name: fields if name == "ansible_env" else DOCUMENTED[name]
                     for name in sorted(read & set(DOCUMENTED))}
    for play in plays if found else ():
        play.facts = set_facts(found, trusts and "gather_subset" not in play.written)
        for task in play.tasks():
            if task.module() == "setup":
                task.judging.facts = set_facts(found, False)


def plain_name(expression: str) -> str:
    """`ansible_facts.fqdn` is `ansible_fqdn`."""
    return FIELD.sub(own_name, expression) if "ansible_facts" in expression else expression


def own_name(found: Match[str]) -> str:
    name = f"ansible_{found[1] or found[2]}"
    return name if name in DOCUMENTED else found[0]


def set_facts(found: Record, is_certain: bool) -> List[Value]:
    """The tasks that set facts: where they are perhaps there, so are the fields of records."""
    if is_certain:
        return [{"set_fact": found}]
    records: Record = {name: value for name, value in found.items() if isinstance(value, dict)}
    empty: Record = {name: {} for name in records}
    first: List[Value] = [{"set_fact": {**found, **empty}, "when": f"{FACTS[2]} is defined"}]
    return [*first, {"set_fact": records, "when": f"{FACTS[3]} is defined"}] if records else first
