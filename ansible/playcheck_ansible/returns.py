# SPDX-License-Identifier: MIT OR Apache-2.0
# What calls of real modules answered otherwise than their documentation says: fields that aren't always there, or of a kind.
from __future__ import annotations

from typing import TYPE_CHECKING, Dict, Tuple

from .modules import Modules, Signature

if TYPE_CHECKING:
    from .nodes import Record

# Measured with ansible-core 2.14 and its collections: 100 calls of 52 modules, each called twice, and calls that fail.
NOT_ALWAYS: Dict[str, Tuple[str, ...]] = {
    "ansible.builtin.get_url": ("secontext", "src", "md5sum"),
    "ansible.builtin.git": ("git_dir_before", "git_dir_now", "remote_url_changed"),
    "ansible.posix.authorized_key": ("key_option", "unique"),
}
# Of these the value may be null, or a number where the documentation has a decimal one.
OF_NO_KIND: Dict[str, Tuple[str, ...]] = {
    "ansible.builtin.get_url": ("checksum_dest", "checksum_src", "status_code"),
    "ansible.builtin.git": ("before",),
    "ansible.builtin.pause": ("delta",),
    "ansible.builtin.wait_for_connection": ("elapsed",),
}


def measured(modules: Modules) -> Modules:
    """The modules with what was measured put over what their documentation says."""
    if not any(long_name(known.name) in {**NOT_ALWAYS, **OF_NO_KIND} for known in modules.documented.values()):
        return modules
    return Modules([corrected(module) for module in modules.declared], modules.unknown, modules.unasked)


def long_name(name: str) -> str:
    return name if "." in name else f"ansible.builtin.{name}"


def corrected(module: Signature) -> Signature:
    further, fields = module.get("ansible"), module.get("ok")
    if not isinstance(further, dict) or not isinstance(fields, dict):
        return module
    name = long_name(str(further.get("name", module["name"])))
    gone, perhaps = OF_NO_KIND.get(name, ()), NOT_ALWAYS.get(name, ())
    kept: Record = {field: {**one, "always": False} if field in perhaps and isinstance(one, dict) else one
                    for field, one in fields.items() if field not in gone}
    return {**module, "ok": kept}
