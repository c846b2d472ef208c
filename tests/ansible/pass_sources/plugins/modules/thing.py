# SPDX-License-Identifier: GPL-3.0-or-later
from ansible.module_utils.basic import AnsibleModule

spec = {"a": {"type": "str"}, "extra": {"type": "int", "options": {"inner": {"type": "int"}}}}
spec["old"] = dict(type="str", removed_in_version="3.0.0")
other = {"inner": {"of": "something else"}}
