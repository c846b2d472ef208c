# SPDX-License-Identifier: MIT OR Apache-2.0
argument_spec = dict(a=dict(type="str"))
argument_spec.update(state=dict(type="str", choices=["present", "absent"]))
