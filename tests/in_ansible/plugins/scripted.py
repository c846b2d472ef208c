# SPDX-License-Identifier: GPL-3.0-or-later
# An action plugin that stands under the name of a module: the n-th call of a host takes the n-th of its answers.
import json
import os

from ansible.errors import AnsibleConnectionFailure
from ansible.plugins.action import ActionBase

NAME = os.path.splitext(os.path.basename(__file__))[0]
# An answer of each module of the tests stands in each row, so that whatever is called gets one of its own shape.
OTHER_NAMES = {"gather_facts": "setup"}
NONE = {"failed": True, "msg": "SCRIPTED no answer"}


class ActionModule(ActionBase):
    TRANSFERS_FILES = False
    _VALID_ARGS = frozenset()

    def run(self, tmp=None, task_vars=None):
        host = task_vars["inventory_hostname"]
        folder = os.environ["PEER_FOLDER"]
        number = next_number(os.path.join(folder, f"calls.{host}"), NAME)
        with open(os.path.join(folder, "answers.json"), encoding="utf-8") as file:
            rows = json.load(file).get(host, [])
        answer = rows[number][OTHER_NAMES.get(NAME, NAME)] if number < len(rows) else NONE
        if answer.get("unreachable") is True:
            raise AnsibleConnectionFailure("SCRIPTED unreachable")
        return answer


def next_number(path, name):
    """How many calls of the host there were; each leaves a line with its module."""
    with open(path, "a+", encoding="utf-8") as file:
        file.seek(0)
        number = sum(1 for _ in file)
        file.write(f"{name}\n")
    return number
