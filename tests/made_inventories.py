# SPDX-License-Identifier: MIT OR Apache-2.0
# Makes inventories in INI by a seed: what people write, and faults; and what ansible-inventory says of many files.
import json
import os
import random
import shlex
import shutil
import subprocess
from pathlib import Path
from typing import Any, Dict, List, Optional, Sequence

SECONDS = 600
GROUPS = ("web", "db", "app-1", "lb", "x.y", "größe", "w#1")
HOSTS = ("web1", "db.example.com", "h[1:3]", "h[01:03]", "n[a:c]", "r[1:9:4]", "a[1:2]b[x:y]", "10.0.0.[1:2]",
         "s1:2222", "t[1:2]:22", "[::1]:23", "[fe80::2]:24", "u_", "v-:25", "local.host:0", "Z[8:10]", "e[A:B]", "q[5:3]",
         "k[:2]", "[h9:5]:6", "big[098:101]", "web")  # the last is a group too
BAD_HOSTS = ("h[1:", "h[2:1:0]", "h[c:a]", "h[01:3]", "h[1]", "h:", "h[²:³]", "---", '""', "h|[1:2]",
             "h[a:3]", "]h[1:2]")
NAMES = ("one", "two", "three", "ansible_user", "ansible_group_priority", "k-y", "sp ace")
VALUES = ("1", "-7", "0x1f", "1_000", "1.5", "1e3", "True", "true", "None", "null", "yes", "", "a", "a.b/c",
          "[1, 2, 'x']", "{'a': 1, 'b': [None]}", "(1, 2)", "'quoted'", '"double"', "b'bytes'", "01", "0777",
          "1 # one", "'a' 'b'", "#", "a#b", "a=b", "{{ x }}", "$HOME", "'it''s'", "\\\\n", "'\\n'", "é", "9" * 30,
          "- 1", "1+2", "not True", "...x", "a;b", "[1,", "'open", "{'a'}x", "1if 2else 3", "0o17", "08", "~", "1:2")
WORDS = ("'{}'", '"{}"', "{}")
COMMENTS = ("# comment", "; other", "   # far", "", "  ", "\t")


def made_inventory(seed: int) -> str:
    """The text of an inventory: one in three has a fault, or what may be one."""
    dice = random.Random(seed)
    lines: List[str] = []
    for _ in range(dice.randint(1, 6)):
        lines += made_section(dice)
    if dice.random() < 0.25:
        lines.insert(dice.randint(0, len(lines)), dice.choice(FAULTS)(dice))
    return "".join(line + dice.choice(("\n", "\n", "\n", "\r\n", "  \n")) for line in lines)


def made_section(dice: random.Random) -> List[str]:
    kind = dice.choice(("", "", "", ":vars", ":children", ":hosts"))
    group = dice.choice((*GROUPS, *GROUPS, "all", "ungrouped"))
    head = [f"[{group}{kind}]" + dice.choice(("", "", " ", " # head"))] if dice.random() < 0.9 else []
    kind = kind if head else ""
    lines = [dice.choice(COMMENTS) for _ in range(dice.randint(0, 1))]
    for _ in range(dice.randint(0, 4)):
        lines.append(made_child(dice) if kind == ":children" else made_variable(dice) if kind == ":vars" else
                     made_host(dice, HOSTS if group != "all" else HOSTS[:-1]))
    needed = [f"[{name}]" for name in GROUPS if name != group] if kind and dice.random() < 0.8 else []
    return [*head, *lines, *needed, *([f"[{group}]"] if needed and group not in ("all", "ungrouped") else [])]


def made_child(dice: random.Random) -> str:
    return dice.choice(GROUPS[:-1]) + dice.choice(("", "", " ", " # child"))


def made_variable(dice: random.Random) -> str:
    value = str(dice.randint(1, 9)) if (name := dice.choice(NAMES)) == "ansible_group_priority" else dice.choice(VALUES)
    return name + dice.choice(("=", " = ", "= ")) + value


def made_host(dice: random.Random, hosts: Sequence[str]) -> str:
    words = [dice.choice(hosts)]
    for _ in range(dice.randint(0, 3)):
        value = dice.choice(VALUES)
        written = shlex.quote(value) if dice.random() < 0.9 else dice.choice(WORDS).format(value)
        name = dice.choice([name for name in NAMES if " " not in name and "priority" not in name])
        words.append(f"{name}={written}")
    return dice.choice(("", "", "  ")) + dice.choice((" ", "  ", "\t")).join(words) + dice.choice(("", "", " # end"))


FAULTS = (lambda dice: dice.choice(BAD_HOSTS), lambda dice: f"[{dice.choice(GROUPS)}:nothing]", lambda dice: "[a b]",
          lambda dice: f"[{dice.choice(GROUPS)}:children]\n{dice.choice(GROUPS)}", lambda dice: "web1 word",
          lambda dice: "[gone:vars]", lambda dice: "[web:children]\nnever", lambda dice: "web1 a='open",
          lambda dice: "[web:vars]\nword", lambda dice: "[web:children]\nall", lambda dice: "[db:vars]\na={[]: 1}",
          lambda dice: "[db:children]\na b", lambda dice: "[lb:vars]\nansible_group_priority=high", lambda dice: "[]",
          lambda dice: "[web] ; what", lambda dice: "\\")


def listed_by_ansible(files: List[Path], folder: Path) -> Optional[List[Optional[Dict[str, Any]]]]:
    """What ansible-inventory lists of each file, or None of one that it refuses; None where it isn't installed."""
    found = shutil.which("ansible-inventory")
    with open(found or os.devnull, encoding="utf-8", errors="replace") as file:
        interpreter = file.readline().removeprefix("#!").split()
    if not interpreter or subprocess.run([*interpreter, "-c", "import ansible.cli.inventory"], check=False,
                                         capture_output=True).returncode:
        return None
    Path(folder, "empty.cfg").touch()
    given = {"ANSIBLE_CONFIG": str(folder / "empty.cfg"), "ANSIBLE_INVENTORY_ENABLED": "ini", "HOME": str(folder),
             "ANSIBLE_INVENTORY_ANY_UNPARSED_IS_FAILED": "1"}
    done = subprocess.run([*interpreter, Path(__file__).parent / "in_ansible" / "list_inventories.py", *files], capture_output=True,
                          text=True, check=True, timeout=SECONDS, env={**os.environ, **given})
    return [json.loads(line) for line in done.stdout.splitlines()]


def made_variables(seed: int) -> Dict[str, str]:
    """Files of variables beside an inventory: for one in four, of a group or a host, plain or in a folder."""
    dice = random.Random(-seed)
    found: Dict[str, str] = {}
    for _ in range(dice.choice((0, 0, 0, 1, 2, 3))):
        start = dice.choice(("group_vars/web", "group_vars/all", "host_vars/web1", "host_vars/h1"))
        path = start + dice.choice((".yml", "", ".json", ".yaml", "/a.yml", "/b", "/.hidden.yml", "/c.yml~", "/d/e.yml",
                                    "/f.txt"))
        if start not in found and not (path == start and any(other.startswith(f"{start}/") for other in found)):
            found[path] = json.dumps({dice.choice(NAMES[:4]): dice.choice((1, "file", [1, "a"], True, None, {"a": 2}))})
    return found
