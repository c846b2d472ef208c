# SPDX-License-Identifier: MIT OR Apache-2.0
# Ways from a repository to a program that a check might run: each leaves a mark where it is run.
import os
import shutil
import subprocess
import sys
import tempfile
from dataclasses import dataclass, field
from pathlib import Path
from typing import Dict, Iterator, List, Optional, Tuple

from ansible_tools import TOOL, TOP, WAITED

BOTH = ("--run-inventory", "--trust-repository")
HOSTS = {"hosts.yml": "all:\n  hosts:\n    web1:\n"}
INI = {"hosts": "[web]\nweb1\n"}
ACCEPTED = "1 of 1 tasks judged"
NO_CONFIGURATION = "ansible.cfg isn't used; --trust-repository lets"
DOCUMENTED = ('DOCUMENTATION = """\nmodule: {0}\nshort_description: x\ndescription: [x]\n'
              'extends_documentation_fragment: [{1}]\n"""\n')
FRAGMENT = 'class ModuleDocFragment(object):\n    DOCUMENTATION = "options: {}"\n'
COLLECTION = "collections/ansible_collections/e/v/plugins/"
NOTHING_JUDGED = 5


@dataclass
class Way:
    name: str
    files: Dict[str, str]  # in a text MARK stands for the file that is left as a mark, and DIR for the folder
    words: List[str]
    told: str  # what the check says
    status: int = 0
    book: str = "ping:"
    back: Tuple[str, ...] = ()  # the options that let it be run; none where nothing does
    programs: Tuple[str, ...] = ()  # the files with an x bit
    given: Dict[str, str] = field(default_factory=dict)  # of the environment; DIR stands for the folder

    def wanted(self) -> int:
        """The status: where the only task calls a module that nothing documents, nothing is judged."""
        return self.status or (0 if self.book == "ping:" else NOTHING_JUDGED)


def shell(text: str) -> str:
    return f"#!/bin/sh\necho run >>MARK\n{text}"


def python(text: str = "") -> str:
    return f'open("MARK", "a").write("run")\n{text}'


def module(fragment: str, name: str) -> str:
    return DOCUMENTED.format(name, fragment)


def configuration(*lines: str) -> Dict[str, str]:
    return {"ansible.cfg": "".join(f"{line}\n" for line in lines)}


def ways_of_inventories() -> Iterator[Way]:
    program = shell("echo '{\"all\": {\"hosts\": [\"web1\"]}, \"_meta\": {\"hostvars\": {}}}'\n")
    not_run = "which isn't run; --run-inventory lets"
    yield Way("an inventory with an x bit", {"hosts": program}, ["-i", "hosts"], "hosts: this inventory is a program, "
              + not_run, 64, back=BOTH[:1], programs=("hosts",))
    yield Way("a folder with a program", {"inv/hosts.yml": HOSTS["hosts.yml"], "inv/x": program}, ["-i", "inv"],
              "inv/x: this inventory is a program, " + not_run, 64, back=BOTH[:1], programs=("inv/x",))
    generator = ('plugin: generator\nhosts: {name: "{{ lookup(\\"pipe\\", \\"echo run >>MARK\\") }}", parents: []}\n'
                 "layers: {a: [b]}\n")
    yield Way("a folder with the plugin generator", {"inv/a.yml": HOSTS["hosts.yml"], "inv/z.generator.yml": generator},
              ["-i", "inv"], "inv/z.generator.yml: this inventory is for the plugin generator, " + not_run, 64,
              back=BOTH[:1])
    constructed = 'plugin: constructed\nstrict: false\ncompose:\n  a: lookup("pipe", "echo run >>MARK")\n'
    yield Way("a folder with the plugin constructed", {"inv/a.yml": HOSTS["hosts.yml"], "inv/z.yml": constructed},
              ["-i", "inv"], "inv/z.yml: this inventory is for the plugin constructed, " + not_run, 64)
    lookup = 'web1 ansible_connection="{{ lookup(\'pipe\', \'echo run >>MARK\') }}"\n'
    yield Way("a lookup in INI", {"hosts": lookup}, ["-i", "hosts"], ACCEPTED)


def ways_of_configurations() -> Iterator[Way]:
    vault = configuration("[defaults]", "vault_password_file=./v")
    yield Way("a program for the vault", {**INI, **vault, "v": shell("echo x\n")}, ["-i", "hosts"], NO_CONFIGURATION,
              back=BOTH[1:], programs=("v",))
    plugins = configuration("[defaults]", "inventory_plugins=./ip", "[inventory]", "enable_plugins=evil,ini")
    yield Way("a plugin for inventories", {**INI, **plugins, "ip/evil.py": python()}, ["-i", "hosts"], NO_CONFIGURATION,
              back=BOTH)
    variables = configuration("[defaults]", "vars_plugins=./vp")
    yield Way("a plugin for variables", {**INI, **variables, "vp/evil.py": python()}, ["-i", "hosts"], NO_CONFIGURATION,
              back=BOTH[1:])
    fragments = configuration("[defaults]", "library=./library", "doc_fragment_plugins=./frag")
    yield Way("a module with a fragment", {**HOSTS, **fragments, "library/evil_mod.py": module("evilfrag", "evil_mod"),
                                           "frag/evilfrag.py": python(FRAGMENT)}, ["-i", "hosts.yml"],
              NO_CONFIGURATION, book="evil_mod:", back=BOTH[1:])
    collected = {**HOSTS, COLLECTION + "modules/il.py": module("e.v.frag", "il"),
                 COLLECTION + "doc_fragments/frag.py": python(FRAGMENT)}
    path = configuration("[defaults]", "collections_path=./collections")
    yield Way("a collection", {**collected, **path}, ["-i", "hosts.yml"], NO_CONFIGURATION, book="e.v.il:",
              back=BOTH[1:])
    yield Way("a collection without ansible.cfg", collected, ["-i", "hosts.yml"],
              f"{COLLECTION}modules/il.py isn't used; --trust-repository lets", book="e.v.il:")
    callback = configuration("[defaults]", "callback_plugins=./cb", "callbacks_enabled=c", "stdout_callback=c",
                             "bin_ansible_callbacks=true")
    yield Way("a callback", {**HOSTS, **callback, "cb/c.py": python()}, ["-i", "hosts.yml"], NO_CONFIGURATION,
              book="some_unknown:")


def ways_of_folders() -> Iterator[Way]:
    beside = {f"{folder}/{name}.py": python() for folder, name in (
        ("library", "evil_mod"), ("filter_plugins", "f"), ("callback_plugins", "c"), ("action_plugins", "evil_mod"))}
    yield Way("folders beside the book", {**HOSTS, **beside}, ["-i", "hosts.yml"],
              "library/evil_mod.py isn't used; --trust-repository lets", book="evil_mod:")
    texts = {f"{name}.py": python() for name in ("yaml", "argparse", "sitecustomize", "jinja2", "json")}
    yield Way("modules of Python", {**HOSTS, **texts}, ["-i", "hosts.yml"], ACCEPTED)
    names = ("playcheck", "ansible-doc", "ansible-inventory", "python3", "find", "bash")
    programs = {name: shell("") for name in names}
    yield Way("programs in the folder", {**HOSTS, **programs}, ["-i", "hosts.yml"], ACCEPTED, programs=tuple(programs))
    for path in (".", "", "bin/.."):
        yield Way(f"programs in the folder, {path!r} in the PATH", {**HOSTS, **programs, "bin/x": ""},
                  ["-i", "hosts.yml"], "tasks judged", book="some_unknown:", programs=tuple(programs),
                  given={"PATH": f"{path}:{os.environ['PATH']}", "PLAYCHECK_ROOT": ""})


def ways_of_environments() -> Iterator[Way]:
    """What a caller's environment names in the repository: Ansible's variables, Python's, and HOME."""
    library = {"library/evil_mod.py": module("evilfrag", "evil_mod"), "frag/evilfrag.py": python(FRAGMENT)}
    given = {"ANSIBLE_LIBRARY": "DIR/library", "ANSIBLE_DOC_FRAGMENT_PLUGINS": "DIR/frag"}
    yield Way("ANSIBLE_LIBRARY", {**HOSTS, **library}, ["-i", "hosts.yml"], "0 of 1 tasks judged", book="evil_mod:",
              back=BOTH[1:], given=given)
    named = configuration("[defaults]", "library=./library", "doc_fragment_plugins=./frag")
    yield Way("ANSIBLE_CONFIG", {**HOSTS, **library, "other.cfg": named["ansible.cfg"]}, ["-i", "hosts.yml"],
              "0 of 1 tasks judged", book="evil_mod:", back=BOTH[1:], given={"ANSIBLE_CONFIG": "DIR/other.cfg"})
    outside = {"../.ansible.cfg": "[defaults]\nlibrary=DIR/library\ndoc_fragment_plugins=DIR/frag\n"}
    yield Way("the configuration of HOME", {**HOSTS, **library, **outside}, ["-i", "hosts.yml"], "0 of 1 tasks judged",
              book="evil_mod:", back=BOTH[1:])
    program = Path(os.environ["PLAYCHECK"])
    yield Way("PLAYCHECK as a name", {**HOSTS, program.name: shell("")}, ["-i", "hosts.yml"], ACCEPTED,
              programs=(program.name,), given={"PLAYCHECK": program.name,
                                               "PATH": f".:{program.parent}:{os.environ['PATH']}"})
    at_home = {".ansible/plugins/modules/evil_mod.py": library["library/evil_mod.py"],
               ".ansible/plugins/doc_fragments/evilfrag.py": library["frag/evilfrag.py"],
               ".ansible.cfg": "[defaults]\nlibrary=./.ansible/plugins/modules\n"
                               "doc_fragment_plugins=./.ansible/plugins/doc_fragments\n"}
    yield Way("HOME in the repository", {**HOSTS, **at_home}, ["-i", "hosts.yml"], "~/.ansible isn't used", 0,
              "evil_mod:", BOTH[1:], given={"HOME": "DIR"})
    yield Way("PYTHONPATH", {**HOSTS, "jinja2.py": python()}, ["-i", "hosts.yml"], "0 of 1 tasks judged",
              book="some_unknown:", given={"PYTHONPATH": "DIR"})
    yield Way("PYTHONPATH of the current folder", {**HOSTS, "yaml.py": python(), "argparse.py": python()},
              ["-i", "hosts.yml"], ACCEPTED, given={"PYTHONPATH": "."})


def ways() -> Iterator[Way]:
    for some in (ways_of_inventories, ways_of_configurations, ways_of_folders, ways_of_environments):
        yield from some()


def tried(way: Way, *options: str) -> Tuple["subprocess.CompletedProcess[str]", bool]:
    """What a check of such a repository comes to, and whether it has left its mark."""
    with tempfile.TemporaryDirectory() as folder:
        mark, top = Path(folder, "mark"), Path(folder, "repository")
        files = {"site.yml": f"- hosts: all\n  gather_facts: false\n  tasks:\n    - {way.book}\n", **way.files}
        for name, text in files.items():
            path = top / name
            path.parent.mkdir(parents=True, exist_ok=True)
            path.write_text(text.replace("MARK", str(mark)).replace("DIR", str(top)), encoding="utf-8")
            path.chmod(0o755 if name in way.programs else 0o644)
        given = {name: text.replace("DIR", str(top)) for name, text in way.given.items()}
        done = subprocess.run([sys.executable, TOOL, "check", "site.yml", *way.words, *options], cwd=top, check=False,
                              capture_output=True, text=True, timeout=WAITED, stdin=subprocess.DEVNULL,
                              env={**os.environ, "HOME": folder, **given})
        return done, mark.exists()


def wrong_ways() -> Iterator[str]:
    """Nothing is run where no option says so, and the check says what it passed over."""
    for way in ways():
        done, is_run = tried(way)
        is_asked = not missing_ansible() or not way.told.startswith(("library/", COLLECTION))
        told = way.told if is_asked else "ansible-doc isn't installed"
        if is_run or told not in done.stdout + done.stderr or done.returncode != way.wanted():
            yield f"{way.name}: run {is_run}, wanted {told!r} and status {way.wanted()}, found {done}"


def not_taken_back() -> Iterator[str]:
    """With the options that let a way be run, and no fewer, it is run."""
    for way in ways():
        for options in filter(None, {way.back, *((one,) for one in way.back)}):
            done, is_run = tried(way, *options)
            if is_run != (options == way.back):
                yield f"{way.name} with {options}: run {is_run}, {done}"


def wrong_pipelines() -> Iterator[str]:
    """The action, the hook and the job let nothing be run."""
    for name in ("action.yml", ".pre-commit-hooks.yaml", "docs/ci/gitlab.yml"):
        text = (TOP / name).read_text(encoding="utf-8")
        yield from (f"{name} has {option}" for option in BOTH if option in text)


def missing_ansible() -> Optional[str]:
    lacking = [name for name in ("ansible-doc", "ansible-inventory") if not shutil.which(name)]
    return f"{lacking[0]} isn't installed" if lacking else None
