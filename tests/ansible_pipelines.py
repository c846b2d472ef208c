# SPDX-License-Identifier: MIT OR Apache-2.0
# Tries what stands round the front end: completion of the shells, GitHub's action, GitLab's job and pre-commit's hook.
import json
import os
import re
import shlex
import shutil
import subprocess
import tempfile
import xml.etree.ElementTree as xml
from pathlib import Path

from ansible_tools import SECONDS, TOP

COMPLETION = TOP / "completion"
BAD = "- hosts: all\n  gather_facts: false\n  tasks:\n    - debug: {msg: \"{{ gone }}\"}\n"
GOOD = "- hosts: all\n  gather_facts: false\n  tasks:\n    - ping:\n"
FILES = {"good book.yml": GOOD, "bad.yml": BAD, "hosts.yml": "all: {hosts: {h1: }}\n", "folder/more.yml": GOOD}
DETAIL = "a variable that is perhaps undefined: 'gone' is set nowhere: not in this book, not in the inventory"
INPUTS = ["-i", "--inventory", "-s", "--signatures", "-e", "--extra-vars", "-t", "--tags", "--skip-tags",
          "--trust-facts", "--trust-returns", "--no-lookup", "--run-inventory", "--trust-repository", "--vars", "-h",
          "--help"]
# What stands on the command line up to the word that is completed, and what completes it.
COMPLETED = [
    ("playcheck ", ["check", "run", "help", "-h", "--help", "-V", "--version"]),
    ("playcheck r", ["run"]),
    ("playcheck check -", ["-i", "--inventory", "-s", "--signatures", "-h", "--help"]),
    ("playcheck run --a", ["--answers", "--arguments"]),
    ("playcheck run -f ", []),
    ("playcheck run --modules ", ["folder"]),
    ("playcheck check -i h", ["hosts.yml"]),
    ("playcheck-ansible ", ["check", "convert", "signatures", "explain", "-h", "--help", "-V", "--version"]),
    ("playcheck-ansible check g", ["good book.yml"]),
    ("playcheck-ansible check --format ", ["text", "json", "sarif", "github", "gitlab", "junit"]),
    ("playcheck-ansible check --format = j", ["json", "junit"]),
    ("playcheck-ansible check --format =", ["text", "json", "sarif", "github", "gitlab", "junit"]),
    ("playcheck-ansible check --color n", ["never"]),
    ("playcheck-ansible check --tags ", []),
    ("playcheck-ansible check bad.yml --skip-tags b", []),
    ("playcheck-ansible convert bad.yml -t ", []),
    ("playcheck-ansible check --skip", ["--skip-tags"]),
    ("playcheck-ansible check --ta", ["--tags"]),
    ("playcheck-ansible check -", [*INPUTS, "--format", "--color", "--strict", "--min-judged", "--all", "--baseline",
                                     "--write-baseline"]),
    ("playcheck-ansible convert bad.yml -", [*INPUTS, "-o", "--output"]),
    ("playcheck-ansible convert bad.yml -o ", ["folder"]),
    ("playcheck-ansible signatures --t", ["--trust-repository"]),
    ("playcheck-ansible explain a-", []),
    ("playcheck-ansible explain A-", ["A-alias", "A-choice", "A-name", "A-required"]),
    ("playcheck-ansible explain V1", ["V10", "V11", "V12", "V13"]),
]
COMPLETED_BY_FISH = [
    ("playcheck ", ["check", "help", "run"]),
    ("playcheck run --a", ["--answers", "--arguments"]),
    ("playcheck run --modules ", ["folder"]),
    ("playcheck run -f ", []),
    ("playcheck check -i h", ["hosts.yml"]),
    ("playcheck help ", ["check", "help", "run"]),
    ("playcheck-ansible ", ["check", "convert", "explain", "signatures"]),
    ("playcheck-ansible check g", ["good book.yml"]),
    ("playcheck-ansible check --format j", ["json", "junit"]),
    ("playcheck-ansible check --ta", ["--tags"]),
    ("playcheck-ansible convert bad.yml -o ", ["folder"]),
    ("playcheck-ansible explain A-", ["A-alias", "A-choice", "A-required"]),
]


def made_files(folder):
    for name, text in FILES.items():
        Path(folder, name).parent.mkdir(exist_ok=True)
        Path(folder, name).write_text(text, encoding="utf-8")


def run_bash(script, folder, **given):
    """Runs a script as GitHub and GitLab do: the first command that fails ends it."""
    return subprocess.run(["bash", "-eo", "pipefail", "-c", script], cwd=folder, capture_output=True, text=True,
        check=False,
                          timeout=SECONDS, stdin=subprocess.DEVNULL, env={**os.environ, **given})


def completed(line, folder):
    words = shlex.split(line) + ([""] if line.endswith(" ") else [])
    name = "_" + words[0].replace("-", "_")
    script = (f"set +e; source {COMPLETION}/playcheck.bash; COMP_WORDS=({shlex.join(words)}); COMP_CWORD={len(words) - 1}; "
              f'{name}; for one in "${{COMPREPLY[@]}}"; do printf "%s\\n" "$one"; done; complete -p {words[0]}')
    done = run_bash(script, folder)
    *found, bound = done.stdout.splitlines() or [""]
    return found if bound == f"complete -F {name} {words[0]}" else [done.stdout, done.stderr]


def completed_by_fish(line: str, folder: str) -> list[str]:
    """What fish offers, each without what it says of it."""
    script = f"source {COMPLETION}/playcheck.fish; complete -C {shlex.quote(line)}"
    done = subprocess.run(["fish", "--no-config", "-c", script], cwd=folder, capture_output=True, text=True, check=False,
                          timeout=SECONDS, stdin=subprocess.DEVNULL)
    return [one.partition("\t")[0].rstrip("/") for one in done.stdout.splitlines()] + done.stderr.splitlines()


def wrong_completion():
    """Of bash, and of fish where that is here."""
    with tempfile.TemporaryDirectory() as folder:
        made_files(folder)
        for line, wanted in COMPLETED:
            found = completed(line, folder)
            if sorted(found) != sorted(wanted):
                yield f"completion of {line!r}: wanted {wanted}, found {found}"
        if not shutil.which("fish"):
            print("skipped: completion of fish: fish isn't here")
            return
        for line, wanted in COMPLETED_BY_FISH:
            found = completed_by_fish(line, folder)
            if sorted(found) != sorted(wanted):
                yield f"completion by fish of {line!r}: wanted {wanted}, found {found}"


def wrong_zsh():
    """zsh reads the file, where it is here."""
    if not shutil.which("zsh"):
        print("skipped: completion of zsh: zsh isn't here")
        return
    done = subprocess.run(["zsh", "-n", str(COMPLETION / "_playcheck")], capture_output=True, text=True, check=False)
    if done.returncode or done.stderr:
        yield f"zsh: {done}"


def wrong_action():
    """GitHub's action, as its last step runs: a word a line, and nothing of an input is taken as a command."""
    import yaml

    action = yaml.safe_load((TOP / "action.yml").read_text(encoding="utf-8"))
    step = action["runs"]["steps"][-1]
    named = {name: re.fullmatch(r"\$\{\{ inputs\.(\w+) \}\}", text)[1] for name, text in step["env"].items()}
    if set(named.values()) != set(action["inputs"]) or action["runs"]["using"] != "composite" or "${{" in step["run"]:
        yield f"action.yml: {action}"
    wanted = [("bad.yml\ngood book.yml", 1, f"::error file=bad.yml,line=4,col=20,title=V01::task, host h1: {DETAIL}\n"
               "bad.yml: refused, 1 finding, 1 of 1 tasks judged\n"
               "good book.yml: accepted, 1 of 1 tasks judged, at most 1 module calls\n"),
              ("good book.yml\n", 0, "good book.yml: accepted, 1 of 1 tasks judged, at most 1 module calls\n"),
              ("$(touch made)\n", 64, "")]
    with tempfile.TemporaryDirectory() as folder:
        made_files(folder)
        for books, status, said in wanted:
            done = run_bash(step["run"], folder, GITHUB_ACTION_PATH=str(TOP), BOOKS=books, INVENTORIES="hosts.yml\n",
                            OPTIONS="--no-lookup\n--strict\n")
            if (done.returncode, done.stdout) != (status, said) or Path(folder, "made").exists():
                yield f"action.yml: {books!r}: {done}"


def wrong_hook():
    """The hook of pre-commit as the page shows it: the names of changed files stand behind its words."""
    import yaml

    page = (TOP / "docs" / "IN_PIPELINES.md").read_text(encoding="utf-8")
    shown = yaml.safe_load(re.search(r"^## pre-commit\n\n```yaml\n(.*?)^```$", page, re.M | re.S)[1])
    made = {hook["id"]: hook for hook in yaml.safe_load((TOP / ".pre-commit-hooks.yaml").read_text(encoding="utf-8"))}
    with tempfile.TemporaryDirectory() as folder:
        made_files(folder)
        for hook in shown["repos"][0]["hooks"]:
            for books, status in ((["bad.yml"], 1), (["good book.yml", "folder/more.yml"], 0)):
                done = run_bash(shlex.join([str(TOP / made[hook["id"]]["entry"]), *hook["args"], *books]), folder)
                if done.returncode != status or "1 of 1 tasks judged" not in done.stdout:
                    yield f"pre-commit: {hook['args']}, {books}: {done}"


def wrong_gitlab_job():
    """GitLab's job, as its script runs: both reports are written, and the last line decides its status."""
    import yaml

    job = yaml.safe_load((TOP / "docs" / "ci" / "gitlab.yml").read_text(encoding="utf-8"))[".playcheck"]
    for words, status, count in (("bad.yml -i hosts.yml", 1, 1), ("folder -i hosts.yml", 0, 0)):
        with tempfile.TemporaryDirectory() as folder:
            made_files(folder)
            done = run_bash("\n".join(job["script"]), folder, PLAYCHECK_HOME=str(TOP), PLAYCHECK_WORDS=words)
            reports = job["artifacts"]["reports"]
            issues = json.loads(Path(folder, reports["codequality"]).read_text(encoding="utf-8"))
            suites = xml.fromstring(Path(folder, reports["junit"]).read_text(encoding="utf-8"))
        if (done.returncode, len(issues), suites.get("failures")) != (status, count, str(count)):
            yield f"gitlab.yml: {words}: {done}, {issues}"
        if "1 of 1 tasks judged" not in done.stdout or job["artifacts"]["when"] != "always":
            yield f"gitlab.yml: {words}: {done}"
