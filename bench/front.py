#!/usr/bin/env python3
# SPDX-License-Identifier: MIT OR Apache-2.0
# What playcheck-ansible takes on a book of 500 tasks beside PyYAML's own loading of it: python3 bench/front.py [PROGRAM].
import os
import resource
import statistics
import subprocess
import sys
import tempfile
from pathlib import Path

TOP = Path(__file__).resolve().parent.parent
ROUNDS = 21
MOST = 1.5
HEAD = """- name: Site
  hosts: all
  gather_facts: false
  vars:
    port: 80
    names: [a, b]
  tasks:
"""
TASKS = """    - name: Ask #
      command: /opt/app/bin/ask --number # --port {{ port }}
      register: answer_#
      changed_when: answer_#.rc != 0
      tags: [ask, part#]
    - name: Show #
      debug:
        msg: "{{ answer_#.stdout }} of {{ inventory_hostname }}"
      when: answer_#.rc == 0
    - name: Copy #
      copy: src=a# dest=/etc/a# mode=0644 owner=root
      become: yes
      notify: Restart
    - name: Make #
      file:
        path: "/srv/{{ item }}/#"
        state: directory
        mode: "0755"
      with_items: "{{ names }}"
"""
FOOT = "  handlers:\n    - name: Restart\n      service: {name: app, state: restarted}\n"
LOAD = ["python3", "-c", "import yaml; yaml.load(open('book.yml'), getattr(yaml, 'CSafeLoader', yaml.SafeLoader))"]


def seconds(words, folder):
    """What a process takes of the processor, with what it starts."""
    before = resource.getrusage(resource.RUSAGE_CHILDREN)
    subprocess.run(words, cwd=folder, stdout=subprocess.DEVNULL, check=True)
    after = resource.getrusage(resource.RUSAGE_CHILDREN)
    return after.ru_utime + after.ru_stime - before.ru_utime - before.ru_stime


def main():
    program = os.environ["PLAYCHECK"] = str(Path(sys.argv[1] if len(sys.argv) > 1 else TOP / "playcheck").resolve())
    tool = str(TOP / "playcheck-ansible")
    with tempfile.TemporaryDirectory() as folder:
        tasks = "".join(TASKS.replace("#", str(number)) for number in range(125))
        Path(folder, "book.yml").write_text(HEAD + tasks + FOOT, encoding="utf-8")
        Path(folder, "hosts.yml").write_text("all: {hosts: {h1: , h2: }}\n", encoding="utf-8")
        subprocess.run([tool, "convert", "book.yml", "-i", "hosts.yml", "-o", "."], cwd=folder, check=True)
        commands = {
            "a Python process with PyYAML": ["python3", "-c", "import yaml"],
            "the same that loads the book": LOAD,
            "the program on the JSON": [program, "check", "book.json", "-i", "inventory.json", "-s", "signatures.json"],
            "playcheck-ansible check": [tool, "check", "book.yml", "-i", "hosts.yml", "--no-lookup"],
        }
        taken = {name: [] for name in commands}
        for _ in range(ROUNDS):
            for name, words in commands.items():
                taken[name].append(seconds(words, folder))
    found = {name: statistics.median(times) for name, times in taken.items()}
    for name, time in found.items():
        print(f"{name}: {1000 * time:.0f} ms, at least {1000 * min(taken[name]):.0f}")
    _, load, judge, front = found.values()
    ratio = (front - judge) / load
    print(f"playcheck-ansible less the program, over the loading: {ratio:.2f} times, bar {MOST}: "
          f"{'reached' if ratio <= MOST else 'not reached'}")


if __name__ == "__main__":
    main()
