# SPDX-License-Identifier: MIT OR Apache-2.0
# Measures verdicts on whole books and prints each figure with its bar: python3 bench/verdicts.py [PROGRAM]
import os
import sys
import tempfile

sys.dont_write_bytecode = True

from measure import at_most, can_count, in_rounds, instructions, line, ms, program_of, write

TASKS = 500
HANDLERS = 20
HOSTS, GROUPS = 1_000, 20
MOST_LINES, MOST_HOSTS = 4_096, 1_024
CLASSES, PLAYS = 50, 60
VARIABLES = 4_096  # of one group
FEW_ROUNDS = 2  # of what takes seconds

# Of a block's eight tasks four call a module; the rescue part is counted too.
TASKS_OF_A_BLOCK, LINES_OF_A_BLOCK, CALLS_OF_A_BLOCK = 8, 9, 4


def block(number):
    """A package, its settings and its service: five tasks, two that undo them and one that tells of it."""
    register = f"installed_{number}"
    return {
        "name": f"Package {number}",
        "block": [
            {"name": "Install", "command": f"install {{{{ package_{number % 9} }}}} {number}", "register": register},
            {"name": "Tell", "debug": {"msg": f"{{{{ {register}.stdout }}}}"}, "when": f"{register} is changed"},
            {"name": "Write", "copy": {"dest": f"/etc/{number}", "content": "port {{ port }}"}, "notify": [handler_name(number)]},
            {"name": "Count", "set_fact": {f"done_{number % 50}": f"{{{{ {register}.rc | default(0) }}}}"}},
            {"name": "Start", "service": {"name": f"package-{number}", "state": "started"}},
        ],
        "rescue": [
            {"name": "Undo", "command": f"remove {number}"},
            {"name": "Tell the failure", "debug": {"msg": "package {{ port }} is taken back"}},
        ],
        "always": [{"name": "Tell the end", "debug": {"msg": "{{ zone }}"}}],
        "when": "ready",
    }


def handler_name(number):
    return f"Restart {number % HANDLERS}"


def handler(number):
    return {"name": handler_name(number), "service": {"name": f"package-{number}", "state": "restarted"}}


def book(tasks):
    """So many tasks in blocks, the last block of fewer tasks, and handlers."""
    blocks = [block(number) for number in range(tasks // TASKS_OF_A_BLOCK)]
    rest = [{"name": f"Ping {number}", "ping": None} for number in range(tasks % TASKS_OF_A_BLOCK)]
    handlers = [handler(number) for number in range(HANDLERS)]
    names = {f"package_{number}": f"package-{number}" for number in range(9)}
    return [{"hosts": "all", "gather_facts": False, "vars": names, "tasks": blocks + rest, "handlers": handlers}]


def calls(tasks, hosts):
    """The modules that such a book calls at most, its handlers at its one flush."""
    return (tasks // TASKS_OF_A_BLOCK * CALLS_OF_A_BLOCK + tasks % TASKS_OF_A_BLOCK + HANDLERS) * hosts


def most_tasks():
    """The tasks of the longest book: a line for the play, each block, task and handler."""
    lines = MOST_LINES - 1 - HANDLERS
    return lines // LINES_OF_A_BLOCK * TASKS_OF_A_BLOCK + lines % LINES_OF_A_BLOCK


def inventory(hosts, classes=1):
    """Hosts in groups, each with a variable beside those of all; so many classes of hosts can be told apart, by a variable
    that no other class has."""
    names = [f"web{number:04}" for number in range(hosts)]
    groups = {f"zone{g:02}": {"hosts": names[g::GROUPS], "vars": {"zone": f"zone {g}"}} for g in range(GROUPS)}
    groups = {name: group for name, group in groups.items() if group["hosts"]}
    own = {name: {f"role_{n % classes}": n % classes} for n, name in enumerate(names)} if classes > 1 else {}
    common = {"vars": {"ready": True, "port": 8080}, "children": list(groups)}
    return groups | {"all": common, "_meta": {"hostvars": own}}


def with_another(plays):
    """With one text more that reads a variable of another host."""
    (play,) = plays
    return [play | {"tasks": play["tasks"] + [{"debug": {"msg": "{{ hostvars['web0000'].port }}"}}]}]


def short_plays(plays):
    """So many plays of one task."""
    return [{"hosts": "all", "gather_facts": False, "tasks": [{"ping": None}]} for _ in range(plays)]


def doubling(lines):
    """A value whose kind is twice as large at each line, until it is too heavy."""
    steps = [{"set_fact": {f"a{n + 1}": {"f": f"{{{{ a{n} }}}}", "g": f"{{{{ a{n} }}}}"}}} for n in range(lines)]
    return [{"hosts": "all", "gather_facts": False, "tasks": [{"set_fact": {"a0": 1}}] + steps}]


def chained():
    """Eight names of `vars`, each of which reads the next one seven times."""
    values = {f"v{n}": f"{{{{ v{n + 1} }}}}" * 7 for n in range(7)}
    task = {"debug": {"msg": "{{ v0 }}"}}
    return [{"hosts": "all", "gather_facts": False, "vars": values | {"v7": "x"}, "tasks": [task]}]


def nested(levels):
    """So many blocks in one another, each with an `always` part, whose tasks have a node for each of its two modes."""
    step = {"ping": None}
    for level in range(levels):
        step = {"block": [step, {"debug": {"msg": "b"}}], "always": [{"ping": None, "register": f"r{level}"}]}
    return [{"hosts": "all", "gather_facts": False, "tasks": [step]}]


def check(program, folder, name, tasks, hosts, classes=1, made=None):
    """The words of the check of a book on so many hosts, and its verdict; the book is the one of blocks or the one given,
    which calls as many modules."""
    path = write(folder, f"{name}.json", made or book(tasks))
    listed = write(folder, f"{name}_hosts.json", inventory(hosts, classes))
    return ([program, "check", path, "-i", listed], f"accepted budget {calls(tasks, hosts)}\n")


def check_short(program, folder, name, hosts):
    """The same of many plays of one task."""
    path = write(folder, f"{name}.json", short_plays(PLAYS))
    listed = write(folder, f"{name}_hosts.json", inventory(hosts))
    return ([program, "check", path, "-i", listed], f"accepted budget {PLAYS * hosts}\n")


def check_given(program, folder, name, hosts):
    """The check of one task on so many hosts, which have many variables of one group and each one of its own."""
    names = [f"web{number:04}" for number in range(hosts)]
    group = {"hosts": names, "vars": {f"variable_{number}": number for number in range(VARIABLES)}}
    own = {host: {"address": f"10.0.0.{number}"} for number, host in enumerate(names)}
    book_of_one = write(folder, f"{name}.json", [{"hosts": "all", "gather_facts": False, "tasks": [{"ping": None}]}])
    listed = write(folder, f"{name}_hosts.json", {"web": group, "_meta": {"hostvars": own}})
    return ([program, "check", book_of_one, "-i", listed], f"accepted budget {hosts}\n")


def quick(program, folder):
    empty = write(folder, "empty.json", [])
    return {
        "empty": ([program, "check", empty, "-i", write(folder, "one.json", inventory(1))], "accepted budget 0\n"),
        "one": check(program, folder, "one_host", TASKS, 1),
        "twice": check(program, folder, "twice_the_tasks", 2 * TASKS, 1),
    }


def large(program, folder):
    return {
        "hosts": check(program, folder, "hosts", TASKS, HOSTS),
        "half": check(program, folder, "half_the_hosts", TASKS, HOSTS // 2),
        "classes": check(program, folder, "classes", TASKS, HOSTS, CLASSES),
        "most": check(program, folder, "most", most_tasks(), MOST_HOSTS),
        "plays": check_short(program, folder, "plays", MOST_HOSTS),
        "half plays": check_short(program, folder, "half_plays", MOST_HOSTS // 2),
        "given": check_given(program, folder, "given", MOST_HOSTS),
    }


def apart(program, folder):
    rest = most_tasks() - 1
    return {
        "apart": check(program, folder, "apart", most_tasks(), MOST_HOSTS, MOST_HOSTS),
        "others": check(program, folder, "others", rest, MOST_HOSTS, 1, with_another(book(rest))),
    }


def hostile(program, folder):
    hosts = write(folder, "h1.json", {"all": {"hosts": ["h1"]}})
    books = {
        "80 lines that double a kind": (doubling(80), "", 3),  # want of memory, by name
        "8 names that read 7 each": (chained(), "accepted budget 0\n", 0),
        "16 nested `always`": (nested(16), "accepted budget 17\n", 0),
    }
    found = {}
    for name, (made, said, status) in books.items():
        found[name] = ([program, "check", write(folder, f"{name[:2]}.json", made), "-i", hosts], said, status)
    return found


def megabytes(figures):
    return figures.memory / 1024


def within(name, figures, seconds, memory):
    figure = f"{figures.seconds:.2f} s, {megabytes(figures):,.0f} MB"
    reached = figures.seconds <= seconds and megabytes(figures) <= memory
    line(name, figure, f"at most {seconds} s, {memory:,} MB", reached)


def print_quick(found):
    over = found["one"].seconds - found["empty"].seconds
    detail = f"{ms(found['one'].seconds)} less {ms(found['empty'].seconds)}"
    line(f"{TASKS} tasks on one host over an empty book", f"{ms(over)} ({detail})", "at most 4 ms", over <= 0.004)
    twice = (found["twice"].seconds - found["empty"].seconds) / over
    at_most("twice the tasks, both less an empty book", twice, 2.2, ms(found["twice"].seconds))


def print_large(found):
    within(f"{TASKS} tasks on {HOSTS:,} hosts that look alike", found["hosts"], 0.1, 500)
    print_twice("twice the hosts", found["hosts"], found["half"], 2.2)
    within(f"the same in {CLASSES} classes", found["classes"], 0.3, 500)
    within(f"{MOST_LINES:,} lines on {MOST_HOSTS:,} hosts that look alike", found["most"], 0.5, 500)
    print_twice(f"{PLAYS} plays of one task, twice the hosts", found["plays"], found["half plays"], 2.1)
    within(f"{VARIABLES:,} variables of one group on {MOST_HOSTS:,} hosts, each with one of its own", found["given"], 0.1, 50)


def print_twice(name, whole, half, bar):
    at_most(name, whole.seconds / half.seconds, bar, f"{ms(whole.seconds)} over {ms(half.seconds)}")


def print_apart(found):
    within(f"{MOST_LINES:,} lines on {MOST_HOSTS:,} hosts, each apart", found["apart"], 13, 150)
    within("the same, alike, of which a text reads another", found["others"], 20, 2_048)


def print_instructions(program, folder):
    """Of checks on hosts of one class, and of several, beside that on one host."""
    wanted = {
        "one host": check(program, folder, "one", TASKS, 1),
        f"{HOSTS:,} hosts that look alike": check(program, folder, "alike", TASKS, HOSTS),
        f"the same in {CLASSES} classes": check(program, folder, "in_classes", TASKS, HOSTS, CLASSES),
    }
    figures = {name: instructions(*command) for name, command in wanted.items()}
    one = figures.pop("one host")
    for (name, figure), bar in zip(figures.items(), (10, 60)):
        at_most(f"{TASKS} tasks on {name} over one host, in instructions", figure / one, bar, f"{figure:,} over {one:,}")


def main():
    program = program_of(sys.argv[1:])
    with tempfile.TemporaryDirectory() as folder:
        print_quick(in_rounds(quick(program, folder)))
        print_large(in_rounds(large(program, folder), FEW_ROUNDS))
        print_apart(in_rounds(apart(program, folder), 1))
        if can_count():
            print_instructions(program, folder)
        for name, figures in in_rounds(hostile(program, folder), FEW_ROUNDS).items():
            within(name, figures, 2, 1_024)


if __name__ == "__main__":
    main()
