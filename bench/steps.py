# SPDX-License-Identifier: MIT OR Apache-2.0
# Measures runs beyond their checks: task steps a second, what grows with what, loops, registers, memory, instructions. It
# has the books of runs; bench/run.py prints its figures.
import functools
from statistics import median

from measure import at_most, can_count, in_rounds, instructions, line, memory_of, ms, write

LARGE = 4094  # tasks on one host
FEW, HOSTS = 40, 1_000  # tasks on many hosts
FORKS = (5, 256)
STRATEGIES = ("linear", "free")
MOST_ITEMS = 65_536
READERS = 100  # tasks that read one register
ROUNDS = 7
SOME = 256  # tasks whose instructions are counted, and twice as many
ROWS = 64  # tasks on hosts whose instructions are counted

STEPS_OF_ONE, STEPS_OF_MANY = 300_000, 200_000
BYTES_OF_A_STEP = 400

ANSWER = {"changed": True, "rc": 0, "stdout": "a", "stderr": "", "stdout_lines": ["a"], "stderr_lines": []}
LINE = "line {:05} of what the command printed, of sixty-four bytes each"


# The books.


def task(number):
    """Commands with a register of their own, and after each a debug of what it printed."""
    pair = number // 2 + 1
    if number % 2 == 0:
        return {"name": f"Command {pair}", "command": f"/bin/echo {pair}", "register": f"r{pair}"}
    return {"name": f"Output {pair}", "debug": {"msg": "{{ r%d.stdout }}" % pair}}


def conditional(number):
    """A command with a condition that holds and a register."""
    return {"command": f"/bin/echo {number}", "register": f"r{number}", "when": "ready == 1"}


def book(tasks, **words):
    return [{"hosts": "all", **words, "tasks": tasks}]


def asking(*tasks):
    """A command whose output has many lines, and tasks that read it."""
    return book([{"command": "/bin/cat lines", "register": "read"}, *tasks])


def reader(number):
    """A task that reads the whole register, its lines or its text."""
    part = ("", ".stdout_lines", ".stdout")[number % 3]
    return {"debug": {"msg": "{{ read%s }}" % part}}


def looped(**module):
    return {"loop": "{{ read.stdout_lines }}", **module}


def names(hosts):
    return [f"h{number:04}" for number in range(hosts)]


def inventory(hosts):
    return {"all": {"hosts": names(hosts), "vars": {"ready": 1}}}


def answers(hosts, entries):
    return dict.fromkeys(names(hosts), entries)


def printing(lines):
    """The answer of a command that printed so many lines."""
    texts = [LINE.format(number) for number in range(lines)]
    return ANSWER | {"stdout": "\n".join(texts), "stdout_lines": texts}


def recap(hosts, ok, changed, failed=0):
    counts = f"ok={ok} changed={changed} unreachable=0 failed={failed} skipped=0 rescued=0 ignored=0"
    return "".join(f"{host} : {counts}\n" for host in names(hosts))


# What is run.


class Scene:
    """A book with its inventory and its answers, in files, and what its run prints and ends with."""

    def __init__(self, folder, name, plays, hosts, entries, accepted, ran, ended=0):
        self.book = write(folder, f"{name}.json", plays)
        self.nothing = write(folder, f"{name}_nothing.json", [])
        self.inventory = write(folder, f"{name}_hosts.json", inventory(hosts))
        self.answers = write(folder, f"{name}_answers.json", answers(hosts, entries))
        self.accepted, self.ran, self.ended, self.idle = f"accepted budget {accepted}\n", ran, ended, recap(hosts, 0, 0)

    def check(self, program):
        return [program, "check", self.book, "-i", self.inventory], self.accepted

    def run(self, program, forks=5):
        words = [program, "run", self.book, "-i", self.inventory, "--answers", self.answers, "-f", str(forks)]
        return words, self.ran, self.ended

    def reading(self, program):
        """The run of an empty book, which reads the same inventory and the same answers."""
        return [program, "run", self.nothing, "-i", self.inventory, "--answers", self.answers], self.idle

    def start(self, program):
        """The check of an empty book, which reads the same inventory."""
        return [program, "check", self.nothing, "-i", self.inventory], "accepted budget 0\n"

    def commands(self, program, name):
        return {
            (name, "check"): self.check(program),
            (name, "run"): self.run(program),
            (name, "reading"): self.reading(program),
            (name, "start"): self.start(program),
        }


def by_turns(folder, name, tasks, hosts, strategy="linear"):
    """Commands and debugs by turns on so many hosts."""
    calls = (tasks + 1) // 2
    plays = book([task(number) for number in range(tasks)], strategy=strategy)
    return Scene(folder, name, plays, hosts, [ANSWER] * calls, calls * hosts, recap(hosts, tasks, calls))


def one_by_one(folder, name, hosts):
    """Hosts each of which is a batch of its own."""
    plays = book([{"debug": {"msg": "here"}}], serial=1)
    return Scene(folder, name, plays, hosts, [], 0, recap(hosts, 1, 0))


def leaving(folder, name, hosts):
    """Hosts that leave one after the other, since there is no answer."""
    plays = book([{"debug": {"msg": "here"}}, {"ping": None}, {"debug": {"msg": "gone"}}])
    return Scene(folder, name, plays, hosts, [], hosts, recap(hosts, 1, 0, 1), 2)


def loop(folder, name, items, module):
    """A loop over so many items, where these are calls with an answer for each."""
    calls = items if "command" in module else 0
    entries = [printing(items)] + [ANSWER] * calls
    # A register has at most so many lines, as far as the verdict knows.
    most = MOST_ITEMS if calls else 0
    ran = recap(1, 2, 2 if calls else 1)
    return Scene(folder, name, asking(looped(**module)), 1, entries, 1 + most, ran)


def readers(folder, name, count, lines):
    plays = asking(*(reader(number) for number in range(count)))
    return Scene(folder, name, plays, 1, [printing(lines)], 1, recap(1, 1 + count, 1))


SHOWN = {"debug": {"msg": "{{ item }}"}}
CALLED = {"command": "/bin/echo {{ item }}", "register": "each"}


def scenes(folder):
    """Books by their names."""
    half = MOST_ITEMS // 2
    return {
        "one": by_turns(folder, "one", LARGE, 1),
        "half the tasks": by_turns(folder, "half_the_tasks", LARGE // 2, 1),
        "free": by_turns(folder, "free", FEW, HOSTS, "free"),
        "linear": by_turns(folder, "linear", FEW, HOSTS),
        "half the hosts": by_turns(folder, "half_the_hosts", FEW, HOSTS // 2),
        "one by one": one_by_one(folder, "one_by_one", HOSTS),
        "half one by one": one_by_one(folder, "half_one_by_one", HOSTS // 2),
        "leaving": leaving(folder, "leaving", HOSTS),
        "half leaving": leaving(folder, "half_leaving", HOSTS // 2),
        "shown": loop(folder, "shown", MOST_ITEMS, SHOWN),
        "called": loop(folder, "called", MOST_ITEMS, CALLED),
        "half the items": loop(folder, "half_the_items", half, CALLED),
        "readers": readers(folder, "readers", READERS, MOST_ITEMS),
        "no readers": readers(folder, "no_readers", 0, MOST_ITEMS),
    }


def all_commands(program, made):
    """Those of a scene, and those of scenes that are compared, stand beside each other."""
    words = {}
    for name, scene in made.items():
        words |= scene.commands(program, name)
        if name in STRATEGIES:
            words |= {(name, forks): scene.run(program, forks) for forks in FORKS}
    return words


# The figures, of what a command costs: the processor's time in one round or instructions. Ratios are medians of the
# ratios in each round, since what slows the machine for a while slows the commands of a round alike; rates are those of
# the round that was slowed the least.


def rounds_of(found):
    """What commands cost, round by round."""
    return [functools.partial(time_in, found, number) for number in range(2 * ROUNDS)]


def time_in(found, number, name, what):
    return found[name, what].processor[number]


def counts_of(words):
    """What commands cost in instructions, each counted once."""
    count = functools.cache(instructions)

    def cost(name, what):
        command, *wanted = words[name, what]
        return count(tuple(command), *wanted)

    return [cost]


def middle(costs, figure, *of):
    return median(figure(cost, *of) for cost in costs)


def reading(cost, name):
    """What the reading of the answers takes."""
    return cost(name, "reading") - cost(name, "start")


def beyond(cost, name, run="run"):
    """What a run takes beyond its check."""
    return cost(name, run) - cost(name, "check")


def alone(cost, name, run="run"):
    return beyond(cost, name, run) - reading(cost, name)


def single(cost, name, what):
    return cost(name, what)


def over(cost, figure, large, small):
    return figure(cost, *large) / figure(cost, *small)


def rate(name, steps, seconds, least, detail):
    if seconds <= 0:
        print(f"{name}: too short to be measured")
    elif least:
        line(name, f"{steps / seconds:,.0f} task steps a second ({detail})", f"at least {least:,}", steps / seconds >= least)
    else:
        print(f"{name}: {steps / seconds:,.0f} task steps a second ({detail}); no bar")


def print_rate(costs, name, run, steps, least, told):
    cost = min(costs, key=lambda cost: sum(cost(name, what) for what in (run, "check", "reading")))
    taken, rest = beyond(cost, name, run), alone(cost, name, run)
    rate(f"{told}, beyond check", steps, taken, least, f"{ms(cost(name, run))} less {ms(cost(name, 'check'))}")
    rate(f"{told}, beyond check and the reading of the answers", steps, rest, None, ms(rest))


def print_rates(costs):
    print_rate(costs, "one", "run", LARGE, STEPS_OF_ONE, f"{LARGE:,} tasks on one host")
    for name in STRATEGIES:
        for forks in FORKS:
            told = f"{FEW} tasks on {HOSTS:,} hosts, {name}, {forks} forks"
            print_rate(costs, name, forks, FEW * HOSTS, STEPS_OF_MANY, told)


def print_ratio(costs, told, figure, large, small, most, shown):
    more, less = middle(costs, figure, *large), middle(costs, figure, *small)
    if min(more, less) <= 0:
        print(f"{told}: too short to be measured")
        return
    at_most(told, middle(costs, over, figure, large, small), most, f"{shown(more)} over {shown(less)}")


def print_growth(costs, unit, shown):
    for name in STRATEGIES:
        told = f"{FORKS[1]} forks over {FORKS[0]}, {name}, {unit}"
        print_ratio(costs, told, single, (name, FORKS[1]), (name, FORKS[0]), 1.2, shown)
    pairs = [
        ("twice the tasks, beyond check", beyond, "one", "half the tasks"),
        ("twice the hosts, beyond check", beyond, "linear", "half the hosts"),
        ("twice the hosts, each a batch of its own, beyond check", beyond, "one by one", "half one by one"),
        ("twice the hosts, which all leave, beyond check", beyond, "leaving", "half leaving"),
        ("twice the answers, their reading", reading, "linear", "half the hosts"),
        ("twice the answers to one job, beyond check and reading", alone, "called", "half the items"),
    ]
    for told, figure, large, small in pairs:
        print_ratio(costs, f"{told}, {unit}", figure, (large,), (small,), 2.2, shown)


def print_sizes(costs, unit, shown):
    """Runs over the reading of their answers, by a run of an empty book."""
    told = {
        "shown": f"a debug looped over {MOST_ITEMS:,} items",
        "called": f"a command looped over {MOST_ITEMS:,} items, with a register",
        "readers": f"a register of {MOST_ITEMS:,} lines read by {READERS} tasks",
    }
    for name, text in told.items():
        text = f"{text}, over the reading of its answers, {unit}"
        print_ratio(costs, text, single, (name, "run"), (name, "reading"), 3, shown)


def print_memory(found):
    whole, part = found["linear", "run"].memory, found["linear", "reading"].memory
    each = (whole - part) * 1024 / (FEW * HOSTS)
    detail = f"{whole:,.0f} KiB less {part:,.0f} KiB"
    name = f"memory of {FEW} tasks on {HOSTS:,} hosts beyond the reading of the answers"
    line(name, f"{each:,.0f} bytes a step ({detail})", f"at most {BYTES_OF_A_STEP}", each <= BYTES_OF_A_STEP)


def print_figures(program, folder):
    made = scenes(folder)
    words = all_commands(program, made)
    found = in_rounds(words, ROUNDS)
    rounds = rounds_of(found)
    print_rates(rounds)
    print_growth(rounds, "time", ms)
    print_sizes(rounds, "time", ms)
    print_memory(found)
    if can_count():
        counts = counts_of(words)
        print_growth(counts, "instructions", count_text)
        print_sizes(counts, "instructions", count_text)
        print_instructions(program, folder, made)
    else:
        print("instructions: not counted, since valgrind isn't here")


def count_text(count):
    return f"{count:,.0f}"


# Instructions.


def conditionals(folder, tasks, hosts, listed):
    """So many commands on so many hosts, with answers for more hosts, or more tasks, than there are."""
    plays = book([conditional(number) for number in range(tasks)])
    entries = [ANSWER] * (2 * SOME)
    scene = Scene(folder, f"conditionals_{tasks}_{hosts}", plays, hosts, entries, tasks * hosts, recap(hosts, tasks, tasks))
    scene.answers = write(folder, "listed_answers.json", answers(listed, entries))
    return scene


def counted(program, scene):
    """The instructions of a run, less those of its check."""
    return instructions(*scene.run(program)) - instructions(*scene.check(program))


def print_more(program, told, small, large, steps):
    each = (counted(program, large) - counted(program, small)) / steps
    print(f"{told}: {each:,.0f} instructions; no bar")


def print_copies(program, folder, made):
    """A reader of a large register takes as much as one of a small one, and no more memory."""
    small = [readers(folder, f"small_{count}", count, 1) for count in (0, READERS)]
    large = [made["no readers"], made["readers"]]
    each, least = ((counted(program, many) - counted(program, none)) / READERS for none, many in (large, small))
    size = len(printing(MOST_ITEMS)["stdout"])
    name = f"a task that reads a register of {size:,} bytes over one that reads one of a line, instructions"
    at_most(name, each / least, 1.1, f"{each:,.0f} over {least:,.0f}")
    many, none = (memory_of(*scene.run(program)) for scene in reversed(large))
    line(f"{READERS} of them, memory", f"{many - none:,} KiB more than none", "at most 1,024 KiB", many - none <= 1024)


def print_instructions(program, folder, made):
    few, many = (conditionals(folder, count, 1, 1) for count in (SOME, 2 * SOME))
    print_more(program, "a command with a condition and a register, plan, Start and Give", few, many, SOME)
    few, many = (conditionals(folder, ROWS, count, 2 * ROWS) for count in (ROWS, 2 * ROWS))
    print_more(program, "its Start and its Give alone, on more hosts", few, many, ROWS * ROWS)
    print_copies(program, folder, made)
