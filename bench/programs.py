# SPDX-License-Identifier: MIT OR Apache-2.0
# Calls a second of modules that are programs, with 1, 2, 4 and 8 workers, beside a C program that starts the same program in as
# many loops; and how long 100 hosts take whose module sleeps: python3 bench/programs.py [PROGRAM]. Wants a C compiler.
import os
import subprocess
import sys
import tempfile

sys.dont_write_bytecode = True

from measure import in_rounds, line, ms, program_of, write

HOSTS, TASKS = 40, 25
CALLS = HOSTS * TASKS
WORKERS = [1, 2, 4, 8]
ROUNDS = 7
SLEEPERS, PAUSE = 100, 0.05  # hosts, and seconds of each call
SLEEPING_WORKERS = [1, 10, 50]
SLEEPING_ROUNDS = 3

MODULE = """#include <time.h>
#include <unistd.h>
int main(void) {
    const struct timespec pause = {0, PAUSE};
    if (PAUSE) nanosleep(&pause, 0);
    return write(1, "{\\"ping\\": \\"pong\\"}", 16) != 16;
}
"""

# Its words: how many calls, in how many loops at once, and the program.
LOOP = """#define _GNU_SOURCE
#include <fcntl.h>
#include <spawn.h>
#include <stdlib.h>
#include <sys/wait.h>
#include <unistd.h>
extern char **environ;
static int call(char *program) {
    char *module[] = {program, "h1", "{}", NULL};
    int ends[2], status;
    char bytes[4096];
    pid_t child;
    posix_spawn_file_actions_t actions;
    if (pipe2(ends, O_CLOEXEC)) return 1;
    posix_spawn_file_actions_init(&actions);
    posix_spawn_file_actions_addopen(&actions, 0, "/dev/null", O_RDONLY, 0);
    posix_spawn_file_actions_adddup2(&actions, ends[1], 1);
    posix_spawn_file_actions_addopen(&actions, 2, "/dev/null", O_WRONLY, 0);
    if (posix_spawn(&child, module[0], &actions, NULL, module, environ)) return 1;
    posix_spawn_file_actions_destroy(&actions);
    close(ends[1]);
    while (read(ends[0], bytes, sizeof bytes) > 0) {}
    close(ends[0]);
    return waitpid(child, &status, 0) != child || status;
}
int main(int count, char **words) {
    if (count != 4) return 2;
    int calls = atoi(words[1]), loops = atoi(words[2]), failed = 0;
    for (int loop = 0; loop < loops; loop++) {
        if (fork()) continue;
        for (int number = loop; number < calls; number += loops)
            if (call(words[3])) return 1;
        return 0;
    }
    for (int status; wait(&status) > 0;) failed |= status;
    return failed != 0;
}
"""


def compile_to(path, text, *flags):
    os.makedirs(os.path.dirname(path), exist_ok=True)
    subprocess.run(["cc", "-O2", *flags, "-x", "c", "-", "-o", path], input=text, text=True, check=True)
    return path


def module(folder, seconds):
    """A program for `ping` that takes so long, in a folder of its own."""
    return compile_to(os.path.join(folder, f"modules-{seconds}", "ping"), MODULE, f"-DPAUSE={int(seconds * 1e9)}")


def recap(hosts, tasks):
    counts = f"ok={tasks} changed=0 unreachable=0 failed=0 skipped=0 rescued=0 ignored=0"
    return "".join(f"h{number} : {counts}\n" for number in range(hosts))


def commands(program, loop, made, files, hosts, tasks, workers):
    """The run with each number of workers, as many loops of the C program, and the check."""
    run = [program, "run", *files, "--modules", os.path.dirname(made), "-f"]
    found = {"check": ([program, "check", *files],)}
    for number in workers:
        found[f"run {number}"] = [*run, str(number)], recap(hosts, tasks)
        found[f"loop {number}"] = ([loop, str(hosts * tasks), str(number), made],)
    return found


def book(folder, hosts, tasks):
    """The files of so many tasks on so many hosts, as words of the command line."""
    book = write(folder, f"book{tasks}", [{"hosts": "all", "tasks": [{"ping": None}] * tasks}])
    return [book, "-i", write(folder, f"inventory{hosts}", {"all": {"hosts": [f"h{number}" for number in range(hosts)]}})]


def print_rates(taken):
    for number in WORKERS:
        ours = taken[f"run {number}"].seconds - taken["check"].seconds
        theirs = taken[f"loop {number}"].seconds
        figure = f"{CALLS / ours:.0f} a second, {theirs / ours:.2f} of a C program's {CALLS / theirs:.0f}"
        line(f"{CALLS} calls of a program, workers {number}", figure, "0.9", theirs / ours >= 0.9)


def print_sleeps(taken):
    for number in SLEEPING_WORKERS:
        ours = taken[f"run {number}"].seconds - taken["check"].seconds
        ideal = -(-SLEEPERS // number) * PAUSE
        figure = f"{ours / ideal:.2f} of the ideal {ms(ideal)}, a C program {taken[f'loop {number}'].seconds / ideal:.2f}"
        line(f"{SLEEPERS} hosts whose module sleeps {ms(PAUSE)}, workers {number}", figure, "at most 1.1", ours / ideal <= 1.1)


def main():
    program = program_of(sys.argv[1:])
    with tempfile.TemporaryDirectory() as folder:
        loop = compile_to(os.path.join(folder, "loop"), LOOP)
        files = book(folder, HOSTS, TASKS)
        print_rates(in_rounds(commands(program, loop, module(folder, 0), files, HOSTS, TASKS, WORKERS), ROUNDS))
        files = book(folder, SLEEPERS, 1)
        made = module(folder, PAUSE)
        print_sleeps(in_rounds(commands(program, loop, made, files, SLEEPERS, 1, SLEEPING_WORKERS), SLEEPING_ROUNDS))


if __name__ == "__main__":
    main()
