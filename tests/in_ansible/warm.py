# SPDX-License-Identifier: GPL-3.0-or-later
# Real Ansible in one warm process, run by its own Python: reads jobs as JSON lines, forks for each, answers its status.
import copy
import gc
import json
import os
import signal
import sys
import time
import traceback

from ansible.cli.playbook import PlaybookCLI
from ansible.executor.process.worker import WorkerProcess
from ansible.executor.task_executor import TaskExecutor
from ansible.utils.context_objects import GlobalCLIArgs

SECONDS = 300  # a machine may have more to do


def start(worker):
    """Runs what a worker would, in place of a fork for each task and host, on copies of its own."""
    host, task = copy.copy(worker._host), worker._task.copy()
    try:
        with open(os.devnull, encoding="utf-8") as nothing:
            result = TaskExecutor(host, task, worker._task_vars, worker._play_context, nothing, worker._loader,
                                  worker._shared_loader_obj, worker._final_q).run()
    except Exception:  # as the worker itself does
        result = {"failed": True, "exception": traceback.format_exc(), "stdout": ""}
    worker._final_q.send_task_result(host.name, task._uuid, result, task_fields=task.dump_attrs())


def run(job):
    """Runs a book in a child: its output goes to a file of its folder."""
    os.setsid()
    os.chdir(job["folder"])
    os.environ["PEER_FOLDER"] = job["folder"]
    output = os.open("output.txt", os.O_WRONLY | os.O_CREAT | os.O_TRUNC)
    os.dup2(output, 1)
    os.dup2(output, 2)
    os.dup2(os.open(os.devnull, os.O_RDONLY), 0)
    GlobalCLIArgs._Singleton__instance = None  # else the arguments of the first run stay
    status = 99
    try:
        PlaybookCLI.cli_executor(["ansible-playbook", "-c", "local", "-i", job["inventory"],
                                  "-e", f"ansible_python_interpreter={sys.executable}", *job["words"], "book.yml"])
    except SystemExit as end:
        status = end.code
    except BaseException as error:
        os.write(2, repr(error).encode())
    sys.stdout.flush()
    sys.stderr.flush()
    os._exit(status if isinstance(status, int) else 98)


def waited(child):
    """The status of a child; one that takes too long is ended, with what it started."""
    end = time.monotonic() + SECONDS
    while time.monotonic() < end:
        done, status = os.waitpid(child, os.WNOHANG)
        if done:
            return os.waitstatus_to_exitcode(status)
        time.sleep(0.005)
    os.killpg(child, signal.SIGKILL)
    os.waitpid(child, 0)
    return -1


def answer(job):
    child = os.fork()
    if not child:
        run(job)
    return waited(child)


def main():
    WorkerProcess.start = start
    WorkerProcess.is_alive = lambda worker: False
    WorkerProcess.exitcode = 0
    gc.freeze()
    for line in sys.stdin:
        print(json.dumps({"status": answer(json.loads(line))}), flush=True)


if __name__ == "__main__":
    main()
