# SPDX-License-Identifier: GPL-3.0-or-later
# A callback plugin that writes what happens to each task of each host, as JSON lines.
import json
import os

from ansible.plugins.callback import CallbackBase

JUDGED = ("failed_when_result", "changed_when_result")


class CallbackModule(CallbackBase):
    CALLBACK_VERSION = 2.0
    CALLBACK_TYPE = "stdout"
    CALLBACK_NAME = "peer_events"

    def write(self, **event):
        with open(os.path.join(os.environ["PEER_FOLDER"], "events.jsonl"), "a", encoding="utf-8") as file:
            file.write(json.dumps(event, default=str) + "\n")

    def task(self, kind, result):
        answer = result._result
        items = [item for item in answer.get("results", []) if isinstance(item, dict)] \
            if isinstance(answer.get("results"), list) else []
        told = [answer, *(item for item in items if item.get("failed"))]
        messages = [one.get(key) for one in told for key in ("msg", *JUDGED) if isinstance(one.get(key), str)]
        self.write(kind=kind, host=result._host.get_name(), task=result._task.name, action=result._task.action,
                   messages=messages, message=answer.get("msg"), exception=bool(answer.get("exception")))

    def v2_runner_on_ok(self, result):
        self.task("ok", result)

    def v2_runner_on_failed(self, result, ignore_errors=False):
        self.task("failed", result)

    def v2_runner_on_skipped(self, result):
        self.task("skipped", result)

    def v2_runner_on_unreachable(self, result):
        self.task("unreachable", result)

    def v2_playbook_on_stats(self, stats):
        self.write(kind="recap", hosts={host: stats.summarize(host) for host in stats.processed})
