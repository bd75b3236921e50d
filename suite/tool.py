"""Talks to a tool under test: JSON lines to its standard input, an answer for each from its standard output (PROTOCOL.md)."""
import json
import os
import queue
import shlex
import subprocess
import threading

HERE = os.path.dirname(os.path.realpath(__file__))
PATIENCE = 20  # seconds for one answer
AHEAD = 64  # requests that a tool may have unanswered
# The first request to each process. The answer is not compared; what the tool writes before it says which version it speaks.
FIRST = {"id": "first", "font": "em-1024.ttf", "ppem": 16, "glyph": 0, "hinted": False, "dropout": False, "want": ["outline"]}
OLD = {False: False, "left": True}  # what version 1 says for drop-out control


class NeverStarted(Exception):
    """The tool gave no answer to the first request."""


def needs_two(case):
    """What a request asks for that version 1 cannot say, or None."""
    if case["dropout"] not in OLD:
        return "drop-out control: " + case["dropout"]
    return "faces of collections" if "face" in case else None


def request_of(case, version):
    """The request that a tool sees: no expected values."""
    kept = {key: case[key] for key in ("id", "ppem", "face", "glyph", "char", "hinted", "dropout", "want") if key in case}
    old = {"dropout": OLD[case["dropout"]]} if version == 1 else {}
    return {**kept, **old, "font": os.path.join(HERE, "fonts", case["font"])}


class Tool:
    """A tool's process, which is started again if it ends before it has answered."""

    def __init__(self, command):
        self.command, self.process, self.version = shlex.split(command), None, None

    def start(self):
        """Starts the process, and a thread that reads its lines. The first answer says which version of the protocol it speaks."""
        self.process = subprocess.Popen(self.command, stdin=subprocess.PIPE, stdout=subprocess.PIPE, text=True, bufsize=1)
        self.lines = queue.Queue()
        threading.Thread(target=self.read, args=(self.process, self.lines), daemon=True).start()
        line = self.next_line() if self.send(FIRST, 1) else None
        self.version = line["protocol"] if line and isinstance(line.get("protocol"), int) else 1
        return line is not None and (self.version == 1 or self.next_line() is not None)

    @staticmethod
    def read(process, lines):
        """Hands lines on; None says that there are no more."""
        for line in process.stdout:
            lines.put(line)
        lines.put(None)

    def stop(self):
        """Ends the process."""
        if self.process:
            self.process.kill()
            self.process.wait()
            self.process = None

    def answers(self, cases):
        """Each case with its answer. A case at which the tool ends or stays silent has none."""
        self.version, waiting, todo = None, [], list(reversed(cases))
        while waiting or todo:
            alive = self.process is not None or self.is_started()
            while alive and todo and len(waiting) < AHEAD:
                reason = needs_two(todo[-1]) if self.version == 1 else None
                if reason:
                    yield todo.pop(), {"unsupported": "version 1 of the protocol has no " + reason}
                    continue
                alive = self.send(todo[-1], self.version)
                if alive:
                    waiting.append(todo.pop())
            if alive and not waiting:
                break
            line = self.next_line() if waiting else None
            if line is not None:
                yield waiting.pop(0), line
                continue
            self.stop()
            first = waiting.pop(0) if waiting else todo.pop()
            todo += reversed(waiting)
            waiting = []
            yield first, {"broken": "the tool ended or did not answer"}
        self.finish()

    def is_started(self):
        """Starts the process. If it answers nothing at the very first start, there is no use in trying again."""
        is_first = self.version is None
        if self.start():
            return True
        self.stop()
        if is_first:
            raise NeverStarted("the tool does not start: %s" % shlex.join(self.command))
        return False

    def send(self, case, version):
        """Sends a request; False if the tool does not take it."""
        try:
            self.process.stdin.write(json.dumps(request_of(case, version)) + "\n")
            self.process.stdin.flush()
            return True
        except OSError:
            return False

    def next_line(self):
        """The next answer, or None."""
        try:
            line = self.lines.get(timeout=PATIENCE)
            answer = None if line is None else json.loads(line)
            return answer if isinstance(answer, dict) else None
        except (queue.Empty, ValueError):
            return None

    def finish(self):
        """Closes the tool's input and waits for its end."""
        if self.process:
            try:
                self.process.stdin.close()
                self.process.wait(PATIENCE)
            except (OSError, subprocess.TimeoutExpired):
                pass
            self.stop()
