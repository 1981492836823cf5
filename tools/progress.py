"""What the gate tells while it runs: a line for each crate that is done, and on a terminal what runs now and how long the whole is
likely to take."""
import contextlib
import shutil
import sys
import threading
import time

# What a task is likely to take, in seconds, until tasks of its kind have ended.
OF_A_CRATE = 8
OF_A_LINE = 0.15
OF_AN_EDIT = 12
# How often what runs is told, in seconds.
TICK = 1


def clock(seconds):
    return f"{int(seconds) // 60}:{int(seconds) % 60:02}"


class Screen:
    """Standard output, where a terminal shows it, and below it the terminal's last line, which is rewritten."""

    def __init__(self, output, terminal):
        self.output, self.terminal = output, terminal
        self.lock, self.is_shown, self.is_at_start = threading.Lock(), False, True

    def __getattr__(self, name):
        return getattr(self.output, name)

    def write(self, text):
        with self.lock:
            self.clear()
            self.is_at_start = text.endswith("\n") if text else self.is_at_start
            return self.output.write(text)

    def clear(self):
        if self.is_shown:
            self.terminal.write("\r\033[K")
            self.terminal.flush()
        self.is_shown = False

    def show(self, text):
        with self.lock:
            if self.is_at_start:
                self.clear()
                self.terminal.write(text[: shutil.get_terminal_size().columns - 1])
                self.terminal.flush()
                self.is_shown = True


class Progress:
    """When the tasks of a run began and ended, by the crate's name and their kind, and what they came to."""

    def __init__(self, lanes):
        self.lanes, self.lock = lanes, threading.RLock()
        self.start = time.monotonic()
        self.tasks, self.guesses, self.began, self.took, self.said = {}, {}, {}, {}, {}
        self.done, self.at_work, self.edits, self.seconds_of_edits = 0, 0, {}, 0.0

    def watch(self, tasks, edits):
        """The same tasks, of which it is noted when they begin and end. Those of edits tell it themselves."""
        self.tasks, self.edits = tasks, edits
        self.guesses = {key: OF_A_CRATE + OF_A_LINE * work for key, (_, work, _, _) in tasks.items() if work and key[1] != "edits"}
        return {key: (*task[:3], task[3] if key[1] == "edits" else self.timed(key, task[3])) for key, task in tasks.items()}

    def timed(self, key, call):
        def run(*given):
            with self.task():
                self.begin(key)
                is_proved = call(*given)
                self.end(key, "proved" if is_proved else "NOT PROVED")
                return is_proved

        return run

    @contextlib.contextmanager
    def task(self):
        """Something that takes a processor."""
        with self.lock:
            self.at_work += 1
        try:
            yield
        finally:
            with self.lock:
                self.at_work -= 1

    def idle(self):
        """How many processors have nothing to do."""
        return max(self.lanes - self.at_work, 0)

    def begin(self, key):
        with self.lock:
            self.began[key] = time.monotonic()

    def end(self, key, said):
        """Notes what a task came to, and tells it where it is the last one of its crate."""
        with self.lock:
            self.took[key], self.said[key] = time.monotonic() - self.began[key], said
            of_crate = [it for it in self.tasks if it[0] == key[0]]
            if not all(it in self.took for it in of_crate):
                return
            self.done += 1
            told = [self.told(it) for it in of_crate if it[1] != "tests" or it in self.guesses]
            of = len({name for name, _ in self.tasks})
            print(f"gate: {key[0]}: {'; '.join(told)} ({self.done} of {of} crates in {self.so_far()})", flush=True)

    def told(self, key):
        return f"{'tests ' if key[1] == 'tests' else ''}{self.said[key]} in {clock(self.took[key])}"

    def spend(self, seconds):
        """Notes how long a check of edits took."""
        with self.lock:
            self.seconds_of_edits += seconds

    def so_far(self):
        left = round(self.left() / 60)
        return f"{clock(time.monotonic() - self.start)}, {f'about {left} min' if left else 'less than a minute'} to go"

    def left(self):
        """How many seconds it is likely to take yet: what is left side by side, and no less than the longest chain of it."""
        behind, whole = dict.fromkeys(self.tasks, 0.0), 0.0
        # A task comes after those that it waits for.
        for key in reversed([*self.tasks]):
            own = self.left_of(key)
            whole, behind[key] = whole + own, behind[key] + own
            for it in self.tasks[key][0]:
                behind[it] = max(behind[it], behind[key])
        return max(whole / self.lanes, *behind.values())

    def left_of(self, key):
        if key in self.took:
            return 0.0
        if key[1] == "edits":
            return len(self.edits[key[0]].left()) * self.seconds_of_an_edit()
        so_far = time.monotonic() - self.began[key] if key in self.began else 0.0
        return max(self.guesses.get(key, 0.0) * self.pace() - so_far, 0.0)

    def pace(self):
        """How much longer than guessed the proofs took, of those that were not kept."""
        made = [it for it in self.took if it in self.guesses and self.took[it] > 1]
        return (60 + sum(map(self.took.get, made))) / (60 + sum(map(self.guesses.get, made)))

    def seconds_of_an_edit(self):
        tried = sum(len(it.results) - len(it.earlier) for it in self.edits.values())
        return (20 * OF_AN_EDIT + self.seconds_of_edits) / (20 + tried)

    def running(self):
        with self.lock:
            now = [f"{name} ({kind})" for name, kind in self.began if (name, kind) not in self.took]
            return f"gate: {self.so_far()}: {', '.join(now)}"


class Shown:
    """Shows what runs as long as it does, where standard error is a terminal."""

    def __init__(self, progress):
        self.progress, self.screen, self.is_over = progress, Screen(sys.stdout, sys.stderr), threading.Event()
        self.thread = threading.Thread(target=self.go_on, daemon=True)

    def go_on(self):
        while not self.is_over.wait(TICK):
            self.screen.show(self.progress.running())

    def __enter__(self):
        if sys.stderr.isatty():
            sys.stdout = self.screen
            self.thread.start()

    def __exit__(self, *_):
        self.is_over.set()
        if self.thread.is_alive():
            self.thread.join()
        with self.screen.lock:
            self.screen.clear()
        sys.stdout = self.screen.output
