"""All of the toolchain that the gate leans on beside the commands it promises: names of the command `rt`, how a check is called,
and the words in which a check tells what it leaves open. Where a name is not as it was, the gate ends before anything is proved.

Names. `rt ci` does all of the gate but two things. It calls `add_edits` for each crate, where the gate has its own, and
`in_lanes` for all tasks, which the gate watches. Beside these the gate calls the names in CALLS and reads those in VALUES and, of
a crate, in OF_A_CRATE. A task stands under the crate's name and its kind: what it waits for, its work, its memory, and a call. Each
call is given the same table of what the tasks that have ended came to, which fills while they run.

Releases. One keeps what proofs and edits came to between runs, and takes names of crates: it has the names in KEEPING too. An
older one begins each run from nothing, with all crates: it has those in ANEW. There a task of edits is made by `rt ci`, its call
has the crate as a default, and it comes to what edits there are and what each came to.

Words of a call. `rattle check` takes a library as source (`--lib NAME:USES=FILE`), named functions alone (`--only`), and a folder
of what earlier checks proved (`--incremental`).

Words of an answer. A line of a refusal begins with its place and has the goal in brackets or the declaration before a colon
(LINE, GOAL). A line tells of each function whether it is proved (STATUS), or not tried (UNTRIED, CALLS_UNPROVED). The other
patterns tell why an answer is refused. Where libraries are passed as source, the place begins with the name of the library, and so
does the function. The last line begins with `only=` or `logic=`. `tests/edits` goes through all of these.
"""
import inspect
import os
import re
import shutil
import subprocess
import sys
import tempfile
import typing

import toolchain

CALLS = {
    "main": "words",
    "in_lanes": "tasks",
    "checked": "crate texts flags kept",
    "must_fail": "crate edit flags kept",
    "read_edit": "edit folder",
    "unread": "line changed",
    "need": "crate",
    "processors": "",
    "free": "",
    "say": "text out",
    "Crate.below": "self",
    "rtlib.guarded": "",
    "rtlib.text_of": "file",
}
KEEPING = {
    "add_edits": "tasks crate edits first waits is_well kept start in_ci",
    "Kept.key": "self crate",
    "Kept.of_edit": "self edit sum",
    "Kept.tried": "self name",
    "Kept.keep_tried": "self name kind text",
    "Kept.is_untouched": "self crate",
}
ANEW = {"crates_of": "root aside", "edits_of": "crate", "rtlib.stop_on_unread": "top crates"}
RELEASES = {"rattle-kit-13f": KEEPING, "rattle-kit-13b": ANEW}
VALUES = "KIT rtlib.PARTS rtlib.RATTLE rtlib.STALE"
OF_KEEPING = "REFUSED MISSED SETTLED"
OF_A_CRATE = "name folder deps of_kit rlib is_program is_static"
ONE_JOB = ["--jobs", "1"]

LINE = re.compile(
    r"(?:note: )?(?:\./)?(\S+?):(\d+):\d+: "
    r"(?:error: (?:`([^`]+)`: )?(.*)|it is not proved that .*|`search` found no proof .*)"
)
GOAL = re.compile(r"\(`([^`]+)`\)")
# What a check came to for each function.
STATUS = re.compile(r"fn (\S+): (.*)")
# Said of a function above one that is not proved.
UNTRIED = re.compile(r"`search` has not tried the goals of `([^`]+)`")
# The status of such a function, where no proof file is offered for it.
CALLS_UNPROVED = re.compile(r"; it calls .*\bnot proved")
# A proof file names what is gone, or what rests on something that was refused itself.
STALE = re.compile(r".*(?:has no field|is not in scope|has no `|was not admitted)")
# What rests on a declaration that the check refuses in a line of its own.
UNCHECKED = re.compile(r"which (?:was|were) rejected, (?:was|were) not checked")
# The goal of an answer is gone, or a place of the code that it speaks of.
GOAL_IS_GONE = re.compile(r".*Goals` has no `")
# The answer fits its goal, and a tactic that it calls finds no proof.
NOT_FOUND = re.compile(r"`omega`: the goal does not follow|`search`: no proof of |`grind`:? .*found no proof")
# A library stands below this one, which is empty. So what is tried is passed to its check as source, and the toolchain does not
# run its prover once more for proof files that it could offer, which of one edit is a quarter of all that its check takes.
ABOVE = "above_edits"

rt = toolchain.load("rt")
# What `rt` calls an edit that is refused, and one that is not; and which of them an earlier run settles.
REFUSED, MISSED, SETTLED = getattr(rt, "REFUSED", True), getattr(rt, "MISSED", False), getattr(rt, "SETTLED", ())


def found(name):
    """What `rt` has under this name, which may have dots."""
    it = rt
    for part in name.split("."):
        it = getattr(it, part)
    return it


def keeps():
    """Whether this release keeps what proofs and edits came to between runs."""
    return hasattr(rt, "add_edits")


def changes():
    """What of the toolchain is not as it was, told by name."""
    calls = CALLS | (KEEPING if keeps() else ANEW)
    for name in [*calls, *VALUES.split(), *(OF_KEEPING.split() if keeps() else [])]:
        try:
            it = found(name)
        except AttributeError:
            yield f"rt has no {name}"
            continue
        parameters = " ".join(inspect.signature(it).parameters) if name in calls else ""
        if parameters != calls.get(name, ""):
            yield f"rt.{name} takes ({parameters}) and not ({calls[name]})"
    with open(f"{rt.KIT}/KIT-ID", encoding="utf-8") as it:
        release = it.read().split()[0]
    if release not in RELEASES:
        yield f"its release is {release}, and not {' or '.join(RELEASES)}"


def crate_changes(crate):
    """The same of a crate."""
    return (f"a crate of rt has no {it}" for it in OF_A_CRATE.split() if not hasattr(crate, it))


def task_changes(tasks):
    """The same of the tasks that `rt ci` runs."""
    for key, task in tasks.items():
        is_as_it_was = len(key) == 2 and key[1] in ("proof", "tests", "edits") and len(task) == 4 and callable(task[3])
        if not is_as_it_was or not all(it in tasks for it in task[0]):
            yield f"the task {key} of rt is not as it was"


def stop_on(told):
    """Ends the gate where something is not as it was."""
    if told := [*told]:
        sys.exit("\n".join(["gate: the toolchain is not as tools/checking.py has it:", *told]))


class Refusal:
    """A line of a check: where it stands, the declaration or the goal that it speaks of, and what it says."""

    def __init__(self, match):
        self.text, self.path, self.line = match[0], match[1], int(match[2])
        self.is_of_code = match[4] is None
        goal = GOAL.search(match[0]) if self.is_of_code else None
        self.name, self.said = goal[1] if goal else match[3] or "", match[4] or ""
        self.is_unchecked = bool(UNCHECKED.search(self.text))
        self.is_stale = bool(STALE.match(self.text))
        self.has_no_goal = bool(GOAL_IS_GONE.match(self.said))
        self.is_not_found = bool(NOT_FOUND.match(self.said))
        self.is_answer = not self.is_of_code and self.path.endswith("/Answers.antt")


class Status(typing.NamedTuple):
    """What a check came to for a function."""

    name: str
    is_proved: bool
    calls_unproved: bool


class Told:
    """What a check tells of one crate: the goals and declarations that are not proved, and what it came to for each function."""

    def __init__(self, lines):
        self.lines = lines
        self.refusals = [Refusal(it) for it in map(LINE.match, lines) if it]
        statuses = (it.groups() for it in map(STATUS.match, lines) if it)
        self.statuses = [Status(it, said.startswith("proved"), bool(CALLS_UNPROVED.search(said))) for it, said in statuses]
        self.untried = {name for it in lines for name in UNTRIED.findall(it)}

    def is_unread(self, changed):
        """Whether a text could not be read: one of the code or the definitions, or of these files."""
        return any(rt.unread(it, changed) for it in self.lines)


def of_crate(name, lines):
    """The lines that speak of a crate that is passed as source, as they would be if it alone were checked."""
    found = (re.fullmatch(rf"((?:note: )?)(?:\./)?{name}/(.*)|(fn ){name}::(.*)", it) for it in lines)
    return ["".join(filter(None, it.groups())) for it in found if it]


def words_of(crate):
    """The words that pass the crate as source, and what it stands on as it was built."""
    uses = dict.fromkeys(["core", *crate.of_kit, *(it.name for it in crate.deps)])
    words = [("--lib", f"{crate.name}:{','.join(uses)}={crate.name}/src/lib.rt"), ("-L", f"dependency={rt.KIT}/rlibs")]
    words += [("--extern", f"{it}={rt.KIT}/rlibs/{it}.rlib") for it in ("core", *crate.of_kit)]
    words += [("--extern", f"{it.name}={it.rlib}") for it in crate.deps]
    return words + [("-L", f"dependency={os.path.dirname(it.rlib)}") for it in crate.below()]


def write(crate, texts, folder):
    """Writes the crate with these texts in place of its own."""
    for part in rt.rtlib.PARTS:
        if os.path.isdir(f"{crate.folder}/{part}"):
            shutil.copytree(f"{crate.folder}/{part}", f"{folder}/{part}")
    for path, text in texts.items():
        with open(f"{folder}/{path}", "w", encoding="utf-8") as it:
            it.write(text)


def check_above(texts_of, only, kept):
    """Checks an empty library above these crates, of which none stands above another, each with these texts in place of its own."""
    with tempfile.TemporaryDirectory(prefix=f"rt-edit-{os.getpid()}-") as room:
        for crate, texts in texts_of.items():
            write(crate, texts, f"{room}/{crate.name}")
        os.makedirs(f"{room}/{ABOVE}/src")
        with open(f"{room}/{ABOVE}/src/lib.rt", "w", encoding="utf-8") as it:
            it.write("//! Nothing.\n#![tactic(auto)]\n")
        of_crates = dict.fromkeys(pair for crate in texts_of for pair in words_of(crate))
        words = ["--crate-name", ABOVE, f"{ABOVE}/src/lib.rt", *(word for pair in of_crates for word in pair)]
        words += ["--antt-project", f"{rt.KIT}/rattle/logic/antt-project.json", "--logic-built", f"{rt.KIT}/logic_built"]
        words += ["--links", f"{ABOVE}=", *ONE_JOB, *only, *(["--incremental", kept] if kept else [])]
        how = {"stdin": subprocess.DEVNULL, "stdout": subprocess.PIPE, "stderr": subprocess.STDOUT, "errors": "replace"}
        return subprocess.run([*rt.rtlib.guarded(), rt.rtlib.RATTLE, "check", *words], cwd=room, **how)


class Ran(typing.NamedTuple):
    """A check that came to an end: whether all is proved, and what it tells of each crate."""

    is_proved: bool
    told: dict


def check(texts_of, functions, kept):
    """Checks these crates as `check_above` does, or one program as `rt` does, of the named functions alone where any is named.
    Nothing where it came to no end, or where something is refused that is of none of these crates."""
    only = [word for it in functions for word in ("--only", it)]
    crate = next(iter(texts_of))
    is_library = not crate.is_program and not crate.is_static
    ran = check_above(texts_of, only, kept) if is_library else rt.checked(crate, texts_of[crate], [*ONE_JOB, *only], kept)
    lines = ran.stdout.rstrip("\n").split("\n")
    is_ended = ran.returncode in (0, 1) and lines[-1].startswith("only=" if only else "logic=")
    if not is_ended or rt.rtlib.STALE.search(ran.stdout):
        return None
    told = {it: Told(of_crate(it.name, lines) if is_library else lines) for it in texts_of}
    is_whole = sum(len(it.refusals) for it in told.values()) == len(Told(lines).refusals)
    return Ran(ran.returncode == 0, told) if is_whole else None
