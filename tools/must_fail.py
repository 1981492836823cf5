"""Must-fail edits: what each changes, and what checks of it came to. What counts as refused is told at the head of tools/gate."""
import glob
import os
import re
import typing

from answers import declarations, is_same_but_for_number, without
from checking import rt

HEADER = re.compile(r"^( *)(?:pub(?:\([a-z ]+\))? )?(?:const )?fn (\w+)", re.MULTILINE)
OWNER = re.compile(r"^(?:impl(<.*?>)?|(?:pub(?:\([a-z ]+\))? )?trait) (?:(.*) for )?([^:{\n]*)", re.MULTILINE)
# A goal that an edit names: no answer to it is right.
NAMED = re.compile(r"-- open: (\S+)$")


def owner_name(generics, of_trait, of_type):
    """How a check names an impl: the type, the trait and what both are applied to, in one word."""
    parameters = re.findall(r"[<,] *(\w+)", generics)
    words = re.findall(r"'?\w+", f"{of_type} {of_trait}")
    return "".join(it[0].upper() + it[1:] for it in words if it[0] != "'" and it not in parameters)


def module_of(path):
    return [it for it in path[len("src/") : -len(".rt")].split("/") if it not in ("lib", "main")]


def module_of_type(crate, name):
    """The module of the crate that declares a type or a trait; the crate itself where none does."""
    declares = re.compile(rf"^(?:pub(?:\([a-z ]+\))? )?(?:struct|enum|trait) {name}\b", re.MULTILINE)
    for path in glob.glob(f"{crate.folder}/src/**/*.rt", recursive=True):
        if declares.search(rt.rtlib.text_of(path)):
            return module_of(os.path.relpath(path, crate.folder))
    return []


class Function:
    """A function that an edit changes: where it stands, and how a check names it and its proof files."""

    def __init__(self, crate, path, text, header, end):
        margin, name = header.groups()
        # Its attributes and comments are part of it, from an empty line or an opening brace on.
        start = max(text.rfind(it, 0, header.start()) for it in ("\n\n", "{\n")) + len("\n\n")
        self.path = path
        self.lines = range(text.count("\n", 0, start) + 1, text.count("\n", 0, end) + 2)
        if margin:
            found = OWNER.findall(text, 0, header.start())[-1]
            owner = owner_name(*found)
            self.name, files = f"{owner}::{name}", rf"proofs/(?:\w+/)*{owner}/{name}/"
            # What stands before the name of a method's type is the module that declares the type.
            module = module_of_type(crate, re.match(r"\w*", found[2])[0])
        else:
            module = module_of(path)
            # Functions that call one another have their proofs in one folder, named for all of them.
            self.name, files = "::".join([*module, name]), "/".join(["proofs", *module, rf"(?:[^/]*\+)?{name}", ""])
        # The whole path of it below the crate.
        self.path_name = "::".join([*module, self.name]) if margin else self.name
        self.proof_files = re.compile(files)

    def is_place(self, path, line):
        return path == self.path and line in self.lines or self.proof_files.match(path)


class NothingKnown(Exception):
    """A check told nothing of the edit that it was asked of."""


class Question(typing.NamedTuple):
    """What a check is asked of an edit: whether its change is in place, and these proof files."""

    edit: "Edit"
    is_in_place: bool
    proofs: dict


class Edit:
    """A must-fail edit, with what it changes: a part of a function's body, with no function anything else, and proof files; and
    with what checks of it came to."""

    def __init__(self, crate, file):
        self.crate, self.file, self.label = crate, file, f"must-fail {crate.name}/{os.path.basename(file)}"
        self.own, _ = rt.read_edit(file, crate.folder)
        self.own = self.own or {}
        self.function, self.start = None, 0
        self.proofs = {path: text for path, text in self.own.items() if not path.startswith("src/")}
        sources = [it for it in self.own if it not in self.proofs]
        self.is_of_code = bool(sources)
        if len(sources) == 1:
            (self.path,) = sources
            self.read_change(crate, rt.rtlib.text_of(f"{crate.folder}/{self.path}"), self.own[self.path])
            if self.function and not all(map(self.function.proof_files.match, self.proofs)):
                self.function = None
        with open(file, encoding="utf-8", errors="replace") as text:
            self.named = {it[1] for it in map(NAMED.match, text) if it}
        self.forget()

    def forget(self):
        """Begins with no check of it made."""
        # The answer files without what was left out, and of each answer left out whether its tactics found no proof.
        self.answers, self.left_out = {}, {}
        # The goals that the crate's own answers prove for the edited code too, of the answer files that the edit changes.
        self.fitting = set()
        self.refused, self.first, self.is_judged, self.is_goal_gone, self.is_known = [], None, True, False, False

    def read_change(self, crate, old, new):
        start = len(os.path.commonprefix([old, new]))
        same = len(os.path.commonprefix([old[start:][::-1], new[start:][::-1]]))
        self.start, self.end, self.text = start, len(old) - same, new[start : len(new) - same]
        for header in HEADER.finditer(old, 0, start):
            # The body begins at the first brace that ends a line of the function's own margin.
            body = re.compile(rf"^{header[1]}(?! ).*\{{$", re.MULTILINE).search(old, header.start())
            end = old.find(f"\n{header[1]}}}", body.end()) if body else -1
            if body and body.end() <= self.start and self.end <= end:
                self.function = Function(crate, self.path, old, header, end)

    def is_place(self, path, line):
        return not self.function or self.function.is_place(path, line)

    def is_called(self, name):
        """Whether the edited function has this name, of which a check tells what stands before it too."""
        return f"::{name}".endswith(f"::{self.function.name}")

    def waits(self, told, found):
        """Whether a check did not try the edited function: so it says, or neither that it is proved nor what of it is not."""
        if not self.function:
            return False
        own = [it for it in told.statuses if self.is_called(it.name)]
        is_proved = bool(own) and all(it.is_proved for it in own)
        is_refused = not all(it.is_unchecked for it in found)
        is_above = any(it.calls_unproved for it in own) and not any(it.is_of_code for it in found)
        return any(map(self.is_called, told.untried)) or is_above or not is_refused and not is_proved

    def own_answers(self):
        return [it for it in self.proofs if it.endswith("/Answers.antt")]

    def trial(self):
        """Yields what checks are to be asked of the edit, is sent what each refuses of it, and returns the line of them that tells
        of more than a proof file that does not fit."""
        if self.function and self.own_answers():
            self.find_fitting((yield Question(self, True, {})))
        while self.leave_out((yield Question(self, True, self.proofs | self.answers))):
            pass
        counts = self.what_counts()
        if not counts and not self.named and self.left_out and self.open_goals():
            # The code as it stands may be proved without the answers left out.
            if not (yield Question(self, False, self.answers)):
                counts = next(filter(self.is_open, self.refused))
        self.is_known = True
        return counts

    def find_fitting(self, found):
        """Takes what a check said of the edited code with the crate's own answers."""
        texts = [rt.rtlib.text_of(f"{self.crate.folder}/{it}") for it in self.own_answers()]
        self.fitting = {it for text in texts for it in declarations(text)} - {it.name for it in found if not it.is_unchecked}

    def leave_out(self, found):
        """Takes what a check said of the edit, leaves out the answers that it refused, and tells whether to check again."""
        refused = [it for it in found if not it.is_unchecked]
        self.refused, self.first = refused, self.first or next(iter(refused), None)
        wrong = [it for it in refused if not it.is_of_code and it.path not in self.own]
        self.is_judged = not self.is_of_code or all(it.is_answer for it in wrong)
        if not self.is_of_code or not self.is_judged:
            return False
        self.is_goal_gone = self.is_goal_gone or any(it.has_no_goal for it in wrong)
        just_left_out = set()
        for path in {it.path for it in wrong}:
            text = self.answers[path] if path in self.answers else rt.rtlib.text_of(f"{self.crate.folder}/{path}")
            self.answers[path], names = without(text, {it.name for it in wrong if it.path == path})
            self.is_judged = self.is_judged and self.answers[path] != text
            just_left_out |= names
            for name in names:
                of_answer = [it.is_not_found for it in wrong if (it.path, it.name) == (path, name)]
                self.left_out[name] = self.left_out.get(name, True) and bool(of_answer) and all(of_answer)
        return self.is_judged and bool(wrong) and not self.is_settled(found, just_left_out)

    def is_settled(self, found, just_left_out):
        """Whether a goal of the edited function counts already: it has no answer, so that no check to come can close it. None of
        the answers waits for a refused one, so that no other will be refused."""
        if not self.function or any(it.is_unchecked for it in found) or just_left_out & self.open_goals():
            return False
        return self.what_counts() is not None

    def is_open(self, it):
        return it.is_of_code and self.is_of_code and self.is_judged

    def counts(self, it):
        """Whether what a check says here tells of more than a proof file that does not fit."""
        if not self.is_of_code:
            return it.path.startswith(("src/", "proofs/")) and it.path not in self.own and not it.is_stale
        if not self.is_open(it) or it.name in self.fitting:
            return False
        if it.name in self.left_out:
            return self.left_out[it.name]
        return not self.is_goal_gone and not any(is_same_but_for_number(it.name, name) for name in self.left_out)

    def open_goals(self):
        return {it.name for it in self.refused if self.is_open(it)}

    def what_counts(self):
        if not self.named <= self.open_goals():
            return None
        named = (it for it in self.refused if it.name in self.named - self.fitting and self.is_open(it))
        return next(named, None) or next(filter(self.counts, self.refused), None)

    def not_shown(self, said):
        """What is said of the edit where it is refused, and no goal that counts stays open."""
        said = said.partition("refused, as it must be")[2].lstrip(": ") or said
        but = f"; without that, open: {', '.join(sorted(self.open_goals())) or 'none'}" if self.left_out else ""
        return f"{self.label}: NOT SHOWN: only {said[:160]}{but}"
