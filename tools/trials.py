"""How must-fail edits are tried: those of different functions of a crate in one check, and those of several crates too, of which
none stands above another."""
import os
import shutil
import tempfile

from checking import MISSED, ONE_JOB, REFUSED, SETTLED, check, rt
from must_fail import Edit, NothingKnown

# A check says nothing of an edited function that calls another one, which is refused in that check.
WAITS = "waits"
# What an edit came to is kept under this name too, which changes with what counts as refused.
RULE = "goals that no answer leaves open"


class NothingKept:
    """What a release keeps between runs that begins each from nothing."""

    def key(self, _crate):
        return ""

    def of_edit(self, file, _key):
        return file

    def tried(self, _name):
        return None

    def is_untouched(self, _crate):
        return False


def next_question(tries, found):
    """The next question of tries that are told what a check refuses, or that nothing is known; none where they are over."""
    try:
        return tries.throw(NothingKnown) if found is None else tries.send(found)
    except StopIteration:
        return None


class Trial:
    """The must-fail edits of one crate, and what trying each came to: what `rt` calls that, and the line that tells it. What an
    earlier run of the same files came to is taken over, and what they come to is kept."""

    def __init__(self, crate, files, kept):
        self.crate, self.files, self.kept = crate, files, kept
        self.below, self.memory = crate.below(), rt.need(crate)
        self.results, self.earlier, self.kept_as, self.edits, self.asked, self.alone = {}, {}, {}, [], [], []

    def begin(self):
        """Takes what an earlier run came to, and asks of each function's first edit."""
        key = f"{RULE}: {self.kept.key(self.crate)}"
        self.kept_as = {it: self.kept.of_edit(it, key) for it in self.files}
        told = {it: self.kept.tried(name) for it, name in self.kept_as.items()}
        self.earlier = {it: result for it, result in told.items() if result}
        self.results.update(self.earlier)
        self.edits = [Edit(self.crate, it) for it in self.left()]
        of_each = {}
        for edit in self.edits:
            if edit.function:
                of_each.setdefault(edit.function.name, []).append(edit)
        self.ask(map(self.tries, of_each.values()))

    def left(self):
        """The files of which it is not known what they come to."""
        return [it for it in self.files if it not in self.results]

    def work(self):
        """To give up the goals of an edit costs about as much as to read ten libraries."""
        return len(self.left()) * (10 + len(self.below))

    def told(self):
        refused = sum(kind == REFUSED for kind, _ in self.results.values())
        alone = "".join(f" {os.path.basename(it.file)}" for it in self.alone)
        return f"{refused} of {len(self.files)} edits refused{alone and f' (tried alone:{alone})'}"

    def is_apart(self):
        """Whether it is no library, which alone can be passed as source."""
        return self.crate.is_program or self.crate.is_static

    def is_related(self, other):
        return self.crate in other.below or other.crate in self.below

    def note(self, edit, kind, text):
        self.results[edit.file] = kind, text
        if kind in SETTLED and self.kept.is_untouched(self.crate):
            self.kept.keep_tried(self.kept_as[edit.file], kind, text)

    def ask(self, tries):
        """Takes the first question of each of these tries."""
        self.asked = [(it, question) for it in tries if (question := next(it, None))]

    def questions(self):
        return [question for _, question in self.asked]

    def functions(self, is_beside_others):
        """The names of the functions that are asked of, as a check takes them."""
        edited = [it.edit.function for it in self.questions() if it.edit.function]
        return [f"{self.crate.name}::{it.path_name}" if is_beside_others else it.name for it in edited]

    def tries(self, edits):
        """Tries these edits one after the other: yields the questions of each, and notes what it came to."""
        for edit in edits:
            try:
                it = yield from edit.trial()
            except NothingKnown:
                edit.forget()
                continue
            if it:
                self.note(edit, REFUSED, f"{edit.label}: refused, as it must be: {it.text[:160]}")
            elif edit.first:
                self.note(edit, MISSED, edit.not_shown(edit.first.text))

    def texts(self):
        """The texts of the files that the questions change."""
        texts = {}
        for edit, is_in_place, proofs in sorted(self.questions(), key=lambda it: it.edit.start, reverse=True):
            if is_in_place and edit.function:
                text = texts.get(edit.path) or rt.rtlib.text_of(f"{self.crate.folder}/{edit.path}")
                texts[edit.path] = text[: edit.start] + edit.text + text[edit.end :]
            elif is_in_place:
                texts.update(edit.own)
            texts.update(proofs)
        return texts

    def answers(self, told):
        """What a check refuses of each edit that is asked of: of edited functions, of these and what they call alone. WAITS where
        it has not tried the function. None where nothing is known: a text could not be read, or a refusal is none of theirs."""
        edits = [it.edit for it in self.questions()]
        of_edits = [[it for it in told.refusals if edit.is_place(it.path, it.line)] for edit in edits]
        # A file of which answers are left out may well name one of them.
        changed = [path for path in self.texts() if not any(path in edit.answers for edit in edits)]
        # Each line is one edit's.
        places = [sum(it in of_edit for of_edit in of_edits) for it in told.refusals if not it.is_unchecked]
        if told.is_unread(changed) or any(it != 1 for it in places):
            return None
        return [WAITS if edit.waits(told, it) else it for edit, it in zip(edits, of_edits)]

    def take(self, found):
        """Takes what a check refuses of each edit that was asked of, or that nothing is known of them."""
        if not found or all(it is WAITS for it in found):
            found = [None] * len(self.asked)
        asked = [(it, question if told is WAITS else next_question(it, told)) for (it, question), told in zip(self.asked, found)]
        self.asked = [(it, question) for it, question in asked if question]

    def try_alone(self, proved):
        """Tries those edits of which nothing is known one after the other, over what those before them proved."""
        self.alone = [it for it in self.edits if it.file not in self.results]
        # A single one is tried from nothing: another check would take as long. So are all where the crate as it stands is not
        # proved over what was kept.
        ran = check({self.crate: {}}, [], proved) if len(self.alone) > 1 else None
        for edit in self.alone:
            with tempfile.TemporaryDirectory(prefix=f"rt-edits-{os.getpid()}-") as room:
                over = None
                if ran and ran.is_proved:
                    # Links will do: a check replaces files, and changes none in place.
                    over = shutil.copytree(proved, f"{room}/over", copy_function=os.link)
                self.try_one(edit, over)

    def try_one(self, edit, over):
        if not edit.is_known:
            self.ask([self.tries([edit])])
            Group(over, [self]).run()
        if edit.file not in self.results:
            kind, text = rt.must_fail(self.crate, edit.file, ONE_JOB, over)
            self.note(edit, *((MISSED, edit.not_shown(text)) if kind == REFUSED else (kind, text)))


class Group:
    """Trials of crates of which none stands above another. Their edits go in the same checks, the first from nothing, and each
    other one over what those before it proved."""

    def __init__(self, proved, trials):
        self.proved, self.trials = proved, [*trials]

    def asking(self):
        return [it for it in self.trials if it.asked]

    def run(self):
        """Asks one question of each trial's functions in one check, and again, until none has a question left."""
        while asking := self.asking():
            for trial, found in self.check(asking).items():
                trial.take(found)
            self.take_others()

    def take_others(self):
        """Where others may join, they do so here."""

    def check(self, trials):
        """What a check of all of them tells of each one's edits; where it does not of one, what a check of each by itself does."""
        functions = [name for it in trials for name in it.functions(len(trials) > 1)]
        ran = check({it.crate: it.texts() for it in trials}, functions, self.proved)
        found = {it: it.answers(ran.told[it.crate]) if ran else None for it in trials}
        if len(trials) > 1 and None in found.values():
            for it in trials:
                found.update(self.check([it]))
        return found
