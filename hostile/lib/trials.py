"""The things that are tried: each in some runs, with how each run has to end. A module of check.py."""
import collections
import sys

from inputs import cut_batches, example, with_refusal, without_replies

# A command: its words, the inputs that it is tried on, and whether refused batches are noted before its document.
Command = collections.namedtuple("Command", "words inputs is_noted")

# One batch of insertions; edges leave and come in in one batch; readers; a refused batch between two others.
BATCHES = ["cases/path.kc", "cases/out_and_in.kc", "readers.kc", "cases/refused_between.kc"]

DONE, REFUSED, USAGE, READ_FAULT, WRITE_FAULT, NO_MEMORY = range(6)


class Trial:
    """A thing that is tried in some runs."""

    def __init__(self, name):
        self.name, self.ends, self.wrong, self.notes = name, collections.Counter(), [], []

    def ended(self, about, ended, wanted, whole=b""):
        """Notes how a run ended. `wanted` gives for each exit number that may come how much of the text was to be written: of these bytes,
        or of one of several texts (`Texts`)."""
        self.ends[ended.status] += 1
        text = ended.text if isinstance(whole, Texts) else without_replies(ended.text)
        if ended.status not in wanted:
            self.wrong.append(f"{about}: ended with {end_name(ended.status)}, wrote {ended.text[-200:]!r}")
        elif ended.errors:
            self.wrong.append(f"{about}: wrote to the standard error: {ended.errors[:200]!r}")
        elif not is_due(text, whole if isinstance(whole, Texts) else without_replies(whole), wanted[ended.status]):
            self.wrong.append(f"{about}: ended with {ended.status}, not with {wanted[ended.status]} of the text: {ended.text[-200:]!r}")

    def holds(self, fact, about):
        """Notes what is wrong where something else doesn't hold that has to."""
        if not fact:
            self.wrong.append(about)

    def tell(self):
        ends = ", ".join(f"{number} times {end_name(status)}" for status, number in sorted(self.ends.items(), key=str))
        print(f"{self.name}: " + "; ".join([*[ends] * bool(ends), *self.notes]))
        for what in self.wrong[:5]:
            print(f"    WRONG: {what}")
        if len(self.wrong) > 5:
            print(f"    and {len(self.wrong) - 5} more")
        sys.stdout.flush()


class Texts:
    """Texts of which any may be written. A class below it says which these are."""

    def has(self, text):
        """Whether this is one of them."""
        raise NotImplementedError

    def begins_with(self, text):
        """Whether one of them begins so."""
        raise NotImplementedError


def is_due(text, whole, how_much):
    """Whether a text is so much of the whole one: all of it ("whole"), its beginning ("prefix") or "nothing"."""
    if how_much == "nothing":
        return not text
    if isinstance(whole, Texts):
        return whole.has(text) if how_much == "whole" else whole.begins_with(text)
    return text == whole if how_much == "whole" else whole.startswith(text)


def end_name(status):
    if status is None:
        return "killed, since it didn't end"
    return f"signal {-status}" if status < 0 else str(status)


class Kcore:
    """The program, its commands, what it writes where nothing fails, and where the tests of the engine are."""

    def __init__(self, program, commands, engine_tests):
        self.program, self.commands, self.engine_tests, self.whole_texts = program, commands, engine_tests, {}

    def whole(self, command, data):
        """The exit number and text of an undisturbed run."""
        key = command.words, data
        if key not in self.whole_texts:
            ended = self.program.run(command.words.split(), data)
            if ended.status not in (DONE, REFUSED) or ended.errors:
                sys.exit(f"{command.words} ended with {end_name(ended.status)} where nothing failed, {ended.errors!r}")
            self.whole_texts[key] = ended.status, ended.text
        return self.whole_texts[key]

    def cases(self):
        """Each command on each of its inputs: what to call it, its words, the input, and how it ends where nothing fails."""
        for command in self.commands:
            for name in command.inputs:
                data = example(name)
                yield f"{command.words}, {name}", command.words.split(), data, *self.whole(command, data)

    def cut(self, command, data):
        """The exit number and text for the beginning of a well-formed input: those of its complete batches, and the refusal of one that
        isn't complete."""
        complete, refusal = cut_batches(data)
        if complete is None:
            return REFUSED, b"refused line %d header\n" % refusal
        status, text = self.whole(command, complete)
        if refusal:
            status, text = REFUSED, with_refusal(text, refusal, command.is_noted)
        return status, without_replies(text)

    def batch_commands(self):
        return [command for command in self.commands if command.inputs is BATCHES]
