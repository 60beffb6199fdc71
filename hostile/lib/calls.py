"""System calls that fail, one after another: allocations, reads, writes, and the starts of threads.

A module of check.py.
"""
import errno
import os
import resource

from inputs import long_input, text_beside, without_replies
from program import Failing, Program, limited
from trials import DONE, NO_MEMORY, READ_FAULT, WRITE_FAULT, Trial

EVERY = 1 << 40

# What the test of the engine prints where it has halted, and what each test prints that passes.
HALTED, PASSED = b"halted\n", b"\ntest result: ok\n"


def nothing_fails(kcore):
    trial, texts = Trial("nothing fails, and calls are counted"), 0
    for name, words, data, status, whole in kcore.cases():
        ended = kcore.program.run(words, data, Failing())
        trial.ended(name, ended, {status: "whole"}, whole)
        for kind in "allocations", "reads", "writes":
            trial.holds(ended.calls[kind] > 0 or (kind, data) == ("reads", b""), f"{name}: no {kind} were counted")
        beside = text_beside(name.split(", ")[1], words)
        trial.holds(beside is None or without_replies(whole) == without_replies(beside), f"{name}: another text than beside it")
        texts += beside is not None
    trial.notes.append(f"{texts} are the texts beside the examples")
    yield trial


def in_turn(kcore, words, data, kind, error, pieces=(0, 0), on=False):
    """Runs the command where call 1 of a kind fails, then where call 2 does, and so on, until no call fails; with `on` all the calls after
    it fail too. Gives the number of the call and how the run ended."""
    number, failed = 0, True
    while failed:
        number += 1
        ended = kcore.program.run(words, data, Failing(kind, number, EVERY if on else number, error, pieces))
        failed = ended.calls["failed"] > 0
        yield number, ended


def refused(trial, data, status, whole, threads, runs):
    """Notes how runs ended that were refused memory. A run may end well without that of a thread, whose part is done without it, and without
    a place for the memory of an old plan, which is then given back (`Engine::reuse`): at most once a batch. And it does without the block
    that only tells the allocator to keep memory (`keep_memory`)."""
    without = 0
    for number, ended in runs:
        failed = ended.calls["failed"] > 0
        trial.ended(f"allocation {number}", ended, {NO_MEMORY: "prefix", status: "whole"} if failed else {status: "whole"}, whole)
        without += failed and ended.status == status and ended.calls["threads"] >= threads
    batches = data.count(b"batch\n")
    trial.holds(without <= batches + 1, f"{without} runs of {batches} batches did without memory that was refused")


def refused_memory(kcore):
    for name, words, data, status, whole in kcore.cases():
        threads = kcore.program.run(words, data, Failing()).calls["threads"]
        for on in False, True:
            trial = Trial(f"{name}, {'no memory from an allocation on' if on else 'one allocation refused'}")
            refused(trial, data, status, whole, threads, in_turn(kcore, words, data, "allocation", errno.ENOMEM, on=on))
            yield trial


def halted_engine(kcore):
    """A test of the engine, which prints `halted` where a plan finds no memory and the next plan answers `Halted`. It passes too where there
    is no memory before that, so there has to be a run that prints it."""
    trial = Trial("a plan of an engine, one allocation refused")
    if not os.path.exists(kcore.engine_tests):
        trial.notes.append(f"not tried, since there is no {kcore.engine_tests}: `rt test` in crates/store_tests makes it")
        yield trial
        return
    tests = Program(kcore.engine_tests)
    words, number, failed, halted = ["tests::engine::an_engine_without_memory_has_halted"], 0, True, 0
    while failed:
        number += 1
        ended = tests.run(words, failing=Failing("allocation", number, error=errno.ENOMEM))
        failed = ended.calls["failed"] > 0
        has_halted = failed and ended.text.startswith(HALTED)
        trial.ended(f"allocation {number}", ended, {DONE: "whole"}, HALTED * has_halted + PASSED)
        halted += has_halted
    tests.close()
    trial.holds(halted, "no plan found no memory and was followed by `Halted`")
    trial.notes.append(f"{halted} times the next plan answered `Halted`")
    yield trial


def little_memory(kcore):
    trial = Trial("a graph of 100,000 vertices, with room for 4 to 40 MiB of addresses")
    data = b"kcore 1\nvertices 100000\nbatch\n0 1\nend\n"
    for command in kcore.batch_commands():
        status, whole = kcore.whole(command, data)
        for room in range(4, 41):
            ended = kcore.program.run(command.words.split(), data, preexec_fn=limited(resource.RLIMIT_AS, room << 20))
            trial.ended(f"{command.words}, {room} MiB", ended, {NO_MEMORY: "prefix", status: "whole"}, whole)
    yield trial


def little_stack(kcore):
    """Nothing recurses as deep as its input is long, or as a path in its graph."""
    trial = Trial("a stack of 128 KiB")
    path = b"".join(b"%d %d\n" % (v, v + 1) for v in range(9999))
    long_path = b"kcore 1\nvertices 10000\nbatch\n" + path + b"end\nbatch\n- 4999 5000\nend\n"
    cases = [*kcore.cases()]
    cases += [(command.words, command.words.split(), long_path, *kcore.whole(command, long_path)) for command in kcore.batch_commands()]
    for name, words, data, status, whole in cases:
        ended = kcore.program.run(words, data, preexec_fn=limited(resource.RLIMIT_STACK, 128 << 10))
        trial.ended(name, ended, {status: "whole"}, whole)
    yield trial


def failing_reads(kcore):
    for name, words, data, status, whole in kcore.cases():
        trial = Trial(f"{name}, one read of 7 bytes fails")
        for error in errno.EIO, errno.EAGAIN, errno.EBADF:
            for number, ended in in_turn(kcore, words, data, "read", error, (7, 0)):
                wanted = {READ_FAULT: "prefix"} if ended.calls["failed"] else {status: "whole"}
                trial.ended(f"read {number}, error {error}", ended, wanted, whole)
        yield trial


def failing_writes(kcore):
    for name, words, data, status, whole in kcore.cases():
        trial = Trial(f"{name}, one write of 5 bytes fails")
        for error in errno.EIO, errno.ENOSPC, errno.EPIPE:
            for number, ended in in_turn(kcore, words, data, "write", error, (0, 5)):
                wanted = {WRITE_FAULT: "prefix"} if ended.calls["failed"] else {status: "whole"}
                trial.ended(f"write {number}, error {error}", ended, wanted, whole)
        yield trial


def long_texts(kcore):
    """The program keeps 65,536 bytes of its text back; here it writes while it still reads. Some hundred of the allocations are refused."""
    data, pieces = long_input(), (7919, 7919)
    for command in kcore.batch_commands():
        words = command.words.split()
        status, whole = kcore.whole(command, data)
        for kind, error, fault in ("read", errno.EIO, READ_FAULT), ("write", errno.ENOSPC, WRITE_FAULT):
            trial = Trial(f"{command.words}, a text of {len(whole)} bytes, one {kind} of 7919 bytes fails")
            for number, ended in in_turn(kcore, words, data, kind, error, pieces):
                wanted = {fault: "prefix"} if ended.calls["failed"] else {status: "whole"}
                trial.ended(f"{kind} {number}", ended, wanted, whole)
            yield trial
        trial = Trial(f"{command.words}, a text of {len(whole)} bytes, one allocation refused")
        calls = kcore.program.run(words, data, Failing()).calls
        numbers = range(1, calls["allocations"], calls["allocations"] // 200 + 1)
        runs = ((number, kcore.program.run(words, data, Failing("allocation", number, error=errno.ENOMEM))) for number in numbers)
        refused(trial, data, status, whole, calls["threads"], runs)
        trial.notes.append(f"of {calls['allocations']}")
        yield trial


def interrupted_calls(kcore):
    trial = Trial("a signal interrupts one read or write")
    for name, words, data, status, whole in kcore.cases():
        for kind in "read", "write":
            for number, ended in in_turn(kcore, words, data, kind, errno.EINTR, (7, 5)):
                trial.ended(f"{name}, {kind} {number}", ended, {status: "whole"}, whole)
    yield trial


def small_pieces(kcore):
    trial = Trial("each read and write moves 1 to 20 bytes")
    for name, words, data, status, whole in kcore.cases():
        for piece in range(1, 21):
            ended = kcore.program.run(words, data, Failing(pieces=(piece, 21 - piece)))
            trial.ended(f"{name}, reads of {piece} bytes", ended, {status: "whole"}, whole)
    yield trial


def threads_not_started(kcore):
    trial, wished = Trial("a thread can't be started, or none from one on"), 0
    for name, words, data, status, whole in kcore.cases():
        for on in False, True:
            for number, ended in in_turn(kcore, words, data, "thread", errno.EAGAIN, on=on):
                trial.ended(f"{name}, thread {number}", ended, {status: "whole"}, whole)
                wished += ended.calls["failed"]
    trial.holds(wished, "no run wanted a thread")
    yield trial
    trial, wished = Trial("the system starts no thread: no process more is allowed, or there is no room for a stack"), 0
    for name, words, data, status, whole in kcore.cases():
        for about, limit in ("no process more", without_processes), ("6 MiB of addresses", limited(resource.RLIMIT_AS, 6 << 20)):
            ended = kcore.program.run(words, data, Failing(), preexec_fn=limit)
            trial.ended(f"{name}, {about}", ended, {status: "whole"}, whole)
            trial.holds(ended.calls["threads"] == 0, f"{name}, {about}: a thread was started")
            wished += ended.calls["starts"]
    trial.holds(wished, "no run wanted a thread")
    yield trial


def one_worker(kcore):
    """Batches long enough for several threads to sort: insertions, and an isolation that takes out as many edges."""
    trial = Trial("one worker starts no thread, however long a batch is")
    lines = [f"+ {v} {(v + step) % 10_000}" for step in range(1, 9) for v in range(10_000)]
    many = "\n".join(["kcore 1", "vertices 10000", "batch", *lines, "end", ""]).encode()
    star = [f"+ 0 {v}" for v in range(1, 80_001)]
    isolated = "\n".join(["kcore 2", "vertices 80001", "batch", *star, "end", "batch", "x 0", "end", ""]).encode()
    for name, data in ("80,000 insertions", many), ("an isolation of 80,000 edges", isolated):
        for words, is_alone in ("run 1", True), ("final 1", True), ("exact", True), ("run 2", False):
            ended = kcore.program.run(words.split(), data, Failing())
            trial.ended(f"{words}, {name}", ended, {DONE: "whole"}, kcore.program.run(words.split(), data).text)
            trial.holds((ended.calls["threads"] == 0) == is_alone, f"{words}, {name}: {ended.calls['threads']} threads were started")
    yield trial


def without_processes():
    """No process or thread more. The limit doesn't bind root."""
    if os.geteuid() == 0:
        os.setgroups([]), os.setgid(65534), os.setuid(65534)
    resource.setrlimit(resource.RLIMIT_NPROC, (0, 0))


TRIALS = [nothing_fails, refused_memory, halted_engine, little_memory, little_stack, failing_reads, failing_writes, long_texts, interrupted_calls, small_pieces, threads_not_started, one_worker]
