"""The texts that kserve may write for scripts: the batches that the server drained, in any order of the clients, and
the lines of the vertices.

A module of check.py and serving.py.
"""
import itertools
import subprocess

MOST = 1024


def run(program, words, text):
    done = subprocess.run([program, *words], input=text.encode(), capture_output=True, timeout=120, check=False)
    return done.returncode, done.stdout.decode(), done.stderr


def block(lines):
    return "".join(f"{line}\n" for line in ["batch", *lines, "end"])


def batches_in(lines):
    """The batches of the lines after the head, each a list of (client, item), and the lines after them."""
    batches = []
    while lines and lines[0].startswith("batch "):
        if lines[0] != f"batch {len(batches) + 1}":
            raise ValueError(f"{lines[0]} is batch {len(batches) + 1}")
        taken = list(itertools.takewhile(lambda line: line.startswith("take "), lines[1:]))
        words = [line.split(" ", 2) for line in taken]
        batches.append([(int(client), item) for _, client, item in words])
        lines = lines[1 + len(taken):]
    return batches, lines


def updates_in(batches, count):
    """The items of each of so many clients, in order."""
    found = [[] for _ in range(count)]
    for client, item in itertools.chain.from_iterable(batches):
        if client >= count:
            raise ValueError(f"there is no client {client}")
        found[client].append(item)
    return found


def tail_of(n, batches, kcore):
    """The lines of the vertices after these batches, and the last line, as `kcore run` writes them."""
    again = f"kcore 1\nvertices {n}\n" + "".join(block(item for _, item in batch) for batch in batches)
    status, wanted, _ = run(kcore, ["run", "1"], again)
    if status != 0:
        raise ValueError(f"kcore ended with {status}")
    return [line for line in wanted.split("\n") if line.startswith(("vertex ", "end")) or not line]


def fault_of(n, scripts, text, kcore):
    """What is wrong with a text, or None."""
    lines = text.split("\n")
    if lines[:2] != ["kserve-run 1", f"vertices {n}"]:
        return "another head"
    try:
        batches, rest = batches_in(lines[2:])
        if any(not 1 <= len(batch) <= MOST for batch in batches):
            return "a batch has no update, or more than 1,024"
        if updates_in(batches, len(scripts)) != scripts:
            return "the updates of a client are not its script"
        if rest != tail_of(n, batches, kcore):
            return "other lines of vertices than those of the batches"
    except ValueError as fault:
        return str(fault)
    return None


def beginning_fault_of(n, scripts, text, kcore):
    """What is wrong with the beginning of a text, or None where it is the beginning of one that fits the scripts."""
    head = f"kserve-run 1\nvertices {n}\n"
    if len(text) <= len(head):
        return None if head.startswith(text) else "another head"
    if not text.startswith(head):
        return "another head"
    *lines, last = text[len(head):].split("\n")
    try:
        batches, rest = batches_in(lines)
        found = updates_in(batches, len(scripts))
        if any(script[: len(items)] != items for script, items in zip(scripts, found)):
            return "the updates of a client are not the beginning of its script"
        sizes = [len(batch) for batch in batches]
        if any(not 1 <= size <= MOST for size in sizes[:-1]) or sizes and sizes[-1] > MOST:
            return "a batch has no update, or more than 1,024"
        if found == scripts:
            wanted = "\n".join(tail_of(n, batches, kcore))
            return None if wanted.startswith("\n".join([*rest, last])) else "other lines of vertices than those of the batches"
        if rest:
            return f"{rest[0]!r} before all updates"
        nexts = [f"take {client} {script[len(items)]}" for client, (script, items) in enumerate(zip(scripts, found)) if len(items) < len(script)]
        possible = nexts if sizes and sizes[-1] < MOST else []
        if not sizes or sizes[-1]:
            possible = [*possible, f"batch {len(batches) + 1}"]
        return None if any(line.startswith(last) for line in possible) else f"no line begins with {last!r}"
    except ValueError as fault:
        return str(fault)
