#!/usr/bin/env python3
"""Runs the tests that stand on threads over and over, and counts how often each passes. Runs by hand.

    hostile/gates.py [--folder PATH] [--runs N] [--seconds S] [--at-once N] [--only WORD]

A gate holds one thread until another has come to a place. So whether such a test passes could depend on how the system
runs its threads. Runs each N (200) times, one run after another. `rt test` in a crate's folder makes its tests,
out/NAME_tests. A run that takes S (60) seconds counts as one that failed.

--at-once has N runs of a test side by side, so that the threads get less of the processors each. --folder is a folder
with the programs of tests, in place of those of the crates. Prints a line for each test, and counts in the last line.
The exit number is 1 if a run failed or a test wasn't found. How threads run depends on the machine, so this isn't part
of the gate.
"""
import argparse
import concurrent.futures
import os
import subprocess
import sys
import time

# The tests in which a thread waits for another, or whose answer another thread could spoil: the crate that they stand
# in, and the last part of the name of each.
TESTS = {
    # Of kc_rounds.
    "graph_tests": ["pieces_run_at_the_same_time", "pieces_are_told_before_they_are_tested", "each_candidate_is_tested_once"],
    # Of kc_store, kc_engine, kc_session, kc_intake and kc_service.
    "store_tests": ["readers_see_points_of_the_history",
                    "ranges_of_a_first_group_run_at_the_same_time", "ranges_of_a_long_group_run_at_the_same_time",
                    "each_range_and_each_publication_is_told", "each_group_shows_at_once",
                    "a_label_is_published_again", "a_reader_sees_two_points_in_order",
                    "a_group_takes_effect_at_once", "a_reply_is_from_before_what_waits_for_it",
                    "a_reader_looks_while_batches_are_shown", "a_reader_looks_anew_at_the_same_vertex",
                    "a_batch_is_shown_before_it_is_told",
                    "readers_run_at_once", "a_reader_follows_the_batches", "a_first_round_has_a_piece_for_each_worker",
                    "a_queue_of_one", "eight_clients", "clients_of_very_different_lengths"],
    "kcore": ["a_first_round_has_two_pieces_at_once", "a_first_round_has_a_piece_for_each_worker",
              "both_branches_have_ended_after_a_fault"],
    "kserve": ["clients_run_at_once", "updates_go_through_the_intake", "a_long_script_of_one_client",
               "updates_are_printed_while_no_others_come", "updates_are_told_before_and_after_they_are_submitted",
               "a_first_round_has_a_piece_for_each_worker",
               "clients_wait_for_room_while_a_write_fails", "eight_clients",
               "clients_of_very_different_lengths", "sixty_four_clients"],
}


def run(words, seconds):
    """Whether a test passed in time, and how long it took."""
    began = time.monotonic()
    try:
        passed = subprocess.run(words, stdout=subprocess.DEVNULL, stderr=subprocess.DEVNULL, timeout=seconds, check=False).returncode == 0
    except subprocess.TimeoutExpired:
        passed = False
    return passed, time.monotonic() - began


def made(program):
    """The names of the tests in a program of tests, if it was made."""
    if not os.path.exists(program):
        return set()
    listed = subprocess.run([program, "--list"], stdin=subprocess.DEVNULL, stdout=subprocess.PIPE, text=True, check=True).stdout
    return {line.removesuffix(": test") for line in listed.splitlines()}


def tests_of(options):
    """Each test: its crate, its name, and the words that run it; None in their place where it wasn't found."""
    crates = os.path.join(os.path.dirname(os.path.abspath(__file__)), "..", "crates")
    for crate, names in TESTS.items():
        folder = options.folder or os.path.join(crates, crate, "out")
        program = os.path.abspath(os.path.join(folder, f"{crate}_tests"))
        found = made(program)
        for name in names:
            whole = sorted(test for test in found if test.split("::")[-1] == name)
            for test in whole or [None]:
                if options.only in f"{crate} {test or name}":
                    yield crate, test or name, test and [program, test]


def main():
    parser = argparse.ArgumentParser(description=__doc__, formatter_class=argparse.RawDescriptionHelpFormatter)
    parser.add_argument("--folder")
    parser.add_argument("--runs", type=int, default=200)
    parser.add_argument("--seconds", type=int, default=60)
    parser.add_argument("--at-once", type=int, default=1)
    parser.add_argument("--only", default="")
    options = parser.parse_args()
    runs, wrong, missing = 0, 0, 0
    with concurrent.futures.ThreadPoolExecutor(options.at_once) as pool:
        for crate, name, words in tests_of(options):
            if words is None:
                print(f"{crate} {name}: not tried, since it wasn't found: `rt test` in crates/{crate} makes it")
                missing += 1
                continue
            ended = list(pool.map(lambda _, these=words: run(these, options.seconds), range(options.runs)))
            passed = sum(one for one, _ in ended)
            runs, wrong = runs + len(ended), wrong + len(ended) - passed
            print(f"{crate} {name}: {passed} of {len(ended)} passed, the slowest in {max(took for _, took in ended):.2f} s")
            sys.stdout.flush()
    print(f"{runs} runs, {wrong} failed, {missing} tests not tried")
    sys.exit(1 if wrong or missing else 0)


if __name__ == "__main__":
    main()
