"""Times requests on one house, and tells what each costs on this machine. It judges nothing.

    python3 .ci/speed.py PROGRAM               the built program of `request_speed`

For each shape of documents: 64 or fewer of them are asked in turn, so that each plan is found after the first round, or
65 are, of which a house that keeps 64 plans finds none. The run with few rounds is taken off from the one with many.
"""

import subprocess
import sys
import time

# a shape, and the rounds that are timed
SHAPES = [("one", 100), ("forty", 40), ("equal", 2), ("different", 2)]


def seconds_of(program, shape, documents, rounds):
    """The shortest of three runs."""
    words = [program, shape, str(documents), str(rounds)]
    spent = []
    for _ in range(3):
        start = time.perf_counter()
        subprocess.run(words, stdout=subprocess.DEVNULL, check=True)
        spent.append(time.perf_counter() - start)
    return min(spent)


def microseconds(program, shape, documents, rounds):
    """What a request costs once the first round is over."""
    first = seconds_of(program, shape, documents, 1)
    spent = seconds_of(program, shape, documents, 1 + rounds)
    return (spent - first) / (documents * rounds) * 1e6


def main():
    program = sys.argv[1]
    for shape, rounds in SHAPES:
        found = microseconds(program, shape, 64, rounds)
        made = microseconds(program, shape, 65, rounds)
        print(f"{shape}: {found:.1f} µs where its plan is found, {made:.1f} µs where one is made")


main()
