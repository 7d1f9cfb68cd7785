#!/usr/bin/env python3
"""The built programs beside reference.py, on the same command lines: what they print, their status and the files that they write.
And what `replay` shows of a recording beside what `plain` shows of its frames, and the commands of examples/README.md.

    compare.py      in a checkout whose programs were built, as `rt ci` and `rt run` do

Prints a line for each command whose results differ, and at the end how many did.
"""
import functools
import os
import re
import shutil
import subprocess
import sys
import tempfile

import reference

TOP = os.path.dirname(os.path.dirname(os.path.abspath(__file__)))
EVENTS = os.path.join(TOP, "crates", "play", "data")
MATCH = os.path.join(TOP, "crates", "plain", "data", "match.frames")
EXAMPLES = os.path.join(TOP, "examples")
RECORDING = os.path.join(TOP, "crates", "replay", "data", "match.recording")

# Seat and window of each file of events.
SESSIONS = {"a": (0, 60), "b": (0, 60), "c": (0, 60), "d": (0, 60), "e": (0, 60), "f": (0, 60), "g": (0, 3), "h": (0, 3), "rough": (1, 4)}

# The row of `radio` whose events the examples are.
EXAMPLE = "48 8 1300 64 32 6"

# Each row: seed, window, ticks, loss, twice, delay.
RADIO = "11 20 700 32 16 17 12 1 90 0 0 0 13 60 400 200 64 40 14 7 500 0 255 12 15 33 300 256 0 3"


def follow(state, seat, random):
    """Keys of a paddle that follows the ball up and down, and does something in x."""
    gap = state.y - state.paddles[seat][1]
    return (8 if gap > 1200 else 4 if gap < -1200 else random.below(4) * 4) | random.below(4)


@functools.lru_cache
def rally(frames, stretch=100, tries=20):
    """Frames of one long rally, in which the ball gets faster with each hit. A stretch in which somebody scores is played anew with
    other keys, and where that does not help the stretches before it too."""
    random, played = reference.Random(1), [(reference.State(), b"")]
    while len(played) * stretch <= frames:
        for _ in range(tries):
            state, keys = played[-1][0].copy(), bytearray()
            for _ in range(stretch):
                held = [follow(state, seat, random) for seat in (0, 1)]
                keys.append(held[0] + 16 * held[1])
                state.frame(*held)
            if state.score == [0, 0]:
                played.append((state, bytes(keys)))
                break
        else:
            del played[max(1, len(played) - 3):]
    return b"".join(keys for _, keys in played)


def fast_balls():
    """The plain game of a rally, with balls of two, four and eight steps a frame at its end."""
    for frames in (1000, 3000, 9000):
        with open("rally.frames", "wb") as file:
            file.write(rally(9000)[:frames])
        yield ["plain", "rally.frames", "show"]


def commands():
    yield ["plain", MATCH]
    yield ["plain", MATCH, "show"]
    yield ["plain", MATCH, "sound", "OUT"]
    yield ["plain", MATCH, "sound", "OUT2", "show", "sound", "OUT"]
    for name, (seat, window) in SESSIONS.items():
        file = os.path.join(EVENTS, name + ".events")
        yield ["play", str(seat), str(window), file, "letters", "OUT"]
        yield ["play", str(seat), str(window), file, "record", "OUT"]
        yield ["play", str(seat), str(window), file, "sound", "OUT"]
        yield ["play", str(1 - seat), str(window), file]
        yield ["play", str(seat), "61", file]
    for name in ("g", "h"):
        seat, window = SESSIONS[name]
        yield ["play", str(seat), str(window), os.path.join(EVENTS, name + ".events"), "show"]
    for seat, name in enumerate(("left", "right")):
        file = os.path.join(EXAMPLES, name + ".events")
        yield ["play", str(seat), "8", file, "letters", "OUT", "record", "OUT2", "sound", "OUT3"]
    yield ["play", "0", "9", MATCH]
    for frame in ("0", "599", "600", "601", "6728", "6729"):
        yield ["replay", RECORDING, frame]
        yield ["replay", RECORDING, frame, "sound", "OUT"]
    yield ["replay", MATCH, "1", "sound", "OUT"]
    yield ["plain", EVENTS, "sound", "OUT"]
    yield ["play", "0", "61", MATCH, "sound", "OUT"]
    yield ["radio", *RADIO.split()]
    yield ["radio", *EXAMPLE.split()]
    yield ["radio", "1", "61", "1", "0", "0", "0"]
    yield from fast_balls()
    yield from refused_lines()


def refused_lines():
    """Wrong command lines, files that cannot be read, and files that cannot be written."""
    for program in reference.USAGE:
        yield [program]
        yield [program, "\udcff"]
    yield ["plain", MATCH, "shown"]
    yield ["play", "2", "8", MATCH]
    yield ["play", "0", "eight", MATCH]
    yield ["play", "0", "8", MATCH, "letters"]
    yield ["play", "0", "3", os.path.join(EVENTS, "g.events"), "letters", "OUT", "record", "OUT"]
    yield ["play", "0", "3", os.path.join(EVENTS, "g.events"), "letters", "OUT", "show", "letters", "OUT2", "record", "OUT"]
    yield ["play", "0", "3", os.path.join(EVENTS, "g.events"), "sound", "OUT", "record", "OUT"]
    yield ["play", "0", "3", os.path.join(EVENTS, "g.events"), "letters", "OUT", "sound", "OUT", "record", "OUT2"]
    yield ["play", "0", "3", os.path.join(EVENTS, "g.events"), "sound"]
    yield ["plain", MATCH, "sound"]
    yield ["replay", RECORDING, "1", "sound"]
    yield ["replay", RECORDING, "1", "show"]
    yield ["replay", RECORDING, "-1"]
    yield ["replay", RECORDING, str(2 ** 64)]
    yield ["radio", "1", "2", "3", "4", "5"]
    for file in ("none", TOP):
        yield ["plain", file]
        yield ["play", "0", "8", file]
        yield ["replay", file, "0"]
    for out in ("none/OUT", "."):
        yield ["play", "0", "3", os.path.join(EVENTS, "g.events"), "letters", out]
        yield ["play", "0", "3", os.path.join(EVENTS, "g.events"), "letters", "OUT", "record", out]
        yield ["play", "0", "3", os.path.join(EVENTS, "g.events"), "record", "OUT", "sound", out]
        yield ["plain", MATCH, "show", "sound", out]
        yield ["replay", RECORDING, "600", "sound", out]


def by_program(words):
    """What a built program prints on standard output and on standard error, and its status, as `reference.run` tells them."""
    program = os.path.join(TOP, "crates", words[0], "out", words[0])
    try:
        done = subprocess.run([program, *words[1:]], capture_output=True, text=True, timeout=120)
    except subprocess.TimeoutExpired:
        return "", "no end in 120 seconds", None
    return done.stdout, done.stderr, done.returncode


def taken(path):
    with open(path, "rb") as file:
        file = file.read()
    os.remove(path)
    return file


def result(run, words):
    """What a command came to, and the files that it wrote in this folder, which are taken away for the next to run."""
    before = set(os.listdir())
    told = run(words)
    return told, {name: taken(name) for name in sorted(set(os.listdir()) - before)}


def example_files():
    """Whether the examples are the events of their row."""
    sides = reference.exchange(*map(int, EXAMPLE.split()))
    for side, name in zip(sides, ("left", "right")):
        with open(os.path.join(EXAMPLES, name + ".events"), "rb") as file:
            yield "examples/" + name + ".events", file.read() == side.events


def example_commands():
    """Each command of examples/README.md, and whether it prints what stands there. They are run in a copy, as some write files."""
    shutil.copytree(EXAMPLES, "examples")
    os.symlink(os.path.join(TOP, "crates"), "crates")
    with open(os.path.join(EXAMPLES, "README.md")) as file:
        text = file.read()
    found = re.findall(r"^    \$ (.*\n)((?:    (?!\$ ).*\n)*)", text, re.MULTILINE)
    yield "commands in examples/README.md", len(found) > 0
    for command, wanted in found:
        done = subprocess.run(["sh", "-c", command], cwd="examples", capture_output=True, text=True, timeout=120)
        yield command.strip(), done.stdout + done.stderr == re.sub("^    ", "", wanted, flags=re.MULTILINE)


def recording_as_plain():
    """A recording that `play` writes: whether `replay` shows of it what `plain` shows of its first frames."""
    for seat, name in enumerate(("left", "right")):
        _, files = result(by_program, ["play", str(seat), "8", os.path.join(EXAMPLES, name + ".events"), "record", "OUT"])
        recording = files["OUT"]
        frames = recording[8:8 + int.from_bytes(recording[4:8], "little")]
        with open("recording", "wb") as file:
            file.write(recording)
        for k in (0, 1, 599, 600, 601, 1200, len(frames)):
            with open("frames", "wb") as file:
                file.write(frames[:k])
            shown, _, status = by_program(["replay", "recording", str(k)])
            plain, _, _ = by_program(["plain", "frames", "show"])
            yield f"{name}: replay as plain after frame {k}", status == 0 and shown.split("\n")[1:] == plain.split("\n")[1:]


def compared():
    """Everything that is compared: its name, and whether it is the same."""
    for words in commands():
        yield ascii(words), result(reference.run, words) == result(by_program, words)
    yield from recording_as_plain()
    yield from example_files()
    yield from example_commands()


def main():
    with tempfile.TemporaryDirectory() as folder:
        os.chdir(folder)
        differ = []
        for count, (name, same) in enumerate(compared(), 1):
            if not same:
                differ.append(name)
                print("differs:", name)
        os.chdir(TOP)
    print(f"{count} compared, {len(differ)} differ")
    return 1 if differ else 0


if __name__ == "__main__":
    sys.exit(main())
