#!/usr/bin/env python3
"""The programs again, written from docs/RULES.md alone, to compare with: slow, and with none of the repository's code.

    reference.py plain FILE [show] [sound OUT]
    reference.py play SEAT N FILE [show] [letters OUT] [record OUT] [sound OUT]
    reference.py replay FILE BEAT [sound OUT]
    reference.py radio SEED N TICKS LOSS TWICE DELAY ..

And a file of events for each machine of such a row, for `play`:

    reference.py events LEFT RIGHT SEED N TICKS LOSS TWICE DELAY
"""
import collections
import contextlib
import functools
import re
import struct
import sys

MOST = 1_000_000

# The largest velocity, and the longest step of a ball, in x and in y.
TOP_SPEED = 6144
LONGEST_STEP = 768

USAGE = {
    "plain": "usage: plain FILE [show] [sound OUT]",
    "play": "usage: play SEAT N FILE [show] [letters OUT] [record OUT] [sound OUT]",
    "replay": "usage: replay FILE BEAT [sound OUT]",
    "radio": "usage: radio SEED N TICKS LOSS TWICE DELAY ..",
}
# What is heard of a frame, for how many frames, and how often its tone turns in a second.
PADDLE, WALL, POINT = 1, 2, 3
FRAMES = (0, 6, 6, 30)
TURNS = (0, 440, 220, 110)
GLYPHS = "75557 26227 71747 71717 55711 74717 74757 71111 75757 75717".split()

# The court's lines, on which all else is painted.
LINES = [b"".join(b"|" if i in (79, 80) or (i in (0, 159) and (j < 40 or j > 79)) else b"." for i in range(160))
         for j in range(120)]


def clamp(lo, hi, a):
    return max(lo, min(hi, a))


def sign(a):
    return (a > 0) - (a < 0)


def toward_zero(a, b):
    return abs(a) // b * (1 if a >= 0 else -1)


class State:
    def __init__(self):
        self.x, self.y, self.dx, self.dy = 20480, 15360, 512, 256
        self.paddles = [[2048, 15360], [38912, 15360]]
        self.score = [0, 0]
        self.wait = 60
        self.cue, self.tone = 0, (0, 0)

    def copy(self):
        s = State()
        s.__dict__.update(self.__dict__)
        s.paddles = [list(p) for p in self.paddles]
        s.score = list(self.score)
        return s

    def move(self, seat, held):
        p = self.paddles[seat]
        lo, hi = ((512, 19968), (20992, 40448))[seat]
        p[0] = clamp(lo, hi, p[0] + 512 * ((held >> 1 & 1) - (held & 1)))
        p[1] = clamp(2048, 28672, p[1] + 512 * ((held >> 3 & 1) - (held >> 2 & 1)))

    def meets(self, seat):
        px, py = self.paddles[seat]
        return abs(self.x - px) < 1024 and abs(self.y - py) < 2560

    def strike(self, seat):
        px, py = self.paddles[seat]
        way = 1 if seat == 0 else -1
        self.x = px + 1024 * way
        self.dx = way * min(TOP_SPEED, abs(self.dx) + 32)
        self.dy = clamp(-TOP_SPEED, TOP_SPEED, self.dy + toward_zero(self.y - py, 16))

    def meet_paddles(self, before):
        """Both paddles look at the same ball, which lay at `before` when the step began."""
        met = [seat for seat in (0, 1) if self.meets(seat)]
        self.cue = PADDLE if met else self.cue
        if len(met) == 2:
            self.dx = -self.dx
            self.x, self.y = before
        elif met:
            self.strike(met[0])

    def steps(self):
        """How far each step of a frame goes in x and in y, by the velocity at its beginning."""
        n = max(1, -(-max(abs(self.dx), abs(self.dy)) // LONGEST_STEP))
        return [[abs(d) // n + (i < abs(d) % n) for d in (self.dx, self.dy)] for i in range(n)]

    def step(self, far_x, far_y):
        before = self.x, self.y
        self.x += sign(self.dx) * far_x
        self.y += sign(self.dy) * far_y
        if self.y < 512:
            self.y, self.dy, self.cue = 512, abs(self.dy), WALL
        elif self.y > 30208:
            self.y, self.dy, self.cue = 30208, -abs(self.dy), WALL
        self.meet_paddles(before)

    def end(self):
        if 512 <= self.x <= 40448:
            return
        left = self.x < 512
        if 10240 <= self.y <= 20480:
            winner = 1 if left else 0
            self.score[winner] += 1
            self.x, self.y = 20480, 15360
            self.dx = 512 if winner == 1 else -512
            self.dy = 256 if sum(self.score) % 2 == 0 else -256
            self.wait, self.cue = 60, POINT
        else:
            self.cue = WALL
            self.x = 512 if left else 40448
            self.dx = abs(self.dx) if left else -abs(self.dx)

    def play_on(self, a, b):
        if 9 in self.score:
            return
        self.move(0, a)
        self.move(1, b)
        if self.wait:
            self.wait -= 1
            return
        for far_x, far_y in self.steps():
            self.step(far_x, far_y)
        self.end()

    def frame(self, a, b):
        """The court goes on, and then its tone."""
        self.cue = 0
        self.play_on(a, b)
        kind, age = self.tone
        if self.cue:
            self.tone = self.cue, 0
        else:
            self.tone = (kind, age + 1) if age + 1 < FRAMES[kind] else (0, 0)

    def sound(self):
        return sound(*self.tone)

    def line(self, frames):
        (a, b), (c, d) = self.paddles
        return (f"beat {frames} ball {self.x} {self.y} way {self.dx} {self.dy} bars {a} {b} {c} {d} "
                f"points {self.score[0]} {self.score[1]} wait {self.wait}")

    def picture(self):
        """As text: what counts more is painted later."""
        rows = [bytearray(row) for row in LINES]

        def paint(byte, columns, lines):
            for j in lines:
                for i in columns:
                    rows[j][i] = ord(byte)

        def near(middle, reach, dots):
            return [i for i in range(dots) if abs(256 * i + 128 - middle) < reach]

        for seat, first in ((0, 70), (1, 87)):
            for j, bits in enumerate(GLYPHS[self.score[seat]], 4):
                paint("*", [first + i for i in range(3) if int(bits) >> (2 - i) & 1], [j])
        paint("o", near(self.x, 512, 160), near(self.y, 512, 120))
        for px, py in self.paddles:
            paint("#", near(px, 512, 160), near(py, 2048, 120))
        return "".join(row.decode() + "\n" for row in rows)

    def saved(self):
        numbers = [self.x, self.y, self.dx, self.dy] + [n for p in self.paddles for n in p]
        head = b"".join(n.to_bytes(4, "little", signed=True) for n in numbers)
        return head + bytes(self.score + [self.wait, *self.tone]) + bytes(27)


@functools.cache
def sound(kind, age):
    """The samples of one frame of a tone."""
    at = range(800 * age, 800 * age + 800)
    levels = [8192 * (1 - 2 * (2 * TURNS[kind] * i // 48000 % 2)) if kind else 0 for i in at]
    return b"".join(level.to_bytes(2, "little", signed=True) for level in levels)


def sounds(frames):
    """Those of all frames of a game, a byte each."""
    s, heard = State(), []
    for frame in frames:
        s.frame(frame % 16, frame // 16)
        heard.append(s.sound())
    return heard


def wav(heard):
    data = b"".join(heard)
    form = b"fmt " + struct.pack("<IHHIIHH", 16, 1, 1, 48000, 96000, 2, 16)
    return b"RIFF" + struct.pack("<I", 36 + len(data)) + b"WAVE" + form + b"data" + struct.pack("<I", len(data)) + data


def plain_game(left, right, start=None):
    s = start.copy() if start else State()
    for a, b in zip(left, right):
        s.frame(a, b)
    return s


def faults(packet, made):
    """Each fault of a packet by itself: its place and number."""
    n = len(packet)
    if n and packet[0] != 72:
        yield 0, 1
    if n >= 6:
        if int.from_bytes(packet[1:5], "little") + packet[5] > MOST:
            yield 1, 3
        if packet[5] > 120:
            yield 5, 1
    if n >= 10 and int.from_bytes(packet[6:10], "little") > made:
        yield 6, 3
    end = 10 + packet[5] if n >= 6 else 10
    for i in range(10, min(n, end)):
        if packet[i] > 15:
            yield i, 2
    if n < 10 or n < end:
        yield n, 1
    elif n > end:
        yield end, 1


class Peer:
    def __init__(self, seat, window):
        self.seat, self.window = seat, window
        self.own, self.other, self.acked = [], [], 0
        self.settled, self.after = 0, State()

    def tick(self, held):
        if held > 15:
            return "refused 2 at 1"
        if len(self.own) >= MOST or len(self.own) >= len(self.other) + self.window:
            return "lost"
        self.own.append(held)

    def hear(self, packet):
        told = sorted(faults(packet, len(self.own)))
        if told:
            return f"refused {told[0][1]} at {told[0][0]}"
        first = int.from_bytes(packet[1:5], "little")
        if first <= len(self.other):
            self.other += packet[10:][len(self.other) - first:]
        self.acked = max(self.acked, int.from_bytes(packet[6:10], "little"))

    def packet(self):
        inputs = self.own[self.acked:self.acked + 120]
        return (b"H" + self.acked.to_bytes(4, "little") + bytes([len(inputs)])
                + len(self.other).to_bytes(4, "little") + bytes(inputs))

    def predicted(self):
        last = self.other[-1] if self.other else 0
        n = len(self.own)
        return (self.other + [last] * max(0, n - len(self.other)))[:n]

    def play_on(self, start, first, last):
        """The plain game from a state on, with the inputs of some frames."""
        known = self.other[first:last]
        held = self.other[-1] if self.other else 0
        both = [self.own[first:last], known + [held] * (last - first - len(known))]
        return plain_game(*(both if self.seat == 0 else both[::-1]), start)

    def shown(self):
        """From the last state all of whose inputs have come: they stay."""
        confirmed = self.confirmed()
        self.settled, self.after = confirmed, self.play_on(self.after, self.settled, confirmed)
        return self.play_on(self.after, confirmed, len(self.own))

    def confirmed(self):
        return min(len(self.own), len(self.other))


def events_of(file):
    """The events of a file, or the first byte of what is none."""
    at, events = 0, []
    while at < len(file):
        if file[at] == 0 and at + 2 <= len(file):
            events.append((0, file[at + 1]))
            at += 2
            continue
        if file[at] == 1 and at + 3 <= len(file):
            n = int.from_bytes(file[at + 1:at + 3], "little")
            if at + 3 + n <= len(file):
                events.append((1, file[at + 3:at + 3 + n]))
                at += 3 + n
                continue
        return at
    return events


def arrival(packet):
    """A packet that came, as an event."""
    return b"\1" + len(packet).to_bytes(2, "little") + packet


def recording(window, frames):
    """The recording of a match, by a byte for each frame."""
    s, states = State(), []
    for n, frame in enumerate(frames, 1):
        s.frame(frame % 16, frame // 16)
        if n % 600 == 0:
            states.append(s.saved())
    return b"REC" + bytes([window]) + len(frames).to_bytes(4, "little") + frames + b"".join(states)


def recording_fault(file):
    """The first byte in fault of bytes that are no recording, or none."""
    if file[:3] != b"REC"[:len(file)]:
        return next(i for i in range(3) if file[i] != b"REC"[i])
    if len(file) >= 4 and not 1 <= file[3] <= 60:
        return 3
    if len(file) < 8:
        return len(file)
    n = int.from_bytes(file[4:8], "little")
    if n > MOST:
        return 4
    if len(file) < 8 + n:
        return len(file)
    right = recording(file[3], file[8:8 + n])
    if file == right:
        return None
    both = min(len(file), len(right))
    return next((i for i in range(both) if file[i] != right[i]), both)


class Failed(Exception):
    """A line on standard error; the status is 1."""


def replay(path, file, frame):
    """What `replay` prints on standard output, and whether it showed something."""
    fault = recording_fault(file)
    if fault is not None:
        return f"refused 6 at {fault}\n", False
    frames = file[8:8 + int.from_bytes(file[4:8], "little")]
    if frame > len(frames):
        raise Failed(f"replay: {path}: no frame {frame}, it has {len(frames)}")
    s = plain_game([b % 16 for b in frames[:frame]], [b // 16 for b in frames[:frame]])
    return f"beat {frame} of {len(frames)} points {s.score[0]} {s.score[1]}\n" + s.picture(), True


def play(seat, window, file, show=False, letters=None, record=None, heard=None):
    """What `play` prints, and whether it was not refused; the packets go to the list `letters`, the recording to the list `record`, the
    sounds to the list `heard`."""
    if not 1 <= window <= 60:
        return "refused 5 at 0\n", False
    events = events_of(file)
    if isinstance(events, int):
        return f"refused 4 at {events}\n", False
    peer, out = Peer(seat, window), []
    for kind, what in events:
        said = peer.tick(what) if kind == 0 else peer.hear(what)
        shown = peer.shown() if show or said is None else None
        if said is None:
            said = f"beat {len(peer.own)} sure {peer.confirmed()} points {shown.score[0]} {shown.score[1]}"
        out.append(said + "\n")
        if show:
            out.append(shown.picture())
        if kind == 0 and said.startswith("beat") and heard is not None:
            heard.append(shown.sound())
        if kind == 0 and not said.startswith("refused") and letters is not None:
            letters.append(arrival(peer.packet()))
    if record is not None:
        both = [peer.own, peer.other] if seat == 0 else [peer.other, peer.own]
        record.append(recording(window, bytes(a + 16 * b for a, b in zip(*both))))
    return "".join(out), True


class Random:
    def __init__(self, seed):
        self.state = seed

    def below(self, n):
        self.state = (self.state * 6364136223846793005 + 1442695040888963407) % 2 ** 64
        return (self.state >> 33) % n if n else 0


class Side:
    """A machine at the radio: its peer, what it holds, the packets that it wrote, its events as a file, and the counts."""

    def __init__(self, seat, window):
        self.peer, self.held, self.sent, self.events = Peer(seat, window), 0, [], b""
        self.lost = self.refused = self.played = self.again = 0

    def tick(self, held):
        self.events += bytes([0, held])
        said = self.peer.tick(held)
        self.lost += said == "lost"
        self.played += said is None
        self.sent.append(self.peer.packet())

    def hear(self, packet):
        self.events += arrival(packet)
        before, n, confirmed = self.peer.predicted(), len(self.peer.own), self.peer.confirmed()
        if self.peer.hear(packet) is not None:
            self.refused += 1
            return
        after = self.peer.predicted()
        right = next((i for i in range(confirmed, n) if before[i] != after[i]), n)
        self.played += n - right
        self.again += n - right

    def line(self, name):
        p = self.peer
        points = p.shown().score
        return (f"{name} beat {len(p.own)} sure {p.confirmed()} points {points[0]} {points[1]} "
                f"lost {self.lost} refused {self.refused} played {self.played} again {self.again}\n")


def exchange(seed, window, ticks, loss, twice, delay):
    """Both machines after a row of `radio`."""
    random, sides, air = Random(seed), [Side(0, window), Side(1, window)], collections.defaultdict(list)
    for now in range(ticks + 150):
        for seat, side in enumerate(sides):
            changes, held = random.below(8) == 0, random.below(16)
            side.held = held if changes else side.held
            for number in air[now, seat]:
                side.hear(sides[1 - seat].sent[number])
            side.tick(side.held)
            lost, doubled = random.below(256) < loss, random.below(256) < twice
            late = [random.below(max(0, delay - 1)) for _ in range(2)]
            if now >= ticks:
                lost, doubled, late = False, False, [0, 0]
            for more in late[:0 if lost else 2 if doubled else 1]:
                air[now + 2 + more, 1 - seat].append(now)
    return sides


def radio(out, seed, window, ticks, loss, twice, delay):
    """What `radio` prints of one row."""
    out.append(f"seed {seed} window {window} ticks {ticks} loss {loss} twice {twice} delay {delay}\n")
    if not 1 <= window <= 60:
        raise Failed("radio: refused 5 at 0")
    sides = exchange(seed, window, ticks, loss, twice, delay)
    left, right = (side.peer for side in sides)
    confirmed = min(left.confirmed(), right.confirmed())
    games = [(left.own[:confirmed], left.other[:confirmed]), (right.other[:confirmed], right.own[:confirmed])]
    same = games[0] == games[1] and plain_game(*games[0]).saved() == plain_game(*games[1]).saved()
    out += sides[0].line("left"), sides[1].line("right"), f"same {confirmed}\n" if same else "different\n"


def number(word):
    """A number on a command line, or none."""
    return int(word) if re.fullmatch(r"\+?[0-9]+", word, re.ASCII) and int(word) < 2 ** 64 else None


@contextlib.contextmanager
def at_file(program, path):
    try:
        yield
    except OSError as error:
        raise Failed(f"{program}: {path}: {error.strerror} (os error {error.errno})")


def read(program, path):
    with at_file(program, path), open(path, "rb") as file:
        return file.read()


def write(program, path, what):
    with at_file(program, path), open(path, "wb") as file:
        file.write(what)


def usage_unless(right, program):
    if not right:
        raise Failed(USAGE[program])


def options(words, program, *files):
    """Whether to show, and the files to be written, of which no two are the same."""
    words, show, wanted = list(words), False, {}
    while words:
        word = words.pop(0)
        usage_unless((word == "show" and program != "replay") or (word in files and words), program)
        if word == "show":
            show = True
        else:
            wanted[word] = words.pop(0)
    usage_unless(len(set(wanted.values())) == len(wanted), program)
    return show, wanted


def run_plain(args, out):
    usage_unless(args, "plain")
    show, wanted = options(args[1:], "plain", "sound")
    frames = read("plain", args[0])
    if len(frames) > MOST:
        raise Failed(f"plain: {args[0]}: more than {MOST} frames")
    s = plain_game([b % 16 for b in frames], [b // 16 for b in frames])
    out.append(s.line(len(frames)) + "\n")
    if show:
        out.append(s.picture())
    if "sound" in wanted:
        write("plain", wanted["sound"], wav(sounds(frames)))
    return True


def run_play(args, out):
    seat, window = args[:1], number(args[1]) if len(args) > 2 else None
    usage_unless(seat in (["0"], ["1"]) and window is not None, "play")
    show, wanted = options(args[3:], "play", "letters", "record", "sound")
    parts, heard = {"letters": [], "record": []}, []
    text, done = play(int(seat[0]), window, read("play", args[2]), show, heard=heard, **parts)
    out.append(text)
    for word in ("letters", "record"):
        if done and word in wanted:
            write("play", wanted[word], b"".join(parts[word]))
    if done and "sound" in wanted:
        write("play", wanted["sound"], wav(heard))
    return done


def run_replay(args, out):
    frame = number(args[1]) if len(args) > 1 else None
    usage_unless(frame is not None, "replay")
    _, wanted = options(args[2:], "replay", "sound")
    file = read("replay", args[0])
    text, done = replay(args[0], file, frame)
    out.append(text)
    if done and "sound" in wanted:
        write("replay", wanted["sound"], wav(sounds(file[8:8 + frame])))
    return done


def run_radio(args, out):
    numbers = [number(word) for word in args]
    usage_unless(numbers and None not in numbers and len(numbers) % 6 == 0, "radio")
    for i in range(0, len(numbers), 6):
        radio(out, *numbers[i:i + 6])
    return True


PROGRAMS = {"plain": run_plain, "play": run_play, "replay": run_replay, "radio": run_radio}


def check_words(program, words):
    """Words that are no UTF-8 come with surrogates."""
    try:
        "".join(words).encode()
    except UnicodeEncodeError:
        raise Failed(f"{program}: command line: invalid data")


def run(words):
    """What a program prints on standard output and on standard error, and its status. Writes the files that it is told to."""
    out = []
    try:
        check_words(words[0], words)
        done = PROGRAMS[words[0]](list(words[1:]), out)
    except Failed as told:
        return "".join(out), f"{told}\n", 1
    return "".join(out), "", 0 if done else 1


def write_events(left, right, *row):
    for path, side in zip((left, right), exchange(*map(int, row))):
        write("events", path, side.events)


def main(words):
    if words[:1] == ["events"] and len(words) == 9:
        write_events(*words[1:])
        return 0
    if not words or words[0] not in PROGRAMS:
        print(__doc__, file=sys.stderr)
        return 1
    out, err, status = run(words)
    sys.stdout.write(out)
    sys.stderr.write(err)
    return status


if __name__ == "__main__":
    sys.exit(main(sys.argv[1:]))
