#!/usr/bin/env python3
"""Reads a sound as a WAV file, apart from the code that wrote it, and finds its tones.

    wav_check.py FILE [quiet]

Prints a line for each tone: the frame in which it begins, its turns a second as its half turns tell them, its length in frames, and
the sum of its samples, which is 0 unless a newer tone or the file's end cut it short. The last line is `tones N: A of 440, B of 220,
C of 110`; with `quiet` it is the only one. The status is 1 if anything is off: the file's head, a tone's samples, its length, its
pitch or its sum, or a frame that is neither silence nor a part of a tone.

A tone that begins anew in step with itself, after 3 frames of 440 or 220 or after 6 of 110, sounds like one that goes on. Where the
samples can be read in several ways, the fewest tones count.
"""
import array
import sys
import wave

RATE = 48000
FRAME = 800
FRAMES = {440: 6, 220: 6, 110: 30}
LOUD = 8192
SILENCE = bytes(2 * FRAME)


class Off(Exception):
    """What is wrong with a file."""


def samples_in(raw):
    """Samples from bytes, the low byte first."""
    samples = array.array("h", raw)
    if sys.byteorder == "big":
        samples.byteswap()
    return samples


def whole_tone(turns):
    """The bytes of a tone: half turn h begins at the first sample that is not before its time, h / (2 * turns) seconds."""
    length = FRAME * FRAMES[turns]
    samples = array.array("h")
    half = 0
    while len(samples) < length:
        half += 1
        end = min(length, -(-RATE * half // (2 * turns)))
        samples.extend([LOUD if half % 2 else -LOUD] * (end - len(samples)))
    if sys.byteorder == "big":
        samples.byteswap()
    return samples.tobytes()


TONES = {turns: whole_tone(turns) for turns in FRAMES}


def read_frames(path):
    """The bytes of each frame."""
    with open(path, "rb") as file:
        head = file.read(44)
        size = file.seek(0, 2)
    if len(head) < 44 or head[36:40] != b"data":
        raise Off("no head of 44 bytes")
    lengths = (int.from_bytes(head[4:8], "little"), int.from_bytes(head[40:44], "little"))
    if lengths != (size - 8, size - 44):
        raise Off(f"the head tells {lengths[0]} and {lengths[1]} bytes, and {size - 8} and {size - 44} are there")
    try:
        with wave.open(path, "rb") as sound:
            form = (sound.getnchannels(), sound.getsampwidth(), sound.getframerate(), sound.getcomptype())
            raw = sound.readframes(sound.getnframes())
    except (wave.Error, EOFError) as error:
        raise Off(f"no WAV file: {error}") from error
    if form != (1, 2, RATE, "NONE"):
        raise Off(f"channels, bytes a sample, samples a second and form are {form}")
    if int.from_bytes(head[28:32], "little") != 2 * RATE or int.from_bytes(head[32:34], "little") != 2:
        raise Off("the head's bytes a second or bytes a sample are wrong")
    if len(raw) % len(SILENCE):
        raise Off(f"{len(raw)} bytes are no whole frames")
    return [raw[at:at + len(SILENCE)] for at in range(0, len(raw), len(SILENCE))]


def fits(frames, at, turns):
    """For how many frames from one on the samples are those of a tone that begins there."""
    tone = TONES[turns]
    count = 0
    while (
        count < FRAMES[turns]
        and at + count < len(frames)
        and frames[at + count] == tone[len(SILENCE) * count:len(SILENCE) * (count + 1)]
    ):
        count += 1
    return count


def tones_between(frames, start, end):
    """The tones of frames that are all loud, as (frame, turns, frames): the fewest that explain them. Only the file's end and a newer
    tone may cut one short."""
    best = {end: (0, None)}
    for at in range(end - 1, start - 1, -1):
        for turns in TONES:
            for count in range(fits(frames, at, turns), 0, -1):
                after = at + count
                cut_short = count < FRAMES[turns] and after == end and end < len(frames)
                if after > end or cut_short or after not in best:
                    continue
                number = best[after][0] + 1
                if at not in best or number < best[at][0]:
                    best[at] = (number, (at, turns, count))
    if start not in best:
        raise Off(f"frames {start} to {end - 1} are no row of tones")
    tones = []
    while start < end:
        tones.append(best[start][1])
        start += tones[-1][2]
    return tones


def find_tones(frames):
    """All tones of a file. What is in none of them is silence."""
    tones = []
    at = 0
    while at < len(frames):
        end = at
        while end < len(frames) and frames[end] != SILENCE:
            end += 1
        tones += tones_between(frames, at, end)
        at = end + 1
    return tones


def measure(samples):
    """Turns a second, by the half turns between the first change of sign and the last."""
    changes = [j for j in range(1, len(samples)) if samples[j] != samples[j - 1]]
    return (len(changes) - 1) / 2 / ((changes[-1] - changes[0]) / RATE)


def report(frames, tone):
    """A line about a tone; raises what is wrong with it."""
    at, turns, count = tone
    samples = samples_in(b"".join(frames[at:at + count]))
    measured = measure(samples)
    total = sum(samples)
    whole = count == FRAMES[turns]
    if abs(measured - turns) > turns / 100:
        raise Off(f"the tone of frame {at} turns {measured:.1f} times a second, and not {turns}")
    if whole and total:
        raise Off(f"the samples of the tone of frame {at} add up to {total}")
    if set(samples) != {LOUD, -LOUD}:
        raise Off(f"the tone of frame {at} has other samples than {LOUD} and {-LOUD}")
    end = "" if whole else ", cut short"
    return f"frame {at}: {measured:.1f} turns a second, {count} frames, sum {total}{end}"


def main(words):
    if len(words) not in (1, 2) or words[1:] not in ([], ["quiet"]):
        print(__doc__, file=sys.stderr)
        return 1
    try:
        frames = read_frames(words[0])
        tones = find_tones(frames)
        for tone in tones:
            line = report(frames, tone)
            if len(words) == 1:
                print(line)
    except Off as off:
        print(f"{words[0]}: {off}")
        return 1
    except OSError as error:
        print(error, file=sys.stderr)
        return 1
    counts = ", ".join(f"{sum(tone[1] == turns for tone in tones)} of {turns}" for turns in TONES)
    print(f"tones {len(tones)}: {counts}")
    return 0


if __name__ == "__main__":
    sys.exit(main(sys.argv[1:]))
