"""What the tests of the two job programs share: records, the jobs on which the programs agree, and the runs."""
import random
import subprocess
import sys


def head(width=2, height=2, joining=4, shape="S", tolerance=10, tail=(0, 0)):
    return bytes([ord("H"), width, height, joining, ord(shape), tolerance, *tail])


def pixel(number, value=0, grey=0, tail=(0, 0, 0)):
    return bytes([ord("P"), number % 256, number // 256, value, grey, *tail])


def call(letter="D", size=1, tail=(0, 0, 0, 0, 0)):
    return bytes([ord("C"), ord(letter), size, *tail])


def pixels(greys):
    return b"".join(pixel(n, 0, grey) for n, grey in enumerate(greys))


SOUND = head() + pixels([7, 0, 255, 30])
ROWS = "7 0\n255 30\nnote 0 0 0 0\n"


def rows(width, greys):
    lines = [greys[n : n + width] for n in range(0, len(greys), width)]
    return "".join(" ".join(map(str, line)) + "\n" for line in lines)


def cases_of_both():
    """Jobs on which the two job programs agree."""
    yield "empty input", b"", "fault J 13 0\n"
    yield "a sound job without calls", SOUND, ROWS
    for left in range(1, 8):
        yield f"{left} bytes", b"H" * left, "fault J 11 0\n"
        yield f"{left} bytes after the last P", SOUND + b"\n" * left, "fault J 11 5\n"

    for letter in "hpcSTRDEO\0\x7f\x80\xff":
        raw = bytes([ord(letter)])
        yield f"record letter {raw!r}", raw + head()[1:], "fault J 12 0\n"
    for letter in "DEOCst\0\xd3":
        raw = bytes([ord(letter)])
        yield f"shape letter {raw!r}", head()[:4] + raw + head()[5:], "fault J 12 0\n"
    for letter in "STRdeoc\0\xc4":
        raw = bytes([ord(letter)])
        yield f"operation letter {raw!r}", SOUND + b"C" + raw + call()[2:], "fault J 12 5\n"
    yield "an unlisted shape out of turn", head() + head()[:4] + b"?" + head()[5:], "fault J 12 1\n"

    yield "a P first", pixel(0), "fault J 13 0\n"
    yield "a C first", call(), "fault J 13 0\n"
    yield "a second H", head() + head(), "fault J 13 1\n"
    yield "a C among the pixels", head() + pixel(0) + call(), "fault J 13 2\n"
    yield "a pixel twice", head() + pixel(0) + pixel(0), "fault J 13 2\n"
    yield "a pixel left out", head() + pixel(0) + pixel(2), "fault J 13 2\n"
    yield "a pixel number by its high byte", head() + pixel(256), "fault J 13 1\n"
    yield "a P too many", SOUND + pixel(4), "fault J 13 5\n"
    yield "an H after the pixels", SOUND + head(), "fault J 13 5\n"
    yield "the end among the pixels", head() + pixel(0), "fault J 13 2\n"

    for place in range(2):
        tail = tuple(int(n == place) for n in range(2))
        yield f"H filler {place}", head(tail=tail), "fault J 14 0\n"
    for place in range(3):
        tail = tuple(int(n == place) for n in range(3))
        yield f"P filler {place}", head() + pixel(0, tail=tail), "fault J 14 1\n"
    for place in range(5):
        tail = tuple(int(n == place) for n in range(5))
        yield f"C filler {place}", SOUND + call(tail=tail), "fault J 14 5\n"
    yield "out of turn before filler", pixel(0, tail=(1, 0, 0)), "fault J 13 0\n"
    yield "a wrong number before filler", head() + pixel(1, tail=(1, 0, 0)), "fault J 13 1\n"
    yield "filler before the tile", head(0, tail=(1, 0)), "fault J 14 0\n"

    yield "width 0", head(0), "fault M 1 0 at 0\n"
    yield "height 0", head(1, 0), "fault M 1 0 at 0\n"
    yield "64 by 65", head(64, 65), "fault M 1 0 at 0\n"
    yield "255 by 17", head(255, 17), "fault M 1 0 at 0\n"
    yield "joining 5", head(joining=5), "fault M 2 5 at 0\n"
    yield "joining 0", head(joining=0), "fault M 2 0 at 0\n"
    yield "the tile before the joining", head(0, joining=5), "fault M 1 0 at 0\n"
    yield "turn 91", head(shape="R", tolerance=91), "fault M 3 0 at 0\n"
    yield "the joining before the tolerance", head(joining=7, shape="R", tolerance=91), "fault M 2 7 at 0\n"

    bad = head(2, 2, 4, "R", 5) + pixel(0, 179) + pixel(1, 180) + pixel(2, 255) + pixel(3, 0)
    yield "a heading of 180", bad, "fault M 5 1 at 4\n"
    yield "a heading of 180, and calls", bad + call(), "fault M 5 1 at 4\n"
    yield "a heading of 180, and a bad last P", bad[:-1] + b"\1", "fault J 14 4\n"
    last = head(1, 1, 8, "R", 90) + pixel(0, 200)
    yield "a heading of 200 in a tile of one pixel", last, "fault M 5 0 at 1\n"
    for shape in "ST":
        job = head(1, 1, 8, shape, 0) + pixel(0, 200, 6)
        yield f"shape {shape} admits every byte", job, "6\nnote 0 0 0 0\n"
    for shape, tolerance in (("S", 0), ("S", 255), ("T", 255), ("R", 0), ("R", 90)):
        job = head(1, 1, 8, shape, tolerance) + pixels([3])
        yield f"shape {shape} {tolerance}", job, "3\nnote 0 0 0 0\n"
    for width, height in ((64, 64), (255, 16), (1, 255), (16, 255), (255, 1)):
        greys = [n * 7 % 256 for n in range(width * height)]
        job = head(width, height) + pixels(greys)
        yield f"{width} by {height}", job, rows(width, greys) + "note 0 0 0 0\n"


def cut_jobs(made, ends):
    """A job of two calls cut after each of its bytes: made[n] is what n calls print, ends[n] what the sound job with them prints then."""
    whole = SOUND + call("D", 1) + call("E", 2)
    for length in range(len(whole) + 1):
        records, left = divmod(length, 8)
        calls = max(records - 5, 0)
        if left:
            text = made[calls] + f"fault J 11 {records}\n"
        elif records < 5:
            text = f"fault J 13 {records}\n"
        else:
            text = made[calls] + ends[calls]
        yield f"cut after {length} bytes", whole[:length], text


def run(program, job):
    return subprocess.run([program], input=job, capture_output=True, timeout=60)


def try_jobs(program, cases):
    """Runs the program on each job, and on some bytes at random, and fails on the first that prints something else."""
    tried = 0
    for name, job, text in cases:
        done = run(program, job)
        if done.returncode != 0 or done.stdout != text.encode() or done.stderr:
            sys.exit(f"jobs: {name}: {job!r}\nexpected {text!r}\nprinted  {done.stdout!r}\nstatus {done.returncode}, errors {done.stderr!r}")
        tried += 1

    # Any bytes at all end with lines of output and status 0.
    seed = 20261117
    letters = b"HPCSTRDEO\0\1\2\4\10"
    rng = random.Random(seed)
    for _ in range(200):
        length = rng.randrange(120)
        job = bytes(rng.choice(letters) if rng.random() < 0.8 else rng.randrange(256) for _ in range(length))
        done = run(program, job)
        if done.returncode != 0 or not done.stdout.endswith(b"\n") or done.stderr:
            sys.exit(f"jobs: seed {seed}: {job!r}\nprinted {done.stdout!r}\nstatus {done.returncode}")
        tried += 1
    print(f"jobs: {tried} jobs printed what they should")
