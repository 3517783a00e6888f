"""What the benchmarks of blocks and columns share: two programs for one processor, and the time that a round of each takes."""
import os
import subprocess
import sys
import time

ROOT = os.path.dirname(os.path.dirname(os.path.abspath(__file__)))
TURNS = 15
SECONDS = 0.03  # a case that takes less time has more rounds


def processor():
    """The processor that both programs are built for: the script's word, or x86-64-v2."""
    return sys.argv[1] if len(sys.argv) > 1 and not sys.argv[1].startswith("--") else "x86-64-v2"


def own_program(folder, crate):
    """The crate's program, built for the processor and put into the folder."""
    ours = os.path.join(folder, "ours")
    home = os.path.join(ROOT, "crates", crate)
    subprocess.run(["rt", "run", "--cpu", processor()], cwd=home, check=True, stdin=subprocess.DEVNULL,
                   stdout=subprocess.DEVNULL, stderr=subprocess.DEVNULL)
    subprocess.run(["cp", os.path.join(home, "out", crate), ours], check=True)
    return ours


def programs(folder, crate, source, *flags):
    """The crate's program and that of the C++ source, built for the processor and put into the folder."""
    ours, theirs = own_program(folder, crate), os.path.join(folder, "theirs")
    subprocess.run(["g++", "-O3", f"-march={processor()}", "-Wno-psabi", *flags, "-o", theirs, os.path.join(ROOT, "bench", source)],
                   check=True)
    return ours, theirs


def timed(command):
    """The wall time of one run in seconds, and its output."""
    begin = time.perf_counter()
    done = subprocess.run(command, check=True, capture_output=True)
    return time.perf_counter() - begin, done.stdout


def enough_rounds(command, fewest, timed, seconds):
    """How many rounds take long enough to be timed."""
    rounds = fewest
    while timed(command(rounds))[0] - timed(command(0))[0] < seconds and rounds < 2**24:
        rounds *= 2
    return rounds


def per_round(commands, fewest=1, timed=timed, turns=TURNS, seconds=SECONDS):
    """Nanoseconds a round of each command, a function of its rounds: the least of several turns, less the time of none."""
    rounds_of = {name: enough_rounds(command, fewest, timed, seconds) for name, command in commands.items()}
    least = {}
    for _ in range(turns):
        for name, command in commands.items():
            for rounds in (0, rounds_of[name]):
                wall, _ = timed(command(rounds))
                least[name, rounds] = min(wall, least.get((name, rounds), wall))
    sums = {timed(command(5))[1] for command in commands.values()}
    if len(sums) != 1:
        sys.exit(f"the checksums differ: {sums}")
    return {name: max(least[name, rounds] - least[name, 0], 0) * 1e9 / rounds for name, rounds in rounds_of.items()}
