"""One function of the library and of the reference, measured by the program `bench` of difftest/.

Needs valgrind (Debian's package) and the static library (bin/library). Both sides have the same inputs and must
give the same sum over their answers; only the measured loop counts.
"""
import os, re, subprocess, sys
from pathlib import Path

sys.dont_write_bytecode = True
root = Path(__file__).resolve().parent.parent
program = root / "target/cargo/release/bench"


def build():
    env = dict(os.environ, CARGO_TARGET_DIR=str(root / "target/cargo"), CARGO_NET_OFFLINE="true")
    subprocess.run(["cargo", "build", "--release", "--quiet", "--manifest-path", str(root / "difftest/Cargo.toml")], env=env, check=True)


def counted(function, side):
    """Instructions for a call, and the other numbers that the program prints: calls, sum, time, the bytes of a sheet."""
    done = subprocess.run(
        ["valgrind", "--tool=callgrind", "--toggle-collect=measured", "--callgrind-out-file=/dev/null", str(program), function, side],
        capture_output=True, text=True)
    collected = re.search(r"Collected : (\d+)", done.stderr)
    if done.returncode != 0 or not collected:
        sys.exit(done.stderr)
    printed = done.stdout.split()
    return int(collected[1]) / int(printed[0]), printed


def instructions(function):
    """Instructions for a call of each side, and the bytes of a sheet (0 for anything else)."""
    (ours, a), (theirs, b) = counted(function, "proved"), counted(function, "reference")
    if a[1] != b[1]:
        sys.exit(f"{function}: the two sides answered differently")
    return ours, theirs, int(a[3]) if len(a) > 3 else 0


def times(function, turns):
    """Nanoseconds for a call of each side: the best of ten programs, the sides in turn, each the best of some turns. Where a
    program is loaded moves its branches' predictions, hence several."""
    best = {}
    for side in ["proved", "reference"] * 10:
        done = subprocess.run([str(program), function, side, str(turns)], capture_output=True, text=True, check=True)
        best[side] = min(best.get(side, float("inf")), float(done.stdout.split()[2]))
    return best["proved"], best["reference"]
