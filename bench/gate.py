#!/usr/bin/env python3
"""Runs a command, `rt ci` for one, and tells the processor minutes of the provers that run meanwhile, by crate: its check, its
tests, and its edits with the check that they begin with. Then the longest chain of crates, each of which waits for the check of the one before.

  bench/gate.py rt ci

Each second the provers are looked at, and what each has used when it was last seen counts, so of each up to a second is missed.
Nothing else on the machine should prove meanwhile, and a crate that an earlier run's work is kept for takes nothing: what a gate
takes is seen where nothing is kept."""
import os
import subprocess
import sys
import time

TICKS = os.sysconf("SC_CLK_TCK")
KINDS = ("check", "tests", "edits")


def kind_of(words):
    return "tests" if "--test" in words else "edits" if "--incremental" in words else "check"


def look(used):
    """Notes what each prover has used so far, by its process and when that began."""
    for pid in filter(str.isdigit, os.listdir("/proc")):
        try:
            with open(f"/proc/{pid}/stat", encoding="utf-8") as it:
                name, stat = it.read().rsplit(")", 1)
            if not name.endswith("(rattle"):
                continue
            stat = stat.split()
            key = pid, stat[19]
            if key not in used:
                with open(f"/proc/{pid}/cmdline", encoding="utf-8") as it:
                    words = it.read().split("\0")
                if "--crate-name" not in words:
                    continue
                used[key] = [words[words.index("--crate-name") + 1], kind_of(words), 0]
            used[key][2] = (int(stat[11]) + int(stat[12])) / TICKS
        except (OSError, IndexError):
            # (it has ended)
            continue


def longest_chain(checks):
    """The minutes of the chain of crates whose checks take longest together, and its crates, lowest first."""
    chains = {}
    with open(os.path.join(os.path.dirname(os.path.abspath(__file__)), "..", "crates.txt"), encoding="utf-8") as it:
        stands_on = {line.split(":")[0].split()[0]: line.split(":")[1].split() for line in it if ":" in line and line[0] != "#"}

    def chain(crate):
        if crate not in chains:
            minutes, below = max((chain(it) for it in stands_on[crate] if it in stands_on), default=(0, []))
            chains[crate] = minutes + checks.get(crate, 0), below + [crate]
        return chains[crate]

    return max(map(chain, stands_on))


def main(command):
    if not command:
        sys.exit(__doc__)
    used = {}
    ran = subprocess.Popen(command)
    while ran.poll() is None:
        look(used)
        time.sleep(1)
    sums = {}
    for crate, kind, seconds in used.values():
        sums.setdefault(crate, dict.fromkeys(KINDS, 0))[kind] += seconds / 60
    print(f"{'minutes of a processor':24}" + "".join(f"{kind:>8}" for kind in KINDS))
    for crate, minutes in sums.items():
        print(f"{crate:24}" + "".join(f"{minutes[kind]:8.1f}" for kind in KINDS))
    together = [sum(minutes[kind] for minutes in sums.values()) for kind in KINDS]
    print(f"{'together':24}" + "".join(f"{it:8.1f}" for it in together) + f"{sum(together):8.1f}")
    minutes, crates = longest_chain({crate: minutes["check"] for crate, minutes in sums.items()})
    print(f"the longest chain of checks: {minutes:.1f}, {' '.join(crates)}")
    return ran.returncode


if __name__ == "__main__":
    sys.exit(main(sys.argv[1:]))
