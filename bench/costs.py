"""Runs the gate from nothing and prints what each crate cost: see costs.sh."""
import glob
import os
import resource
import signal
import subprocess
import sys
import time

from edits import edit_in, edited
from rattle_runs import Runs

KINDS = ["proofs", "tests", "edits"]
# The processor seconds that an edit of the gate may take.
MOST = 30


def kind_of(run):
    if "/rt-edit-" in run.folder:
        return "edits"
    return "tests" if "--test" in run.words else "proofs"


def gate(words, log):
    """Runs rt ci: the prover's runs that were its own, with the edit that each tries, its status (None where it was interrupted), and how many
    seconds it took."""
    crates = {it.split("/")[1] for it in glob.glob("crates/*/must-fail/*.edit")}
    edits = {crate: {it: edited(crate, it)[0] for it in glob.glob(f"crates/{crate}/must-fail/*.edit")} for crate in crates}
    runs, own, begun = Runs(), {}, time.monotonic()
    rt = subprocess.Popen(["rt", "ci", "--anew", *words], stdin=subprocess.DEVNULL, stdout=log, stderr=subprocess.STDOUT)
    try:
        while rt.poll() is None:
            for run in runs.look():
                # (rt names its folders after itself; others may use the prover meanwhile)
                if run.folder.startswith(f"{os.getcwd()}/crates/") or f"-{rt.pid}-" in run.folder:
                    own[run] = edit_in(run.folder, edits.get(run.crate(), {})) if kind_of(run) == "edits" else None
            time.sleep(0.25)
    except KeyboardInterrupt:
        # (what was seen so far is worth its table)
        rt.terminate()
        rt.wait()
        return own, None, time.monotonic() - begun
    return own, rt.returncode, time.monotonic() - begun


def slow_edits(own):
    """What is said of the edits that took longer than they may."""
    seconds = {}
    for run, edit in own.items():
        if edit:
            seconds[edit] = seconds.get(edit, 0) + run.seconds
    slow = [f"{took:.0f} for `{it}`" for it, took in sorted(seconds.items(), key=lambda it: -it[1]) if took > MOST]
    longest = max(seconds.values(), default=0)
    return f"Edits took {longest:.0f} processor seconds at most" + (f"; more than {MOST}: {', '.join(slow)}." if slow else ".")


def table(own, all_minutes):
    costs = {}
    for run in own:
        costs.setdefault(run.crate(), dict.fromkeys(KINDS, 0.0))[kind_of(run)] += run.seconds / 60
    row = lambda name, cost: f"| {name} | " + " | ".join(f"{cost[it]:.1f}" for it in KINDS) + f" | {sum(cost.values()):.1f} |"
    lines = ["| crate | proofs | tests | edits | all |", "|---|---|---|---|---|"]
    lines += [row(f"`{name}`", cost) for name, cost in sorted(costs.items(), key=lambda it: -sum(it[1].values()))]
    whole = {it: sum(cost[it] for cost in costs.values()) for it in KINDS}
    other = max(0.0, all_minutes - sum(whole.values()))
    return "\n".join([*lines, row("all crates", whole), f"| linking and running programs and tests, and `rt` itself | | | | {other:.1f} |"])


def main(words):
    load = os.getloadavg()
    signal.signal(signal.SIGTERM, signal.default_int_handler)
    file, *words = words
    with open(file, "w+", errors="replace") as log:
        own, status, seconds = gate(words, log)
        log.seek(0)
        last = "interrupted" if status is None else log.read().rstrip("\n").split("\n")[-1]
    used = resource.getrusage(resource.RUSAGE_CHILDREN)
    print(table(own, (used.ru_utime + used.ru_stime) / 60))
    print(f"\n`rt ci --anew{''.join(' ' + it for it in words)}` on {os.cpu_count()} processors: {last}, in {seconds / 60:.1f} minutes;", end=" ")
    print(f"{(used.ru_utime + used.ru_stime) / 60:.0f} processor minutes; load before it {load[0]:.1f}, at its end {os.getloadavg()[0]:.1f}.", end=" ")
    print(slow_edits(own))
    return 130 if status is None else status


if __name__ == "__main__":
    sys.exit(main(sys.argv[1:]))
