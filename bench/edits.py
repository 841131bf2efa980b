"""Has the prover refuse the edits of some crates, in the copy of the repository in which it is run: see edits.sh."""
import glob
import os
import re
import subprocess
import sys
import time

from rattle_runs import Runs

# What a line of rt begins with behind an edit's name, and what is printed for it; the first that fits.
VERDICTS = [
    ("refused, as it must be (only by a limit", "refused, by a limit of the prover alone"),
    ("refused, as it must be (only because", "refused, for a name alone"),
    ("refused", "refused"),
    ("NOT REFUSED", "NOT REFUSED"),
    ("BAD EDIT", "BAD EDIT"),
]


def edited(crate, edit):
    """The texts of the files that an edit changes, by their paths, as rt makes them, or why it cannot be applied."""
    texts, path, old = {}, "", None
    with open(edit, encoding="utf-8") as it:
        lines = it.read().split("\n")
    for line in lines:
        if line.startswith("file: "):
            path = line[len("file: "):].strip()
        elif line.startswith("old: "):
            old = line[len("old: "):]
        elif line.startswith("new:") and path and old:
            if path not in texts:
                if not os.path.isfile(f"crates/{crate}/{path}"):
                    return {}, f"there is no file {path}"
                with open(f"crates/{crate}/{path}", encoding="utf-8") as file:
                    texts[path] = file.read()
            found = texts[path].count(old)
            if found != 1:
                return {}, f"an old text stands in {path} {found} times, and not once"
            texts[path] = texts[path].replace(old, line[len("new:"):].removeprefix(" "))
            old = None
    return texts, None if texts else "it changes nothing"


def edit_in(folder, edits):
    """Which of the edits a folder of rt's holds, if it holds one."""
    for edit, texts in edits.items():
        try:
            if texts and all(open(f"{folder}/{path}", encoding="utf-8").read() == text for path, text in texts.items()):
                return edit
        except OSError:
            pass
    return None


def tried(crate, flags):
    """Has rt try the edits of a crate: what it said, its processor seconds by edit, and its status."""
    paths = sorted(glob.glob(f"crates/{crate}/must-fail/*.edit"))
    names = [os.path.basename(it) for it in paths]
    edits = {name: edited(crate, path)[0] for name, path in zip(names, paths)}
    runs, edit_of = Runs(), {}
    with open(f"{crate}.log", "w+", errors="replace") as log:
        rt = subprocess.Popen(["rt", "must-fail", crate, *flags], stdin=subprocess.DEVNULL, stdout=log, stderr=subprocess.STDOUT)
        while rt.poll() is None:
            for run in runs.look():
                # (rt names the folders of its edits after itself)
                if f"/rt-edit-{rt.pid}-" in run.folder and run.crate() == crate:
                    edit_of[run] = edit_in(run.folder, edits)
            time.sleep(0.2)
        log.seek(0)
        said = log.read()
    seconds = {}
    for run, edit in edit_of.items():
        if edit:
            seconds[edit] = seconds.get(edit, 0) + run.seconds
    return names, said, seconds, rt.returncode


def look():
    """Says which edits of the checkout cannot be applied, or have a name of another one of their crate, and tries none."""
    failed, seen = False, set()
    for path in sorted(glob.glob("crates/*/must-fail/*.edit") + glob.glob("crates/*/wrong-bodies/*")):
        crate, name = path.split("/")[1], os.path.basename(path)
        why = edited(crate, path)[1] if path.endswith(".edit") else "its name does not end in .edit"
        why = why or ("its crate has another edit of that name" if (crate, name) in seen else None)
        seen.add((crate, name))
        if why:
            print(f"{path}: {why}")
            failed = True
    in_gate = len(glob.glob("crates/*/must-fail/*.edit"))
    with open("README.md", encoding="utf-8") as it:
        told = re.search(r"have (\d+): the\s+gate tries (\d+) of them", it.read())
    is_told = told and (int(told[1]), int(told[2])) == (len(seen), in_gate)
    print(f"edits: {in_gate} in the gate, {len(seen) - in_gate} beside it, {len(seen)} in all" + ("" if is_told else "; README.md says otherwise"))
    return int(failed)


def tell(crate, flags):
    """Has rt try the edits of a crate, prints a line for each, and returns what they came to."""
    names, said, seconds, status = tried(crate, flags)
    rests = dict(re.findall(rf"(?m)^rt: must-fail {crate}/(\S+\.edit): (.*)$", said))
    verdicts = []
    for name in names:
        rest = rests.get(name, "")
        verdict = next((to for begin, to in VERDICTS if rest.startswith(begin)), "not tried")
        took = f"{seconds[name]:7.1f} s" if name in seconds else "kept".rjust(9) if " by an earlier run" in said else " " * 9
        # (where it is not refused, rt's own words say more)
        print(f"{took} {crate}/{name.removesuffix('.edit')}: {verdict if verdict.startswith('refused') else rest or verdict}", flush=True)
        verdicts.append(verdict)
    if status and not rests:
        print(f"{crate}: rt stopped, and tried none:\n" + "\n".join(said.split("\n")[-8:]), flush=True)
    return verdicts


def main(words):
    if words == ["--look"]:
        return look()
    flags, wanted = [it for it in words if it.startswith("-")], [it for it in words if not it.startswith("-")]
    with open("crates.txt", encoding="utf-8") as it:
        crates = re.findall(r"(?m)^(\w+)[^:\n]*:", it.read())
    lacking = [it for it in wanted if it not in crates]
    if lacking or set(flags) - {"--anew"}:
        print("usage: bench/edits.sh [--anew] [CRATE..]" + (f": no crate is named {lacking[0]}" if lacking else ""), file=sys.stderr)
        return 2
    with_edits = [it for it in wanted or crates if glob.glob(f"crates/{it}/must-fail/*.edit")]
    verdicts = [verdict for crate in with_edits for verdict in tell(crate, flags)]
    refused = sum(it.startswith("refused") for it in verdicts)
    others = [f"{verdicts.count(it)} {it}" for it in sorted({*verdicts}) if it != "refused"]
    print(f"{refused} of {len(verdicts)} edits refused" + (f" ({'; '.join(others)})" if others else ""))
    return 0 if refused == len(verdicts) else 1


if __name__ == "__main__":
    sys.exit(main(sys.argv[1:]))
