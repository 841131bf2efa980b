"""What the prover's processes took, by looking at /proc again and again: rt prints no times."""
import os

TICKS = os.sysconf("SC_CLK_TCK")


class Run:
    """A process of the prover: its words, the folder it ran in, and its processor seconds when it was last seen."""

    def __init__(self, words, folder):
        self.words, self.folder, self.seconds = words, folder, 0.0

    def crate(self):
        return self.words[self.words.index("--crate-name") + 1] if "--crate-name" in self.words else ""


class Runs:
    """The processes of the prover that were seen so far. What began and ended between two looks is missed: a look costs little, so look often."""

    def __init__(self):
        self.seen = {}

    def look(self):
        """Looks once, and returns the runs that are new."""
        new = []
        for pid in filter(str.isdigit, os.listdir("/proc")):
            try:
                with open(f"/proc/{pid}/stat") as it:
                    fields = it.read().rpartition(")")[2].split()
                key = pid, fields[19]
                if key not in self.seen:
                    # (looked at each time, since a process begins with the words of the one that made it)
                    with open(f"/proc/{pid}/cmdline", "rb") as it:
                        words = it.read().decode(errors="replace").split("\0")[:-1]
                    if not words or os.path.basename(words[0]) != "rattle" or words[1:2] not in (["check"], ["build"]):
                        continue
                    self.seen[key] = Run(words, os.readlink(f"/proc/{pid}/cwd"))
                    new.append(self.seen[key])
                # (its own alone: the copies that it makes of itself are runs too)
                self.seen[key].seconds = (int(fields[11]) + int(fields[12])) / TICKS
            except (OSError, IndexError):
                pass
        return new
