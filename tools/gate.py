"""What several tools read: the lines of crates.txt, and what the last run of the gate said, which .ci/run keeps in target/ci.log.

`rt ci` says of a crate whose proof an earlier run on this machine kept, by the checksums of all that it read, only that it is kept: its
verdict is then in no log. Of a library what that run built lies in the crate's out/, with the sum of the logic and a module for each
function that was proved.
"""
import json
import re
from pathlib import Path

ROOT = Path(__file__).resolve().parent.parent
LOG = ROOT / "target/ci.log"


def lines():
    """Each line of crates.txt: the crate's name, whether it is a static library, and what it stands on."""
    for line in (ROOT / "crates.txt").read_text().splitlines():
        before, colon, below = line.partition("#")[0].partition(":")
        if colon and before.split():
            name, *words = before.split()
            yield name, "staticlib" in words, below.split()


def crates():
    return [name for name, _, _ in lines()]


class Said:
    """What a run of rt ci said: of each crate that it proved its lines, the names that were kept, and a text for each file of edits."""

    def __init__(self, text):
        self.proved, self.kept, self.edits, self.last = {}, set(), {}, ""
        told = None
        for line in text.splitlines():
            begun = re.match(r"== (\w+)(: its tests)?$", line)
            kept = re.match(r"rt: (\w+) is kept: ", line)
            edit = re.match(r"rt: must-fail (\w+)/([\w.-]+)\.edit: (.*)", line)
            if begun:
                told = [] if begun[2] else self.proved.setdefault(begun[1], [])
            elif kept:
                self.kept.add(kept[1])
            elif edit:
                self.edits[edit[1], edit[2]] = edit[3]
            elif line.startswith("rt: ok; "):
                self.last = line
            if re.match(r"rt: (\w+)(: its tests are)? (NOT )?(proved|PROVED)$", line):
                told = None
            elif told is not None:
                told.append(line)

    def verdict(self, name):
        """The verdict of a crate, and the contracts of C functions that it assumes; none if it was not proved in this run."""
        said = self.proved.get(name, [])
        verdicts = [line for line in said if line.startswith("logic=")]
        assumed = [line for line in said if line.startswith("axioms ") and " none reached of " not in line]
        return (verdicts[-1] if verdicts else None), assumed


def said():
    return Said(LOG.read_text(errors="replace")) if LOG.exists() else None


def built(name):
    """Of a library that a run left in out/: how many functions are proved in it, and the first digits of the sum of its logic."""
    at = ROOT / "crates" / name / "out/rlib" / f"{name}.rlib"
    if not (at / "format").exists():
        return None
    modules = {json.loads(line)[0].removeprefix("part/") for line in (at / "toolchain/checked.json").read_text().splitlines()}
    logic = re.search(r"^logic (\w{16})", (at / "format").read_text(), re.M)
    # (functions that call one another have a module of their own too, `+a+b`, and so have closures, below `fn`, and the laws of an impl)
    modules = {module for module in modules if not re.search(r"\.(?:fn|TheImpl)\.", module)}
    functions = sum(bool(re.fullmatch(rf"Rattle-{name}-proofs\.(?:[^.+][^.]*\.)*[^.+][^.]*\.Met", module)) for module in modules)
    return functions, logic and logic[1]
