#!/usr/bin/env python3
"""Demands that the compiler refuses each edit of must-not-build/, in the words that the edit tells.

    python3 tools/must_not_build.py

Run at the top. An edit has five lines: the crate, what the compiler must say, a file of the crate, an old text, which stands in that
file once, and a new one. The edit is made in a copy, where `rt check` must find one error, in that file and with those words. It
prints nothing where every edit is refused so; else a line for each that is not, and its status is 1.

The copy has the crates' code without specs/ and proofs/: of a crate that uses others of the repository, `rt check` reads all code, in
seconds, before it proves anything.
"""
import glob
import os
import re
import shutil
import signal
import subprocess
import sys
import tempfile

KEYS = ["crate", "says", "file", "old", "new"]
# How the line begins that `rt check` prints once it has read all code and found it sound.
SOUND = "only="
# What must be there: a folder without one of them would show less, and no line would tell.
EDITS = ["must-not-build/an_open_book_is_compiled.edit", "must-not-build/arc_in_a_closed_book.edit"]


def text_of(path):
    if not os.path.isfile(path):
        return ""
    with open(path, encoding="utf-8") as it:
        return it.read()


def copy_code(room):
    shutil.copy("crates.txt", room)
    for code in glob.glob("crates/*/src"):
        shutil.copytree(code, f"{room}/{code}")
        # an empty folder of kept work: rt would else begin with what other copies on this machine kept of other text
        os.makedirs(f"{room}/{os.path.dirname(code)}/out/incremental")


def check(folder):
    """Returns the lines that `rt check` prints, up to where the code is sound."""
    how = {"stdin": subprocess.DEVNULL, "stdout": subprocess.PIPE, "stderr": subprocess.STDOUT, "encoding": "utf-8", "errors": "replace"}
    lines = []
    with subprocess.Popen(["rt", "check"], cwd=folder, start_new_session=True, **how) as ran:
        for line in ran.stdout:
            lines.append(line.rstrip("\n"))
            if line.startswith(SOUND):
                os.killpg(ran.pid, signal.SIGKILL)
                break
    return lines


def fault_of(edit):
    """Returns what is wrong with an edit, or None where it is refused as it tells."""
    lines = [line.partition(": ") for line in text_of(edit).splitlines()]
    if [key for key, _, _ in lines] != KEYS or not all(text for _, _, text in lines):
        return f"is no edit: its lines are not {', '.join(KEYS)}, each with a text"
    crate, words, file, old, new = [text for _, _, text in lines]
    path = f"crates/{crate}/{file}"
    code = text_of(path)
    if code.count(old) != 1:
        return f"no longer fits: its old text stands in {path} {code.count(old)} times, and not once"
    with tempfile.TemporaryDirectory(prefix="must-not-build-") as room:
        copy_code(room)
        with open(f"{room}/{path}", "w", encoding="utf-8") as it:
            it.write(code.replace(old, new))
        said = check(f"{room}/crates/{crate}")
    if any(line.startswith(SOUND) for line in said):
        return "builds: the compiler finds no fault in it"
    errors = [line for line in said if re.search(r": error\b", line)]
    if len(errors) != 1 or not errors[0].startswith(f"{file}:") or words not in errors[0]:
        return f"is refused otherwise: the compiler does not say just `{words}`, but: {' / '.join(errors or said)}"
    return None


def main():
    edits = sorted({*glob.glob("must-not-build/*"), *EDITS})
    faults = [(edit, fault_of(edit)) for edit in edits]
    told = [f"{edit} {fault}" for edit, fault in faults if fault]
    for line in told:
        print(line)
    return 1 if told else 0


sys.exit(main())
