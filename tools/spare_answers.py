#!/usr/bin/env python3
"""Takes away each answer of a crate's proofs that the check finds alone.

    python3 tools/spare_answers.py CRATE

First all answers are set aside and the crate is checked with the search's limits halved, which says which goals need one. The
answers to the others go, and the crate is checked again, with the limits halved and not; what is then still open comes back."""
import glob
import os
import re
import subprocess
import sys

OPEN = re.compile(r"^fn \S+: (?:no proof|not proved)(.*)$", re.M)


def check(folder, *flags):
    """Whether the crate is proved, and which goals are open."""
    run = subprocess.run(["rt", "check", *flags], cwd=folder, capture_output=True, text=True)
    said = run.stdout + run.stderr
    goals = {goal for rest in OPEN.findall(said) for goal in re.findall(r"`([^`]+)`", rest.split("; it calls")[0])}
    return not re.search(r": (no proof|not proved)|error", said), goals


def blocks(text):
    """The lines before the first declaration, and each declaration as its name and its lines; none where a file has more than
    plain declarations."""
    head, found = [], []
    for line in text.split("\n"):
        word = re.match(r"(pub )?([^\s:]+) : ", line)
        if word and not line.startswith(("use ", "--", " ", "module")):
            found.append((word[2], bool(word[1]), [line]))
        elif found and re.match(r"abbrev|module|mutual", line):
            return [], []
        else:
            (found[-1][2] if found else head).append(line)
    return head, found


def answers(goals, name):
    return any(goal == name or goal.startswith(name + "-clause-") or name.startswith(goal + "-clause-") for goal in goals)


def write(path, text, gone):
    head, found = blocks(text)
    rest = [lines for name, _, lines in found if name not in gone]
    if not any(line.startswith("pub ") for lines in rest for line in lines):
        os.remove(path)
        return
    parts = ["\n".join(head).rstrip("\n")] + ["\n".join(lines).strip("\n") for lines in rest]
    with open(path, "w") as out:
        out.write("\n\n".join(parts) + "\n")


def main():
    folder = os.path.join("crates", sys.argv[1])
    files = {path: open(path).read() for path in glob.glob(f"{folder}/proofs/**/Answers.antt", recursive=True)}
    for path in files:
        os.remove(path)
    _, needed = check(folder, "--margin")
    spare = {}
    for path, text in files.items():
        found = blocks(text)[1]
        gone = [name for name, public, lines in found if public and f"goal.{name}" in lines[0] and not answers(needed, name)]
        spare[path] = gone
        with open(path, "w") as out:
            out.write(text)
        if gone:
            write(path, text, gone)
    for flags in (("--margin",), (), ("--margin",)):
        proved, goals = check(folder, *flags)
        if proved:
            continue
        for path, gone in spare.items():
            spare[path] = [name for name in gone if not answers(goals, name)]
            if spare[path] != gone:
                with open(path, "w") as out:
                    out.write(files[path])
                if spare[path]:
                    write(path, files[path], spare[path])
    if not check(folder)[0]:
        for path, text in files.items():
            with open(path, "w") as out:
                out.write(text)
        sys.exit(f"{sys.argv[1]}: all answers are back, since the crate was not proved without some")
    for path, gone in spare.items():
        if gone:
            print(path, *gone)


main()
