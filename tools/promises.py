#!/usr/bin/env python3
"""Prints, as Markdown, what differs between a commit and the working tree: signatures and clauses of calls that can be seen
from outside their module, types with their ghost fields, ghost members, and the definitions of specs/.

    python3 tools/promises.py COMMIT"""
import collections
import re
import subprocess
import sys


def git(*words):
    return subprocess.run(["git", *words], capture_output=True, text=True, check=True).stdout


def read(tree, form):
    """The files whose names fit, of a commit or, where it is empty, of the working tree."""
    if tree:
        names = git("ls-tree", "-r", "--name-only", tree, "crates").split()
        return {name: git("show", f"{tree}:{name}") for name in names if re.fullmatch(form, name)}
    names = git("ls-files", "-co", "--exclude-standard", "crates").split()
    return {name: open(name).read() for name in names if re.fullmatch(form, name)}


Item = collections.namedtuple("Item", "seen text clauses file")


def clause(line):
    return line.strip().startswith(("ensures", "requires"))


def function(lines, at):
    """The signature and the clauses of the function that begins at a line, and the line where its body begins."""
    signature, clauses = [], []
    while not (lines[at].rstrip().endswith(";") or not clause(lines[at]) and lines[at].rstrip().endswith(("{", "{}"))):
        (clauses if clause(lines[at]) else signature).append(lines[at].strip())
        at += 1
    if lines[at].strip() not in ("{", "{}"):
        (clauses if clause(lines[at]) else signature).append(lines[at].strip().rstrip(" {"))
    text = re.sub(r"\s+", " ", " ".join(part for part in signature if not part.startswith("//")))
    return text.replace("( ", "(").replace(", )", ")").strip(), clauses, at


def items(files):
    """Calls, types and ghost members, by crate, by the impl or trait that they stand in, and by name."""
    found = {}
    for name, text in files.items():
        if name.endswith("tests.rt"):
            continue
        crate, inside = name.split("/")[1], ""
        lines = re.sub(r"#\[cfg\(test\)\]\nmod \w+ \{.*", "", text, flags=re.S).split("\n")
        at = 0
        while at < len(lines):
            line = lines[at]
            if re.match(r"(impl|pub trait|trait)\b.*\{", line):
                inside = re.sub(r"^impl<[^>]*> ?", "impl ", re.sub(r"'\w+,? ?|<>", "", line.rstrip(" {")))
            elif line.startswith("}"):
                inside = ""
            call = re.match(r" *(pub(?:\(\w+\))? )?fn (\w+)", line)
            kind = re.match(r"(?:pub(?:\(\w+\))? )?(struct|enum|type) (\w+)", line)
            member = re.match(r" +ghost (?!use)(\w+)( =|:) ", line)
            if call:
                signature, clauses, at = function(lines, at)
                seen = bool(call[1]) or "trait" in inside or " for " in inside
                found[crate, inside, call[2]] = Item(seen, signature, clauses, name)
            elif kind:
                end = at
                while not (lines[end].startswith("}") or line.endswith(";")):
                    end += 1
                body = "\n".join(part for part in lines[at:end + 1] if not part.strip().startswith("//"))
                found[crate, "type", kind[2]] = Item(line.startswith("pub"), body, [], name)
            elif member and inside:
                found[crate, inside, "ghost " + member[1]] = Item(True, line.strip(), [], name)
            at += 1
    return found


def definitions(files):
    """The definitions of specs/, by crate, file and name, with the parameters of the module that they stand in."""
    found = {}
    for name, text in files.items():
        crate, file, given = name.split("/")[1], name.split("/")[-1][:-5], ""
        for block in re.split(r"\n\s*\n", text):
            lines = [line.rstrip() for line in block.split("\n") if line.strip() and not line.strip().startswith("--") and not line.startswith("use ")]
            if lines and (module := re.match(r"module _ (.*) where", lines[0])):
                given, lines = module[1], lines[1:]
            elif lines and not lines[0].startswith(" "):
                given = ""
            word = lines and re.search(r"pub (?:record |data )?([A-Za-z_][\w']*)", lines[0])
            if word:
                found[crate, file, word[1]] = (f"module _ {given} where\n" if given else "") + "\n".join(lines)
    return found


def told(key, old, new):
    name = (key[1] + " " if key[1] not in ("", "type") else "") + key[2]
    lines = [f"-- {name} [{(new or old).file.split('/src/')[1]}]"]
    if not old or not new:
        only = old or new
        return lines + [("add  " if new else "gone ") + only.text] + ["       " + part for part in only.clauses]
    if old.text != new.text:
        lines += ["old  " + old.text, "new  " + new.text]
    else:
        lines += ["     " + new.text.split("\n")[0]]
    lines += ["old    " + part for part in old.clauses if part not in new.clauses]
    return lines + ["new    " + part for part in new.clauses if part not in old.clauses]


def print_items(before, now):
    print("### Calls, clauses, types and ghost members\n\nThe file is that of today, or of the beginning where the item is gone.\n")
    keys = sorted(set(before) | set(now))
    for crate in sorted({key[0] for key in keys}):
        lines = []
        for key in (key for key in keys if key[0] == crate):
            old, new = before.get(key), now.get(key)
            if (old and old.seen or new and new.seen) and not (old and new and old[1:3] == new[1:3]):
                lines += told(key, old, new)
        if lines:
            print(f"`{crate}`\n\n```\n" + "\n".join(lines) + "\n```\n")


def print_definitions(before, now):
    plain = lambda text: re.sub(r"\s+", " ", text)
    fresh = [key for key in now if key not in before]
    moved, changed, gone = [], [], []
    for key, text in before.items():
        heirs = [key] if key in now else [heir for heir in fresh if heir[2] == key[2]]
        heir = next((heir for heir in heirs if plain(now[heir]) == plain(text)), heirs[0] if heirs else None)
        if heir is None:
            gone.append(key)
            continue
        if heir in fresh:
            fresh.remove(heir)
        if plain(now[heir]) != plain(text):
            changed.append((key, heir))
        elif heir != key:
            moved.append((key, heir))
    place = lambda key: f"{key[0]}/{key[1]}"
    print("### Definitions and theorems\n\nMoved as they stand, but for the paths of what they use:\n")
    print(", ".join(f"`{key[2]}` (`{place(key)}` to `{place(heir)}`)" for key, heir in moved) + ".\n\nChanged:\n\n```")
    for key, heir in changed:
        print(f"-- {key[2]}: {place(key)}" + (f", now {place(heir)}" if heir != key else ""))
        print("old  " + before[key].replace("\n", "\n     ") + "\nnew  " + now[heir].replace("\n", "\n     "))
    print("```\n\nGone; the tables above say what states it now:\n")
    print(", ".join(f"`{key[2]}` ({place(key)})" for key in gone) + ".\n\nNew:\n")
    print(", ".join(f"`{key[2]}` ({place(key)})" for key in fresh) + ".")


def main():
    tree = sys.argv[1]
    sources, specs = r"crates/\w+/src/.*\.rt", r"crates/\w+/specs/(?!Lib\.).*\.antt"
    print_items(items(read(tree, sources)), items(read("", sources)))
    print_definitions(definitions(read(tree, specs)), definitions(read("", specs)))


main()
