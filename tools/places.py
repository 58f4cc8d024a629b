#!/usr/bin/env python3
"""Lists the places of src/ that read like an older Rattle, by kinds of form.

    python3 tools/places.py [POINT] [--count] [--tree COMMIT]

Each kind is a search of the text, so a place that it finds may be right as it is; such a place has a line
`// Kept: reason` right above it, or above the item that it stands in, and is counted apart. With --tree the sources of a commit
are read instead of those of the working tree."""
import re
import subprocess
import sys
from collections import defaultdict


def sources(tree):
    if tree:
        names = subprocess.run(["git", "ls-tree", "-r", "--name-only", tree, "crates"], capture_output=True, text=True, check=True).stdout.split()
    else:
        names = subprocess.run(["git", "ls-files", "-co", "--exclude-standard", "crates"], capture_output=True, text=True, check=True).stdout.split()
    out = {}
    for name in sorted(names):
        if re.fullmatch(r"crates/\w+/src/.*\.rt", name) and not name.endswith("tests.rt"):
            try:
                text = subprocess.run(["git", "show", f"{tree}:{name}"], capture_output=True, text=True, check=True).stdout if tree else open(name).read()
            except FileNotFoundError:
                continue
            out[name] = re.sub(r"#\[cfg\(test\)\]\nmod \w+ \{.*", "", text, flags=re.S)
    return out


FORMS = {
    "1": {
        "an enum with a case of its own for refused, accepted, none or nothing": r"^    (Accepted|Refused\(.*\)|Nothing|None|Unread),$",
        "a flag beside the value that it speaks of": r"^ +(pub )?(known|distinct): bool,$",
        "a number for a kind, a state, a byte or a refusal": r"^ *(pub(\(\w+\))? )?const (?!MOST_|MAX_|TOO_MANY|DEEPEST|STATEMENTS|WEEK_LENGTH)[A-Z_0-9]+: (u8|u16|u32|u64) = ",
        "a byte as a number in a test": r"\b(byte|b) (==|<=) \d+|\b\d+ (==|<=) (byte|b)\b|Reference\(\d+\)",
        "0 as the answer for none": r"^ +0\n *\}|\{ 0 \}|=> 0,|\breturn 0;|\bNone => \{\n[^}]*\b0\n",
        "a number as an error": r"Result<[^<>]*(<[^<>]*>)?, (u8|u32|u64|usize)>",
        "a value that counts only beside another field": r"pub beyond: usize|^    value: usize,",
        "a tuple whose last part is a flag": r"-> (Result<)?\([^)]*, bool\)",
    },
    "3": {
        "a loop over an index": r"^ *for \w+ in [^{\n]*\.\.[^{\n]*\{",
        "a while or an endless loop": r"^ *(while |loop \{)",
        "a loop over items that looks for one, or folds": r"^ *for \w+ in [^{\n.]*\{",
    },
    "4": {
        "is it there: a match to true and false": r"(Some|Ok|Err)\(\w*\) => (true|false),",
        "a match for the default": r"None => (true|false|0),",
        "an error or a value handed on as it is": r"Err\((\w+)\) => Err\(\1\)|Some\((\w+)\) => Some\(\2\)|let Err\((\w+)\) = [^{]*\{\n[^}]*return Err\(\3\);",
        "none handed on by hand": r"else \{\n +return None;\n",
        "a conversion, a name or a printed form by hand": r"^ *(pub )?fn (number|name|word|node|sample|starting|ending|told|refuse|code|print_\w+)\b",
        "an alternative by hand": r"None => (closed_with|start_tag)\(",
        "a number that is none when it is 0": r"if \w+ == 0 \{ None \} else \{ Some",
    },
    "6": {
        "an array with a length beside it": r"^ +pub frames: \[",
        "places and how many are used": r"\b(work: &(mut )?\[[^\]]*\],\s*height: usize|work: &mut \[V\], below: usize|out: &mut \[u8\],\s*at: usize)",
        "a list searched by hand": r"^fn lacking|^pub fn number_of|^pub fn atom_of",
    },
    "7": {
        "an argument that says what to do": r"\b(ask: Ask|bar: bool|first: bool|wanted: bool)\b",
        "a row of tests for one of several words": r"^    if let Some\(\w+\) = (word_end|closed_with)\(text, at, b",
    },
}

TOGETHER = [
    ("content: &", "value: &"), ("nodes: &", "models: &"), ("nodes: &mut", "used: usize"), ("rows: &", "base: usize"),
    ("text: &", "at: usize"), ("out: &mut", "at: usize"), ("text: &", "entries: &"), ("blank: &mut", "columns: &mut"),
    ("start: usize", "end: usize"), ("name_start: usize", "name_end: usize"), ("work: &", "height: usize"),
]


def kept(lines, at):
    """Whether a line of a reason stands above the line, before the item that it is in begins."""
    here = at
    while here >= 0 and at - here < 40:
        if "// Kept:" in lines[here]:
            return True
        if here < at and re.match(r"\}", lines[here]):
            break
        here -= 1
    # A function's own place may have its reason in the body.
    if re.match(r" *(pub(\(\w+\))? )?fn ", lines[at]):
        indent = re.match(r" *", lines[at])[0]
        for line in lines[at:]:
            if "// Kept:" in line:
                return True
            if line == indent + "}":
                return False
    return False


def items(lines):
    """Functions, types and constants with the lines of their bodies; impl blocks of a trait are one item."""
    at = 0
    declared = False
    while at < len(lines):
        declared = bool(re.match(r"(pub )?trait ", lines[at])) or declared and not lines[at].startswith("}")
        head = None if declared else re.match(r"( *)(?:pub(?:\(\w+\))? )?(fn|struct|enum|const) (\w+)", lines[at])
        if head:
            end = at
            while not (re.match(head[1] + r"\}", lines[end]) or lines[end].endswith(";") and end == at or lines[end].startswith(head[1] + "}")):
                end += 1
                if end == len(lines):
                    break
            yield at, head[2], head[3], [line for line in lines[at:end + 1] if not re.match(r" *(//|ensures|requires|ghost)", line)]
        at += 1


KEYWORDS = set("fn pub let mut if else match for in while loop return self Self Some None Ok Err true false as impl struct enum const u8 u32 u64 usize bool".split())


def twins(sort, word, body):
    """What two items have in common that differ only in types, sizes and constants, or in what they call."""
    text = re.sub(r"'\w+,? ?|&'\w+ ", "", " ".join(line.strip() for line in body))
    text = re.sub(rf"\b{word}\b", "F", text)
    text = re.sub(r"\bpub(\(\w+\))? ", "", text)
    text = re.sub(r'b?"[^"]*"|b\'.\'|\b\d[\d_]*\b|\b[A-Z][A-Z_0-9]+\b', "N", text)
    text = re.sub(r"\b[A-Z]\w*(::\w+)?", lambda m: m[0] if m[0] in KEYWORDS else "T", text)
    if sort == "const":
        return [("const", word, " ".join(body))]
    found = [(sort, text)] if len(text) > 60 or sort != "fn" else []
    if sort == "fn" and len(body) > 5:
        shape = re.sub(r"\b[a-z_]\w*\b", lambda m: m[0] if m[0] in KEYWORDS else "x", text)
        shape = shape[shape.index("{"):] if "{" in shape else shape
        found.append(("shape", shape))
    return found


def places(files, point):
    for kind, form in FORMS.get(point, {}).items():
        for name, text in files.items():
            lines = text.split("\n")
            for found in re.finditer(form, text, flags=re.M):
                at = text.count("\n", 0, found.start())
                yield kind, name, at, lines
    if point == "2":
        shapes = defaultdict(list)
        for name, text in files.items():
            lines = text.split("\n")
            for at, sort, word, body in items(lines):
                for shape in twins(sort, word, body):
                    shapes[shape].append((name, at, lines, f"{sort} {word}"))
        seen = set()
        for shape, where in shapes.items():
            if len(where) > 1:
                for name, at, lines, what in where:
                    if (name, at) not in seen:
                        seen.add((name, at))
                        yield f"{what}, one of {len(where)} of one shape", name, at, lines
    if point == "5":
        for name, text in files.items():
            lines = text.split("\n")
            for found in re.finditer(r"\b(fn \w+[^{]*?\)|struct \w+[^{;]*\{[^}]*\})", text):
                for a, b in TOGETHER:
                    if a in found[0] and b in found[0]:
                        yield f"{a} with {b}", name, text.count("\n", 0, found.start()), lines
        facts = defaultdict(list)
        for name, text in files.items():
            lines = text.split("\n")
            crate = name.split("/")[1]
            for at, line in enumerate(lines):
                clause = re.match(r" +(?:ensures|requires)(?: \w+)? \{ (.*) \}", line)
                if clause and len(clause[1]) > 40:
                    facts[crate, clause[1]].append((name, at, lines))
        for (crate, fact), where in facts.items():
            if len(where) >= 3:
                for name, at, lines in where:
                    yield f"a clause that stands {len(where)} times in {crate}", name, at, lines


def main():
    words = sys.argv[1:]
    tree = words[words.index("--tree") + 1] if "--tree" in words else ""
    wanted = [w for w in words if re.fullmatch(r"[1-8]", w)] or ["1", "2", "3", "4", "5", "6", "7"]
    files = sources(tree)
    for point in wanted:
        open_places, kept_places = [], []
        for kind, name, at, lines in places(files, point):
            (kept_places if kept(lines, at) else open_places).append((kind, f"{name}:{at + 1}: {lines[at].strip()}"))
        print(f"point {point}: {len(open_places) + len(kept_places)} places, {len(kept_places)} of them with a reason")
        if "--count" not in words:
            for kind, place in open_places:
                print(f"    {kind}: {place}")
            for kind, place in kept_places:
                print(f"    (kept) {kind}: {place}")


main()
