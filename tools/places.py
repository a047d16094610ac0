"""Lists the places of src/ that each point of docs/DESIGN-PASS.md asks about, by what the text shows.

    python3 tools/places.py [FOLDER]

Each line is a point, a file with a line, and what stands there; the counts come last.
"""
import re
import sys
from pathlib import Path

# Point, what it finds, and how.
PATTERNS = [
    ("1a own Option or Result", r"^\s*(?:pub )?enum \w+ \{[^}]*?\n\s*(?:Refused\(Refusal\)|Keep|None|Bad|Unreadable),"),
    ("1b answer beside the state it leaves", r"^pub struct \w+(?:<\w+>)? \{\n(?:\s*//.*\n)*\s*pub result: "),
    ("1c number that stands for none", r"^fn \w+[^{;]*?-> (?:usize|u64)\b|^pub fn \w+[^{;]*?-> (?:usize|u64)\b"),
    ("1d flag with a value beside it", r"^    (?:pub )?(?:is_dash|is_bad|is_ended|live|many): (?:bool|usize),$"),
    ("1e number for a refusal", r"^\s*(?:pub )?number: u64,|^const \w+: u64 = (?:12|16);|number: 16"),
    ("3 loop that counts by hand", r"^\s*(?:while|loop)\b.*\{"),
    ("4 equality, order, conversion by hand", r"^(?:pub )?fn (?:is_blank_\w+|least|larger|smaller|less|yes|one_if_space|blank|from|number)\b|^    (?:pub )?fn (?:from|number|is_known)\b"),
    ("5a `Good` of a pool in a contract", r"requires.*\bGood pool"),
    ("5b `Passes` or `Passing` of a space in a contract", r"requires.*\b(?:Passes|Passing) s"),
    ("5c `LiveIn` in a contract", r"requires.*\bLiveIn s"),
    ("5d `PageRange` in a contract", r"requires.*\bPageRange"),
    ("5e pool, base, used as parameters", r"pool: &(?:mut )?\[u64\],\s*base: u64,\s*used: "),
    ("5f what a mapping is to be, as parameters", r"vmo_offset: u64,\s*len: u64,\s*permissions: "),
    ("6 parallel arrays, or a list with a count", r"^\s*(?:pub )?(?:owners|reglist|maplist): \[|^\s*len: usize,|^\s*pub n: \["),
    ("7 switch on which step to run", r"^\s*match what \{|^fn parse\w*\(|^pub fn parse\("),
]

# A function from its head to its end, at the margin or in an impl.
FUNCTION = re.compile(r"^( *)(?:pub )?fn (\w+).*?^\1}$", re.M | re.S)

NONE = re.compile(r"none|past the list|new mapping's slot where|of what is none|while no entry")


def places(folder):
    for path in sorted(Path(folder).glob("crates/*/src/**/*.rt")):
        text = path.read_text()
        lines = text.split("\n")
        for name, pattern in PATTERNS:
            for m in re.finditer(pattern, text, re.M):
                at = text.count("\n", 0, m.start() + len(m.group(0)) - len(m.group(0).lstrip("\n")))
                if name.startswith("1c"):
                    comment = lines[at - 1] if at else ""
                    if not comment.startswith("//") or not NONE.search(comment):
                        continue
                yield name, f"{path.relative_to(folder)}:{at + 1}", lines[at].strip()


def shape(text):
    """The text of a function without its names and numbers, and without its clauses."""
    text = re.sub(r"^\s*(?:requires|ensures)\b.*$|//.*$", "", text, flags=re.M)
    text = re.sub(r"\b(?!fn|let|mut|if|else|while|for|in|match|return|pub|as|true|false)[A-Za-z_]\w*\b", "x", text)
    return re.sub(r"\s+", " ", re.sub(r"\b0?x?[0-9a-f_]+\b", "0", text))


def twins(folder):
    """Functions of four or more lines of code that differ from another in names and numbers alone."""
    seen = {}
    for path in sorted(Path(folder).glob("crates/*/src/**/*.rt")):
        text = path.read_text()
        for m in FUNCTION.finditer(text):
            if len(re.sub(r"^\s*(?:requires|ensures|//).*\n", "", m.group(0), flags=re.M).split("\n")) >= 4:
                where = f"{path.relative_to(folder)}:{text.count(chr(10), 0, m.start()) + 1}"
                seen.setdefault(shape(m.group(0)), []).append((where, m.group(2)))
    for group in seen.values():
        for where, name in group if len(group) > 1 else []:
            others = ", ".join(n for w, n in group if w != where)
            yield "2 twin", where, f"fn {name} ~ {others}"


def main():
    folder = sys.argv[1] if len(sys.argv) > 1 else "."
    counts = {name: 0 for name, _ in PATTERNS}
    counts["2 twin"] = 0
    for name, where, line in [*places(folder), *twins(folder)]:
        counts[name] += 1
        print(f"{name}\t{where}\t{line[:110]}")
    print()
    for name, n in sorted(counts.items()):
        print(f"{n:4} {name}")


if __name__ == "__main__":
    main()
