"""Counts the places in src/ that docs/DESIGN-PASS.md speaks of, at a commit or in the checkout.

    python3 tools/count_places.py [-v] [COMMIT]

With -v it prints each place beside its count.
"""
import re
import subprocess
import sys
from collections import defaultdict

# The point, what is counted, and the lines of src/ that are counted.
LINES = [
    (1, "enums of our own", r"^(pub )?enum \w"),
    (1, "match arms that hand an Option or a Result on",
     r"^\s*(Ok|Err|Some|None)\b[^=]*=> (Ok|Err|Some|None|unreachable|true|false|0\b|\w+,$)"),
    (1, "flags: fields, parameters and constants of type bool", r"^(?!.*fn .*-> bool)(?!.*ghost).*\b\w+: bool\b"),
    (1, "kinds, codes and commands held as numbers",
     r"\b(kind|log|command|code|which|reason|season|form): (u8|u16)\b"),
    (3, "loops over a range of numbers", r"\bfor [^{]* in [^{]*\.\.(?!forever)"),
    (3, "loops by while or loop", r"^\s*(while|loop)\b"),
    (3, "counters kept beside a loop", r"let mut \w+(: \w+)? = (0|day|mask);"),
    (3, "loops over enumerate", r"\benumerate\(\)"),
    (4, "bytes and numbers turned into one another by hand", r"^(?!.*(ensures|const )).*(% 256|/ 256|256 \* |65536|16777216)"),
    (4, "texts of values told by functions of our own", r"fn .*-> &'static str"),
    (4, "Display, From and TryFrom written out", r"^impl.* (fmt::Display|From<.*>|TryFrom<.*>) for"),
    (4, "bytes compared one by one", r"\[0\] == .* && .*\[1\] =="),
    (4, "values compared or printed by functions of our own", r"fn (same_\w+|print_\w+|\w+_in_words|used_of)\b"),
    (6, "arrays and slices with a count of their own beside them",
     r"^\s*(pub )?(count|lent|keep_count|length|room): (usize|Option<usize>|u16),"),
    (7, "arms of a match that only choose the function to call", r"^\s*(b\"\w+\"|\w+::\w+(\([a-z_]+\)| \{ [^}]* \})?) => \w+\([^)]*\)[?]?,$"),
]


def git(*words):
    return subprocess.run(["git", *words], check=True, capture_output=True, text=True).stdout


def sources(commit):
    """The source files and their texts, at a commit or as they lie here."""
    if commit:
        names = git("ls-tree", "-r", "--name-only", commit, "crates").split()
    else:
        names = git("ls-files", "-co", "--exclude-standard", "crates").split()
    for name in names:
        if re.fullmatch(r"crates/\w+/src/.*\.rt", name):
            if commit:
                yield name, git("show", f"{commit}:{name}")
            else:
                with open(name, encoding="utf-8") as file:
                    yield name, file.read()


def code(text):
    """The lines with their numbers, without comments."""
    for number, line in enumerate(text.splitlines(), 1):
        yield number, re.sub(r"//.*", "", line)


def functions(text):
    """The name, the parameters and the clauses of each function."""
    plain = "\n".join(line for _, line in code(text))
    for found in re.finditer(r"\bfn (\w+)(?:<[^(]*>)?\(([^)]*)\)([^{;]*(?:\{[^\n]*\}\n[^{;]*)*)", plain):
        parameters = [p.strip() for p in found.group(2).split(",") if ":" in p]
        clauses = re.findall(r"(?:requires|ensures)[^{\n]*\{ (.*) \}", found.group(3))
        yield found.group(1), parameters, clauses


def repeated(texts):
    """What stands more than once: names of functions, facts in contracts, pairs of parameters."""
    names, facts, pairs = defaultdict(list), defaultdict(list), defaultdict(list)
    for file, text in texts:
        for name, parameters, clauses in functions(text):
            if "_tests/" not in file and name not in ("main", "run", "fmt"):
                names[name].append(file)
            for clause in set(clauses):
                if "result" not in clause or re.search(r"result[^≡]*\((Sized|Numbered|NumberedRead)|≤ \d+ \}?$|Sized|Numbered", clause):
                    fact = re.sub(r"\((λ q\. )?((Sized|Numbered\w*) \(?meant (\w|\.)+\)?)\)?.*", r"\2", clause)
                    fact = re.sub(r"\b(self|request|position|inner|store|out|reply)\.(now|old)\b|\bq\b", "_", fact)
                    facts[re.sub(r".*(Sized|Numbered\w*) \(?meant.*", r"\1", fact)].append(f"{file} {name}")
            kept = [re.sub(r"'\w+ |mut ", "", p) for p in parameters]
            for i, first in enumerate(kept):
                for second in kept[i + 1:]:
                    pairs[f"{first}, {second}"].append(f"{file} {name}")
    twins = {n: f for n, f in names.items() if len(set(f)) > 1}
    return [
        (2, "names of functions that stand in more than one file", twins),
        (5, "facts that stand in the contracts of three functions or more", {k: v for k, v in facts.items() if len(v) > 2}),
        (5, "pairs of parameters that three functions or more take",
         {k: v for k, v in pairs.items() if len(v) > 2 and "HostRuntime" not in k}),
    ]


def main():
    words = [w for w in sys.argv[1:] if w != "-v"]
    told = "-v" in sys.argv
    texts = list(sources(words[0] if words else None))
    rows = []
    for point, what, pattern in LINES:
        places = [f"{file}:{n}: {line.strip()}" for file, text in texts for n, line in code(text) if re.search(pattern, line)]
        rows.append((point, what, places))
    for point, what, groups in repeated(texts):
        rows.append((point, what, [f"{key} — {', '.join(where)}" for key, where in sorted(groups.items())]))
    stays = [f"{file}:{n}: {line.strip()}" for file, text in texts for n, line in enumerate(text.splitlines(), 1) if "// Stays:" in line]
    rows.append((9, "lines that say why a place stays", stays))
    for point, what, places in sorted(rows, key=lambda row: row[0]):
        print(f"{point if point < 9 else '-'}  {len(places):4}  {what}")
        for place in places if told else []:
            print("        " + place)


if __name__ == "__main__":
    main()
