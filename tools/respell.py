#!/usr/bin/env python3
"""Brings the repository's own definitions and lemmas to snake case, and its types to camel case.
usage, once, at the top of the repository, after the kit's port.py: tools/respell.py

A name is ours if it has a hyphen, stands in specs/ or in a lemma file of proofs/, and comes from no library; the three of CAMEL are ours too. Names made from the code (goals, steps
of a walk) keep their hyphens, and so do the library's. The names of OTHERWISE get another spelling, since with underscores they would fall together
with a function, a crate or a word of the library. Changed are specs/, proofs/, the clauses of src/ (neither its comments nor its strings), and
what README.md and docs/ have in backquotes."""
import os, re

OTHERWISE = {
    "bit-and": "bit_of_and", "bit-or": "bit_of_or",
    "lists-are-exact": "every_list_is_exact", "longest-is-found": "every_longest_is_found", "positions-mean-words": "every_position_means_words",
    "getD-row": "get_or_row", "worked-cases": "all_worked_cases", "names-word": "names_word_engine",
}
# functions of ours that were in camel case
CAMEL = {"headerEnd": "header_end", "isWithin": "lies_within", "valueIn": "value_in"}
NAME = r"[\w'·+-]+"
WHOLE = re.compile(rf"(?<![\w'·+-]){NAME}(?![\w'·+-])")

def found(*endings):
    return sorted(os.path.join(d, f) for d, _, fs in os.walk("crates") if "/out" not in d for f in fs if f.endswith(endings))

def read(path):
    return open(path, encoding="utf-8").read()

def uncommented(text):
    return re.sub(r"--.*", "", text)

def is_answers(path):
    return os.path.basename(path) in ("Answers.antt", "Invariants.antt")

def imports(text):
    for path, names in re.findall(r"^(?:pub |ghost )*use ([^\s{;]+?)\.?\{([^}]*)\}", text, re.M):
        yield path, {n.strip().split(" as ")[0] for n in names.split(",")}

def ours(paths):
    crates = {l.split(":")[0].split()[0] for l in open("crates.txt") if ":" in l and not l.startswith("#")}
    names, foreign = set(), set()
    for path in paths:
        text = uncommented(read(path))
        # a crate of ours whose Goals or Given are brought in gives names made from the code
        for p, ns in imports(text):
            if p.split(".")[:2] not in [["Rattle", c] for c in crates] or re.search(r"\.(Goals|Given)$", p): foreign |= ns
        body = re.sub(r"^(pub )?use .*$", "", text, flags=re.M)
        if is_answers(path):
            goals = set(re.findall(rf"^(?:abbrev )?pub ({NAME}) : goal\.", body, re.M))
            found_here = set(re.findall(rf"^(?:abbrev |unfoldable |opaque |pub )*({NAME}) (?=[:({{])", body, re.M)) - goals
        else:
            found_here = set(WHOLE.findall(body))
        names |= {n for n in found_here if "-" in n and re.search(r"[A-Za-z]", n)}
    return names - foreign

def respelt(name):
    if name in OTHERWISE: return OTHERWISE[name]
    if name[0].isupper(): return "".join(p[0].upper() + p[1:] for p in name.split("-"))
    return name.replace("-", "_")

def main():
    proofs = found(".antt")
    names = {n: respelt(n) for n in ours(proofs)}
    names |= {n: new for n, new in CAMEL.items() if any(n in WHOLE.findall(read(p)) for p in proofs)}
    taken = {n for p in found(".antt", ".rt") for n in WHOLE.findall(uncommented(read(p)))}
    together = sorted(n for n, new in names.items() if new in taken and n != "headerEnd")  # a variable of src/ has that name too
    if together: raise SystemExit("would fall together with what stands: " + " ".join(together))
    swap = lambda text: WHOLE.sub(lambda m: names.get(m.group(0), m.group(0)), text)
    changed = 0
    def write(path, new):
        nonlocal changed
        if new != read(path):
            changed += 1
            open(path, "w", encoding="utf-8").write(new)
    for path in proofs: write(path, swap(read(path)))
    kept = re.compile(r"""("(?:\\.|[^"\\])*"|//.*)""")
    for path in found(".rt"):
        write(path, "".join(part if i % 2 else swap(part) for i, part in enumerate(kept.split(read(path)))))
    # in documents also the names that port.py has respelt
    new_names = {n for p in found(".antt") for n in WHOLE.findall(uncommented(read(p)))}
    def cited(m):
        return WHOLE.sub(lambda w: names.get(w.group(0)) or (w.group(0).replace("-", "_") if w.group(0).replace("-", "_") in new_names and w.group(0) not in new_names else w.group(0)), m.group(0))
    for path in ["README.md", *(os.path.join("docs", f) for f in sorted(os.listdir("docs")) if f.endswith(".md"))]:
        write(path, re.sub(r"`[^`\n]*`", cited, read(path)))
    print(f"{len(names)} names, {changed} files")

main()
