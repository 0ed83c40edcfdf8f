#!/usr/bin/env python3
"""Lists the places that the design pass looks at, point by point, in the working tree or, with a commit as argument, as they stood there.

What it prints is what can be counted without judging: docs/DESIGN-PASS.md says which of these are places to change."""
import collections
import io
import re
import subprocess
import sys
import tarfile
from pathlib import Path

ROOT = Path(__file__).resolve().parent.parent


def sources(commit):
    """The files below crates/, by name."""
    if commit:
        data = subprocess.run(["git", "-C", ROOT, "archive", commit, "crates"], check=True, capture_output=True).stdout
        with tarfile.open(fileobj=io.BytesIO(data)) as tar:
            return {m.name: tar.extractfile(m).read().decode() for m in tar if m.isfile()}
    return {str(p.relative_to(ROOT)): p.read_text() for p in sorted(ROOT.glob("crates/*/*/**/*")) + sorted(ROOT.glob("crates/*/*/*"))
            if p.is_file() and not {"target", "out"} & set(p.parts)}


def functions(files):
    """Each function with a body: where it stands, its parameters, its clauses and its body."""
    for name, text in files.items():
        for m in re.finditer(r"^( *)(?:pub(?:\(crate\))? )?fn (\w+)", text, re.M):
            end = re.search(r"^%s(?:\}|.*\{\}|.*;)$" % m[1], text[m.end():], re.M)
            whole = text[m.end():m.end() + end.end()] if end else text[m.end():]
            head, brace, body = whole.partition("\n%s{\n" % m[1])
            if not brace:
                head, brace, body = whole.partition(" {\n")
            yield f"{name}: {m[2]}", head, body


def shape(body):
    """The body with its names and numbers taken out."""
    body = re.sub(r'"[^"]*"', '""', re.sub(r"//.*", "", body))
    words = re.findall(r"\w+|[^\w\s]", body)
    kept = {"for", "in", "if", "else", "match", "let", "mut", "return", "while", "Ok", "Err", "Some", "None", "self"}
    return " ".join(w if w in kept or not w[0].isalnum() and w[0] != "_" else "n" if w[0].isdigit() else "x" for w in words)


def show(title, lines):
    print(f"\n{title}: {len(lines)}")
    for line in lines:
        print("   ", line)


def grep(files, pattern):
    return [f"{name}:{i}: {line.strip()}" for name, text in files.items() for i, line in enumerate(text.splitlines(), 1) if re.search(pattern, line)]


def main():
    every = sources(sys.argv[1] if len(sys.argv) > 1 else None)
    files = {n: t for n, t in every.items() if "/src/" in n and n.endswith(".rt")}
    found = list(functions(files))

    show("1 own enums", grep(files, r"^\s*(pub(\(crate\))? )?enum "))
    show("1 numbers and flags for kinds (arms that give a number, true or false; pairs as results)",
         grep(files, r"=> (\d+|true|false),$|\) -> \("))

    shapes = collections.defaultdict(list)
    for where, _, body in found:
        if len(shape(body).split()) >= 12:
            shapes[shape(body)].append(where)
    show("2 bodies of one shape", [" = ".join(w) for w in shapes.values() if len(w) > 1])
    names = collections.defaultdict(set)
    for where, head, _ in found:
        names[where.split(": ")[1]].add(where.split(": ")[0])
    show("2 names of functions in two files or more", sorted(f"{n}: {' '.join(sorted(w))}" for n, w in names.items() if len(w) > 1))

    show("3 loops", grep(files, r"^\s*(for|while|loop)\b.*\{$"))
    show("3 counters", grep(files, r"let mut \w+(: \w+)? = \d+;"))

    show("4 derives", grep(files, r"#\[derive"))
    show("4 arms that give a text", [f"{n}: {c}" for n, c in collections.Counter(line.split(":")[0] for line in grep(files, r'=> ".*",$')).items()])
    show("4 prints", [f"{n}: {c}" for n, c in collections.Counter(line.split(":")[0] for line in grep(files, r"println?!\(|write_str|write!\(")).items()])

    facts = collections.defaultdict(set)
    for where, head, _ in found:
        crate = where.split("/")[1]
        for clause in re.findall(r"(?:requires|ensures)[^{\n]*\{ (.*) \}", head):
            for fact in re.findall(r"length [\w.]+ ≡ \d+|[\w.() ]+(?:<|≤) [\w.() ]+|[\w.]+ghost_name ≡ [\w.]+", re.sub(r"\.(old|new|now|entry)\b", "", clause)):
                facts[crate, fact.strip(" ()")].add(where.split(": ")[1])
    show("5 facts in the clauses of three functions or more", sorted(f"{c}: {f}: {' '.join(sorted(w))}" for (c, f), w in facts.items() if len(w) > 2))
    together = collections.defaultdict(set)
    for where, head, _ in found:
        names = [p for p in re.findall(r"(\w+): ", head.split(")")[0].split("ensures")[0])]
        for i, a in enumerate(names):
            for b in names[i + 1:]:
                together[where.split("/")[1], a, b].add(where.split(": ")[1])
    show("5 parameters together in four functions or more of a crate",
         sorted(f"{c}: {a}, {b}: {' '.join(sorted(w))}" for (c, a, b), w in together.items() if len(w) > 3))

    show("6 arrays", grep(files, r"\[\w+; \w+\]"))
    show("7 closures, dyn, function pointers", grep(files, r"\bdyn\b|impl Fn|: fn\(|[(]\|[^|]+\||, \|[^|]+\|"))
    show("7 switches on a step (three arms or more that call)", grep(files, r"=> self\.\w+\.\w+\("))

    proofs = {n: t for n, t in every.items() if "/proofs/" in n}
    show("8 proofs", [f"{kind}: {len(some)} files, {sum(t.count(chr(10)) for t in some)} lines" for kind, some in (
        ("answers", [t for n, t in proofs.items() if n.endswith("/Answers.antt")]),
        ("invariants", [t for n, t in proofs.items() if n.endswith("/Invariants.antt")]),
        ("lemmas", [t for n, t in proofs.items() if n.count("/") == 3]))])


main()
