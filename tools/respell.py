#!/usr/bin/env python3
"""Spells the names of this repository's definitions and lemmas as today's Rattle does: words in snake case, a dash only between two names.

Run once at the top of the checkout, after /opt/rattle/port/port.py, with everything committed. What is spelled anew:
- a name in lower camel case, as wideIs, becomes wide_is; two that state facts become FitsPairIf and the like (FACTS);
- a dash in the name of a definition or a lemma becomes _, but where both its sides are names of definitions, as in length-up_to.
Names of src/, exported names, strings, inputs and outputs stay. Names that would fall together with another stay as they are, and are listed.
"""
import collections, glob, re, sys

TOKEN = re.compile(r"[^\s(){}\[\],;.\"`«»]+")
WORD = re.compile(r"[A-Za-z0-9_']+")
FACTS = {"pairIf": "PairIf", "stagedBy": "StagedBy"}
MADE = re.compile(r"-(requires|result|init|preserved|smaller|holds|again)(-|$)")


def snake(name):
    name = re.sub(r"(?<=[a-z0-9])([A-Z]+)(?![a-z])", lambda m: "_" + m.group(1).lower(), name)
    return re.sub(r"(?<=[a-z0-9])([A-Z])", lambda m: "_" + m.group(1).lower(), name)


def bare(text):
    return re.sub(r"(?m)^\s*--.*$", "", text)


def table(root):
    files = sorted(glob.glob(root + "/crates/*/specs/**/*.antt", recursive=True) + glob.glob(root + "/crates/*/proofs/**/*.antt", recursive=True))
    crates = {f.split("/crates/")[1].split("/")[0] for f in files}
    outside, defined, plain, seen = set(), set(), set(), collections.Counter()
    for f in files:
        text = bare(open(f).read())
        for m in re.finditer(r"(?m)^(?:pub )?use ([^\s{]+?)\.\{([^}]*)\}", text):
            parts = m.group(1).split(".")
            if not (parts[0] == "Rattle" and parts[1] in crates):
                outside.update(x.strip() for x in m.group(2).split(","))
        seen.update(TOKEN.findall(text))
        if f.endswith("/Proof.antt"):
            continue
        here = set(re.findall(r"(?m)^ *(?:abbrev |unfoldable |pub )*([^\s(){}:,]+) :(?: |$)", text)) | set(re.findall(r"(?m)^(?:abbrev |pub )*(?:record|data) ([^\s(){}:]+)", text))
        defined |= here
        if "/specs/" in f:
            plain |= {x for x in here if "-" not in x}
    names = plain | {x for x in outside if "-" not in x}

    def stands(part):
        return part in names or not re.match(r"^[a-z0-9_']+$", part)

    new = {}
    for w in seen:
        if w in outside:
            continue
        if w in FACTS:
            new[w] = FACTS[w]
            continue
        out = snake(w) if re.match(r"[a-z]", w) and re.search(r"[a-z0-9][A-Z]", w) else w
        if w in defined and "-" in w[1:] and re.match(r"[a-z0-9√+]", w) and not MADE.search(w):
            parts, olds = out.split("-"), w.split("-")
            out = parts[0]
            for (a, b), p in zip(zip(olds, olds[1:]), parts[1:]):
                out += ("-" if stands(a) and stands(b) else "_") + p
        if out != w:
            new[w] = out
    # names that fall together: where one file speaks of both, the lemma gets _lem after its name
    together = collections.defaultdict(set)
    for w, out in new.items():
        together[out].update((w, out) if out in seen else (w,))
    said = []
    for f in files:
        said.append(set(re.findall(r"(?<![^\s(){}\[\],;])[^\s(){}\[\],;.\"`«»]+(?![^\s(){}\[\],;])", bare(open(f).read()))))
    beside = []
    for out, ws in sorted(together.items()):
        if len(ws) > 1 and any(len(ws & s) > 1 for s in said):
            first = min(ws, key=lambda w: (not re.search(r"[A-Z]", w), w != out, w))
            for w in ws - {first}:
                beside.append((w, out))
                new[w] = out + "_lem"
    return new, beside, defined | set(new.values())


def respell(text, new):
    # a name that only steps aside for another one is left where it is a part of a path, or a step of a proof
    def said(m):
        w = m.group(0)
        out = new.get(w, w)
        if out == w + "_lem" and (text[m.end() : m.end() + 1] == "." or (text[max(0, m.start() - 1) : m.start()] == ".")):
            return w
        return out

    return re.sub(TOKEN, said, text)


def page(text, new, names):
    """Names between marks of code; those that port.py turned already, too."""

    def turned(w):
        if w in new:
            return new[w]
        if w in names:
            return w
        for out in (snake(w), w.replace("-", "_"), snake(w).replace("-", "_")):
            if out in names:
                return new.get(out, out)
        return w

    return re.sub(r"`[^`\n]+`", lambda m: "`" + re.sub(TOKEN, lambda n: turned(n.group(0)), m.group(0)[1:-1]) + "`", text)


def main():
    root = sys.argv[1] if len(sys.argv) > 1 else "."
    new, beside, names = table(root)
    for w, out in sorted(beside):
        print("beside", out + ":", w, "is", new[w])
    antt = glob.glob(root + "/crates/*/specs/**/*.antt", recursive=True) + glob.glob(root + "/crates/*/proofs/**/*.antt", recursive=True)
    code = glob.glob(root + "/crates/*/src/**/*.rt", recursive=True) + glob.glob(root + "/crates/*/must-fail/*.edit")
    pages = glob.glob(root + "/docs/*") + glob.glob(root + "/*.md")
    camel = {w: o for w, o in new.items() if re.search(r"[a-z0-9][A-Z]", w)}
    for f in antt + code + pages + [root + "/crates.txt"]:
        text = open(f).read()
        if f in antt:
            said = respell(text, new)
        elif f in pages:
            said = page(text, new, names)
        else:
            # code: the clauses and the edits' lines; elsewhere, in comments, only names in camel case
            said = "".join(respell(line, new if re.match(r"\s*(ghost use|requires|ensures|old:|new:)", line) else camel) for line in text.splitlines(True))
        if said != text:
            open(f, "w").write(said)
    print(len(new), "names")


main()
