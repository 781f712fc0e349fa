#!/usr/bin/env python3
"""Lists, in the src/ of every crate, the places that docs/DESIGN-PASS.md counts: tools/places.py [COMMIT].

A list is of candidates: what each is, the page says. With no commit it reads the files that lie here.
"""
import collections, itertools, os, re, subprocess, sys

rev = sys.argv[1] if len(sys.argv) > 1 else None


def git(*args):
    return subprocess.check_output(("git",) + args, text=True)


def sources():
    names = git("ls-tree", "-r", "--name-only", rev, "crates") if rev else git("ls-files", "crates")
    for name in names.split():
        if "/src/" in name and name.endswith(".rt") and (rev or os.path.exists(name)):
            text = git("show", f"{rev}:{name}") if rev else open(name).read()
            yield name.replace("crates/", "").replace("/src", ""), re.sub(r"//[^\n]*", "", text)


SOURCES = list(sources())


def lines(title, pattern, but=None):
    found = [
        f"{name}:{n}: {line.strip()}"
        for name, text in SOURCES
        for n, line in enumerate(text.split("\n"), 1)
        if re.search(pattern, line) and not (but and re.search(but, line))
    ]
    print(f"\n## {title}: {len(found)}")
    print("\n".join(found))


def functions():
    """Each function: where it stands, its name, its parameters, and its body."""
    for name, text in SOURCES:
        for found in re.finditer(r"\bfn (\w+)(?:<[^>]*>)?\(([^)]*)\)", text):
            rest = text[found.end():]
            opened = re.search(r"^[^;{]*\{\n|^[^;]*?\n *\{\n", rest)
            if not opened:
                continue
            start = opened.end() - 2
            depth = 0
            for end in range(start, len(rest)):
                depth += {"{": 1, "}": -1}.get(rest[end], 0)
                if depth == 0:
                    break
            params = [p.strip().split(":")[0].replace("mut ", "").strip() for p in found.group(2).split(",") if ":" in p]
            yield name, found.group(1), params, rest[start:end + 1]


KEPT_WORDS = set("fn let mut if else match for in return self Ok Err Some None as true false struct".split())


def twins():
    """Functions whose bodies are one text once names and numbers are blotted out."""
    shapes = collections.defaultdict(list)
    for name, function, _, body in functions():
        words = re.findall(r"[A-Za-z_]\w*|\d\w*|[^\s\w]", body)
        if len(words) >= 14:
            shape = " ".join(w if w in KEPT_WORDS else "N" if w[0].isdigit() else "i" if re.match(r"\w", w) else w for w in words)
            shapes[shape].append(f"{name}:{function}")
    groups = [g for g in shapes.values() if len(g) > 1]
    print(f"\n## 2 functions that are one text but for names and numbers: {sum(map(len, groups))} in {len(groups)} groups")
    print("\n".join(", ".join(g) for g in groups))


def clauses():
    """A `requires` that stands in three functions or more of a crate."""
    counted = collections.Counter()
    for name, text in SOURCES:
        for clause in re.findall(r"\n +requires (?:[a-z_]+ )?\{ (.*) \}", text):
            counted[name.split("/")[0], clause] += 1
    many = [(crate, n, clause) for (crate, clause), n in sorted(counted.items()) if n >= 3]
    print(f"\n## 5 requires that stand in three functions of a crate or more: {len(many)}")
    print("\n".join(f"{crate}, {n} times: {clause}" for crate, n, clause in many))


def travellers():
    """Three parameters that three functions or more of a crate take together."""
    counted = collections.defaultdict(list)
    for name, function, params, _ in functions():
        for group in itertools.combinations(sorted(set(params) - {"rt", "self"}), 3):
            counted[name.split("/")[0], group].append(function)
    many = {key: fs for key, fs in counted.items() if len(fs) >= 3}
    print(f"\n## 5 parameters that three functions of a crate or more take together: {len(many)}")
    print("\n".join(f"{crate}: {', '.join(group)}: {', '.join(fs)}" for (crate, group), fs in sorted(many.items())))


lines("1 enums", r"^(pub(\(crate\))? )?enum ")
lines("1 numbers and flags in place of kinds and refusals", r"Result<[^<>]*, u8>|Result<Result|fn number\(&self\) -> u8|: u64 = 1000\d;|^\) -> (u8|u64|bool)( |$)|-> usize$")
twins()
lines("3 loops that count", r"\bfor \w+ in [\w.]+\.\.|\bwhile |\bloop \{")
lines("4 comparisons, conversions and printing", r"\.number\(\) (==|!=)|\bfn (from|to|into|load|store|copied|numbered|tell)_?\w*[<(]|^impl.*\b(PartialEq|Eq|From|TryFrom|Display|BitXor|Drop)\b.* for ")
lines("4 matches that answer a bool", r"=> (true|false),")
clauses()
travellers()
lines("6 fixed memory, and lengths beside memory", r"^ *let (mut )?\w+ = \[[^;\[\]]+; |^    (pub )?\w+: \[[^;]+; \d+\],$|^    pub (size|length|count|offset): ")
lines("7 switches and functions passed", r"const [A-Z]+: bool|\bfn\(|\bdyn |impl Fn|: Fn(Once|Mut)?\(|^(pub )?struct \w+;")
names = git("ls-tree", "-r", "--name-only", rev, "crates").split() if rev else git("ls-files", "crates").split()
proofs = [n for n in names if "/proofs/" in n and (rev or os.path.exists(n))]
print(f"\n## 8 proof files: {len(proofs)}, of them answers {sum(n.endswith('Answers.antt') for n in proofs)}, invariants {sum(n.endswith('Invariants.antt') for n in proofs)}")
