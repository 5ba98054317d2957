#!/usr/bin/env python3
"""Brings a repository's own definitions, lemmas, fields and constructors to the new spelling, in one run over all crates.

usage: respell.py [--check] [--plain] [--docs] [--quiet] [--as OLD=NEW].. [--table FILE] [ROOT]

A definition (abbrev, unfoldable, a field, a constructor) gets plain underscores: leaf-of -> leaf_of.
A lemma keeps a dash where it joins the names of two definitions, as CONTRACT_STYLE.md says ('length-insert'), and has an underscore before a plain word:
d2-nonneg stays, d2-comm -> d2_comm, leaf-of-pos -> leaf_of_pos. With --plain every dash goes.
It turns the code and the comments of specs/*.antt and proofs/*.antt, the clauses, 'ghost use' items and comments of src/*.rt, and the 'old:' and 'new:' texts of
must-fail/*.edit (by the file that the edit names). With --docs also the code spans of README.md and docs/*.md, docs/CHANGES.md left out: its entries speak of what stood then.
It goes name by name and file by file: a name turns in a file only where that file declares it, or imports it from a module of this repository.
Six variables of definitions (LOCALS) turn too, in specs/ and in the lemma files that cite them.
It leaves alone: strings, Rust names, what stands right behind c. l. w. goal. tie. and the like (names that Rattle makes), the answers to goals, library names.
A name that would fall together with another in some file stays as it is in all files, and is printed as 'left:'; --as OLD=NEW gives it a name of your choice.
It prints 'look:' for each name that turns in a comment, since a comment may hold an English word of the same spelling (--quiet: it does not).
--check writes nothing. --table writes the table of old and new names. A second run changes nothing.
"""
import collections, glob, os, re, sys

W = r"[^\s(){}.;,\"«»\[\]]+"
TOKEN = re.compile(W)
SIG = re.compile(r"^( *)((?:(?:abbrev|unfoldable|opaque|pub|private)\s+)*)(record |data |ruleset )?(" + W + r")((?: (?:\{[^{}\n]*\}|\([^()\n]*\)))*) :(?= |$)")
LOCALS = {"leaf-size", "min-x", "max-x", "min-y", "max-y", "second-of"}
RATTLES = re.compile(r"^(?:goal|tie|c|l|w|[\w-]+-lts)$")
CODE_STRING = re.compile(r'"(?:[^"\\]|\\.)*"')


def read(p):
    with open(p, encoding="utf-8") as f:
        return f.read()


def cut_comment(line):
    """The code and the comment of a line of antt."""
    m = re.search(r"(?<![^\s(){}.;,\"«»])--(?=\s|-|$).*$", line)
    return (line[: m.start()], line[m.start():]) if m else (line, "")


class File:
    """What one .antt file declares and imports."""

    def __init__(self, path, crate, module, crates):
        self.path, self.crate, self.module = path, crate, module
        self.text = read(path)
        self.declared, self.fields, self.ctors, self.defs, self.labels = set(), set(), set(), set(), set()
        self.imports, self.lib, self.alias = {}, set(), {}
        inside = None
        in_proof = bool(re.search(r"/proofs/.*/(Proof|Answers|Invariants)\.antt$", path))
        for line in self.text.split("\n"):
            code, _ = cut_comment(line)
            m = re.match(r"^ *(?:pub )?(?:open )?use ([^\s{]+?)(?:\.\{(.*)\})?(?: as (" + W + r"))?\s*$", code)
            if m:
                own = (m[1].split(".") + [""])[1] in crates and m[1].startswith("Rattle.")
                generated = bool(re.search(r"\.(Tie|Goals|Given|Reads|Kinds|Statement|Lts\S*|Met)$", m[1])) or ".contracts" in m[1] or ".declared" in m[1]
                for n in (m[2] or "").split(","):
                    n = n.strip()
                    if not n:
                        continue
                    old, _, new = n.partition(" as ")
                    if own and not generated:
                        self.imports[old] = m[1]
                        if new:
                            self.lib.add(new)
                    else:
                        self.lib.add(new or old)
                if m[3] and own and not generated:
                    self.alias[m[3]] = m[1]
                continue
            h = re.match(r"^( *)(?:(?:abbrev|pub) )*(record|data) (" + W + ")", code)
            if h and not SIG.match(code):
                self.declared.add(h[3])
                inside = (len(h[1]), h[2])
                continue
            m = SIG.match(code)
            if m:
                pad, marks, kind, name = len(m[1]), m[2], m[3], m[4]
                while inside and pad <= inside[0]:
                    inside = None
                rest = code[m.end():]
                if inside and inside[1] == "record":
                    self.fields.add(name)
                elif inside and inside[1] == "data":
                    self.ctors.add(name)
                elif kind in ("record ", "data "):
                    self.declared.add(name)
                    inside = (pad, kind.strip())
                elif in_proof and (re.search(r"(?:^|[\s(])(?:tie|goal|[\w-]+-lts)\.", rest) and not re.match(r" *\(\w+ : ", rest) or re.search(r"[-_]spec$", name) or re.search(r"^μ-|^rs$", name) or (re.search(r"-(?:at|below)$", name) and "ℕ → In " in rest)):
                    self.labels.add(name)
                elif in_proof and re.search(r"\.Need-", rest):
                    self.labels.add(name)
                else:
                    self.declared.add(name)
                    if "abbrev" in marks or "unfoldable" in marks:
                        self.defs.add(name)
            elif code.strip() and inside and len(code) - len(code.lstrip()) <= inside[0]:
                inside = None


def spelled(name, lemma, known, plain):
    name = name.replace("′", "'")
    if "-" not in name.strip("-"):
        return name
    if plain or not lemma:
        return re.sub(r"(?<=[^-])-(?=[^-])", "_", name)
    # its parts, and what stands between them; the longest known names, from the left
    parts, between = re.split(r"[-_]", name), re.findall(r"[-_]", name)
    ends, i = {}, 0
    while i < len(parts):
        for j in range(len(parts), i, -1):
            if "_".join(parts[i:j]) in known:
                ends[i] = j
                i = j
                break
        else:
            i += 1
    inside = {k for i, j in ends.items() for k in range(i, j - 1)}
    after = {j - 1 for j in ends.values()}
    out = parts[0]
    for k, (sep, part) in enumerate(zip(between, parts[1:])):
        keep = sep == "-" and k not in inside and k in after and k + 1 in ends
        out += ("-" if keep else "_") + part
    return out


class Respell:
    def __init__(self, root, plain):
        self.root = root
        self.crates = sorted(c for c in os.listdir(os.path.join(root, "crates")) if os.path.isdir(os.path.join(root, "crates", c, "src")))
        self.files = {}
        for c in self.crates:
            for kind in ("specs", "proofs"):
                top = os.path.join(root, "crates", c, kind)
                for p in sorted(glob.glob(os.path.join(top, "**", "*.antt"), recursive=True)):
                    mod = f"Rattle.{c}.{kind}." + os.path.relpath(p, top)[:-5].replace(os.sep, ".")
                    self.files[p] = File(p, c, mod, set(self.crates))
        fs = self.files.values()
        known = set()
        for f in fs:
            known |= f.defs
            for n in f.lib:
                if re.fullmatch(r"[a-z]\w*", n):
                    known.add(n)
        known -= {"not", "id", "cond", "half", "sym", "ap", "refl", "tt", "subst", "of", "is", "at", "one", "none", "some", "more", "same", "first", "last", "left", "right", "rules", "arith", "inl", "inr", "sum", "zero", "suc", "true", "false"}
        defs = set().union(*(f.defs | f.fields | f.ctors for f in fs))
        self.fieldnames = set().union(*(f.fields for f in fs))
        known = {n.replace("-", "_") for n in known | defs}
        names = set().union(*(f.declared | f.fields | f.ctors for f in fs))
        self.table = {}
        for n in names:
            new = spelled(n, n not in defs, known, plain)
            if new != n:
                self.table[n] = new
        self.said, self.clash, self.hit = [], [], set()

    def of_file(self, f):
        """The names that turn in the file, without fields behind a dot: old -> new."""
        mine = {}
        for n, new in self.table.items():
            if n in f.labels or n in f.lib:
                continue
            if n in f.declared or n in f.ctors or n in f.imports or n in f.fields:
                mine[n] = new
        return mine

    def turn_code(self, code, mine, alias, proof):
        def put(m):
            t = m[0]
            new = self.table.get(t)
            if new is None:
                return t
            before = code[: m.start()]
            if before.endswith("."):
                h = re.search(r"(" + W + r")\.$", before)
                head = h[1] if h else ""
                path = re.search(r"((?:" + W + r"\.)+)$", before)
                path = path[1] if path else ""
                if head in alias or path.startswith("Rattle.") and path.split(".")[1] in self.crates:
                    return new
                if proof and RATTLES.match(head) and path.count(".") == 1 and not (head == "l" and t in self.fieldnames and not re.search(r"-(?:is|index|items|iterator|bits|end)$", t)):
                    return t
                return new if t in self.fieldnames else t
            after = code[m.end():]
            # a field of a record: at the head of a line, or behind the brace or a semicolon
            if t in self.fieldnames and t not in mine and re.search(r"(?:^ *(?:pub )?|[{;] *)$", before) and re.match(r"\s*(?:=(?!=)|:(?= ))", after):
                return new
            return mine.get(t, t)

        out, at = [], 0
        for s in CODE_STRING.finditer(code):
            out.append(TOKEN.sub(put, code[at:s.start()]) if at == 0 and not out else self._sub(code, at, s.start(), put))
            out.append(s[0])
            at = s.end()
        out.append(self._sub(code, at, len(code), put))
        return "".join(out)

    def _sub(self, code, a, b, put):
        out, at = [], a
        for m in TOKEN.finditer(code, a, b):
            out.append(code[at:m.start()])
            out.append(put(m))
            at = m.end()
        out.append(code[at:b])
        return "".join(out)

    def turn_prose(self, text, mine, where):
        def put(m):
            core = re.fullmatch(r"([`'*|:]*)(.*?)((?:'s)?[`'*|:?!]*)", m[0])
            new = mine.get(core[2])
            if new is None:
                return m[0]
            self.said.append(f"look: {where}: {core[2]} -> {new} in a comment: {text.strip()[:110]}")
            return core[1] + new + core[3]

        return TOKEN.sub(put, text)

    def antt(self, f, text=None):
        mine = self.of_file(f)
        proof = bool(re.search(r"/proofs/.*/(Proof|Answers|Invariants)\.antt$", f.path))
        # prose may also name what the file's neighbours declare
        prose = {n: new for n, new in self.table.items() if n not in f.lib and n not in f.labels and n in self.of_crate(f.crate)}
        out = []
        for i, line in enumerate((f.text if text is None else text).split("\n")):
            code, comment = cut_comment(line)
            m = re.match(r"^( *(?:pub )?(?:open )?use [^\s{]+?\.\{)(.*)(\}.*)$", code)
            if m:
                mod = re.search(r"use ([^\s{]+?)\.\{", code)[1]
                own = mod.startswith("Rattle.") and mod.split(".")[1] in self.crates and not re.search(r"\.(Tie|Goals|Given|Reads|Kinds|Statement|Lts\S*|Met)$", mod)
                if own:
                    items = [re.sub(r"^" + W, lambda x: self.table.get(x[0], x[0]), n.strip()) for n in m[2].split(",")]
                    code = m[1] + ", ".join(items) + m[3]
            elif re.match(r"^ *(?:pub )?(?:open )?use ", code):
                pass
            else:
                code = self.turn_code(code, mine, f.alias, proof)
            out.append(code + (self.turn_prose(comment, prose, f"{f.path}:{i + 1}") if comment else ""))
        return "\n".join(out), mine

    def of_crate(self, crate):
        if not hasattr(self, "_crate"):
            self._crate = collections.defaultdict(set)
            for f in self.files.values():
                self._crate[f.crate] |= f.declared | f.ctors | f.fields | set(f.imports)
        return self._crate[crate]

    def rt(self, path, text=None):
        text = read(path) if text is None else text
        crate = os.path.relpath(path, os.path.join(self.root, "crates")).split(os.sep)[0]
        imported = set()
        for m in re.finditer(r"ghost use (Rattle\.(\w+)\.[^\s{]+?)\.\{([^}]*)\}", text):
            if m[2] in self.crates:
                imported |= {n.strip().split(" as ")[0] for n in m[3].split(",")}
        mine = {n: self.table[n] for n in imported if n in self.table}
        prose = {n: new for n, new in self.table.items() if n in self.of_crate(crate)}
        out = []
        for i, line in enumerate(text.split("\n")):
            m = re.search(r"(?<!:)//.*$", CODE_STRING.sub(lambda s: "x" * len(s[0]), line))
            code, comment = (line[: m.start()], line[m.start():]) if m else (line, "")
            code = self.turn_code(code, mine, {}, False)
            out.append(code + (self.turn_prose(comment, prose, f"{path}:{i + 1}") if comment else ""))
        return "\n".join(out), mine, imported

    def meets(self, path, text, mine, extra=()):
        """Names that fall together in a file: two that get one spelling, or one that gets a spelling that stands there."""
        by = collections.defaultdict(set)
        for n, new in mine.items():
            by[new].add(n)
        for new, olds in by.items():
            if len(olds) > 1:
                self.clash.append(f"{path}: {', '.join(sorted(olds))} would all be {new}")
                self.hit |= olds
        stands = set()
        for line in text.split("\n"):
            code, _ = cut_comment(line) if path.endswith(".antt") else (re.sub(r"//.*", "", line), "")
            for m in TOKEN.finditer(CODE_STRING.sub("", code)):
                if not code[: m.start()].endswith("."):
                    stands.add(m[0])
        for new, olds in by.items():
            if new in stands or new in extra:
                self.clash.append(f"{path}: {sorted(olds)[0]} would be {new}, which stands there already")
                self.hit |= olds


# What would fall together with a name of the library, and is named by the two names it joins.
CHOSEN = {"is-nan": "is_nan-nan", "bit-or": "bit-bit_or"}


def main(argv):
    chosen = dict(CHOSEN)
    while "--as" in argv:
        i = argv.index("--as")
        a, _, b = argv[i + 1].partition("=")
        chosen[a] = b
        del argv[i: i + 2]
    flags = {a for a in argv if a.startswith("--") and a != "--table"}
    argv = [a for a in argv if a not in flags]
    keep = set()
    while True:
        code, more = once(list(argv), flags, keep, chosen)
        if not more:
            return code
        keep |= more


def once(argv, flags, keep, chosen):
    table = None
    if "--table" in argv:
        i = argv.index("--table")
        table = argv[i + 1]
        del argv[i: i + 2]
    root = os.path.abspath(argv[0] if argv else ".")
    r = Respell(root, "--plain" in flags)
    r.table = {a: chosen.get(a, b) for a, b in r.table.items() if a not in keep}
    new = {}
    for p, f in r.files.items():
        t, mine = r.antt(f)
        if t != f.text:
            new[p] = t
        r.meets(p, f.text, mine)
    for c in r.crates:
        for p in sorted(glob.glob(os.path.join(root, "crates", c, "src", "**", "*.rt"), recursive=True)):
            text = read(p)
            t, mine, imported = r.rt(p)
            if t != text:
                new[p] = t
            # a parameter or a local of the Rust text hides a word of its name in clauses
            for fn in re.finditer(r"\bfn (\w+)(.*?)\n\s*\{", text, re.S):
                params = set(re.findall(r"(?:[(,]\s*|\bmut )(\w+):", fn[2]))
                for n, nn in mine.items():
                    if nn in params and re.search(r"(?<![\w-])" + re.escape(n) + r"(?![\w-])", fn[2]):
                        r.hit.add(n)
                        r.clash.append(f"{p}: in fn {fn[1]} the parameter {nn} would hide {n}")
            r.meets(p, "\n".join(l for l in text.split("\n") if l.startswith("ghost use")), mine)
        for p in sorted(glob.glob(os.path.join(root, "crates", c, "must-fail", "*.edit"))):
            text = read(p)
            target = re.search(r"(?m)^file: (.*)$", text)
            if not target:
                continue
            q = os.path.join(root, "crates", c, target[1].strip())
            if not os.path.exists(q):
                r.said.append(f"look: {p}: no file {target[1]}")
                continue
            lines = []
            for line in text.split("\n"):
                m = re.match(r"^(old: |new: )(.*)$", line)
                if m:
                    got = r.rt(q, m[2] + "\n")[0] if q.endswith(".rt") else r.antt(r.files[q], m[2])[0]
                    if q.endswith(".rt"):
                        mine = r.rt(q)[1]
                        got = r.turn_code(m[2], mine, {}, False)
                    line = m[1] + got.rstrip("\n")
                lines.append(line)
            t = "\n".join(lines)
            if t != text:
                new[p] = t
    for p in r.files:
        if "/specs/" in p or not re.search(r"/(Proof|Answers|Invariants)\.antt$", p):
            text = new.get(p, r.files[p].text)
            t = TOKEN.sub(lambda m: m[0].replace("-", "_") if m[0] in LOCALS else m[0], text)
            if t != text:
                new[p] = t
    if "--docs" in flags:
        for p in [os.path.join(root, "README.md"), *sorted(glob.glob(os.path.join(root, "docs", "*.md")))]:
            if not os.path.exists(p) or os.path.basename(p) == "CHANGES.md":
                continue
            text = read(p)
            t = re.sub(r"`[^`\n]+`", lambda m: TOKEN.sub(lambda x: (lambda core: core[1] + r.table.get(core[2], core[2]) + core[3])(re.fullmatch(r"(`*)(.*?)(`*)", x[0])), m[0]), text)
            if t != text:
                new[p] = t
    for s in sorted(set(r.clash)):
        print("left: " + s.replace(root + "/", ""))
    if r.hit - keep:
        return 1, r.hit
    if table:
        with open(table, "w", encoding="utf-8") as f:
            f.write("".join(f"{a}\t{b}\n" for a, b in sorted(r.table.items())))
    if "--quiet" not in flags:
        for s in sorted(set(r.said)):
            print(s.replace(root + "/", ""))
    print(f"{len(r.table)} names, {len(new)} files; {len(keep)} names stay: {', '.join(sorted(keep))}")
    if "--check" not in flags:
        for p, t in new.items():
            with open(p, "w", encoding="utf-8") as f:
                f.write(t)
    return 0, set()


if __name__ == "__main__":
    raise SystemExit(main(sys.argv[1:]))
