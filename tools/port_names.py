#!/usr/bin/env python3
"""Spells this repository's own antt names as today's Rattle does; run once, after port.py, at the top.

usage: python3 tools/port_names.py [--list]

Definitions, fields and lemmas get snake case: inBox and in-box become in_box. Where a lemma would fall together with the definition
that it is about, it gets _lem. Types keep upper camel case. Goals and steps of a proof that walks the code by hand are left alone:
their names are Rattle's. Every crate gets #![tactic(auto)], and its plain types #[derive(Clone, Copy)], which an older Rattle took for
granted. The texts of must-fail edits and the code spans of the pages are turned alike. --list prints the table and writes nothing.
"""

import collections
import glob
import re
import sys

WORD = r'[^\s(){}.;,@"«»\[\]\\`⌜⌝]+'
DECLARED = re.compile(r"^( *)((?:abbrev |unfoldable |pub |mutual |private |infix[lr]? \d+ )*)([^\s:(){}]+)((?: \{[^{}]*\})*) :(?= |$)(.*)")
HEADED = re.compile(r" *(?:pub |abbrev |unfoldable |mutual )*(record|data|module)\b ?(\S*)")
LAWS = {"T-inside": "t_inside", "T-half": "t_half", "N-pos": "n_pos"}


def read(path):
    with open(path, encoding="utf-8", newline="") as f:
        return f.read()


def snake(name):
    return LAWS.get(name) or re.sub(r"(?<=[a-z0-9])[A-Z]", lambda m: "_" + m[0].lower(), name).replace("-", "_")


def antt():
    return sorted(p for part in ("specs", "proofs") for p in glob.glob(f"crates/*/{part}/**/*.antt", recursive=True))


def declared(path):
    """Yields each name that the file declares, with its kind: definition, field, constructor or type."""
    above = []
    for line in read(path).splitlines():
        if not line.strip() or line.lstrip().startswith("--"):
            continue
        indent = len(line) - len(line.lstrip())
        while above and above[-1][0] >= indent:
            above.pop()
        inside = above[-1][1] if above else ""
        head, name = HEADED.match(line), DECLARED.match(line)
        if head:
            if head[1] != "module":
                yield "type", head[2], line
            above.append((indent, head[1]))
        elif name and (indent == 0 or inside in ("record", "data", "module")):
            yield {"record": "field", "data": "constructor"}.get(inside, "definition"), name[3], name[5].strip()
            above.append((indent, "body"))


def table():
    kinds = collections.defaultdict(set)
    for path in antt():
        walk = path.endswith("/Proof.antt")
        for kind, name, rest in declared(path):
            if not (walk and rest.startswith("tie.")):
                kinds[name].add(kind)
    met = collections.defaultdict(set)
    for path in antt():
        text = read(path)
        names = libraries(text)[0]
        for word in set(re.findall(WORD, text)) & set(kinds):
            met[word] |= names & {snake(word)}
    rows, lemmas = {}, {}
    camel = {snake(n) for n in kinds if re.match("[a-z].*[a-z0-9][A-Z]", n) and "-" not in n}
    for name, of in kinds.items():
        if "type" in of or re.match("[A-Z]", name) and name not in LAWS:
            continue
        new = snake(name)
        if new == name or re.search(r"-(?![\w'])|(?<![\w'])-", name):  # a symbol keeps its dash
            continue
        rows[name] = new
        if "-" in name and "definition" in of and (new in camel or new in ("in_set", "in_range", "place_of") or new in met[name]):
            lemmas[name] = new + "_lem", of
    return rows, lemmas, set(kinds)


def libraries(text):
    """Returns the names that the file takes from a library, and its names for modules of libraries."""
    names, modules = set(), set()
    for path, items, alias in re.findall(r"\buse ([^\s;{]+?)\.?(\{[^}]*\})?(?: as (\S+?))?;?(?=\s|$)", text):
        own = re.match(r"Rattle\.(\w+)", path)
        if own and own[1] in CRATES:
            continue
        for it in re.split(r"[,{}\s]+", items):
            names.add(it)
        if alias:
            modules.add(alias)
    return names, modules


# Names that no declaration of one name a line shows: constructors that share a line, lemmas beneath a where, names of imports and
# bound variables. The last three were garbled before this script.
MORE = {
    it: snake(it).lower()
    for it in """low-y low-z high-x high-y high-z box-corners points-inside points-used corner-numbers neighbour-numbers
    positive-volumes faces-on-walls volumes-add-up cell-count and-not zero-k above-r above-s level-with more-is corner-7 each-face
    zero-times with-b to-less not-one zero-at lin-S lin-L zero-add held-e held-c more-one none-freed no-c no-e no-w no-o none-shared
    every-list-without covers-without listingOf fileNodes plainStart meshAccepted plainOutcome plainInsert plainLook plainList
    isMarked pointCap cellCap""".split()
} | {"Plain-in": "plain_in", "Ac": "AC", "one_Cell": "one_cell"}
ENGLISH = {"star-shaped"}


# Names of a clause or of a constructor where no definition of the same spelling is near.
BY_CRATE = {("on-wall", "calls"), ("on-wall", "pieces")}
# One that is spelled like a field, and isn't one.
NO_FIELD = {("in-range", "crates/geometry/"), ("in-range", "crates/mesh/proofs/Valid.antt")}
BY_NAME = {"first_three": (("crates/insertion/", "crates/corrections/"), "first_three_lem"), "on-sphere": ("crates/pieces_even/", "eight_on_sphere")}


class Turner:
    def __init__(self):
        self.rows, self.lemmas, self.names = table()

    def new(self, word, path, before, after, above=""):
        if path.startswith(BY_NAME.get(word, ("/",))[0]):
            return BY_NAME[word][1]
        if word in MORE:
            return MORE[word]
        if word not in self.rows:
            # port.py turned some in the sources, and no edit or page
            return snake(word) if path.endswith((".edit", ".md")) and word not in self.names and snake(word) in self.names else word
        if word not in self.lemmas:
            return self.rows[word]
        lemma, kinds = self.lemmas[word]
        crate = path.split("/")[1]
        if (word, crate) in BY_CRATE:
            return self.rows[word]
        if "field" not in kinds or any(word == it and path.startswith(of) for it, of in NO_FIELD):
            return lemma
        named = before.endswith(".") or after.startswith(" :") and re.search(r"^ +pub $", before)
        set_to = after.startswith(" =") and re.search(r"(?:[{;]\s*|^ +)$", before) and not re.search(rf"(?m)^{re.escape(before)}{re.escape(word)} :", above)
        return self.rows[word] if named or set_to else lemma

    def turned(self, text, path, where=None):
        names, modules = libraries(text)
        walk = path.endswith("/Proof.antt")
        goals = {n for _, n, rest in declared(path) if rest.startswith("tie.")} if walk else set()

        def one(m):
            word = m[0]
            line = text.rfind("\n", 0, m.start()) + 1
            before = text[line : m.start()]
            if word in names or word in goals and not before.endswith("."):
                return word
            head = re.search(rf"({WORD})\.$", before)
            if head and (head[1] in modules or head[1] == "tie" or head[1] == "goal"):
                return word
            return self.new(word, path, before, text[m.end() : m.end() + 3], text[max(0, line - 900) : line])

        out, at = [], 0
        for c in re.finditer(r"(?m)(?<![^\s(){};,])--(?=\s)[^\n]*|^ *--[^\n]*", text) if path.endswith(".antt") else []:
            out += [self.part(text, at, c.start(), one), self.comment(c[0], path)]
            at = c.end()
        if path.endswith(".antt"):
            return "".join(out) + self.part(text, at, len(text), one)
        return self.part(text, 0, len(text), one)

    @staticmethod
    def part(text, start, end, one):
        got, at = [], start
        for m in re.compile(WORD).finditer(text, start, end):
            got += [text[at : m.start()], one(m)]
            at = m.end()
        return "".join(got) + text[at:end]

    def comment(self, text, path):
        """In prose a name turns unless it is spelled like plain English."""

        def one(m):
            word = m[0]
            if word in ENGLISH or not re.search("-|[a-z0-9][A-Z]", word):
                return MORE.get(word, word) if word == "one_Cell" else word
            if word in self.rows or word in MORE:
                return self.new(word, path, "", "")
            return snake(word) if word not in self.names and snake(word) in self.names else word

        return re.sub(r"[\w'-]*\w", one, text)

    def page(self, text, path):
        def span(m):
            return "`" + re.sub(WORD, lambda w: self.new(w[0], path, "", "") if re.search(r"-|[a-z0-9][A-Z]", w[0]) else w[0], m[1]) + "`"

        return re.sub(r"(?<!`)`([^`\n]+)`(?!`)", span, text)

    def source(self, text, path):
        """A .rt file: in clauses and 'ghost use' items all names, elsewhere those in camel case."""
        dashes = re.compile(r"ghost use [^;]*;|(?:requires|ensures)\*?(?: \w+)? \{.*\}$|ghost[^;]*\{[^}]*\}", re.M)
        text = dashes.sub(lambda m: self.part(m[0], 0, len(m[0]), lambda w: self.new(w[0], path, "", "")), text)
        camel = {**self.rows, **MORE}
        return re.sub(r"[A-Za-z0-9]+", lambda m: camel[m[0]] if m[0] in camel and re.search("[a-z0-9][A-Z]", m[0]) else m[0], text)


def types(text):
    return text.replace("#[derive(Drop)]", "#[derive(Clone, Copy)]")


def tactic(text):
    if "#![tactic(auto)]" in text:
        return text
    head = re.match(r"(?://[^\n]*\n)*", text)[0]
    return head + ("\n" if head else "") + "#![tactic(auto)]\n\n" + text[len(head) :].lstrip("\n")


CRATES = {p.split("/")[1] for p in glob.glob("crates/*/src")}


def main():
    turner = Turner()
    if sys.argv[1:] == ["--list"]:
        for old, new in sorted(turner.rows.items()):
            print(old, turner.lemmas.get(old, (new,))[0], sep="\t")
        return
    out = {}
    for path in antt():
        text = read(path)
        new = turner.turned(text, path)
        out[path] = new
        olds, together = {}, set()
        for a, b in zip(re.findall(WORD, text), re.findall(WORD, new)):
            if olds.setdefault(b, a) != a:
                together.add((b, olds[b], a))
        for it in sorted(together):
            print("together:", path, *it)
    for path in glob.glob("crates/*/src/**/*.rt", recursive=True):
        out[path] = types(turner.source(read(path), path))
    for path in [*glob.glob("crates/*/src/lib.rt"), *glob.glob("crates/*/src/main.rt")]:
        out[path] = tactic(out[path])
    for path in glob.glob("crates/*/must-fail/*.edit"):
        out[path] = "\n".join(turner.part(l, 0, len(l), lambda w: turner.new(w[0], path, "", "")) if re.match("(old|new): ", l) else l for l in read(path).split("\n"))
    for path in ["README.md", *glob.glob("docs/*.md")]:
        out[path] = turner.page(read(path), path)
    changed = 0
    for path, text in out.items():
        if text != read(path):
            changed += 1
            with open(path, "w", encoding="utf-8", newline="") as f:
                f.write(text)
    print(f"port_names: {len(turner.rows)} names, {changed} files")


if __name__ == "__main__":
    main()
