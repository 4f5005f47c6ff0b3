"""The one-token changes of the definitions of some crates, for .ci/one-token, which states what is changed to what.

The definitions are read for names and types only: enough that most changes are well formed. Types that differ in name are taken to be different,
but for the names of runs of bytes (Mailbox, Sector, Record ..), which are expanded.
"""
import math
import re
from pathlib import Path
from typing import NamedTuple

from sources import ROOT

# the crates of which definitions are drawn, by the last of them, as they depend on each other; what is below them is read, for its types, and not changed
CRATES = {"store": ("wire", "sector_check", "model", "store"), "trace_lines": ("wire", "console", "timing", "trace_lines")}
READ_ONLY = ("wire", "console")
EXAMPLES = "Examples"
TOKEN = re.compile(r"\.\w+|[^\s(){};,.]+")              # `d.visible` has two
# tokens of one type, each from the Prelude
PRELUDE = "use Rattle.std.specs.Prelude.{"
GROUPS = [group.split() for group in ("+ - *", "* ^", "/ %", "≤ <", "&& ||", "true false", "eqb leb ltb")]
LEFT_OUT = ("not", "suc")


class Name(NamedTuple):
    type: str
    constructor: bool = False
    value: int | None = None        # of a constant that is a number


def imported(token, text):
    """Whether a file imports a token from the Prelude."""
    name = token if token.isalpha() else f"◌{token}◌"
    return re.search(rf"^{re.escape(PRELUDE)}(?:.*, )?{re.escape(name)}[,}}]", text, re.M) is not None


class Change(NamedTuple):
    path: Path
    start: int
    old: str
    new: str

    def __str__(self):
        before = self.path.read_text(encoding="utf-8")[:self.start]
        place = f"{before.count(chr(10)) + 1}:{self.start - before.rfind(chr(10))}"
        return f"{self.path.relative_to(ROOT)}:{place}: {self.old} -> {self.new or '(nothing)'}"

    def applied(self):
        """The file's text with the change, and with the import that it may need."""
        text = self.path.read_text(encoding="utf-8")
        text = text[:self.start] + self.new + text[self.start + len(self.old):]
        if any(self.new in group for group in GROUPS) and not imported(self.new, text):
            name = self.new if self.new.isalpha() else f"◌{self.new}◌"
            text = text.replace(PRELUDE, f"{PRELUDE}{name}, ", 1)
        return text


def arguments(kind):
    """The types of a function's explicit arguments."""
    parts, depth = [""], 0
    for letter in kind:
        depth += (letter in "({") - (letter in ")}")
        if letter == "→" and depth == 0:
            parts.append("")
        else:
            parts[-1] += letter
    return [p.strip() for p in parts[:-1] if not p.strip().startswith("{")]


def in_logic(kind):
    """The type of the definitions that a type of the code is."""
    return "Bool" if kind == "bool" else "ℕ" if re.fullmatch(r"u\d+|usize", kind) else kind


def value_of(words, names):
    """The number that a sum of products of numbers and constants is; None for another term."""
    try:
        words = re.sub(r"\b[A-Za-z]\w*", lambda m: str(names[m[0]].value), words)
        return sum(math.prod(int(factor, 0) for factor in part.split(" * ")) for part in words.split(" + "))
    except (KeyError, ValueError):
        return None


class Definitions:
    """The definitions of the crates, read in their order. sites has, for each token that can be changed, its changes."""

    def __init__(self, last):
        self.modules, self.records, self.types, self.sites = {}, [], {}, []
        for crate in CRATES[last]:
            self.read_code(crate)
            folder = ROOT / "crates" / crate / "specs"
            for module in re.findall(r"^pub mod (\w+)", (folder / "Lib.antt").read_text(encoding="utf-8"), re.M):
                self.changed = crate not in READ_ONLY and module != EXAMPLES
                self.read(folder / f"{module}.antt", self.modules.setdefault((crate, module), {}))

    def read_code(self, crate):
        """The enums and structs of the code, which definitions name too: constructors and fields."""
        for path in sorted((ROOT / "crates" / crate / "src").glob("*.rt")):
            for kind, name, body in re.findall(r"^pub (enum|struct) (\w+) \{\n(.*?)^\}", path.read_text(encoding="utf-8"), re.M | re.S):
                if kind == "struct":
                    self.records.append({field: in_logic(of) for field, of in re.findall(r"pub (\w+): (\w+)", body)})
                else:
                    self.modules[crate, f"declared.{path.stem}.{name}.TheVariants"] = {
                        variant: Name(" → ".join([in_logic(of) for of in re.findall(r"\w+: (\w+)", fields)] + [name]), constructor=True)
                        for variant, fields in re.findall(r"^    (\w+)(.*),$", body, re.M)}

    def read(self, path, declared):
        """A file: an item is a line at the margin with the indented lines after it."""
        text = re.sub(r"(?m)(?<!\S)--(?: .*|$)", lambda m: " " * len(m[0]), path.read_text(encoding="utf-8"))
        scope = {}
        for item in re.finditer(r"^\S.*\n(?:(?:[ \t].*)?\n)*", text, re.M):
            words = item[0]
            if of := re.match(r"use Rattle\.(\w+)\.specs\.([\w.]+)\.\{(.*)\}", words):
                known = self.modules.get((of[1], of[2]), {})
                for name, _, alias in (one.partition(" as ") for one in of[3].split(", ")):
                    if name in known:
                        scope[alias or name] = known[name]
            elif re.match(r"pub data ", words):
                declared.update((name, Name(self.expanded(kind), constructor=True)) for name, kind in re.findall(r"^  (\S+) : (.*)", words, re.M))
            elif record := re.match(r"pub record \w+ (.*): Type 0 where\n", words):
                if record[1]:
                    self.find(path, text, item.start() + record.end(), item.end(), scope | declared, self.binders(words))
                else:
                    self.records.append({name: self.expanded(kind) for name, kind in re.findall(r"^  pub (\S+) : (.*)", words, re.M)})
            elif signature := re.match(r"(?:abbrev|unfoldable) (?:pub )?(\S+) : (.*(?:\n .*)*)", words):
                declared[signature[1]] = Name(self.expanded(signature[2]))
            elif clause := re.match(r"(\S+)( .*?)? =\s", words):
                name, body, kind = clause[1], words[clause.end():].strip(), declared[clause[1]].type
                others = {n: d for n, d in (scope | declared).items() if n != name}
                if kind == "Type 0" and re.fullmatch(r"[\w×ℕ ]+", body):
                    self.types[name] = body
                if kind == "ℕ":
                    declared[name] = Name(kind, value=value_of(body, others))
                local = dict.fromkeys(re.findall(r"\w+(?= =\s)|(?<=λ )\w+", body)) | self.binders(words)
                self.bind(re.findall(r"[()]|[^\s()]+", clause[2] or ""), arguments(kind), others, local)
                self.find(path, text, item.start() + clause.end(), item.end(), others, local)

    def expanded(self, kind):
        """A type with the names of runs of bytes as what they are."""
        return " ".join(re.sub(r"\w+", lambda m: self.types.get(m[0], m[0]), kind).split())

    def binders(self, words):
        """The variables that are bound with their types: (first : ℕ)."""
        return {name: self.expanded(kind) for names, kind in re.findall(r"\(([\w ]+) : ([^()]*)\)", words) for name in names.split()}

    def bind(self, tokens, types, names, local):
        """The variables of patterns, with their types; None where it is not known."""
        place = 0
        while tokens:
            token = tokens.pop(0)
            if token == "(":
                end = next(i for i in range(len(tokens)) if tokens[:i + 1].count(")") > tokens[:i + 1].count("("))
                inner, tokens = tokens[:end], tokens[end + 1:]
                known = inner[0] in names and names[inner[0]].constructor
                self.bind(inner[known:], arguments(names[inner[0]].type) if known else [], names, local)
            elif not (token in names and names[token].constructor):
                local[token] = types[place] if place < len(types) else None
            place += 1

    def find(self, path, text, start, end, names, local):
        """The tokens between two places of a file. Names that are being bound, and levels of types, stay."""
        tokens = list(TOKEN.finditer(text, start, end)) if self.changed else []
        for before, token, after in zip([None] + tokens, tokens, tokens[1:] + [None]):
            if after and after[0] in ("=", ":") or before and before[0] in ("λ", "Type") or text[token.start() - 1] == "{":
                continue
            if found := [Change(path, token.start(), token[0], new) for new in self.others(token[0], text, names, local)]:
                self.sites.append(found)

    def others(self, token, text, names, local):
        """What a token can be changed to."""
        if number := re.fullmatch(r"(0x)?([0-9A-F]+)", token):
            value = int(number[2], 16 if number[1] else 10)
            form = f"0x{{:0{len(number[2])}X}}" if number[1] else "{}"
            return [form.format(n) for n in (value + 1, value - 1) if n >= 0]
        if token in LEFT_OUT:
            return [""]
        if token.startswith("."):
            fields = {f for r in self.records if token[1:] in r for f in r if r[f] == r[token[1:]]}
            return [f".{f}" for f in sorted(fields - {token[1:]})]
        if token in local:
            return [v for v in sorted(local) if v != token and local[v] and local[v] == local[token]]
        if token in names:
            old = names[token]
            return [n for n in sorted(names) if n != token and n not in local and names[n].type == old.type != "Type 0"
                    and (old.value is None or names[n].value != old.value)]
        if not imported(token, text):
            return []
        return [other for group in GROUPS if token in group for other in group if other != token]
