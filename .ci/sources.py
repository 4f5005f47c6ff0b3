"""What the checks in this directory read: prototypes of a C header, functions of Rattle files."""
import re
import sys
from pathlib import Path
from typing import NamedTuple

ROOT = Path(__file__).resolve().parent.parent
HEADER = ROOT / "include" / "sct_disk.h"
CONVENTION = "SCT_CALL"     # the header's macro for the calling convention, which every prototype needs
# How an outcome becomes a number, where it is more than done or refused.
NUMBERED = {"sct_work": "result_of({})", "sct_repair": "result_of({}.map(|report| report as u32))"}


class Fault(Exception):
    """What a check has found. Its words are printed, and the check fails."""


class Parameter(NamedTuple):
    name: str
    type: str


class Prototype(NamedTuple):
    name: str
    parameters: list
    result: str


class Function(NamedTuple):
    where: str          # file:line
    name: str
    exported: bool      # has #[unsafe(no_mangle)]
    foreign: bool       # extern "C"
    public: bool
    parameters: list
    result: str         # "" where there is none
    body: str


def run(check):
    """Runs a check. It gives its last line, or None where there is no more to print; or it raises a Fault."""
    name = Path(sys.argv[0]).name
    try:
        if words := check():
            print(f"{name}: {words}")
    except Fault as fault:
        sys.exit(f"{name}: {fault}")
    except OSError as error:
        sys.exit(f"{name}: {error}")


def end_of_group(text, start):
    """The place after the bracket that closes the one at start."""
    closing = {"(": ")", "[": "]", "{": "}"}
    wanted = []
    for place in range(start, len(text)):
        if text[place] in closing:
            wanted.append(closing[text[place]])
        elif wanted and text[place] == wanted[-1]:
            wanted.pop()
            if not wanted:
                return place + 1
    raise Fault(f"a bracket is not closed: {text[start:start + 40]!r}")


def split_at_commas(text):
    """The parts of a list between commas, without those inside brackets."""
    parts, depth, part = [], 0, ""
    for letter in text:
        depth += (letter in "([{") - (letter in ")]}")
        if letter == "," and depth == 0:
            parts.append(part.strip())
            part = ""
        else:
            part += letter
    parts.append(part.strip())
    return [p for p in parts if p]


def blanked(match):
    """Spaces in the place of what is not to be read. Line ends stay, so that lines keep their numbers; so does extern "C"."""
    return match[0] if match[0].startswith("extern") else re.sub(r"[^\n]", " ", match[0])


# ---- C

def c_words(text):
    """A C type with one space between its words: const uint8_t *."""
    return " ".join(re.findall(r"\w+|\*", text))


def prototypes(path=HEADER):
    """The prototypes of a header that has, besides them, only directives, enums and static inline functions."""
    text = re.sub(r"/\*.*?\*/|//[^\n]*", blanked, path.read_text(encoding="utf-8"), flags=re.S)
    text = re.sub(r"^[ \t]*#(?:[^\n]*\\\n)*[^\n]*", blanked, text, flags=re.M)
    text, opened = re.subn(r'extern\s+"C"\s*\{', "", text)
    while "{" in text:
        text, count = re.subn(r"\{[^{}]*\}\s*;?", "@;", text)     # @: a body
        if count == 0:
            raise Fault(f"{path.name}: a brace is not closed")
    if text.count("}") != opened:
        raise Fault(f"{path.name}: a brace too many")
    found = []
    for statement in text.replace("}", "").split(";"):
        statement = " ".join(statement.split())
        if not statement or re.fullmatch(r"(?:enum \w+|static inline [^@]*) ?@", statement):
            continue
        match = re.fullmatch(rf"([\w\s*]+?)\b{CONVENTION} (\w+) ?\(([^()]*)\)", statement)
        if match is None:
            raise Fault(f"{path.name}: neither a prototype with {CONVENTION} nor an enum nor a static inline function: {statement!r}")
        parameters = []
        for part in split_at_commas(match[3]):
            if part == "void":
                continue
            one = re.fullmatch(r"(.*[\s*])(\w+)", part)
            if one is None:
                raise Fault(f"{path.name}: {match[2]}: a parameter with no name: {part!r}")
            parameters.append(Parameter(one[2], c_words(one[1])))
        found.append(Prototype(match[2], parameters, c_words(match[1])))
    return found


# ---- Rattle

FUNCTION = re.compile(r"""
    (?P<marks> (?:\#\[[^\]]*\]\s*)* )
    (?P<public> \bpub\s+ )?
    (?P<foreign> \bextern\s+"C"\s+ )?
    \bfn\s+ (?P<name>\w+) \s* (?:<[^>]*>)? \s* (?=\()
    """, re.X)


def rattle_type(text):
    """A type with one space between its words and no lifetimes: &mut [u8]."""
    return " ".join(re.sub(r"'\w+\s*", "", text).split())


def functions(path):
    """The functions of a Rattle file, in their order."""
    where = path.relative_to(ROOT)
    text = re.sub(r'''extern\s+"C"|"(?:[^"\\]|\\.)*"|b'(?:[^'\\]|\\.)'|//[^\n]*''', blanked, path.read_text(encoding="utf-8"))
    found, place = [], 0
    while match := FUNCTION.search(text, place):
        line = text.count("\n", 0, match.end()) + 1
        after = end_of_group(text, match.end())
        parameters = []
        for part in split_at_commas(text[match.end() + 1:after - 1]):
            name, _, kind = part.partition(":")
            parameters.append(Parameter(name.removeprefix("mut ").strip(), rattle_type(kind)))
        result = re.compile(r"\s*(?:->\s*([^{]+?)\s*)?(?=\brequires\b|\bensures\b|\{)").match(text, after)
        if result is None:
            raise Fault(f"{where}:{line}: {match['name']} has no body")
        place = result.end()
        while clause := re.compile(r"\s*(?:requires|ensures)\b[^{]*").match(text, place):
            place = end_of_group(text, clause.end())
        body = text.index("{", place)
        found.append(Function(
            f"{where}:{line}", match["name"], "#[unsafe(no_mangle)]" in match["marks"], bool(match["foreign"]), bool(match["public"]),
            parameters, rattle_type(result[1] or ""), text[body:end_of_group(text, body)]))
        place = body
    if len(re.findall(r'\bextern\s+"C"', text)) != sum(f.foreign for f in found):
        raise Fault(f"{where}: an extern \"C\" that is no function")
    return found


def crate_files(crate):
    """The Rattle files of a crate."""
    files = sorted((ROOT / "crates" / crate / "src").rglob("*.rt"))
    if not files:
        raise Fault(f"crates/{crate}/src has no file")
    return files


def passed_on(crate, below):
    """The functions of a crate that exports those of the one below: each calls the function of its name there, with each of its parameters once, in
    their order, gives the outcome by number, and does nothing else."""
    found = [f for path in crate_files(crate) for f in functions(path)]
    for function in found:
        parameters = ", ".join(p.name for p in function.parameters)
        call = NUMBERED.get(function.name, "answer_of({})").format(f"{below}::{function.name}({parameters})")
        if re.sub(r"\s", "", function.body).replace(",)", ")") != "{" + call.replace(" ", "") + "}":
            raise Fault(f"{function.where}: {function.name} is not {call} and nothing else")
    return found


def listed_crates():
    """The crates of crates.txt in their order, each with those that it depends on. Behind a name may stand what is made of it: staticlib."""
    lines = [line.partition("#")[0] for line in (ROOT / "crates.txt").read_text(encoding="utf-8").splitlines()]
    return {head.split()[0]: rest.split() for head, colon, rest in (line.partition(":") for line in lines) if colon}


def with_dependencies(crate):
    """The crate and those below it, by crates.txt."""
    listed = listed_crates()
    reached, todo = [], [crate]
    while todo:
        name = todo.pop()
        if name in listed and name not in reached:
            reached.append(name)
            todo += listed[name]
    if not reached:
        raise Fault(f"crates.txt does not list {crate}")
    return sorted(reached)
