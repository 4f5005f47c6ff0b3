"""What .ci/check-arrays reads: the functions of libraries as rattle has built them, with the types of their locals and the functions that
they call. Their MIR lies in the library's folder, out/rlib/NAME.rlib/toolchain/mir.json, that of the kit's libraries in the kit's rlibs/; from
it rattle compiles what it links.

A generic function is read once for all that is filled in at a call: types, numbers, and the implementations of the traits that it needs.
A form that is not known is a fault, so that nothing is passed over.
"""
import json
import subprocess
from pathlib import Path
from typing import NamedTuple

from sources import ROOT, Fault, with_dependencies

POINTER = 8     # bytes; a usize has as many


class Plain(NamedTuple):
    """A number, a bool, a pointer, a reference: it lies at a multiple of its size."""
    text: str
    size: int


class Array(NamedTuple):
    element: object
    count: int


class Shape(NamedTuple):
    """A struct, with one list of fields, or an enum, with one for each variant, which lie over one another behind the tag."""
    name: str
    tag: int        # bytes
    variants: list


class Function(NamedTuple):
    name: str
    parameters: int     # how many
    locals: list        # types: of the result, of the parameters, of variables and temporaries
    calls: list         # names


# The MIR does not tell a signed number from an unsigned one, nor a usize from a u64.
NUMBERS = {8: Plain("u8", 1), 16: Plain("u16", 2), 32: Plain("u32", 4), 64: Plain("u64", 8)}
WORDS = {"Bool": Plain("bool", 1), "Unit": Plain("()", 0), "Ptr": Plain("a pointer", POINTER)}
REFERENCE = Plain("a reference", POINTER)
HOMES = ("ValueLocal", "MemorySlot")
# The words of a function's body that call nothing, name no function and declare no local.
BODY = set("""
    Seq Skip Return If Switch Block Loop Exit Assign Unreachable
    local steps Field Variant Deref SizeOf Copy AddrOf Aggregate Repeat Lit Opd Op1 Op2 Offset
    Int width value Float bits Unit True False Unsigned Cast Not And Or Xor Shl Shr Add Sub Mul Div Rem Eq Ne Lt Le CountOnes FloatLt
    """.split())


# ---- forms

def shown(form):
    """A form for a message."""
    text = json.dumps(form)
    return text if len(text) <= 100 else text[:100] + ".."


def part(form, head, kind, count=None):
    """What stands in a form under its one word, of a kind, and of so many parts."""
    if isinstance(form, dict) and list(form) == [head]:
        found = form[head]
        if type(found) is kind and (count is None or len(found) == count):
            return found
    raise Fault(f"MIR: not a form {head}: {shown(form)}")


def field(form, name, kind):
    """A field of a record of the MIR."""
    if not isinstance(form, dict) or type(form.get(name)) is not kind:
        raise Fault(f"MIR: no field {name}: {shown(form)}")
    return form[name]


# ---- what is filled in

def one_of(choices, number, form):
    if type(number) is not int or number >= len(choices):
        raise Fault(f"MIR: nothing is filled in for {shown(form)}")
    return choices[number]


def filled_in(form, types, dicts):
    """A form of a generic function or type, with the types and implementations in the places of its parameters."""
    if isinstance(form, list):
        return [filled_in(one, types, dicts) for one in form]
    if not isinstance(form, dict):
        return form
    if list(form) == ["Param"]:
        return one_of(types, form["Param"], form)
    if list(form) == ["Given"]:
        return one_of(dicts, form["Given"], form)
    return {word: filled_in(one, types, dicts) for word, one in form.items()}


class Call(NamedTuple):
    """A function that is called, and what is filled in, as text."""
    name: str
    types: str = "[]"
    dicts: str = "[]"


# ---- libraries

def kit():
    """The folder of the kit, in which the page is that rt doc names."""
    return Path(subprocess.run(["rt", "doc"], stdout=subprocess.PIPE, text=True, check=True).stdout.strip()).parent


class Libraries:
    """A crate and those below it, as they were last built, and the kit's libraries, each read when its first function is met; with the types and
    the implementations that the functions met so far have named."""

    def __init__(self, crate):
        self.crate = crate
        self.crates = with_dependencies(crate)
        self.forms = {}             # by library, by name
        self.definitions = {}
        self.methods = {}           # the names of an implementation's functions

    def library(self, name):
        if name not in self.forms:
            folder = ROOT / "crates" / name / "out" / "rlib" if name in self.crates else kit() / "rlibs"
            path = folder / f"{name}.rlib" / "toolchain" / "mir.json"
            if not path.is_file():
                raise Fault(f"{name} is not built: .ci/archive builds it")
            self.forms[name] = dict(json.loads(path.read_text(encoding="utf-8")))
        return self.forms[name]

    def declare(self, known, one, what):
        """Keeps what a function says of a type or an implementation, which every other must say too."""
        name = field(one, "name", str)
        if known.setdefault(name, what) != what:
            raise Fault(f"MIR: {name} is declared in two ways")

    def function(self, call):
        """The function that is called, with all filled in."""
        forms = self.library(call.name.partition("::")[0])
        if call.name not in forms:
            raise Fault(f"the MIR of {self.crate} and the crates below has no function {call.name}")
        form = forms[call.name]
        generics = field(form, "generics", dict)
        for one in field(form, "types", list):
            self.declare(self.definitions, one, one)
        for one in field(generics, "impls", list):
            self.declare(self.methods, one, field(one, "methods", list))
        types, dicts = json.loads(call.types), json.loads(call.dicts)
        if (len(types), len(dicts)) != (len(field(generics, "types", list)), len(field(generics, "bounds", list))):
            raise Fault(f"MIR: {call.name} has other parameters than are filled in")
        kinds = []
        for local in field(form, "locals", list):
            if field(local, "home", str) not in HOMES:
                raise Fault(f"MIR: {call.name} has a local that is not known: {shown(local)}")
            kinds.append(type_of(filled_in(local.get("ty"), types, dicts), self.definitions))
        body = filled_in(field(form, "body", list), types, dicts)
        return Function(call.name, field(form, "params", int), kinds, calls(body, call.name, self.methods))


# ---- types

def named_type(form, definitions):
    """A declared struct or enum, with its arguments in the places of its parameters. An enum's tag is one byte: so the kit's logic lays it out."""
    head, arguments = part(form, "Named", list, 2)
    name = field(head, "name", str)
    if name not in definitions:
        raise Fault(f"MIR: a type that has no definition: {shown(form)}")
    definition = definitions[name]
    if field(definition, "type_params", int) != len(arguments) or field(definition, "const_params", list):
        raise Fault(f"MIR: a type with other arguments than its definition has: {shown(form)}")
    shape = filled_in(field(definition, "shape", dict), arguments, [])
    if list(shape) == ["Fields"]:
        return Shape(name, 0, [types(part(shape, "Fields", list), definitions)])
    return Shape(name, 1, [types(fields, definitions) for fields in part(shape, "Variants", list)])


def types(forms, definitions):
    return [type_of(one, definitions) for one in forms]


def type_of(form, definitions):
    if isinstance(form, str) and form in WORDS:
        return WORDS[form]
    head = next(iter(form)) if isinstance(form, dict) and form else None
    if head == "Int" and part(form, head, int) in NUMBERS:
        return NUMBERS[form[head]]
    if head == "Ref":
        return REFERENCE
    if head == "Array":
        element, length = part(form, head, list, 2)
        return Array(type_of(element, definitions), part(length, "Const" if "Const" in length else "Lit", int))
    if head == "Struct":
        name, fields = part(form, head, list, 2)
        return Shape(name, 0, [types(fields, definitions)])
    if head == "Named":
        return named_type(form, definitions)
    raise Fault(f"MIR: a type that is not known: {shown(form)}")


# ---- functions

def called(form, at, methods):
    """The function that is called: by name, or as one of an implementation's, which has what is filled in for that too."""
    types, dicts = [], []
    if isinstance(form, dict) and list(form) == ["Method"]:
        implementation, number, filled = part(form, "Method", list, 3)
        name, types, dicts = part(implementation, "Impl", list, 3)
        if name not in methods:
            raise Fault(f"MIR: {at} has an implementation that is not declared: {name}")
        name = one_of(methods[name], number, form)
    elif isinstance(form, dict) and list(form) == ["Fn"]:
        name, filled = part(form, "Fn", list, 2)
    else:
        raise Fault(f"MIR: {at} has a call of what is not known: {shown(form)}")
    if list(filled) != ["types", "dicts"]:
        raise Fault(f"MIR: {at} has a call of what is not known: {shown(form)}")
    return Call(name, json.dumps(types + filled["types"]), json.dumps(dicts + filled["dicts"]))


def calls(body, at, methods):
    """The calls of a body, in their order. The type behind a Deref is that of what a pointer leads to, and no local; from that behind a SizeOf only a
    number is made, and what a NumOf has is one."""
    found, todo = [], [body]
    while todo:
        form = todo.pop()
        if isinstance(form, list):
            todo += reversed(form)
        elif isinstance(form, dict) and list(form) == ["Call"]:
            what, *others = part(form, "Call", list, 3)
            found.append(called(what, at, methods))
            todo += reversed(others)
        elif isinstance(form, dict) and list(form) == ["NumOf"]:
            part(part(form, "NumOf", list, 2)[1], "Const", int)
        elif isinstance(form, dict):
            todo += [*(form[word] for word in reversed(form) if word not in ("Deref", "SizeOf")), *form]
        elif isinstance(form, str) and form not in BODY:
            raise Fault(f"MIR: {at} has a form that is not known here: {form}")
    return found


def reached(start, apart):
    """The functions that a function calls, and those that they call, with itself, in the order in which they are met, a generic one for each
    filling; but for the function `apart`, and what only that calls."""
    libraries = Libraries(start.partition("::")[0])
    found, todo = {}, [Call(start)]
    while todo:
        call = todo.pop()
        if call in found or call.name == apart:
            continue
        found[call] = libraries.function(call)
        todo += reversed(found[call].calls)
    return list(found.values())
