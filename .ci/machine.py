"""What the checks in this directory read of a built archive: its sections, its functions as instructions with their operands, and
how an instruction follows another."""
import os
import re
import subprocess
from typing import NamedTuple

from sources import Fault

SIZES = {"BYTE": 1, "WORD": 2, "DWORD": 4, "QWORD": 8, "XMMWORD": 16}
LETTERS = {"rax": "a", "rbx": "b", "rcx": "c", "rdx": "d"}

NOTHING = re.compile(r"nop|endbr64|xchg ax,ax")
JUMP = re.compile(r"j(?!r?cxz|ecxz)\w+")
UNREACHED = "ud2"           # where the code is proved not to come: a way ends there, and gives no answer


def register_parts():
    """Every name of a register with the whole register's name and the bytes that the name means."""
    parts = {f"xmm{n}": (f"xmm{n}", 16) for n in range(16)}
    for whole, letter in LETTERS.items():
        parts |= {f"{letter}l": (whole, 1), f"{letter}h": (whole, 1), f"{letter}x": (whole, 2), f"e{letter}x": (whole, 4), whole: (whole, 8)}
    for name in ("si", "di", "bp", "sp"):
        parts |= {f"{name}l": (f"r{name}", 1), name: (f"r{name}", 2), f"e{name}": (f"r{name}", 4), f"r{name}": (f"r{name}", 8)}
    for n in range(8, 16):
        parts |= {f"r{n}b": (f"r{n}", 1), f"r{n}w": (f"r{n}", 2), f"r{n}d": (f"r{n}", 4), f"r{n}": (f"r{n}", 8)}
    return parts


PARTS = register_parts()


class Register(NamedTuple):
    name: str           # the whole register
    size: int           # of the part that is meant, in bytes


class Number(NamedTuple):
    value: int


class Memory(NamedTuple):
    size: int           # in bytes; 0 where the instruction does not state it (lea)
    base: str           # whole registers, "" where there is none
    index: str
    scale: int
    shift: int          # the constant that is added


class Target(NamedTuple):
    symbol: str         # a function or a section, "" for the section of the instruction
    at: int             # the distance from it


class Instruction(NamedTuple):
    at: int
    words: str          # as objdump prints it
    name: str
    operands: list
    target: Target      # of a jump or call, else None
    constant: Target    # what the linker fills in, where it is no jump or call; else None
    after: int          # the address of the next one


class Routine(NamedTuple):
    name: str
    section: str
    code: dict          # address to Instruction, in order


class Section(NamedTuple):
    name: str
    size: int
    flags: set          # objdump's words, such as ALLOC and READONLY


class Relocation(NamedTuple):
    kind: str
    to: Target


def output(*words):
    """The lines that a program prints."""
    try:
        done = subprocess.run(words, env={**os.environ, "LC_ALL": "C"}, capture_output=True, text=True)
    except FileNotFoundError:
        raise Fault(f"{words[0]} is not here")
    if done.returncode != 0:
        raise Fault(f"{words[0]}: {done.stderr.strip()}")
    return done.stdout.splitlines()


def number(text):
    """A number, below zero where it is a negative one of 64 bits."""
    value = int(text, 0)
    return value - (1 << 64) if value >= 1 << 63 else value


def memory(size, text):
    """The operand between the brackets of [rax+rcx*8-0x10]; rip means a constant of the archive."""
    base, index, scale, shift = "", "", 1, 0
    for sign, term in re.findall(r"([+-]?)([^+-]+)", text):
        register, star, factor = term.partition("*")
        if star:
            index, scale = PARTS[register][0], int(factor)
        elif register in PARTS or register == "rip":
            base = PARTS.get(register, ("", 0))[0]
        else:
            shift += number(term) * (-1 if sign == "-" else 1)
    return Memory(size, base, index, scale, shift)


def operand(text):
    """An operand, or None where it is of no kind that is read here."""
    if text in PARTS:
        return Register(*PARTS[text])
    if re.fullmatch(r"-?(?:0x[0-9a-f]+|\d+)", text):
        return Number(number(text))
    match = re.fullmatch(r"(?:(\w+) PTR )?\[([^\]]+)\]", text)
    if match is None or match[1] not in (None, *SIZES):
        return None
    names = re.findall(r"\b[a-z]\w*", match[2])
    if any(name != "rip" and PARTS.get(name, ("", 0))[1] != 8 for name in names):
        return None
    return memory(SIZES.get(match[1], 0), match[2])


def linked(line):
    """What the linker fills in at the end of an instruction, which counts from 4 bytes before the next one; or None."""
    match = re.search(r"\t[0-9a-f]+: R_X86_64_\w+\t(.+?)([-+]0x[0-9a-f]+)?$", line)
    if match is None and "R_X86_64" in line:
        raise Fault(f"what is linked is not understood: {line.strip()}")
    return Target(match[1], int(match[2] or "0", 16) + 4) if match else None


def target(line, rest):
    """Where a jump or call goes."""
    to = re.fullmatch(r"([0-9a-f]+) <.*>", rest)
    return (linked(line) or Target("", int(to[1], 16))) if to else None


def instruction(line):
    """An instruction, still without the address of the next one, or None where the line is none."""
    match = re.fullmatch(r"\s*([0-9a-f]+):\t([^\t#]*?)\s*(?:#[^\t]*)?(?:\t.*)?", line)
    if match is None:
        return None
    words = re.sub(r"^(?:(?:data16|cs) )+(?=nop)|^notrack (?=jmp)", "", " ".join(match[2].split()))
    name, _, rest = words.partition(" ")
    goes = target(line, rest)
    operands = [operand(part) for part in re.split(r",(?![^\[]*\])", rest)] if rest and not goes else []
    return Instruction(int(match[1], 16), words, name, operands, goes, None if goes else linked(line), -1)


def routines(archive):
    """The functions of an archive, by name. It has one member, so that a section's name means one section."""
    found, section, routine = {}, "", None
    lines = output("objdump", "-drwz", "--no-show-raw-insn", "-M", "intel", archive)
    if sum("file format" in line for line in lines) != 1:
        raise Fault(f"{archive} has not one member")
    for line in lines:
        if head := re.fullmatch(r"Disassembly of section (.*):", line):
            section = head[1]
        elif label := re.fullmatch(r"[0-9a-f]+ <(.*)>:", line):
            if label[1] in found:
                raise Fault(f"{archive} has two functions {label[1]}")
            routine = found[label[1]] = Routine(label[1], section, {})
        elif routine and (one := instruction(line)):
            routine.code[one.at] = one
    return {name: with_ends(routine) for name, routine in found.items()}


def with_ends(routine):
    """The routine with the address of the next instruction in each."""
    places = [*routine.code, -1]
    code = {at: routine.code[at]._replace(after=after) for at, after in zip(places, places[1:])}
    return routine._replace(code=code)


def routine_at(code, section, place):
    """The routine that a jump or call in this section goes to, or None where no routine begins there."""
    for routine in code.values():
        named = (routine.name, 0) == (place.symbol, place.at)
        placed = (routine.section, next(iter(routine.code))) == (place.symbol or section, place.at)
        if named or placed:
            return routine
    return None


def spread(first, state, step, joined):
    """Follows the flow from the address `first` until nothing new comes up. A step gives the state after the instruction at
    an address and the addresses that may come next; what two ways bring to one address is joined."""
    states, todo = {first: state}, [first]
    while todo:
        at = todo.pop()
        after, places = step(at, states[at])
        for place in places:
            known = states.get(place)
            states[place] = joined(known, after) if known is not None else after
            if states[place] != known:
                todo.append(place)


def sections(archive):
    """The sections of an archive."""
    found = []
    for line in output("objdump", "-hw", archive):
        if match := re.fullmatch(r"\s*\d+ (.+?) +([0-9a-f]{8,}) +[0-9a-f]+ +[0-9a-f]+ +[0-9a-f]+ +2\*\*\d+ *(.*)", line):
            found.append(Section(match[1], int(match[2], 16), set(match[3].split(", "))))
        elif re.match(r"\s*\d+ ", line):
            raise Fault(f"a section is not understood: {line.strip()}")
    return found


def relocations(archive):
    """What the linker fills in, by section and place."""
    found, section = {}, ""
    for line in output("objdump", "-rw", archive):
        if head := re.fullmatch(r"RELOCATION RECORDS FOR \[(.*)\]:", line):
            section = found.setdefault(head[1], {})
        elif match := re.fullmatch(r"([0-9a-f]+) (R_\w+) +(.+?)([-+]0x[0-9a-f]+)?", line):
            section[int(match[1], 16)] = Relocation(match[2], Target(match[3], int(match[4] or "0", 16)))
        elif " R_" in line:
            raise Fault(f"what is linked is not understood: {line.strip()}")
    return found
