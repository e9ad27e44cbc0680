"""Finds the functions of a Rattle source in the layout of 'rt fmt', and the names that a check gives them.

In that layout the body of a function is opened at the end of a line of its head, or by a line that begins with '{' under
it, and ends at the first line with the head's indentation and then '}'.
"""
import re
from dataclasses import dataclass, replace

HEAD = re.compile(r"( *)(?:pub(?:\([^)]*\))? )?((?:const |unsafe |extern \"C\" )*)fn (\w+)")
BLOCK = re.compile(r"( *)(?:pub(?:\([^)]*\))? )?(?:unsafe )?(impl|trait|mod)\b")
TYPE = re.compile(r" *(?:pub(?:\([^)]*\))? )?(?:struct|enum) (\w+)")
CYCLE = re.compile(r" *#\[cycle\((\w+)\)\]")
# A type or a trait, as its name stands in that of an impl.
NAMED = re.compile(r"\b(?:[A-Z]\w*|[iu](?:8|16|32|64|128|size)\b|bool\b|char\b|str\b)")


@dataclass(frozen=True)
class Function:
    """A function with a body. It begins at the line 'first' with what is above its head, and has its head at 'head';
    its body begins after the line 'opens' and ends at 'last', all counted from 0.

    The path is what a check prints below the crate: modules, the type or impl of a method, and the name. It is empty where
    the text does not tell it, as for a body in a trait, which each impl takes over."""

    file: str
    name: str
    path: tuple
    first: int
    head: int
    opens: int
    last: int
    cycle: str
    is_const: bool
    is_of_trait: bool

    def is_named(self, symbol):
        """Tells whether a name in a check's lines, less the crate, is of this function or of a closure in it."""
        words, at = symbol.split("::"), len(self.path) - self.depth()
        return tuple(words) == self.path or (*self.path[:at], "fn", *self.path[at:]) == tuple(words[: len(self.path) + 1])

    def depth(self):
        """How many words of the path come after the modules."""
        return 2 if len(self.path) > 1 and self.path[-2][:1].isupper() else 1

    def called(self, name):
        """A copy of this function under another name, at the same lines. It is in no cycle of calls."""
        return replace(self, name=name, path=(*self.path[:-1], name), cycle="")

    def holds(self, file, hunk):
        """Tells whether all lines of a change are in the body."""
        return file == self.file and self.opens < hunk[0] and hunk[1] <= self.last

    def proof(self):
        """The path of the function's proof, as another proof would name it."""
        at = len(self.path) - self.depth()
        return ".".join([*self.path[:at], f"+{self.cycle}"] if self.cycle else self.path)

    def proof_of_calls(self):
        """The path of the function's proof where it calls itself, and names no cycle."""
        return ".".join([*self.path[:-1], f"+{self.name}"])

    def group(self):
        """What has one proof: the functions of a cycle of calls, or the function alone."""
        return ("cycle", self.cycle) if self.cycle else (self.file, str(self.opens))


def functions_of(texts):
    """The functions of a crate, inner ones left out, from the texts of its files by their paths, as 'src/lib.rt'."""
    homes = {}
    for file, text in texts.items():
        for line in text.split("\n"):
            found = TYPE.match(line)
            if found:
                homes.setdefault(found[1], set()).add(module_of(file))
    return [it for file, text in texts.items() for it in in_file(file, text.split("\n"), homes)]


def in_file(file, lines, homes):
    found, blocks, at = [], [], 0
    while at < len(lines):
        blocks = [it for it in blocks if it[0] >= at]
        head, block = HEAD.match(lines[at]), BLOCK.match(lines[at])
        if head:
            opens, last = body_of(lines, at, head[1])
            if last is not None:
                path = path_of(module_of(file), blocks, head[3], homes)
                first, cycle = above(lines, at)
                is_of_trait = any(kind == "trait" or " for " in words for _, kind, words in blocks)
                found.append(Function(file, head[3], path, first, at, opens, last, cycle, "const" in head[2], is_of_trait))
                at = last
        elif block:
            opens, last = body_of(lines, at, block[1])
            if last is not None:
                blocks.append((last, block[2], " ".join(it.strip() for it in lines[at : opens + 1])))
        at += 1
    return found


def body_of(lines, at, indent):
    """The lines where the item's body is opened and where it ends, or twice None where it has none."""
    for opens in range(at, len(lines)):
        text = lines[opens].rstrip()
        is_head = opens == at or text.startswith((f"{indent})", f"{indent}where", f"{indent}{{"))
        if is_head and text.endswith(";") and "{" not in text:
            return None, None
        if is_head and text.endswith("}"):
            return opens, opens
        if is_head and text.endswith("{"):
            ends = (it for it in range(opens + 1, len(lines)) if lines[it].startswith(f"{indent}}}"))
            return opens, next(ends, len(lines) - 1)
        if opens > at and text.startswith(indent) and HEAD.match(text):
            return None, None
    return None, None


def module_of(file):
    """The path of the module that a file below src/ holds."""
    words = file[len("src/") : -len(".rt")].split("/")
    return tuple(words[:-1] if words[-1] in ("lib", "main", "mod") else words)


def path_of(module, blocks, name, homes):
    """The path of a function in these blocks, each with its last line, kind and head. A method is in the module of its type."""
    inner = tuple(re.search(r"mod (\w+)", head)[1] for _, kind, head in blocks if kind == "mod")
    around = [(kind, head) for _, kind, head in blocks if kind != "mod"]
    if not around:
        return (*module, *inner, name)
    if len(around) > 1 or around[0][0] == "trait":
        return ()
    kind, shown = impl_of(around[0][1])
    home = homes.get(kind, set())
    # a type of this module hides those of its name elsewhere
    home = home & {module} or home
    return (*next(iter(home)), shown, name) if len(home) == 1 and not inner else ()


def impl_of(head):
    """The type of an impl, and the name that a check gives the impl: the type, the trait and the types in its angles."""
    text = head.split("impl", 1)[1].strip().removesuffix("{").split(" where ")[0].strip()
    generics = re.match(r"<(?:[^<>]|<[^<>]*>)*>", text)
    text = text[generics.end() :].strip() if generics else text
    own = set(NAMED.findall(re.sub(r":[^,>]*", "", generics[0]))) if generics else set()
    trait, _, kind = text.rpartition(" for ")
    kind = re.sub(r"<.*>", "", kind).strip()
    return kind, kind + "".join(it[0].upper() + it[1:] for it in NAMED.findall(trait) if it not in own)


def above(lines, at):
    """The first line of what is above the function's head, and the cycle of calls that it names, or an empty text."""
    first, cycle = at, ""
    while first and lines[first - 1].strip() and not ends_an_item(lines[first - 1]):
        first -= 1
        found = CYCLE.match(lines[first])
        cycle = found[1] if found else cycle
    return first, cycle


def ends_an_item(line):
    return line.rstrip().endswith(("{", "}", ";")) and not line.lstrip().startswith("//")
