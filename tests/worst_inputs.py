"""What worst.py tries: trees that are written as specifications and items at any scale, and how they are changed."""
import copy
import dataclasses
import re

from random_orders import head

MOST_PARTS = 120
MOST_BRACKETS, MOST_CONTAINERS = 120, 250

# How the parts of a specification are put together: what is before, between and behind them.
TEXTS = {
    "rules": ("", "\n", "\n"), "words": ("", " ", ""), "list": ("", ", ", ""), "choice": ("", " / ", ""), "groups": ("", " // ", ""),
    "[": ("[", " ", "]"), "{": ("{", " ", "}"), "(": ("(", " ", ")"), "<": ("<", " ", ">"), "&": ("&(", " ", ")"), "tag": ("#6.1(", " ", ")"),
    "?": ("? (", " ", ")"), "*": ("* (", " ", ")"), "held": ("bstr .cbor (", " ", ")"), "sequence": ("bstr .cborseq [", " ", "]"),
    "[g": ("[b // b / [", " ", "]]"), "{g": ("{1: b // 1 => b / {", " ", "}}"), "and": ("(", " .and ", ")"), "plus": ("(", " .plus ", ")"), "cat": ("(", " .cat ", ")"),
}
ROWS_OF_TEXT = ("rules", "words", "list", "list", "choice", "groups")
WORDS = (
    "int uint nint tstr bstr any bool null float16 .size .bits .cbor .cborseq .and .within .lt .le .gt .ge .eq .ne .default .cat .det .plus "
    "= /= //= => : ^ , / // * + ? ~ & 1*2 2* *3 .. ... 0 1 -1 65536 18446744073709551615 @ @@ 'a' \"b\" h'00' a@ a@@ b c $s $$g").split()
OPENING = {"[": "]", "{": "}", "(": ")", "<": ">"}
TOKEN = re.compile(
    r""";[^\n]*|"(?:[^"\\]|\\.)*"|(?:h|b64)?'(?:[^'\\]|\\.)*'|\n(?=[$@\w])|[ \t\r\n]+"""
    r"""|\#6(?:\.\d+)?\(|\#(?:\d\.?\d*)?|\d*\*\d*|-?\d\w*|\.{2,3}|\.?[$@\w][-.$@\w]*(?<![-.])|/{1,2}=|//|=>|.""", re.S)

# The containers of items, and the strings that hold items, which may be in each other without a limit.
AROUND = ("array", "open array", "key", "open key", "value", "tag", "map", "string", "chunk", "array in a string")
STRINGS = ("string", "chunk", "array in a string")
LEAVES = ("0", "number", "text", "long", "negative", "bytes", "true", "null", "float", "same")


@dataclasses.dataclass
class Node:
    """Parts that are put together by their kind: once, or as often as the scale says, in a row or in each other."""
    kind: str
    parts: list
    times: float = 0
    is_nested: bool = False

    def count(self, scale):
        return max(1, round(scale * self.times)) if self.times else 1

    def depth(self, most):
        """How often it is in itself, where that has a limit: the same at any scale."""
        return max(1, round(most * min(1, self.times)))


def nodes_of(tree):
    found = [tree]
    for part in tree.parts:
        if isinstance(part, Node):
            found += nodes_of(part)
    return found


def leaves_of(tree):
    return [it for node in nodes_of(tree) for it in node.parts if isinstance(it, str)]


def is_scaled(tree):
    return any(it.times and (not it.is_nested or it.kind in STRINGS) for it in nodes_of(tree))


def parts_at(tree, scale):
    """About how many leaves it has when it is written."""
    if isinstance(tree, str):
        return 1
    inside = sum(parts_at(it, scale) for it in tree.parts)
    count = tree.count(scale)
    return inside + (count if tree.kind in STRINGS else MOST_BRACKETS) if tree.is_nested else count * (inside + 1)


def text_of(tree, scale):
    """The specification, without spaces where there may be none: before arguments, and behind the number of a tag."""
    return re.sub(r" (?=<)|(?<=>) (?=\()", "", spaced(tree, scale))


def spaced(tree, scale, index=0):
    """The same with a space between all parts. In leaves '@' is the number of the row that they are in, and '@@' the next one."""
    if isinstance(tree, str):
        return tree.replace("@@", str(index + 1)).replace("@", str(index))
    before, between, after = TEXTS[tree.kind]
    if tree.is_nested:
        count = tree.depth(MOST_BRACKETS)
        return before * count + between.join(spaced(it, scale, index) for it in tree.parts) + after * count
    rows = range(tree.count(scale)) if tree.times else [index]
    between_parts = " " if tree.times and tree.kind != "rules" else between
    return before + between.join(between_parts.join(spaced(it, scale, row) for it in tree.parts) for row in rows) + after


def tree_of(text):
    """The tree of a specification: its rules, and in them what is in brackets."""
    rules, open_nodes = Node("rules", []), []
    for token in TOKEN.findall(text):
        if token == "\n" and len(open_nodes) == 1 or not open_nodes:
            open_nodes = [Node("words", [])]
            rules.parts.append(open_nodes[0])
        if token in OPENING or token.startswith("#6") and token.endswith("("):
            open_nodes.append(Node(token if token in OPENING else "tag", []))
            open_nodes[-2].parts.append(open_nodes[-1])
        elif token in OPENING.values() and len(open_nodes) > 1:
            open_nodes.pop()
        elif token.strip() and not token.startswith(";"):
            open_nodes[-1].parts.append(token)
    return rules


def leaf_bytes(leaf, scale, index):
    if leaf in ("long", "same"):
        text = b"a" * scale + (b"%d" % index if leaf == "long" else b"")
        return head(3, len(text)) + text
    made = {"number": head(0, index), "negative": head(1, index), "true": b"\xf5", "null": b"\xf6", "float": b"\xf9\x3c\x00"}
    if leaf in ("text", "bytes"):
        text = b"k%d" % index
        return head(3 if leaf == "text" else 2, len(text)) + text
    return made.get(leaf) or b"\0"


def around(kind, length):
    """What is before and behind one item of this length that this is put round."""
    return {
        "array": (b"\x81", b""), "open array": (b"\x9f", b"\xff"), "key": (b"\xa1", b"\0"), "open key": (b"\xbf", b"\0\xff"),
        "value": (b"\xa1\0", b""), "tag": (b"\xc1", b""), "map": (b"\xa2\1\0\2", b""), "string": (head(2, length), b""),
        "chunk": (b"\x5f" + head(2, length), b"\xff"), "array in a string": (head(2, length + 1) + b"\x81", b""),
    }[kind]


def items_of(tree, scale, index=0):
    """The bytes of the items, in a list."""
    if isinstance(tree, str):
        return [leaf_bytes(tree, scale, index)]
    rows = [index] if tree.is_nested or not tree.times else range(tree.count(scale))
    items = [it for row in rows for part in tree.parts for it in items_of(part, scale, row)]
    if tree.kind == "words":
        return items
    if tree.is_nested:
        return [nested(tree.kind, tree.count(scale) if tree.kind in STRINGS else tree.depth(MOST_CONTAINERS), items)]
    if tree.kind in ("array", "open array"):
        return [head(4, len(items)) + b"".join(items) if tree.kind == "array" else b"\x9f" + b"".join(items) + b"\xff"]
    if tree.kind in ("map", "key", "value", "open key"):
        items += [b"\0"] * (len(items) % 2)
        return [head(5, len(items) // 2) + b"".join(items) if tree.kind != "open key" else b"\xbf" + b"".join(items) + b"\xff"]
    if tree.kind == "chunk":
        return [b"\x5f" + b"".join(head(2, len(it)) + it for it in items) + b"\xff"]
    held = b"".join(items) if tree.kind != "array in a string" else head(4, len(items)) + b"".join(items)
    return [b"\xc1" + (held or b"\0") if tree.kind == "tag" else head(2, len(held)) + held]


def nested(kind, count, items):
    """The items with this kind round them so often."""
    before, behind, length = [], [], len(b"".join(items))
    for _ in range(count):
        front, back = around(kind, length)
        before.append(front)
        behind.append(back)
        length += len(front) + len(back)
    return b"".join(reversed(before)) + b"".join(items) + b"".join(behind)


@dataclasses.dataclass
class Language:
    """What trees are changed by: what may be repeated in a row, what may be put round parts, and leaves."""
    rows: tuple
    wrappers: tuple
    leaves: tuple


SPECIFICATION = Language(ROWS_OF_TEXT, tuple(it for it in TEXTS if it not in ROWS_OF_TEXT), WORDS)
ITEM = Language(("words",), AROUND, LEAVES)


def times(chance):
    return chance.choice([0.125, 0.25, 0.5, 1, 1, 1, 2, 4, 8])


def numbered(chance, tree, leaf):
    """Gives each row its own name or number in the place of a leaf: wherever that is, or in one place the next row's."""
    name = "@" if leaf.isdigit() else f"{leaf}@"
    places = [(node, k) for node in nodes_of(tree) for k, it in enumerate(node.parts) if it == leaf]
    for node, k in places:
        node.parts[k] = name
    if chance.random() < 0.3:
        node, k = chance.choice(places)
        node.parts[k] = name.replace("@", "@@")


def changed_once(chance, tree, language, other):
    node = chance.choice(nodes_of(tree))
    start = chance.randrange(len(node.parts) + 1)
    end = min(len(node.parts), start + chance.choice([1, 1, 1, 2, 3, 5]))
    part, kind = node.parts[start:end], chance.randrange(12)
    far = chance.choice(nodes_of(tree))
    if kind < 3 and part:
        node.parts[start:end] = [Node(chance.choice(language.rows), part, times(chance))]
    elif kind == 3 and part:
        node.parts[start:end] = [Node(chance.choice(language.wrappers), part, times(chance), True)]
    elif kind == 4:
        node.parts[start:end] = [Node(chance.choice(language.wrappers), part)]
    elif kind == 5:
        far.parts.insert(chance.randrange(len(far.parts) + 1), Node("words", copy.deepcopy(part)))
    elif kind == 6:
        node.parts[start:end] = []
    elif kind == 7:
        node.parts[start:end] = [chance.choice(leaves_of(tree) + list(language.leaves))]
    elif kind == 8:
        node.parts.insert(start, chance.choice(leaves_of(tree) + list(language.leaves)))
    elif kind == 9 and part and isinstance(part[0], str) and "@" not in part[0]:
        numbered(chance, tree, part[0])
    elif kind == 10:
        scaled = [it for it in nodes_of(tree) if it.times]
        if scaled:
            chance.choice(scaled).times = times(chance)
    else:
        rules = [it for it in nodes_of(other) if it.parts]
        if rules:
            node.parts.insert(start, copy.deepcopy(chance.choice(rules)))


def changed(chance, tree, language, other):
    """A copy of the tree that was changed a few times."""
    tree = copy.deepcopy(tree)
    for _ in range(chance.choice([1, 1, 1, 2, 2, 3])):
        changed_once(chance, tree, language, other)
    return tree


def without_each(tree):
    """The trees with one part less, each once, and those with a part in the place of what is round it."""
    for number, node in enumerate(nodes_of(tree)):
        for k in range(len(node.parts)):
            less = copy.deepcopy(tree)
            parts = nodes_of(less)[number].parts
            gone = parts.pop(k)
            yield less
            if isinstance(gone, Node) and gone.parts and node.kind != "rules":
                more = copy.deepcopy(less)
                nodes_of(more)[number].parts[k:k] = gone.parts
                yield more


def spec(*parts):
    """The tree of a specification in which some parts are rows: a kind, how often for each unit of the scale, and a text."""
    names = [part if isinstance(part, str) else f"row{k}" for k, part in enumerate(parts)]
    tree = tree_of("".join(names))
    for node in nodes_of(tree):
        for k, part in enumerate(node.parts):
            if part in names and part.startswith("row"):
                kind, often, text = parts[names.index(part)]
                node.parts[k] = Node(kind, tree_of(text).parts[0].parts, often)
    return tree


SPECIFICATIONS = [
    spec("r = [", ("list", 1, "m<@>"), "]\nm<t> = [", ("choice", 8, "t"), "]"),
    spec("r = [", ("list", 1, "{@: a, g}"), "]\na = int\ng = (", ("list", 4, "? @ => a"), ")"),
    spec("r = [", ("list", 1, "{1: 1, q}"), "]\nq = (", ("groups", 0.5, "@: 1"), ")"),
    spec("r = [", ("list", 1, "bstr .size (s / @)"), "]\ns = ", ("choice", 2, "@")),
    spec("r = [", ("list", 1, "s9 .cat '@'"), "]\ns0 = 'i'\n", "\n".join(f"s{k + 1} = s{k} .cat s{k}" for k in range(9))),
    spec("r = [p<", ("list", 1, "0"), ">]\np<", ("list", 1, "a@"), "> = [", ("list", 1, "a@"), "]"),
    spec("r = [", ("list", 1, "a@"), "]\n", ("rules", 1, "a@ = [a@@]"), "\na0 = int"),
    spec("r = ", ("choice", 1, "{* @ => r, ? b: tstr}")),
    spec("r = int\n", ("rules", 1, "r /= [@]")),
    spec("r = [", ("groups", 1, "@, int"), "]"),
]
ITSELF = "r = [* r] / {* r => r} / #6.1(r) / bstr .cbor r / bool / int / tstr"
ITEMS = [
    (spec("t = int / bstr .cbor t"), Node("string", ["0"], 1, True)),
    (spec("t = int / bstr .cbor t / bstr .cbor t"), Node("string", ["long"], 0.01, True)),
    (spec("t = int / bstr .cborseq [* t] / [* t]"), Node("array in a string", ["0"], 1, True)),
    (spec("r = {", ("list", 1, "? @ => int"), "}"), Node("map", [Node("words", ["number", "0"], 1)])),
    (spec("r = [* (", ("choice", 0.1, '"k@"'), ")]"), Node("array", [Node("words", ["text"], 1)])),
    (spec(ITSELF), Node("array", [Node("key", ["number"], 1, True)])),
    (spec(ITSELF), Node("map", [Node("words", [Node("map", ["number", "0"]), "0"], 1)])),
    (spec(ITSELF), Node("array", [Node("array", ["text"], 1)])),
    (spec("r = [* int, * int, int]"), Node("array", [Node("words", ["number"], 1)])),
    (spec("r = {* (1..9 / tstr) => any, * int => int}"), Node("map", [Node("words", ["number", "text"], 1)])),
]
