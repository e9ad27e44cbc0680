"""Functions that a check can do without, since nothing names them that it is asked of. Each that is there, even with no body and no
proof, costs it some twenty modules, of what the function states, is and is called by.
"""
import re

IMPORT = re.compile(r"^ *(?:pub(?:\([^)]*\))? )?use [^;]*;", re.MULTILINE)
GHOST = re.compile(r"^ *ghost use [^;]*;", re.MULTILINE)
# An import of one name, or of names in braces of one path.
PLAIN = re.compile(r"( *(?:pub(?:\([^)]*\))? )?use )([\w:]*)(?:\{([^{}]*)\}| as \w+)?;")
REMARK = re.compile(r"^\s*//.*$", re.MULTILINE)
CITED = re.compile(r"\b(?:contracts|proofs)\.([\w.+]+)")


def unreached(sources, bare, texts, cited):
    """Those of the bare functions that no source names but in their own lines and in imports, nor one of these other texts of code,
    and of which none of these texts of proofs and definitions cites a contract or a proof."""
    words = set().union(*(words_beside(text, [it for it in bare if it.file == file]) for file, text in sources.items()))
    words |= {word for text in texts for word in re.findall(r"\w+", REMARK.sub("", text))}
    paths = {path for text in cited for path in CITED.findall(text)}
    return [it for it in bare if it.name not in words and not any(is_below(path, it) for path in paths)]


def words_beside(text, functions):
    """The words of a source without these functions, remarks, and imports that can be made shorter."""
    lines = text.split("\n")
    for it in functions:
        lines[it.first : it.last + 1] = [""] * (it.last + 1 - it.first)
    rest = REMARK.sub("", GHOST.sub("", "\n".join(lines)))
    return set(re.findall(r"\w+", IMPORT.sub(lambda it: "" if PLAIN.fullmatch(it[0]) else it[0], rest)))


def is_below(path, function):
    """Whether a path that is cited is of this function, or of what it has."""
    return any(f"{path}.".startswith(f"{it}.") for it in (".".join(function.path), function.proof()))


def shorter_imports(text, names, others):
    """The changes of a source's lines that take these names out of its imports, but for those from these other crates."""
    found = []
    for item in IMPORT.finditer(text):
        plain = PLAIN.fullmatch(item[0])
        if not plain or plain[2].split("::")[0] in others:
            continue
        parts = [it.strip() for it in (plain[3] or "").split(",") if it.strip()]
        kept = [it for it in parts if it.split(" as ")[0].split("::")[-1] not in names]
        first, after = text.count("\n", 0, item.start()), text.count("\n", 0, item.end()) + 1
        if plain[3] is None and plain[2].split("::")[-1] in names or parts and not kept:
            found.append((first, after, []))
        elif len(kept) < len(parts):
            found.append((first, after, [f"{plain[1]}{plain[2]}{{{', '.join(kept)}}};"]))
    return found
