"""The proof of a function that is in a cycle of calls, or calls itself, for a copy of it that does neither: the copy calls the
functions of the cycle, itself among them, which stay as they are.

In a cycle the names of a function's answers and invariants begin with the function's. An answer takes one argument more there, what
is known of the cycle's functions, which none of them names. And where the function calls one of the cycle, an answer says that the
calls end, beside what the called one requires: so for a copy none of that is asked, and it says nothing of such an edit.
"""
import re

from bare_lemmas import FOLLOWS, items_in, with_hole

ARGUMENT = re.compile(r"^(\S+(?: [a-zA-Z]\w*)*) t ([a-z]) =", re.MULTILINE)


def without_recursion(text, name, cycle):
    """The text of a file of the function's proof, or of that of its cycle, which is of these functions or of none, for the copy."""
    either = "|".join(cycle or [name])
    of = re.compile(rf"(?:(?:abbrev|pub|unfoldable) )*(invariant-|decreases-|)({either})(-|(?![\w-]))")
    asks = re.compile(rf"(?:pub )?({f'{name}-' if cycle else ''}(?:{either})-requires\S*)( : )?")
    made, is_left_out = [], False
    for item in items_in(text.split("\n")):
        first = item[0].strip()
        found, asked = of.match(first), asks.match(first)
        if not first.startswith("unfolding "):
            is_measure = found and found[1] == "decreases-" and not found[3]
            is_of_another = cycle and found and found[3] and found[2] != name
            is_left_out = bool(is_measure or is_of_another or asked and not asked[2])
        made += [] if is_left_out else [*item, f"{asked[1]}{FOLLOWS}", ""] if asked else item
    left = with_hole(made) if any(it.endswith(FOLLOWS) for it in made) else "\n".join(made)
    if cycle:
        left = re.sub(rf"(?<![\w-])((?:invariant-|decreases-)?){name}-(?=[a-z])", r"\1", left)
    return ARGUMENT.sub(r"\1 \2 =", left)
