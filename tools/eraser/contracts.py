"""Drops contracts: clauses, ghost items, models, tactics, laws, and each `Drop` that only names fields."""
import re

from .functions import functions_of
from .scanner import Source
from .table import NOT_IN_PLAIN_RUST

# The body of an implementation of `Drop` that drops each field and does nothing else, word by word.
FIELDS = r"(\{ (\w+ : _ ,? ?)*\}|\( (_ ,? ?)*\))"
PLAIN_DROP = re.compile(
    r"\{ fn drop \( self \) \{ "
    rf"(let \w+ {FIELDS} = self ;|match self \{{ ((\w+ :: \w+ ({FIELDS} )?\|? ?)+=> \{{ \}} ,? ?)+\}}) \}} \}}"
)


def without_contracts(text, name):
    """Returns the text of the file `name` without contracts."""
    source = Source(text, name)
    for function in functions_of(source):
        _drop_clauses(source, function)
    for i in source.code:
        if source.is_dropped[i]:
            continue
        if source.text[i] == "ghost":
            source.drop_item(i, _ghost_end(source, i))
        elif source.text[i] == "impl":
            _on_implementation(source, i)
        elif source.text[i] == "mod" and source.at(source.after(i)) in NOT_IN_PLAIN_RUST:
            source.drop_item(source.first_of_item(i), source.after(i, 2))
        elif source.reads(i, "#", "[", "tactic") or source.reads(i, "#", "!", "[", "tactic"):
            source.drop_line(i, source.partner[source.find(i, "[")])
        elif source.reads(i, "fmt", "<", "W", ":"):
            source.drop(source.after(i), source.closing_angle(source.after(i)))
        elif source.reads(i, "Formatter", "<", "W", ">"):
            source.new[source.after(i, 2)] = "'_"
    return source.result()


def _drop_clauses(source, function):
    """Drops the clauses of a function, and the comments between them."""
    if function.clauses:
        first, last = function.clauses[0][0], function.clauses[-1][1]
        for i in range(source.before(first) + 1, source.after(last)):
            source.is_dropped[i] = first <= i <= last or source.kind[i] == "comment"


def _ghost_end(source, i):
    """Returns the last token of the ghost item that begins at `i`."""
    is_definition = source.at(source.after(i, 2)) in (":", "=") and source.at(source.after(i, 3)) == "{"
    end = source.find(i, ";", ",", "}")
    if source.at(end) == "}" or not (is_definition or source.at(source.after(i)) == "use"):
        source.refuse(i, "a ghost item of an unknown form")
    return end


def _on_implementation(source, i):
    """Drops the implementation at `i` if it is a model, or a `Drop` that only drops each field.

    A `Drop` that does more is left as it is. Rust refuses it, since its `drop` takes `self`.
    """
    at, brace = source.after_generics(source.after(i)), source.find(i, "{")
    body = " ".join(source.words(brace, source.partner[brace]) + ["}"])
    is_plain_drop = source.reads(at, "Drop", "for") and PLAIN_DROP.fullmatch(body)
    if is_plain_drop or source.reads(at, "Model", "for"):
        source.drop_item(i, source.partner[brace])
