"""Appends the texts that Rattle writes piece by piece: a `write!` into a text is a `push_str`."""
from .scanner import Source


def with_push_str(text, name):
    """Returns the text of the file `name` with `text.push_str(&format!(..))` for each `write!(text, ..)`.

    The target of a `write!` in an implementation of a trait of `fmt` is `f`. That stays.
    """
    source = Source(text, name)
    for i in source.code:
        opening = source.after(i, 2)
        if source.text[i] not in ("write", "writeln") or not source.reads(source.after(i), "!", "("):
            continue
        target, comma, literal = (source.after(opening, count) for count in (1, 2, 3))
        if source.text[target] == "f":
            continue
        if source.at(comma) != "," or not source.at(literal).startswith('"'):
            source.refuse(i, "a `write!` of an unknown form")
        if source.text[i] == "writeln":
            source.new[literal] = source.text[literal][:-1] + '\\n"'
        source.replace(i, source.before(literal), f"{source.text[target]}.push_str(&format!(")
        source.new[source.partner[opening]] = ")?)"
    return source.result()
