"""Gives types, methods and calls the names that they have in Rust."""
from .calls import called_name
from .functions import functions_of
from .scanner import Source
from .table import EMPTY_STATEMENTS, RENAMED_CALLS, RENAMED_TYPES
from .type_table import RENAMED_CALLS_OF, RENAMED_METHODS


def with_names(text, name):
    """Returns the text of the file `name` with the names of the tables, and without calls that do nothing."""
    source = Source(text, name)
    for function in functions_of(source):
        if function.path in RENAMED_METHODS:
            source.new[source.after(function.fn_token)] = RENAMED_METHODS[function.path]
    for i in source.code:
        if source.text[i] in RENAMED_TYPES:
            source.new[i] = RENAMED_TYPES[source.text[i]]
        elif source.text[i] in EMPTY_STATEMENTS and source.at(source.before(i)) == ".":
            source.drop_line(source.before(i, 2), source.after(i, 3))
        elif source.text[i] == "(":
            _rename(source, i)
    return source.result()


def _rename(source, opening):
    """Puts the name of a table in place of that of the call whose arguments begin at `opening`."""
    name, qualified = source.before(opening), called_name(source, source.partner[opening])[0]
    if qualified in RENAMED_CALLS:
        new, _, after = RENAMED_CALLS[qualified].partition("(..)")
        source.replace(source.before(name, 2), name, new)
        source.new[source.partner[opening]] += after
    elif source.at(source.before(opening, 2)) == ".":
        source.new[name] = RENAMED_CALLS_OF.get(source.name, {}).get(qualified, source.new[name])
