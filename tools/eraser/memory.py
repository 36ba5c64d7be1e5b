"""Drops allocators, and refusals of memory: `Result<T, AllocError>` becomes `T`. `?` and `Ok(..)` follow."""
from .calls import Calls, called_name
from .functions import functions_of
from .scanner import Source
from .values import Values


def without_refusals(texts):
    """Returns the texts of all files, in which every function with the result `Result<T, AllocError>` returns `T`."""
    sources = {name: Source(text, name) for name, text in texts.items()}
    functions = {name: functions_of(source) for name, source in sources.items()}
    calls = Calls(functions)
    for name, source in sources.items():
        for function in functions[name]:
            _edit(source, function, calls)
    return {name: source.result() for name, source in sources.items()}


def _edit(source, function, calls):
    """Drops the refusals of memory of one function."""
    if function.is_plain:
        _edit_result(source, function)
    if not function.body:
        return
    settled = Values(source, function, calls).edit() if function.is_plain else set()
    for i in source.between(*function.body):
        close = source.before(i)
        if source.text[i] == "?" and not source.is_dropped[i] and calls.is_plain(source, close, function):
            source.is_dropped[i] = True
            settled.add(close)
    for i in source.between(*function.body):
        close = source.partner.get(i)
        if source.text[i] == "(" and not source.is_dropped[i] and close not in settled:
            if calls.is_plain(source, close, function):
                source.refuse(i, f"the Result of `{called_name(source, close)[0]}` is looked at")


def _edit_result(source, function):
    """Takes the result `Result<T, AllocError>` to `T`."""
    first, last = function.type[0], function.type[-1]
    if function.returns_unit:
        source.drop(function.arrow, last)
    else:
        source.drop(first, function.type[1])
        source.drop(function.type[-3], last)


def without_allocators(text, name):
    """Returns the text of the file `name` without the parameters and arguments `alloc`."""
    source = Source(text, name)
    for i in source.code:
        before, after = source.before(i), source.after(i)
        if source.text[i] != "alloc" or "::" in (source.at(before), source.at(after)):
            continue
        if source.at(before) == "in":
            source.drop(before, after)
        else:
            source.drop_argument(i, source.after(after) if source.reads(after, ":", "Global") else i)
    return source.result()
