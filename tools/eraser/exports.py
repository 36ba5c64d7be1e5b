"""Takes the slices that C passes to an export apart: a pointer and a length."""
from .functions import functions_of
from .scanner import Source


def with_pointers(text, name):
    """Returns the text of the file `name`, in which exports take `x: &[T]` as a pointer and a length."""
    source = Source(text, name)
    for function in functions_of(source):
        words = source.words(function.first, function.fn_token)
        if '"C"' in words and function.body:
            _take_apart(source, function)
    return source.result()


def _take_apart(source, function):
    """Takes the slices among the parameters of one export apart."""
    names = []
    for i in source.between(function.open, function.close):
        if source.reads(i, ":", "&", "[") and source.at(source.after(i, 4)) == "]":
            name, element = source.at(source.before(i)), source.at(source.after(i, 3))
            source.replace(i, source.after(i, 4), f": *const {element}, {name}_length: usize")
            names.append(name)
    if not names:
        return
    extern = function.fn_token
    while source.text[extern] != "extern":
        extern = source.before(extern)
    source.new[extern] = "unsafe extern"
    source.new[function.body[0]] += "".join(_slice(name) for name in names)
    _safety(source, function, names)


def _slice(name):
    """Returns the statement that makes a slice of a pointer and a length."""
    return f"\nlet {name} = unsafe {{ crate::slice_of({name}, {name}_length) }};"


def _safety(source, function, names):
    """Writes the section `Safety` into the documentation of an export."""
    start = source.item_start(function.first)
    last = max(i for i in range(start, function.first) if source.text[i].startswith("///"))
    lines = ["", "# Safety", ""]
    for name in names:
        lines.append(f"- `{name}` points to `{name}_length` elements that nobody writes during the call, or")
        lines.append(f"  `{name}_length` is 0.")
    for i in source.between(function.open, function.close):
        if source.reads(i, ":", "&") and source.at(source.after(i, 2)) != "[":
            lines.append(f"- `{source.at(source.before(i))}` points to a value, and is aligned and not null.")
    source.new[last] += "".join(f"\n/// {line}".rstrip() for line in lines)
