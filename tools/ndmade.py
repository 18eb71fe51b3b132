"""What tools/refusals and tools/settings share: parts of files that are made from a table, compared with it or written anew.

A made part is (path, place, make): a regular expression that finds the part in the file, and a function from the table's rows to its text.
"""
import difflib


def differences(path, line, stands, wanted, tool):
    """A message for each run of lines that differs; `line` is the number of the first."""
    old, new = stands.splitlines(), wanted.splitlines()
    found = []
    for what, begin, end, new_begin, new_end in difflib.SequenceMatcher(None, old, new, False).get_opcodes():
        if what != "equal":
            there = repr("\n".join(old[begin:end])) if begin < end else "nothing"
            write = repr("\n".join(new[new_begin:new_end])) if new_begin < new_end else "nothing"
            found.append(f"{path}:{line + begin}: stands {there}; write {write} (or run {tool} --write)")
    return found


def compare(root, made, rows, write, table, tool):
    """Every disagreement of the made parts with the rows; with `write` they are written first."""
    wrong = []
    for path, place, make in made:
        text = (root / path).read_text(encoding="utf-8")
        found = place.search(text)
        if not found:
            wrong.append(f"{path}: the place that is made from {table} is not there; write {make([])!r} and run {tool} --write")
        elif write:
            (root / path).write_text(text[:found.start()] + make(rows) + text[found.end():], encoding="utf-8")
        else:
            wrong += differences(path, text.count("\n", 0, found.start()) + 1, found.group(), make(rows), tool)
    return wrong
