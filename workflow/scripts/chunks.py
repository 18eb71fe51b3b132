"""Which sheets a run is about, laid out in chunks: for each a list of names, and beside it what the files were like, so that a chunk is done again where one of its sheets
changed. Files that would not change are left as they are, with their times."""
import glob
import os
import sys


def fail(words):
    sys.exit(f"workflow: {words}")


def sheets(config):
    if config["list"]:
        try:
            with open(config["list"], encoding="utf-8") as names:
                found = [name for name in names.read().splitlines() if name]
        except OSError as fault:
            fail(f"list is {config['list']}, which cannot be read ({fault.strerror}); name a file of names, one a line")
    else:
        found = sorted(glob.glob(config["sheets"], recursive=True))
    if not found:
        fail(f"no sheets: {'the list ' + config['list'] + ' is empty' if config['list'] else 'nothing fits the pattern ' + config['sheets']}; set sheets or list by --config")
    if any("\n" in name for name in found):
        fail("the name of a sheet holds a line end, so that it cannot stand in a list; rename it")
    return found


def state(name):
    """Size and time; nothing of a sheet that is not there: its line will say so."""
    try:
        about = os.stat(name)
    except OSError:
        return f"{name}\t-\t-\n"
    return f"{name}\t{about.st_size}\t{about.st_mtime_ns}\n"


def put(path, text):
    try:
        with open(path, encoding="utf-8") as there:
            if there.read() == text:
                return
    except OSError:
        pass
    with open(path, "w", encoding="utf-8") as new:
        new.write(text)


def laid(config, begun=False):
    """The names of the chunks, after their lists are written; where the run has begun they are read off the folder."""
    folder = os.path.join(config["results"], "chunks")
    if begun:
        return sorted(name[: -len(".list")] for name in os.listdir(folder) if name.endswith(".list"))
    length = int(config["chunk"])
    if length < 1:
        fail(f"chunk is {length}; set it to the number of sheets of a job, 1 or more")
    found = sheets(config)
    os.makedirs(folder, exist_ok=True)
    names = []
    for begin in range(0, len(found), length):
        some = found[begin : begin + length]
        name = f"{begin // length:05}"
        put(os.path.join(folder, name + ".list"), "".join(sheet + "\n" for sheet in some))
        put(os.path.join(folder, name + ".state"), "".join(map(state, some)))
        names.append(name)
    # those of an earlier run over more sheets
    for old in os.listdir(folder):
        if old.split(".")[0] not in names:
            os.remove(os.path.join(folder, old))
    return names
