"""An edit, which is one wrong answer that the prover must refuse: its file, and a copy of the repository in which it is made. Also what a crate stands on."""
import hashlib
import os
import re
import shutil
import subprocess
import tempfile
from dataclasses import dataclass
from pathlib import Path

from ndlog import Fault

FOLDERS = ("wrong", "must-fail")  # those that tools/wrong tries, and those that rt ci tries
EXAMPLE = "write 'file: src/x.rt', 'old: ..' and 'new: ..', each on a line"


def crate_lines(text):
    """What each crate of a crates.txt stands on. Behind a name may stand what it is, as `staticlib`."""
    lines = (line.split("#")[0].partition(":") for line in text.splitlines())
    return {name.split()[0]: below.split() for name, colon, below in lines if colon}


def below(root, names):
    """The crates of the repository that these stand on, lowest first."""
    stands_on, found = crate_lines((root / "crates.txt").read_text(encoding="utf-8")), []

    def take(name):
        for low in stands_on.get(name, []):
            if low in stands_on and low not in found:
                take(low)
                found.append(low)
    for name in names:
        take(name)
    return found


@dataclass(frozen=True)
class Edit:
    """One edit file, and the fact that it says refuses it: proof file and need, or nothing."""
    path: Path
    fact: str

    @property
    def crate(self):
        return self.path.parent.parent.name

    @property
    def name(self):
        return self.path.stem

    def shown(self):
        return "/".join(self.path.parts[-4:])


def read_edit(path):
    """The edit of a file crates/NAME/wrong/*.edit or crates/NAME/must-fail/*.edit."""
    if path.parent.name not in FOLDERS or path.suffix != ".edit" or not path.is_file():
        raise Fault(f"{path} is no edit; name a file crates/NAME/wrong/*.edit or crates/NAME/must-fail/*.edit")
    facts = re.findall(r"^fact: *(.*?) *$", path.read_text(encoding="utf-8"), re.M)
    if len(facts) > 1:
        raise Fault(f"{path}: {len(facts)} lines 'fact:'; write one")
    return Edit(path, facts[0] if facts else "")


def edits_of(root, folders=FOLDERS):
    """Every edit of the repository, by crate and name."""
    paths = [path for folder in folders for path in (root / "crates").glob(f"*/{folder}/*.edit")]
    return sorted(map(read_edit, paths), key=lambda edit: (edit.crate, edit.name))


def replacements(edit):
    """The replacements of an edit, as rt must-fail reads them: line number, file, old text and new."""
    file, old, found = "", "", []
    for number, line in enumerate(edit.path.read_text(encoding="utf-8").splitlines(), 1):
        word, _, rest = line.partition(":")
        value = rest.removeprefix(" ")
        if word == "file":
            if not re.match("(src|specs)/", value) or ".." in Path(value).parts:
                raise Fault(f"{edit.path}:{number}: 'file: {value}' is no file below src/ or specs/ of the crate; {EXAMPLE}")
            file = value
        elif word == "old":
            old = value
        elif word == "new":
            found.append((number, file, old, value))
            old = ""
    if not found:
        raise Fault(f"{edit.path}: no 'old:' and 'new:'; {EXAMPLE}")
    return found


def apply_edit(folder, edit):
    """Makes an edit's replacements in a crate's folder."""
    for number, file, old, new in replacements(edit):
        path = folder / file
        text = path.read_text(encoding="utf-8") if path.is_file() else ""
        if not old or text.count(old) != 1:
            raise Fault(f"{edit.path}:{number}: 'old:' stands {text.count(old) if old else 0} times in the file; write a text that stands there once")
        path.write_text(text.replace(old, new), encoding="utf-8")


PARTS = ("src", "specs", "proofs")


def room(root):
    """A folder for copies of this repository, outside of it: rt ci reads all that stands in a checkout, and wants no second source there."""
    place = Path(tempfile.gettempdir()) / f"ndigomarr-{os.getuid()}" / hashlib.sha256(str(root).encode()).hexdigest()[:12]
    place.mkdir(mode=0o700, parents=True, exist_ok=True)
    if place.parent.stat().st_uid != os.getuid():
        raise Fault(f"{place.parent} is another's; set TMPDIR to a folder of your own")
    return place


def linked(source, copy):
    """A second name for a file, or a copy where that cannot be. rt replaces what it has checked and built, and writes into none of it."""
    try:
        os.link(source, copy)
    except OSError:
        shutil.copy2(source, copy)


def kept(source, copy):
    """What rt checked goes by a second name, what it notes beside that as a copy."""
    (linked if str(source).endswith(".oantt") else shutil.copy2)(source, copy)


def beside(root, copy, names, with_lower=True):
    """A repository beside this one that has these crates' files, and those of what they stand on, with the built libraries."""
    shutil.rmtree(copy, ignore_errors=True)
    (copy / "crates").mkdir(parents=True)
    lower = [name for name in below(root, names) if name not in names and with_lower]
    lines = (root / "crates.txt").read_text(encoding="utf-8").splitlines(keepends=True)
    (copy / "crates.txt").write_text("".join(line for line in lines if {*crate_lines(line)} & {*lower, *names}), encoding="utf-8")
    for name in [*lower, *names]:
        for part in PARTS:
            if (root / "crates" / name / part).is_dir():
                shutil.copytree(root / "crates" / name / part, copy / "crates" / name / part)
    for name in lower:
        if (root / "crates" / name / "out" / "rlib").is_dir():
            shutil.copytree(root / "crates" / name / "out" / "rlib", copy / "crates" / name / "out" / "rlib", copy_function=linked)
    return copy


def copy_with(root, copy, edits):
    """A repository beside this one in which these edits of one crate are made. What rt check has kept of the crate goes along, so that only what they touch is checked."""
    name = edits[0].crate
    beside(root, copy, [name])
    known = Path("crates", name, "out", "incremental")
    if (root / known).is_dir():
        shutil.copytree(root / known, copy / known, copy_function=kept)
    for edit in edits:
        apply_edit(copy / "crates" / name, edit)
    return copy


def check(root, name):
    """What rt check says of a crate of a repository."""
    words = ["rt", "check", "--jobs", "1"]
    done = subprocess.run(words, cwd=root / "crates" / name, stdout=subprocess.PIPE, stderr=subprocess.STDOUT, text=True, errors="replace", check=False)
    return done.stdout
