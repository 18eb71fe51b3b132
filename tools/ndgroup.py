"""Which wrong answers one run of the prover can try together: those of which neither's fact rests on what the other changes.

antt has no instances, no coercions and no store of hints: whether it admits a declaration rests on the declaration's text, on what that
names, and on what is named there in turn. A function is proved against contracts, its own and those of what it calls, and no other
function can open its code. So what rests on a text is found by names, and where in doubt too much is taken to rest on it."""
import re
from dataclasses import dataclass, field

from ndedit import replacements
from ndlog import Fault, fact_of

WORD = re.compile(r"[^\s(){}\[\];,.:«»⌜⌝⟦⟧|\"]+")
MARKS = {"pub", "abbrev", "unfoldable", "record", "data", "ruleset"}
COMMENT = re.compile(r"^\s*(?:--|//).*$", re.M)
USE = re.compile(r"^(?:ghost )?use ([^\s{;]+?)(?:\.\{(.*?)\})?(?: as \S+)?;?$", re.M)
HEADER = re.compile(r"^ *module\b.*?\bwhere\b", re.M | re.S)
PARAGRAPH = re.compile(r"(?:.*\S.*\n?)+")
FUNCTION = re.compile(r"^(?P<marks>(?:#\[(?:[^\]]|\](?!\n))*\]\n)*)(?:pub(?:\(\w+\))? )?(?:extern \"C\" )?fn (?P<name>\w+)(?:.*\}$|(?s:.*?)^\})", re.M)
NAMED = re.compile(r"\bcrate::((?:specs|proofs)(?:::\w+)*)::([\w-]+)")  # a lemma or a definition that an attribute names for the search
OPENED = re.compile(r"^(?!\s).*\{$", re.M)  # the line behind which a body begins; a body on one line with its function is none
CONSTANT = re.compile(r"^(?:pub )?const (\w+)(.*);$", re.M)


@dataclass(eq=False)
class Piece:
    """A part of a crate's text: a paragraph of specs/ or proofs/, a function's contract or its code, or what a file of code has beside its functions."""
    file: str
    names: set  # what it declares
    words: set  # what it names
    span: range = range(0)  # where an edit changes it and nothing else
    rests_on: set = field(default_factory=set)


def words_of(text):
    return set(WORD.findall(COMMENT.sub("", text)))


def declared(text):
    """The names that a paragraph may declare: the first of each line that stands as far left as its first, or is a record's or a type's."""
    lines = [line for line in COMMENT.sub("", text).splitlines() if line.strip()]
    lines = [line for line in lines if not line.lstrip().startswith("module ")]
    edge = min((len(line) - len(line.lstrip()) for line in lines), default=0)
    deeper = 2 if re.search(r"^\s*(?:pub )?(?:record|data) ", text, re.M) else 0
    found = set()
    for line in lines:
        words = [word for word in WORD.findall(line) if word not in MARKS]
        if words and len(line) - len(line.lstrip()) <= edge + deeper:
            found |= spoken(words[0])
    return found


def spoken(name):
    """The words by which a name is spoken of: itself, and the parts of an operator."""
    return {name, *filter(None, name.split("_"))}


# --- a crate's files --------------------------------------------------------------------------

class File:
    """A file's pieces, and what it brings in of its own crate: modules, whole ones, and names with their file and, where it is another, the name here."""

    def __init__(self, folder, path):
        self.name, self.text = str(path.relative_to(folder)), path.read_text(encoding="utf-8")
        self.own = re.compile(rf"Rattle\.{folder.name}\.(?=(?:specs|proofs)\.)")
        self.modules, self.whole, self.brought = [], [], []
        self.bring(self.text)
        self.functions = self.code() if path.suffix == ".rt" else {}
        self.pieces = self.beside() if path.suffix == ".rt" else self.paragraphs()

    def bring(self, text):
        """Takes in what the lines `use` of a text bring."""
        for module, names in USE.findall(text):
            if self.own.match(module):
                inside = self.own.sub("", module).replace(".", "/")
                self.modules.append(inside)
                self.whole += [] if names else [f"{inside}.antt"]
                self.brought += [(f"{inside}.antt", *name.split(" as ")) for name in names.split(", ") if name]
        self.brought += [(f"{module.replace('::', '/')}.antt", name) for module, name in NAMED.findall(text)]

    def paragraphs(self):
        """Each line `use`, and each paragraph; that names also what the headers of sections name, since those stand above all of a section."""
        above = set().union(*map(words_of, HEADER.findall(self.text)))
        plain = USE.sub(lambda line: " " * len(line[0]), self.text)
        return ([Piece(self.name, set(), set(), range(*line.span())) for line in USE.finditer(self.text)]
                + [Piece(self.name, declared(part[0]), words_of(part[0]) | above, range(*part.span())) for part in PARAGRAPH.finditer(plain)])

    def code(self):
        """Contract and code of each function, by its place in proofs/."""
        modules, found = [part for part in self.name.removesuffix(".rt").split("/")[1:] if part not in ("lib", "main")], {}
        for whole in FUNCTION.finditer(self.text):
            opened = OPENED.search(self.text, *whole.span())
            body = range(opened.end() if opened else whole.end(), whole.end())
            contract = Piece(self.name, {whole["name"]}, words_of(self.text[whole.end("marks"):body.start]))
            found["/".join([*modules, whole["name"]])] = contract, Piece(self.name, set(), words_of(whole[0]), body)
        return found

    def beside(self):
        """The pieces of a file of code: its functions', each constant, and all that stands beside them, which an edit does not change but alone."""
        pieces = [piece for pair in self.functions.values() for piece in pair]
        pieces += [Piece(self.name, {line[1]}, words_of(line[2]), range(*line.span())) for line in CONSTANT.finditer(self.text)]
        rest = words_of(CONSTANT.sub("", FUNCTION.sub("", USE.sub("", self.text))))
        return pieces + [Piece(self.name, rest, rest)]


class Crate:
    """A crate's pieces, each with what it rests on. What its edits write instead counts as written, too."""

    def __init__(self, root, name, edits):
        folder = root / "crates" / name
        paths = [path for kind in ("src/**/*.rt", "specs/**/*.antt", "proofs/**/*.antt") for path in sorted(folder.glob(kind))]
        self.files = {file.name: file for file in (File(folder, path) for path in paths)}
        self.functions = {place: pair for file in self.files.values() for place, pair in file.functions.items()}
        for edit in edits:
            for piece, new in self.changes(edit):
                piece.words |= words_of(new)
                self.files[piece.file].bring(new)
        for file in self.files.values():
            self.link(file)
        self.users = {}
        for piece in (piece for file in self.files.values() for piece in file.pieces):
            for below in piece.rests_on:
                self.users.setdefault(below, set()).add(piece)

    def proofs_of(self, place):
        """The proof files of a function. Those of one that calls itself stand in a folder +NAME."""
        above, _, name = place.rpartition("/")
        folders = f"proofs/{place}", "/".join(filter(None, ("proofs", above, f"+{name}")))
        paths = [f"{folder}/{kind}.antt" for folder in folders for kind in ("Invariants", "Answers", "Proof")]
        return [self.files[path] for path in paths if path in self.files]

    def link(self, file):
        """What the pieces of a file rest on."""
        known = {}
        for of, name, *called in file.brought:
            for word in spoken((called or [name])[0]):
                known.setdefault(word, []).extend(self.declaring(of, name))
        near = [file] if file.name.endswith(".antt") else [other for other in self.files.values() if other.name.endswith(".rt")]
        for piece in (piece for other in near for piece in other.pieces):
            for name in piece.names:
                known.setdefault(name, []).append(piece)
        always = [piece for module in file.modules for piece in self.of_function(file, module)]
        always += [piece for name in file.whole if name in self.files for piece in self.files[name].pieces]
        for piece in file.pieces:
            piece.rests_on.update(always, *(known.get(word, ()) for word in piece.words))
        for place, (contract, code) in file.functions.items():
            code.rests_on.add(contract)
            # what the prover finds for it waits for what it calls, and rests on what its own files say
            code.rests_on.update(called for other, (_, called) in self.functions.items() if other.rpartition("/")[2] in code.words)
            code.rests_on.update(piece for proof in self.proofs_of(place) if proof.name.endswith("/Invariants.antt") for piece in proof.pieces)

    def declaring(self, file, name):
        return [piece for piece in self.files[file].pieces if name in piece.names] if file in self.files else []

    def of_function(self, file, module):
        """The pieces behind a module that the checker makes of a function: its code and, seen from outside, its proof."""
        place = "/".join(module.replace("+", "").split("/")[1:-1])
        proofs = [proof for proof in self.proofs_of(place) if proof is not file]
        return [*self.functions.get(place, ()), *(piece for proof in proofs for piece in proof.pieces)]

    def changes(self, edit):
        """The pieces that an edit changes, with what it writes there; none where it changes anything else, or cannot be made."""
        found = []
        try:
            for _, file, old, new in replacements(edit):
                piece = self.piece_at(file, old) or next((piece for piece, written in found if piece.file == file and old in written), None)
                if not piece or not brings_more(old, new):
                    return []
                found.append((piece, new))
        except Fault:  # it is told of where the edit is tried
            return []
        return found

    def piece_at(self, file, text):
        """The piece in which a text stands that its file has once. A section's header is of no single piece."""
        whole = self.files[file].text if file in self.files else ""
        at = whole.find(text)
        if whole.count(text) != 1 or any(header.start() <= at < header.end() for header in HEADER.finditer(whole)):
            return None
        return next((piece for piece in self.files[file].pieces if at in piece.span), None)

    def facts(self, fact):
        """The pieces in which a fact stands: its paragraphs, or the code of a function where the prover finds what holds it."""
        place, _, need = fact.replace("+", "").partition(" ")
        files = [self.files[f"proofs/{place}"]] if f"proofs/{place}" in self.files else self.proofs_of(place)
        said = {piece for file in files for piece in self.declaring(file.name, need)}
        return said or set(self.functions.get(place, ())[1:])

    def resting_on(self, changed):
        """The pieces that rest on any of these, and these."""
        found, ahead = set(changed), list(changed)
        while ahead:
            new = self.users.get(ahead.pop(), set()) - found
            found |= new
            ahead += new
        return found


def brings_more(old, new):
    """Whether a line `use` still brings all that it brought; yes of any other line."""
    before, after = USE.fullmatch(old), USE.fullmatch(new)
    return not (before or after) or bool(before and after) and before[1] == after[1] and {*before[2].split(", ")} <= {*after[2].split(", ")}


# --- groups -----------------------------------------------------------------------------------

@dataclass
class Reach:
    """What an edit changes, what rests on that, and the pieces of its fact."""
    changed: set
    touched: set
    facts: set

    def apart_from(self, other):
        """Whether neither's fact rests on what the other changes."""
        return not (self.changed & other.changed or self.facts & other.touched or other.facts & self.touched)


class Group:
    """Edits of one crate that one run tries, with the reach of each; where there is one edit it may have none."""

    def __init__(self, crate, reaches):
        self.crate, self.reaches = crate, reaches

    @property
    def edits(self):
        return list(self.reaches)

    def takes(self, reach):
        return all(reach and other and reach.apart_from(other) for other in self.reaches.values())

    def refusals(self, report):
        """The edits that a run of them all shows to be refused by their facts, each with its failure and the failure's item. What fails for no
        edit's sake, or has no place, says that the reaches are not what they should be: then none is shown."""
        failures = [(failure, item, self.crate.facts(fact_of(failure, item) or "")) for failure, item in report.ordered]
        explained = set().union(*(reach.touched for reach in self.reaches.values()))
        if not all(pieces & explained for _, _, pieces in failures):
            return {}
        firsts = {edit: next(((failure, item) for failure, item, pieces in failures if pieces & reach.touched), None) for edit, reach in self.reaches.items()}
        return {edit: first for edit, first in firsts.items() if first and fact_of(*first) == edit.fact and not self.follows(self.reaches[edit], first[1])}

    def beyond(self, edit, report):
        """A fact that fails in a run of this edit alone, though it was not seen to rest on the change; None where there is none."""
        reach = self.reaches[edit]
        facts = [fact_of(failure, item) for failure, item in report.ordered] if reach else []
        return next((fact for fact in facts if fact and not self.crate.facts(fact) & reach.touched), None)

    def follows(self, reach, item):
        """Whether a function waits for one that the same edit may have refused: then its failure may be a consequence."""
        places = ["/".join(name.split("::")[1:]) for name in (item.waits_for if item else [])]
        pieces = {piece for place in places for piece in self.crate.functions.get(place, ())}
        pieces |= {piece for place in places for proof in self.crate.proofs_of(place) for piece in proof.pieces}
        return bool(pieces & reach.touched)


def reach_of(crate, edit):
    """An edit's reach; None where it is to be tried alone, since it changes something else, or its fact is not seen to rest on the change."""
    changed, facts = {piece for piece, _ in crate.changes(edit)}, crate.facts(edit.fact)
    touched = crate.resting_on(changed)
    return Reach(changed, touched, facts) if facts & touched else None


def groups_of(root, edits, alone=False):
    """The edits of one crate in groups, those first that have most. Who goes with the fewest others chooses first; alone says that none goes with another."""
    crate, found = Crate(root, edits[0].crate, edits), []
    reaches = {edit: reach_of(crate, edit) for edit in edits}
    known = [reach for reach in reaches.values() if reach]
    for edit in sorted(edits, key=lambda edit: sum(map(reaches[edit].apart_from, known)) if reaches[edit] else 0):
        group = next((group for group in found if not alone and group.takes(reaches[edit])), None)
        if not group:
            found.append(group := Group(crate, {}))
        group.reaches[edit] = reaches[edit]
    return sorted(found, key=lambda group: -len(group.edits))
