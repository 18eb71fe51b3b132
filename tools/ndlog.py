"""What the prover's log says is not proved: for tools/unproved, which tells it, and tools/wrong, which holds it to what was expected."""
import re
from dataclasses import dataclass, field

PLACE = r"(?P<path>[^\s:][^:]*):(?P<line>\d+):\d+: "
ERROR = re.compile(PLACE + r"error(?:\[[^\]]*\])?: (?:`(?P<need>[^`]*)`: )?(?P<words>.*)")
HOLE = re.compile(PLACE + r"(?P<words>goal \?.*?) in `(?P<need>[^`]*)`")
OPEN = re.compile(r"note: " + PLACE + r"(?P<words>it is not proved that .*) \(`(?P<need>[^`]*)`\)")
CITES = re.compile(r"`[^`]*` was not admitted \(|\d+ declarations? that depends? on `")
# a place's name holds the text that stands there, so a proof file cites names that an edit takes away; the fact itself is then told as open, under its new name
GONE = re.compile(r"has no field `|has no `[^`]*` that can be named from here|is not in scope")
COMPUTED = re.compile(r"  (computed as far as they go, the two types differ .*)")
GOES_ON = re.compile(r"  (\(expected\).*|and the other has .*)")  # a long sentence is broken there
ITEM = re.compile(r"(?P<kind>fn|struct|enum) (?P<name>[^\s]+): (?P<verdict>not proved|no proof)(?P<rest>.*)")
CALLS = re.compile(r"it calls (.*?), which (?:is|are) not proved|a call of (`[^`]*`), which has no proof")
CRATE = re.compile(r"^(?:crate (\w+): modules|(?:fn|struct|enum) (\w+)::)", re.M)
LOGIC = re.compile(r"^logic=(\S+)", re.M)
MODULES = re.compile(r"(?<![\w.·])(?:Rattle|mathlib|Prim|lib|native|denote|borrow|mir|types)\.(?:[\w-]+\.)*")
CUT = 300


class Fault(Exception):
    """Why there is no verdict, and what to do."""


@dataclass
class Failure:
    """One fact that does not hold: where it is refused, its name, the error's first line, and what differs once computed."""
    path: str
    line: int
    need: str
    words: str
    computed: str = ""


@dataclass
class Item:
    """A function, struct or enum that is not proved."""
    kind: str
    name: str
    waits_for: list
    no_proof: str
    failures: list = field(default_factory=list)


@dataclass
class Report:
    items: list = field(default_factory=list)
    others: list = field(default_factory=list)  # failures in laws, definitions and source
    ordered: list = field(default_factory=list)  # pairs of a failure and its item, or None, in the log's order
    proved: bool = False

    def first(self):
        """The first fact that does not hold, with its item or None; None where there is none. What fails in a function that waits
        for another is a consequence, and is told only where nothing else is."""
        return next((pair for pair in self.ordered if not pair[1] or not pair[1].waits_for), self.ordered[0] if self.ordered else None)


def shown(path, crate):
    """A path from the repository's root. rt tells paths from the crate's folder, ./proofs/.. and src/.."""
    below = re.sub(r"^\./", "", path)
    return f"crates/{crate}/{below}" if crate and re.match(r"(?:src|specs|proofs)/", below) else re.sub(r"^.*/(?=crates/)", "", path)


def short(words):
    words = MODULES.sub("", words)
    return words if len(words) <= CUT else words[:CUT].removesuffix(" …") + " …"


def failure_of(found, crate):
    need = found.groupdict().get("need") or ""
    return Failure(shown(found["path"], crate), int(found["line"]), need, short(found["words"]))


def item_of(found, crate):
    waits = [name for calls in CALLS.findall(found["rest"]) for name in re.findall(r"`([^`]*)`", "".join(calls))]
    lacking = re.search(r"expected (?:\w+ )+in ([^;]*)", found["rest"])
    return Item(found["kind"], found["name"], waits, shown(lacking[1].strip(), crate) if lacking else "")


def crate_of(text):
    """The crate that a log is of: the last that it tells of, since those below come before it."""
    named = CRATE.findall(text)
    return (named[-1][0] or named[-1][1]) if named else ""


def read_log(text, crate=""):
    """What a log says is not proved."""
    crate = crate or crate_of(text)
    failures, open_needs, items = [], [], []
    for line in joined(text.splitlines()):
        error, item, computed = ERROR.match(line) or HOLE.match(line), ITEM.match(line), COMPUTED.match(line)
        still_open = OPEN.match(line)
        if error:
            failures.append(failure_of(error, crate))
        elif still_open:
            open_needs.append(failure_of(still_open, crate))
        elif computed and failures and not failures[-1].computed:
            failures[-1].computed = short(computed[1])
        elif item:
            # the open needs of a function stand before its own line
            items.append(item_of(item, crate))
            items[-1].failures, open_needs = open_needs, []
    return sorted_out(failures, items, {*LOGIC.findall(text)} == {"proved"})


def joined(lines):
    """The lines, a broken sentence on one."""
    whole = []
    for line in lines:
        more = GOES_ON.match(line)
        if more and whole:
            whole[-1] += f" {more[1]}"
        else:
            whole.append(line)
    return whole


def sorted_out(failures, items, proved):
    """Each failure with the function whose proof it stands in. One that only cites, or cites what is gone, is kept where its function has no other reason."""
    report = Report(items, proved=proved and not failures and not items)
    open_needs = [(failure, item) for item in items for failure in item.failures]
    citing = []
    for failure in failures:
        # what a recursive function does within itself is proved in a folder +NAME of its own
        owner = next((item for item in items if f"/proofs/{'/'.join(item.name.split('::')[1:])}/" in failure.path.replace("/+", "/")), None)
        if CITES.match(failure.words) or "/proofs/" in failure.path and GONE.search(failure.words):
            citing.append((failure, owner))
        else:
            (owner.failures if owner else report.others).append(failure)
            report.ordered.append((failure, owner))
    report.ordered += open_needs
    for failure, owner in citing:
        if owner and not owner.failures and not owner.waits_for:
            owner.failures.append(failure)
    return report


def fact_of(failure, item):
    """A failed fact's name: its function's place or its proof file, and its need, as `lanes/kept returns` or `OrderLaws.antt chosen`. None where it is
    no fact but a fault of the text, which stands outside proofs/."""
    proof = re.fullmatch(r"crates/\w+/proofs/(.*)", failure.path)
    if not failure.need or not (proof or item):
        return None
    # what the prover found no answer to has no file, and the name that its function's folder has
    place = re.sub(r"/(?:Proof|Answers|Invariants)\.antt$", "", proof[1]) if proof else "/".join(item.name.split("::")[1:])
    return f"{place} {failure.need}"
