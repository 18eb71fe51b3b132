"""The shared library, found and declared once, and its smaller calls."""
import ctypes
import os
import pathlib
from dataclasses import dataclass
from typing import Any, Iterable, List, Tuple, Union

from ._exports import declare
from ._lent import Numbers, array, octet, text_of, word
from ._refusals import TABLE

_HERE = pathlib.Path(__file__).resolve().parent
_NAME = "libndigomarr.so"


def _places() -> List[pathlib.Path]:
    """Where the library may stand: beside this module, in the prefix that the module is installed in, or in the checkout that it stands in."""
    above = list(_HERE.parents)
    installed = [folder / _NAME for folder in above if folder.name == "lib"]
    checkout = [folder / "target/lib" / _NAME for folder in above if (folder / "tools/library").exists()]
    return [_HERE / _NAME, *installed, *checkout]


def _load() -> ctypes.CDLL:
    named = os.environ.get("NDIGOMARR_LIBRARY")
    places = [pathlib.Path(named)] if named else _places()
    for place in places:
        if place.is_file():
            library = ctypes.CDLL(str(place))
            declare(library)
            return library
    looked = ", ".join(str(place) for place in places)
    raise ImportError(f"no {_NAME} at {looked}; run make install, or set NDIGOMARR_LIBRARY to its path")


LIBRARY = _load()


class Refused(ValueError):
    """A call that the rules refuse. `number` stands in the table of refusals with its `name` and its `words`; `meta` is the data that the
    haplotype of a refused search carried."""

    def __init__(self, number: int, meta: Any = None) -> None:
        self.number, self.meta = number, meta
        self.name, self.words = TABLE.get(number, ("OTHER", "not in the table of refusals"))
        super().__init__(f"refused {number}: {self.words}")

    def __reduce__(self):  # type: ignore[no-untyped-def]
        return Refused, (self.number, self.meta)


def accepted(number: int, meta: Any = None) -> None:
    if number:
        raise Refused(number, meta)


def entries(k: int) -> int:
    """4^k, or none for a k that the counter refuses before it looks at the room."""
    return 1 << 2 * k if 1 <= k <= 6 else 0


def seq_to_kmer(sequence: Union[str, bytes], k: int, negative: bool = False, letters: int = 0) -> "ctypes.Array[ctypes.c_int32]":
    """The k-mer counts of a sequence, a row of 4^k entries; negative ones for a `negative` sequence.

    A byte other than A, C, G and T in either case counts as A with `letters` 0; with 1 each window that holds one is left out.

    >>> list(seq_to_kmer("AAG", 1))
    [2, 1, 0, 0]
    >>> list(seq_to_kmer("NAG", 1)), list(seq_to_kmer("NAG", 1, letters=1))
    ([2, 1, 0, 0], [1, 1, 0, 0])
    """
    text = text_of(sequence)
    row = (ctypes.c_int32 * entries(k))()
    accepted(LIBRARY.nd_seq_to_kmer(text, len(text), octet(k), negative, octet(letters), row, len(row)))
    return row


def seqsim(a: Numbers, b: Numbers, minkfreq: int) -> float:
    """The similarity of two feature rows.

    >>> seqsim([1, 1, 1, 1], [1, 1, 0, 0], 2)
    1.0
    """
    first, second, value = array(a, ctypes.c_int32), array(b, ctypes.c_int32), ctypes.c_float()
    accepted(LIBRARY.nd_seqsim(first, len(first), second, len(second), word(minkfreq), ctypes.byref(value)))
    return value.value


def sizesim(a: int, b: int) -> float:
    """The similarity of two sizes' magnitudes.

    >>> sizesim(0, 4)
    0.25
    """
    sizes, value = array([a, b], ctypes.c_uint64), ctypes.c_float()
    accepted(LIBRARY.nd_sizesim(sizes[0], sizes[1], ctypes.byref(value)))
    return value.value


def count_chains(starts: Numbers, ends: Numbers, full: bool = True, cap: int = 4096) -> int:
    """How many paths a table with these bounds has, counted up to `cap`.

    >>> count_chains([10, 20], [10, 20])
    4
    """
    first, last, count = array(starts, ctypes.c_uint64), array(ends, ctypes.c_uint64), ctypes.c_uint32()
    accepted(LIBRARY.nd_count_chains(first, len(first), last, len(last), full, word(cap), ctypes.byref(count)))
    return count.value


@dataclass(frozen=True)
class Bed:
    """A table of BED: one name of 1 to 32 printable bytes, and a start and an end for each row."""

    name: bytes
    starts: List[int]
    ends: List[int]


def read_bed(text: bytes) -> Bed:
    """The table that a text of up to 64 lines of exactly three columns says.

    >>> read_bed(b"reef7\\t10\\t20\\n")
    Bed(name=b'reef7', starts=[10], ends=[20])
    """
    starts, ends = (ctypes.c_uint64 * 64)(), (ctypes.c_uint64 * 64)()
    name, counts = (ctypes.c_uint8 * 32)(), (ctypes.c_uint32 * 2)()
    given = text_of(text)
    accepted(LIBRARY.nd_read_bed(given, len(given), starts, len(starts), ends, len(ends), name, counts))
    rows, width = counts
    return Bed(bytes(name[:width]), list(starts[:rows]), list(ends[:rows]))


def write_bed(bed: Bed, rows: Numbers) -> bytes:
    """The text of these rows of a table, in their order.

    >>> write_bed(Bed(b"reef7", [10, 15], [20, 15]), [1])
    b'reef7\\t15\\t15\\n'
    """
    starts, ends, chosen = array(bed.starts, ctypes.c_uint64), array(bed.ends, ctypes.c_uint64), array(rows, ctypes.c_uint32)
    text, written = (ctypes.c_uint8 * (75 * len(chosen)))(), ctypes.c_uint64()
    named = text_of(bed.name)
    given = named, len(named), starts, len(starts), ends, len(ends), chosen, len(chosen)
    accepted(LIBRARY.nd_write_bed(*given, text, len(text), ctypes.byref(written)))
    return bytes(text[:written.value])


def move_job(job: bytes, edition: int) -> bytes:
    """A job's bytes in the edition of the form asked for, 1 or 2; there and back gives the first bytes.

    Refused by the form's first fault, then by 22 (already in that edition, or no such edition), 28 (a record number is not its row), 29 (letters is 1).
    The room is made large enough, so 30 is never given.

    >>> job = bytes([1] + 41 * [0])
    >>> second = move_job(job, 2)
    >>> second[0], len(second), move_job(second, 1) == job
    (17, 43, True)
    """
    given = text_of(job)
    # a variant of at least 26 bytes grows by 4, and the settings by 1
    out, written = (ctypes.c_uint8 * (len(given) + 1 + 4 * (len(given) // 26)))(), ctypes.c_uint64()
    accepted(LIBRARY.nd_move_job(given, len(given), word(edition), out, len(out), ctypes.byref(written)))
    return bytes(out[:written.value])


class Companions:
    """Which variants can go together: a table of up to 64 rows, and for every row the later rows that it does not overlap.

    It begins empty and changes only by `add` and `remove`, so its sheet is always its table's, and 49 is never given.

    >>> companions = Companions([(0, 10), (5, 5), (10, 12)])
    >>> companions.together(1, 0), companions.together(0, 2), companions.count(0)
    (False, True, 1)
    """

    def __init__(self, rows: Iterable[Tuple[int, int]] = ()):
        self._starts, self._ends = (ctypes.c_uint64 * 64)(), (ctypes.c_uint64 * 64)()
        self._sheet, self._rows = (ctypes.c_bool * 4096)(), ctypes.c_uint32()
        for start, end in rows:
            self.add(start, end)

    def __len__(self) -> int:
        return self._rows.value

    def __repr__(self) -> str:
        return f"Companions({list(zip(self._starts[:len(self)], self._ends[:len(self)]))})"

    def add(self, start: int, end: int) -> None:
        """Adds a row at the end. Refused by 5, 7 and 8; nothing is changed then."""
        bounds = array([start, end], ctypes.c_uint64)
        accepted(LIBRARY.nd_companions_add(self._starts, self._ends, self._sheet, ctypes.byref(self._rows), bounds[0], bounds[1]))

    def remove(self) -> None:
        """Takes the last row away. Refused by 44 where there is none."""
        accepted(LIBRARY.nd_companions_remove(self._starts, self._ends, self._sheet, ctypes.byref(self._rows)))

    def together(self, a: int, b: int) -> bool:
        """May these two rows stand together, in either order? A row with itself is a no. Refused by 44."""
        yes = ctypes.c_uint32()
        accepted(LIBRARY.nd_companions_together(self._starts, self._ends, self._sheet, self._rows, word(a), word(b), ctypes.byref(yes)))
        return yes.value == 1

    def count(self, row: int) -> int:
        """How many later companions a row has. Refused by 44."""
        count = ctypes.c_uint32()
        accepted(LIBRARY.nd_companions_count(self._starts, self._ends, self._sheet, self._rows, word(row), ctypes.byref(count)))
        return count.value


def answer(job: bytes) -> str:
    """The program's answer to a job's bytes: its lines of text.

    >>> answer(b"")
    'refused 21\\n'
    """
    text = (ctypes.c_uint8 * 8192)()
    given = text_of(job)
    length = LIBRARY.nd_answer(given, len(given), text)
    return bytes(text[:length]).decode("ascii")
