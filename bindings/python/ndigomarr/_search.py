"""The search: a table, a haplotype and settings in, the best path out."""
import ctypes
import struct
from dataclasses import asdict, dataclass
from itertools import accumulate
from typing import Any, List, Optional, Sequence, Union

from ._lent import Numbers, array, word
from ._library import LIBRARY, Refused, accepted
from ._meta import HaplotypeMeta
from ._settings import Settings, Words
from ._table import Haplotype, Table


@dataclass(frozen=True)
class Answer:
    """The best path found."""

    rows: List[int]
    """Row numbers of the table handed over, ascending from 0. They are not names."""
    records: List[int]
    """The record number of each of these rows, in the rows' order."""
    left_out: Optional[int]
    """How many parts the part list leaves out that matched: 0 for the whole haplotype, None where nothing was accepted."""
    score: float
    """The path's score; 0 where nothing was found."""
    sizesim: float
    """The similarity of the sizes of path and haplotype."""
    seqsim: float
    """The similarity of their letters."""
    scored: int
    """How many paths were scored."""
    complete: bool
    """Whether these were all paths. If not, a better one may exist."""
    meta: Optional[HaplotypeMeta] = None
    """The data that the haplotype carried, unchecked and unchanged."""


def words_of(settings: Settings) -> Words:
    """The settings as the library takes them: each by its field's kind, so that a float of any library stays one. A k or
    letters that no byte holds is refused as any other wrong one."""
    given = asdict(settings)
    kinds = {name: kind for name, kind in Words._fields_}
    return Words(**{name: float(value) if kinds[name] is ctypes.c_float else word(value) for name, value in given.items()})


def queue_room(settings: Settings, variants: int) -> int:
    """The entries that a search is asked to be lent; none where there is no queue, or where the call will be refused anyway."""
    asked = settings.maxpaths <= 4095 and variants <= 64 and not settings.one_to_one
    return 1 + (settings.maxpaths + 1) * variants if asked else 0


def float_of(bits: int) -> float:
    value: float = struct.unpack("<f", struct.pack("<I", bits))[0]
    return value


def _given(numbers: Any, kind: Any) -> Any:
    lent = array(numbers, kind)
    return lent, len(lent)


def _answer(report: Any, rows: Any, records: Any, meta: Optional[HaplotypeMeta]) -> Answer:
    """The answer that the seven words of a report tell, with as many rows and records as it counts, and the haplotype's data."""
    count, target, score, sizesim, seqsim, scored, complete = report
    left_out = target - 1 if target else None
    return Answer(list(rows[:count]), list(records[:count]), left_out, float_of(score), float_of(sizesim), float_of(seqsim), scored, complete == 1, meta)


def _read_alike(counted: Union[Table, Haplotype], settings: Settings) -> Any:
    """The features where the settings' reading is the one that they were counted by. The library cannot see how a row was counted: rows of
    another reading are no rows of these settings, so none are lent, and its own 6 tells it, as it does of another k."""
    return counted.features if counted.letters == settings.letters else []


def _table(table: Table, settings: Settings) -> Any:
    u32, u64, i32 = ctypes.c_uint32, ctypes.c_uint64, ctypes.c_int32
    features = _read_alike(table, settings)
    return (*_given(table.starts, u64), *_given(table.ends, u64), *_given(table.sizes, i32), *_given(features, i32), *_given(table.records, u32))


def apply_haplotype(settings: Settings, table: Table, haplotype: Haplotype) -> Answer:
    """The path of the table that best explains the haplotype. A call that the rules refuse raises :class:`Refused`. Either has the haplotype's data."""
    u32, u64, i32 = ctypes.c_uint32, ctypes.c_uint64, ctypes.c_int32
    words = words_of(settings)
    room = queue_room(settings, len(table))
    links, keys = (u32 * room)(), (u64 * room)()
    rows, records, report = (u32 * len(table))(), (u32 * len(table))(), (u32 * 7)()
    accepted(LIBRARY.nd_apply_haplotype(
        ctypes.byref(words), *_table(table, settings), *_given(haplotype.sizes, i32), *_given(_read_alike(haplotype, settings), i32),
        links, room, keys, room, rows, len(rows), records, len(records), report), haplotype.meta)
    return _answer(report, rows, records, haplotype.meta)


def check_path(settings: Settings, table: Table, haplotype: Haplotype, rows: Numbers, positions: Numbers, score: float) -> bool:
    """Whether a path that someone else found is a good one: rows of the table, positions among the haplotype's parts, from 0, and a score.

    Yes exactly where the rows ascend and no two overlap, the positions are one of the lists of parts that a search tries, and that list scored
    against those rows passes every test and gives that score, greater than 0, bit for bit, as a float of 32 bits. An answer in search mode with
    a score above 0 gets a yes with the list that won. A row or a position that isn't there is a no; over 64 of either is refused by 54.
    """
    u32, u64, i32, yes = ctypes.c_uint32, ctypes.c_uint64, ctypes.c_int32, ctypes.c_uint32()
    words = words_of(settings)
    held = (*_given(table.starts, u64), *_given(table.ends, u64), *_given(table.sizes, i32), *_given(_read_alike(table, settings), i32))
    accepted(LIBRARY.nd_check_path(
        ctypes.byref(words), *held, *_given(haplotype.sizes, i32), *_given(_read_alike(haplotype, settings), i32),
        *_given(rows, u32), *_given(positions, u32), float(score), ctypes.byref(yes)))
    return yes.value == 1


def apply_haplotypes(settings: Settings, table: Table, haplotypes: Sequence[Haplotype]) -> List[Union[Answer, Refused]]:
    """The answer of each of 1 to 16 haplotypes over one table, which is checked once.

    A call that is refused as a whole raises :class:`Refused`, and so does every refusal with one haplotype; with several, one whose own parts
    are refused has that refusal in its place. Each has its own haplotype's data; a refusal of the whole call has those of all, in a list.
    """
    u32, u64, i32 = ctypes.c_uint32, ctypes.c_uint64, ctypes.c_int32
    words = words_of(settings)
    sizes = [size for haplotype in haplotypes for size in haplotype.sizes]
    rows_of = [_read_alike(haplotype, settings) for haplotype in haplotypes]
    features = [entry for counted in rows_of for entry in counted]
    part_ends = list(accumulate(len(haplotype.sizes) for haplotype in haplotypes))
    feature_ends = list(accumulate(len(counted) for counted in rows_of))
    room, v, count = queue_room(settings, len(table)), len(table), len(haplotypes)
    links, keys = (u32 * room)(), (u64 * room)()
    rows, records, reports = (u32 * (v * count))(), (u32 * (v * count))(), (u32 * (8 * count))()
    accepted(LIBRARY.nd_apply_haplotypes(
        ctypes.byref(words), *_table(table, settings), *_given(part_ends, u64), *_given(feature_ends, u64), *_given(sizes, i32), *_given(features, i32),
        links, room, keys, room, rows, len(rows), records, len(records), reports, len(reports)), [haplotype.meta for haplotype in haplotypes])
    own = [(reports[8 * at], _answer(reports[8 * at + 1:8 * at + 8], rows[v * at:v * at + v], records[v * at:v * at + v], haplotype.meta))
           for at, haplotype in enumerate(haplotypes)]
    return [Refused(number, answer.meta) if number else answer for number, answer in own]
