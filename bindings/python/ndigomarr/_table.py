"""What a search is given: the variant table and the haplotype's parts, as flat rows."""
import array as flat
import ctypes
from typing import Optional, Union

from ._lent import Numbers, array
from ._library import seq_to_kmer
from ._meta import HaplotypeMeta

Letters = Union[str, bytes]



class Haplotype:
    """A haplotype: its parts in order, and whose reads it came from where the caller says: `meta`, which no search looks at and every answer,
    a refused one too, hands back. Its k and its reading of letters are those of the settings that it is searched with, else a 6."""

    def __init__(self, k: int, letters: int = 0, meta: Optional[HaplotypeMeta] = None) -> None:
        self.k = k
        self.letters = letters
        self.meta = meta
        self.sizes = flat.array("i")
        self.features = flat.array("i")

    def __len__(self) -> int:
        return len(self.sizes)

    def insertion(self, letters: Letters) -> None:
        """Adds a part in which these letters are inserted."""
        self.add(len(letters), letters)

    def deletion(self, letters: Letters) -> None:
        """Adds a part in which these letters are deleted."""
        self.add(-len(letters), letters, negative=True)

    def add(self, size: int, letters: Letters, negative: bool = False) -> None:
        """Adds a part; its letters are counted, downwards for a `negative` sequence."""
        self.add_counted(size, seq_to_kmer(letters, self.k, negative, self.letters))

    def add_counted(self, size: int, features: Numbers) -> None:
        """Adds a part whose features were counted already, by the haplotype's k and reading."""
        row = array(features, ctypes.c_int32)
        self.sizes.append(size)
        self.features.extend(row)


class Table:
    """Variants in the order of their starts. A variant's row number is how many were added before it.

    Its k and its reading of letters are those of the settings that it is searched with, else a 6."""

    def __init__(self, k: int, letters: int = 0) -> None:
        self.k = k
        self.letters = letters
        self.starts = flat.array("Q")
        self.ends = flat.array("Q")
        self.sizes = flat.array("i")
        self.features = flat.array("i")
        self.records = flat.array("I")

    def __len__(self) -> int:
        return len(self.starts)

    def insertion(self, start: int, letters: Letters, record: Optional[int] = None) -> None:
        """Adds an insertion of these letters before position `start`: it covers none of the reference, so its end is its start."""
        self.add(start, start, len(letters), letters, record=record)

    def deletion(self, start: int, letters: Letters, record: Optional[int] = None) -> None:
        """Adds a deletion of these letters from position `start` on."""
        self.add(start, start + len(letters), -len(letters), letters, negative=True, record=record)

    def add(self, start: int, end: int, size: int, letters: Letters, negative: bool = False, record: Optional[int] = None) -> None:
        """Adds a variant; its letters are counted, downwards for a `negative` sequence. Its record number is its row number where none is given.

        With fewer letters than k it has no window, and a search refuses the table by 16; so it does where letters 1 leaves out every window.
        A part may have as few."""
        self.add_counted(start, end, size, seq_to_kmer(letters, self.k, negative, self.letters), record)

    def add_counted(self, start: int, end: int, size: int, features: Numbers, record: Optional[int] = None) -> None:
        """Adds a variant whose features were counted already, by the table's k and reading."""
        row = array(features, ctypes.c_int32)
        bounds = array([start, end], ctypes.c_uint64)
        numbers = array([len(self) if record is None else record], ctypes.c_uint32)
        self.sizes.append(size)
        self.starts.append(bounds[0])
        self.ends.append(bounds[1])
        self.features.extend(row)
        self.records.append(numbers[0])
