"""Whose reads these were: the data of 1 to 8 samples that a haplotype carries."""
import ctypes
from dataclasses import dataclass, field
from typing import Any, List, Optional

from ._lent import array
from ._library import LIBRARY, accepted

_WORDS = ctypes.c_uint64 * 28
_PLACES = 8


def _eight(numbers: List[int]) -> List[int]:
    """The first eight, with zeros behind them where they are fewer."""
    return (list(numbers) + [0] * _PLACES)[:_PLACES]


def _plus_one(tags: List[Optional[int]], limit: int) -> List[int]:
    for tag in tags:
        if tag is not None and not 0 <= tag <= limit:
            raise OverflowError(f"{tag} is no number from 0 to {limit}")
    return [0 if tag is None else tag + 1 for tag in tags]


def _word(number: int) -> int:
    held: int = array([number], ctypes.c_uint64)[0]
    return held


@dataclass
class HaplotypeMeta:
    """The data of 1 to 8 samples, kanpig's `HaplotypeMeta` without read names; each list has an entry for each sample.

    >>> left, right = HaplotypeMeta.new(0, 2), HaplotypeMeta.new(1, 2)
    >>> right.ps = [7, 8]
    >>> left.combine(right)
    >>> left.coverage, left.samples_flag, left.ps
    ([1, 1], 3, [7, 8])
    """

    id: int = 0
    samples_flag: int = 0
    coverage: List[int] = field(default_factory=list)
    ps: List[Optional[int]] = field(default_factory=list)
    hp: List[Optional[int]] = field(default_factory=list)

    @classmethod
    def new(cls, sample_idx: int, num_samples: int) -> "HaplotypeMeta":
        """One read of one sample. Refused by 50 and 51."""
        words = _WORDS()
        accepted(LIBRARY.nd_meta_new(_word(sample_idx), _word(num_samples), words))
        return cls._of(words)

    @classmethod
    def new_blank(cls, num_samples: int) -> "HaplotypeMeta":
        """No read of any sample. Refused by 50."""
        words = _WORDS()
        accepted(LIBRARY.nd_meta_blank(_word(num_samples), words))
        return cls._of(words)

    def combine(self, other: "HaplotypeMeta") -> None:
        """Adds the other's coverage, takes its phase sets and tags where there are none here and joins its flags; the id stays. Refused by 50,
        52 and 53; nothing is changed then."""
        left = self._words()
        accepted(LIBRARY.nd_meta_combine(left, other._words()))
        both = self._of(left)
        self.samples_flag, self.coverage, self.ps, self.hp = both.samples_flag, both.coverage, both.ps, both.hp

    def _words(self) -> Any:
        samples = len(self.coverage)
        if not samples == len(self.ps) == len(self.hp):
            raise ValueError(f"{samples} coverages, {len(self.ps)} phase sets and {len(self.hp)} tags; each sample has one of each")
        eights = _eight(self.coverage) + _eight(_plus_one(self.ps, (1 << 32) - 1)) + _eight(_plus_one(self.hp, 255))
        return array([self.id, samples, self.samples_flag, *eights, 0], ctypes.c_uint64)

    @classmethod
    def _of(cls, words: Any) -> "HaplotypeMeta":
        count = words[1]
        ps, hp = ([word - 1 if word else None for word in words[at:at + count]] for at in (11, 19))
        return cls(words[0], words[2], list(words[3:3 + count]), ps, hp)
