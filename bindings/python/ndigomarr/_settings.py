"""Made from docs/settings.tsv by tools/settings --write."""
import ctypes
from dataclasses import dataclass


@dataclass(frozen=True)
class Settings:
    """The settings of a search, with kanpig's defaults where they lie in the limits here."""

    k: int = 4
    """Letters of a k-mer, 1 to 6."""
    squish: bool = False
    """Prefer paths of few rows: the gap penalty counts rows beyond the first."""
    one_to_one: bool = False
    """Match each row alone instead of searching paths."""
    full: bool = True
    """Rows of which no two overlap may stand in one path, an insertion inside a deletion overlapping it; without it only the empty path stands."""
    maxpaths: int = 4095
    """The search scores at most this many paths and one more; at most 4,095."""
    maxnodes: int = 5000
    """Tables of more rows are matched one to one."""
    fnmax: int = 3
    """How many parts a part list may leave out."""
    pileupmax: int = 12
    """From this many parts on only the whole haplotype is tried; at most 12."""
    minkfreq: int = 2
    """K-mers seen fewer times in both rows together are passed over."""
    letters: int = 0
    """How bytes other than A, C, G and T in either case are read: 0 counts each as A, 1 leaves out each window that holds one."""
    sizesim: float = 0.9
    """The least similarity of sizes, 0 to 1."""
    seqsim: float = 0.9
    """The least similarity of sequences, 0 to 1."""
    fpenalty: float = 0.1
    """Taken off the score for each part left out, 0 to 1,000."""
    gpenalty: float = 0.02
    """Taken off the score for each row too many or too few, 0 to 1,000."""


class Words(ctypes.Structure):
    """The settings as the library takes them."""

    _fields_ = [
        ("k", ctypes.c_uint32),
        ("squish", ctypes.c_uint32),
        ("one_to_one", ctypes.c_uint32),
        ("full", ctypes.c_uint32),
        ("maxpaths", ctypes.c_uint32),
        ("maxnodes", ctypes.c_uint32),
        ("fnmax", ctypes.c_uint32),
        ("pileupmax", ctypes.c_uint32),
        ("minkfreq", ctypes.c_uint32),
        ("letters", ctypes.c_uint32),
        ("sizesim", ctypes.c_float),
        ("seqsim", ctypes.c_float),
        ("fpenalty", ctypes.c_float),
        ("gpenalty", ctypes.c_float),
    ]
