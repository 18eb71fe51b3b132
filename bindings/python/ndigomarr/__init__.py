"""Places insertions and deletions: which rows of a variant table best explain a haplotype.

A module over the library whose every function is proved to meet its contract. Four things to know about an :class:`Answer`: its rows are row
numbers of the :class:`Table` handed over, from 0; its records are those rows' record numbers; the search stops after ``maxpaths`` + 1 paths, and
``complete`` says whether those were all: if not, better ones may exist; of two equally good paths the one scored later wins, which need not be the
lower in the table.

>>> import ndigomarr
>>> settings = ndigomarr.Settings(k=1, minkfreq=1)
>>> table = ndigomarr.Table(settings.k)
>>> table.insertion(10, "AG")
>>> table.insertion(20, "CT")
>>> haplotype = ndigomarr.Haplotype(settings.k)
>>> haplotype.insertion("AG")
>>> answer = ndigomarr.apply_haplotype(settings, table, haplotype)
>>> answer.rows, answer.score, answer.scored, answer.complete
([0], 1.0, 4, True)
"""
from ._book import Book
from ._library import Bed, Companions, Refused, answer, count_chains, move_job, read_bed, seq_to_kmer, seqsim, sizesim, write_bed
from ._meta import HaplotypeMeta
from ._search import Answer, apply_haplotype, apply_haplotypes, check_path
from ._settings import Settings
from ._table import Haplotype, Table

__all__ = [
    "Answer", "Bed", "Book", "Companions", "Haplotype", "HaplotypeMeta", "Refused", "Settings", "Table", "answer", "apply_haplotype", "apply_haplotypes",
    "check_path", "count_chains", "move_job", "read_bed", "seq_to_kmer", "seqsim", "sizesim", "write_bed",
]
__version__ = "0.1.0"
