"""The module over the proved library: the worked example, lists and numpy arrays, every refusal's words, and numbers that no type holds."""
import doctest
import itertools
import pathlib
import pickle
import sys
from fractions import Fraction

import pytest

import ndigomarr
from ndigomarr import Haplotype, Refused, Settings, Table, _library, _meta, _refusals

ROOT = pathlib.Path(__file__).resolve().parents[3]
sys.path.insert(0, str(ROOT / "tools"))
import ndform  # noqa: E402

SETTINGS = Settings(k=1, minkfreq=1)


def worked():
    table = Table(1)
    table.insertion(10, "AG", record=40713)
    table.insertion(20, b"CT", record=268)
    haplotype = Haplotype(1)
    haplotype.insertion("AG")
    return table, haplotype


def example(name):
    return (ROOT / "examples" / f"{name}.job").read_bytes()


def second_edition(job, letters=0, number=lambda row: row):
    """A good job of edition 1 as the tools' own form writes it in edition 2, which shares nothing with the library."""
    held = ndform.read(job)
    rows = [row._replace(number=number(at)) for at, row in enumerate(held.variants)]
    return ndform.write(held._replace(edition=2, settings=held.settings | {"letters": letters}, variants=rows))


def test_the_worked_example():
    answer = ndigomarr.apply_haplotype(SETTINGS, *worked())
    assert (answer.rows, answer.records, answer.left_out) == ([0], [40713], 0)
    assert (answer.score, answer.sizesim, answer.seqsim) == (1.0, 1.0, 1.0)
    assert (answer.scored, answer.complete) == (4, True)


def test_several_haplotypes_each_as_by_itself():
    table, first = worked()
    refused, none, second = Haplotype(1), Haplotype(1), Haplotype(1)
    refused.add(131073, "AG")
    second.insertion("CT")
    answers = ndigomarr.apply_haplotypes(SETTINGS, table, [first, refused, none, second])
    assert answers[0] == ndigomarr.apply_haplotype(SETTINGS, table, first)
    assert isinstance(answers[1], Refused) and answers[1].number == 9
    assert answers[2] == ndigomarr.apply_haplotype(SETTINGS, table, none)
    assert answers[3] == ndigomarr.apply_haplotype(SETTINGS, table, second)
    assert answers[3].records == [268]
    for number, haplotypes in [(9, [refused]), (27, []), (27, [first] * 17)]:
        with pytest.raises(Refused) as told:
            ndigomarr.apply_haplotypes(SETTINGS, table, haplotypes)
        assert told.value.number == number


def test_nothing_found_leaves_out_nothing():
    table, _ = worked()
    haplotype = Haplotype(1)
    haplotype.deletion("AG")
    answer = ndigomarr.apply_haplotype(SETTINGS, table, haplotype)
    assert (answer.rows, answer.left_out, answer.score) == ([], None, 0.0)


def test_the_latest_of_equals_and_the_count():
    table = Table(1)
    for start in (10, 20, 30):
        table.insertion(start, "AG")
    haplotype = Haplotype(1)
    haplotype.insertion("AG")
    answer = ndigomarr.apply_haplotype(Settings(k=1, minkfreq=1, maxpaths=2), table, haplotype)
    assert (answer.scored, answer.complete) == (3, False)
    whole = ndigomarr.apply_haplotype(SETTINGS, table, haplotype)
    assert (whole.rows, whole.scored, whole.complete) == ([0], 8, True)


def test_every_refusal_has_the_tables_words():
    lines = (ROOT / "docs/refusals.tsv").read_text(encoding="utf-8").splitlines()[1:]
    table = {int(number): (name, words) for number, name, words in (line.split("\t") for line in lines)}
    assert _refusals.TABLE == table
    for number, (name, words) in table.items():
        told = Refused(number)
        assert (told.number, told.name, told.words, str(told)) == (number, name, words, f"refused {number}: {words}")
        assert pickle.loads(pickle.dumps(told)).number == number


@pytest.mark.parametrize("number, call", [
    (1, lambda: ndigomarr.seq_to_kmer("A", 7)),
    (1, lambda: ndigomarr.seq_to_kmer("A", 257)),
    (2, lambda: ndigomarr.apply_haplotype(Settings(k=1, sizesim=float("nan")), *worked())),
    (3, lambda: ndigomarr.apply_haplotype(Settings(k=1, maxpaths=4096), *worked())),
    (3, lambda: ndigomarr.apply_haplotype(Settings(k=1, letters=2), *worked())),
    (3, lambda: ndigomarr.apply_haplotype(Settings(k=1, letters=256), *worked())),
    (3, lambda: ndigomarr.seq_to_kmer("A", 1, letters=2)),
    (3, lambda: ndigomarr.seq_to_kmer("A", 1, letters=256)),
    (3, lambda: Table(1, letters=2).insertion(1, "A")),
    (4, lambda: ndigomarr.apply_haplotype(SETTINGS, Table(1), Haplotype(1))),
    (6, lambda: ndigomarr.seqsim([1], [1, 2], 1)),
    (6, lambda: ndigomarr.apply_haplotype(Settings(k=2), *worked())),
    (7, lambda: ndigomarr.count_chains([2], [1])),
    (8, lambda: ndigomarr.count_chains([2, 1], [2, 2])),
    (9, lambda: ndigomarr.sizesim(0, 8388609)),
    (10, lambda: ndigomarr.seqsim([8388609], [1], 1)),
    (13, lambda: ndigomarr.seq_to_kmer("A" * 131073, 1)),
])
def test_refusals(number, call):
    with pytest.raises(Refused) as told:
        call()
    assert told.value.number == number


def test_what_n_does_in_each_reading():
    assert list(ndigomarr.seq_to_kmer("ANCgn-", 1)) == [4, 1, 1, 0]
    assert list(ndigomarr.seq_to_kmer("ANCgn-", 1, True, 1)) == [-1, -1, -1, 0]
    found = []
    for letters in (0, 1):
        settings = Settings(k=2, minkfreq=1, sizesim=0.5, seqsim=0.5, letters=letters)
        table, haplotype = Table(settings.k, settings.letters), Haplotype(settings.k, settings.letters)
        table.insertion(10, "CCAACC")
        haplotype.insertion("CCNNCC")
        found.append(ndigomarr.apply_haplotype(settings, table, haplotype).seqsim)
    # CC CA AA AC CC in both, and then CC CC of the read against these five: n is 3, d 7
    assert found == [1.0, pytest.approx(1 - 3 / 7)]


def test_every_window_left_out_is_a_16():
    for letters, number in ((0, None), (1, 16)):
        settings = Settings(k=2, letters=letters)
        table, haplotype = Table(2, letters), Haplotype(2, letters)
        table.insertion(10, "ACGT")
        haplotype.insertion("ANCNG")
        ndigomarr.apply_haplotype(settings, table, haplotype)
        table.insertion(20, "ANCNG")
        if number:
            assert refused(ndigomarr.apply_haplotype, settings, table, haplotype) == number
        else:
            ndigomarr.apply_haplotype(settings, table, haplotype)


def test_one_reading_for_table_haplotype_and_settings():
    def made(letters):
        table, haplotype = Table(1, letters), Haplotype(1, letters)
        table.insertion(10, "AG")
        haplotype.insertion("AG")
        return Settings(k=1, minkfreq=1, letters=letters), table, haplotype
    for one, other in ((made(0), made(1)), (made(1), made(0))):
        settings, table, haplotype = one
        assert ndigomarr.apply_haplotype(*one).rows == [0]
        for given in ((other[0], table, haplotype), (settings, other[1], haplotype), (settings, table, other[2])):
            assert refused(ndigomarr.apply_haplotype, *given) == 6
        answers = ndigomarr.apply_haplotypes(settings, table, [haplotype, other[2]])
        assert answers[0].rows == [0] and answers[1].number == 6


def test_somebody_elses_path():
    table, haplotype = worked()
    answer = ndigomarr.apply_haplotype(SETTINGS, table, haplotype)
    asked = lambda rows, positions, score: ndigomarr.check_path(SETTINGS, table, haplotype, rows, positions, score)
    assert asked(answer.rows, [0], answer.score)
    for rows, positions, score in [([1], [0], 1.0), ([0, 1], [0], 1.0), ([1, 0], [0], 1.0), ([2], [0], 1.0), ([0], [], 1.0), ([0], [1], 1.0), ([0], [0], 0.99999994), ([0], [0], float("nan"))]:
        assert not asked(rows, positions, score)
    for rows, positions in [([0] * 65, [0]), ([0], [0] * 65)]:
        with pytest.raises(Refused) as told:
            asked(rows, positions, 1.0)
        assert (told.value.number, told.value.name) == (54, "LONG_PROPOSAL")


def test_a_repeated_record_number():
    table, haplotype = worked()
    table.insertion(30, "AG", record=268)
    with pytest.raises(Refused) as told:
        ndigomarr.apply_haplotype(SETTINGS, table, haplotype)
    assert (told.value.number, told.value.name) == (14, "REPEATED_NUMBER")


@pytest.mark.parametrize("settings", [SETTINGS, Settings(k=1, one_to_one=True), Settings(k=1, full=False), Settings(k=1, maxnodes=0)])
def test_a_variant_with_fewer_letters_than_k(settings):
    table, haplotype = worked()
    haplotype.insertion("")
    ndigomarr.apply_haplotype(settings, table, haplotype)
    table.add(30, 30, 2, "")
    for call in (lambda: ndigomarr.apply_haplotype(settings, table, haplotype), lambda: ndigomarr.apply_haplotypes(settings, table, [haplotype, haplotype])):
        with pytest.raises(Refused) as told:
            call()
        assert (told.value.number, told.value.name, str(told.value)) == (16, "EMPTY_ROW", "refused 16: a variant's feature row is all zero")


@pytest.mark.parametrize("call", [
    lambda: ndigomarr.sizesim(-1, 2),
    lambda: ndigomarr.sizesim(1 << 64, 2),
    lambda: ndigomarr.seqsim([1 << 31], [1], 1),
    lambda: ndigomarr.seqsim([1], [1], -1),
    lambda: ndigomarr.count_chains([1], [1], cap=1 << 32),
    lambda: ndigomarr.apply_haplotype(Settings(k=1, maxpaths=-1), *worked()),
    lambda: Table(1).add(-1, 1, 1, "A"),
    lambda: Table(1).add(1, 1, 1 << 31, "A"),
    lambda: Table(1).insertion(1, "A", record=1 << 32),
    lambda: ndigomarr.move_job(example("worked"), 2**32 + 2),
    lambda: ndigomarr.move_job(second_edition(example("worked")), 2**32 + 1),
    lambda: ndigomarr.move_job(example("worked"), 2**32),
    lambda: ndigomarr.move_job(example("worked"), -1),
    lambda: ndigomarr.move_job(b"", -(2**32) + 2),
])
def test_a_number_that_no_type_holds_is_told_before_the_call(call):
    with pytest.raises(OverflowError):
        call()


@pytest.mark.parametrize("call", [
    lambda: ndigomarr.seqsim([1.5], [1], 1),
    lambda: ndigomarr.seqsim("12", [1, 2], 1),
    lambda: ndigomarr.count_chains([1.0], [1]),
    lambda: ndigomarr.apply_haplotype(Settings(k=1, maxpaths=9.5), *worked()),
    lambda: Table(1).add(10.9, 11, 1, "A"),
    lambda: ndigomarr.move_job(example("worked"), 2.0),
])
def test_what_is_no_whole_number_is_told(call):
    with pytest.raises(TypeError):
        call()


def test_a_threshold_of_any_kind_of_float_counts():
    table, haplotype = worked()
    haplotype.insertion("GGGG")
    kinds = [float, Fraction] + [numpy.float32 for numpy in [pytest.importorskip("numpy")]]
    for kind in kinds:
        assert ndigomarr.apply_haplotype(Settings(k=1, minkfreq=1, sizesim=kind(0.875), fnmax=0), table, haplotype).left_out is None
    assert ndigomarr.apply_haplotype(Settings(k=1, minkfreq=1, sizesim=0, seqsim=0, fnmax=0), table, haplotype).left_out == 0
    with pytest.raises(Refused) as told:
        ndigomarr.apply_haplotype(Settings(k=1, sizesim=-1), table, haplotype)
    assert told.value.number == 2


def test_what_failed_leaves_the_table_as_it_was():
    table, _ = worked()
    for given in [(-1, 1, 1, "A"), (1, 1, 1 << 31, "A"), (1, 1 << 64, 1, "A")]:
        with pytest.raises(OverflowError):
            table.add(*given)
    lengths = [len(column) for column in (table.starts, table.ends, table.sizes, table.records, table.features)]
    assert lengths == [2, 2, 2, 2, 8]


def test_a_table_grows_after_a_search():
    table, haplotype = worked()
    ndigomarr.apply_haplotype(SETTINGS, table, haplotype)
    table.insertion(30, "AG")
    haplotype.insertion("AG")
    assert ndigomarr.apply_haplotype(SETTINGS, table, haplotype).rows == [0, 2]


def test_numpy_arrays_and_lists_alike():
    numpy = pytest.importorskip("numpy")
    row, other = numpy.array([3, -1, 0, 4], dtype=numpy.int32), [3, 1, 2, 4]
    plain = ndigomarr.seqsim([3, -1, 0, 4], other, 1)
    for kind in (numpy.int8, numpy.int32, numpy.int64):
        assert ndigomarr.seqsim(row.astype(kind), numpy.array(other, dtype=kind), 1) == plain
    wide = numpy.zeros((4, 2), dtype=numpy.int32)
    wide[:, 0] = row
    assert ndigomarr.seqsim(wide[:, 0], other, 1) == plain
    row.setflags(write=False)
    assert ndigomarr.seqsim(row, other, 1) == plain
    table = Table(1)
    table.add_counted(10, 10, 2, numpy.asarray(ndigomarr.seq_to_kmer("AG", 1)))
    assert list(table.features) == [1, 1, 0, 0]
    starts = numpy.array([10, 20], dtype=numpy.uint64)
    assert ndigomarr.count_chains(starts, starts) == 4


def test_the_program_answers():
    assert ndigomarr.answer(b"") == "refused 21\n"
    assert ndigomarr.answer(example("worked")).startswith("rows 0\nrecords 0\nscore 3f800000\n")


IN_EDITION_1 = ["worked", "deletion", "squish", "bare-graph", "several-haplotypes", "refused-2-nan", "refused-4-no-variants", "refused-26-seventeen-variants"]


@pytest.mark.parametrize("name", IN_EDITION_1)
def test_a_job_moved_there_and_back(name):
    first = example(name)
    second = second_edition(first)
    assert (first[0], second[0]) == (0x01, 0x11) and len(second) > len(first)
    assert ndigomarr.move_job(first, 2) == second
    assert ndigomarr.move_job(second, 1) == first
    assert ndigomarr.move_job(bytearray(first), 2) == second
    assert ndigomarr.answer(second) == ndigomarr.answer(first)


def test_a_long_job_has_room():
    """Variants without letters grow most: 4 bytes on 26."""
    bare, lettered = ndform.variant(1, 1, 1, b""), ndform.variant(1, 1, 1, b"A" * ndform.LETTERS_LIMIT)
    for first in (ndform.job(ndform.settings(), bare * 1000), ndform.job(ndform.settings(), lettered, bare)):
        assert ndigomarr.move_job(first, 2) == second_edition(first)
        assert ndigomarr.move_job(second_edition(first), 1) == first


@pytest.mark.parametrize("number, job, edition", [
    (22, example("worked"), 1),
    (22, second_edition(example("worked")), 2),
    *((22, example("worked"), edition) for edition in (0, 3, 257, 258, 2**32 - 1)),
    *((22, second_edition(example("worked")), edition) for edition in (0, 3, 2**32 - 1)),
    (22, example("refused-22-mixed-editions"), 2),
    (28, second_edition(example("worked"), number=lambda row: row + 1), 1),
    (28, second_edition(example("worked"), number=lambda row: row ^ 1), 1),
    (28, second_edition(example("worked"), number=lambda row: 0), 1),
    (28, second_edition(example("worked"), letters=1, number=lambda row: row or 2**32 - 1), 1),
    (29, second_edition(example("worked"), letters=1), 1),
    (29, second_edition(example("refused-4-no-variants"), letters=1), 1),
    # 22 before 28 and 29; the form's faults before all
    (22, second_edition(example("worked"), letters=1, number=lambda row: 7), 2),
    (24, second_edition(example("worked"), letters=2, number=lambda row: 7), 1),
    (21, b"", 1),
    (21, example("worked")[:-1], 2),
    (25, example("worked") + b"\0", 2),
    (20, example("refused-20-unknown-kind"), 2),
    (23, example("refused-23-padding"), 2),
    (24, example("refused-24-letters-2"), 1),
    (27, example("refused-27-seventeen-haplotypes"), 2),
])
def test_a_job_that_is_not_moved(number, job, edition):
    assert refused(ndigomarr.move_job, job, edition) == number


def test_bed_there_and_back():
    text = b"reef7\t10\t20\nreef7\t15\t15\n"
    bed = ndigomarr.read_bed(text)
    assert (bed.starts, bed.ends, ndigomarr.write_bed(bed, [0, 1])) == ([10, 15], [20, 15], text)
    for number, wrong in [(40, b"reef7\t010\t20\n"), (41, b"a\t1\t2\nb\t1\t2\n"), (7, b"a\t2\t1\n"), (8, b"a\t2\t2\na\t1\t1\n")]:
        with pytest.raises(Refused) as told:
            ndigomarr.read_bed(wrong)
        assert told.value.number == number
    with pytest.raises(Refused) as told:
        ndigomarr.write_bed(bed, [2])
    assert told.value.number == 44


def refused(call, *given):
    with pytest.raises(Refused) as told:
        call(*given)
    return told.value.number


def test_companions():
    rows = [(0, 10), (5, 5), (10, 12), (10, 10), (11, 20)]
    companions = ndigomarr.Companions(rows)
    # a point at an end does not overlap, one strictly inside does
    apart = {(0, 2), (0, 3), (0, 4), (1, 2), (1, 3), (1, 4), (2, 3), (3, 4)}
    for a, b in itertools.product(range(5), repeat=2):
        assert companions.together(a, b) == (tuple(sorted((a, b))) in apart)
    assert [companions.count(row) for row in range(5)] == [3, 3, 1, 1, 0]
    assert (refused(companions.add, 10, 11), refused(companions.add, 12, 11), refused(companions.count, 5), refused(companions.together, 0, 5)) == (8, 7, 44, 44)
    assert (len(companions), repr(companions)) == (5, f"Companions({rows})")
    companions.remove()
    assert [companions.count(row) for row in range(4)] == [2, 2, 1, 0]
    for row in range(60):
        companions.add(20 + row, 20 + row)
    assert (refused(companions.add, 99, 99), companions.count(0)) == (5, 62)
    assert refused(ndigomarr.Companions().remove) == 44


def test_whose_reads_these_were():
    left, right = ndigomarr.HaplotypeMeta.new(0, 2), ndigomarr.HaplotypeMeta.new(1, 2)
    left.id, left.hp[0], right.hp = 9, 255, [0, 1]
    left.combine(right)
    assert left == ndigomarr.HaplotypeMeta(9, 3, [1, 1], [None, None], [255, 1])
    three, full = ndigomarr.HaplotypeMeta.new_blank(3), ndigomarr.HaplotypeMeta(0, 0, [2**64 - 1, 0], [None, 2**32 - 1], [None, None])
    assert (refused(left.combine, three), refused(left.combine, full), refused(three.combine, ndigomarr.HaplotypeMeta())) == (52, 53, 50)
    nine = ndigomarr.HaplotypeMeta(0, 0, [0] * 9, [None] * 9, [None] * 9)
    assert (refused(nine.combine, nine), refused(ndigomarr.HaplotypeMeta.new, 2, 2), refused(ndigomarr.HaplotypeMeta.new_blank, 0)) == (50, 51, 50)
    assert left.coverage == [1, 1]
    for wrong in [ndigomarr.HaplotypeMeta(0, 0, [1], [], [None]), ndigomarr.HaplotypeMeta(0, 0, [1], [None, None], [None])]:
        with pytest.raises(ValueError):
            left.combine(wrong)
    with pytest.raises(OverflowError):
        left.combine(ndigomarr.HaplotypeMeta(0, 0, [1, 1], [None, 2**32], [None, None]))


def test_every_answer_carries_the_haplotypes_data():
    table, haplotype = worked()
    plain = ndigomarr.apply_haplotype(SETTINGS, table, haplotype)
    assert plain.meta is None
    haplotype.meta = ndigomarr.HaplotypeMeta.new(0, 1)
    told = ndigomarr.apply_haplotype(SETTINGS, table, haplotype)
    assert told.meta is haplotype.meta and (told.rows, told.score) == (plain.rows, plain.score)
    with pytest.raises(Refused) as refusal:
        ndigomarr.apply_haplotype(Settings(k=0), table, haplotype)
    assert refusal.value.meta is haplotype.meta and pickle.loads(pickle.dumps(refusal.value)).meta == haplotype.meta
    large = Haplotype(1, meta=ndigomarr.HaplotypeMeta.new(1, 2))
    large.add(131073, "AG")
    answers = ndigomarr.apply_haplotypes(SETTINGS, table, [haplotype, large])
    assert answers[0].meta is haplotype.meta and answers[1].number == 9 and answers[1].meta is large.meta
    with pytest.raises(Refused) as refusal:
        ndigomarr.apply_haplotypes(Settings(k=0), table, [haplotype, large])
    assert refusal.value.meta == [haplotype.meta, large.meta]


def test_letters_outside_ascii_are_told():
    with pytest.raises(UnicodeEncodeError):
        ndigomarr.seq_to_kmer("AÄ", 1)


def test_what_the_pages_show():
    for module in (ndigomarr, _library, _meta):
        result = doctest.testmod(module)
        assert result.attempted and not result.failed
    told = doctest.testfile(str(ROOT / "docs/FIRST-WEEK.md"), module_relative=False, encoding="utf-8")
    assert told.attempted and not told.failed
    text = (ROOT / "bindings/python/README.md").read_text(encoding="utf-8")
    shown = text.split("```python\n")[1].split("```")[0]
    place = {}
    exec(shown.replace("print(", "said = ("), place)  # the page's own example
    assert place["said"] == ([0], [40713], 1.0, True)


def test_a_book_of_settings():
    book = ndigomarr.Book()
    assert (len(book), bytes(book)) == (0, b"")
    each = [Settings(k=k, full=bool(k % 2), letters=k % 2) for k in (1, 2, 3)]
    assert [book.save(settings) for settings in each] == [1, 2, 3]
    assert (book.restore(1), [book.read(version).k for version in (1, 2, 3, 4)]) == (4, [1, 2, 3, 1])
    assert (book.read(2).full, book.read(3).letters) == (False, 1)
    again = ndigomarr.Book(bytes(book))
    assert (len(again), bytes(again), len(bytes(book))) == (4, bytes(book), 172)
    assert [refused(book.save, Settings(k=7)), refused(book.save, Settings(letters=2)), refused(book.save, Settings(letters=256)),
            refused(book.save, Settings(seqsim=2.0)), refused(book.save, Settings(maxpaths=4096))] == [1, 24, 24, 2, 3]
    assert [refused(book.read, 0), refused(book.read, 5), refused(book.restore, 256)] == [45, 45, 45]
    for wrong in (bytes(book)[:-1], bytes(book)[43:], b"!", b"\0\1"):
        assert refused(ndigomarr.Book, wrong) == 48
    while len(book) < 255:
        book.restore(2)
    assert (refused(book.restore, 1), refused(book.save, each[0]), len(book)) == (46, 46, 255)
