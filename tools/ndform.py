"""What the Python tools share of documents 01 and 02: the job form in both editions, byte for byte, and the program's answer, line for line.

The form stands here once: the kinds of record, the fields of their bodies, a writer and a reader. The two editions differ in the kinds of
settings and variant alone (document 02, P7): edition 2's bodies are edition 1's with one field more. A float setting is kept as its 32 bits, so
that every NaN comes back as it was. Which jobs in good form are refused is not said here.
tools/test_ndform holds the bytes to document 01's worked example; ndigo has the form in Rust, and its tests hold that to the
proved writer's bytes.
"""
import re
import struct
from typing import NamedTuple

# --- records ----------------------------------------------------------------

END, SETTINGS, VARIANT, PART, LETTERS, NEXT = range(6)
SETTINGS_2, VARIANT_2 = 0x11, 0x12
# an edition's own kinds: its settings' and its variants'
EDITIONS = {1: (SETTINGS, VARIANT), 2: (SETTINGS_2, VARIANT_2)}

# the fields of the settings record, in its order; the last is edition 2's alone
FIELDS = {
    "k": "byte", "squish": "flag", "one-to-one": "flag", "full": "flag",
    "maxpaths": "count", "maxnodes": "count", "fnmax": "count", "pileupmax": "count", "minkfreq": "count",
    "sizesim": "float", "seqsim": "float", "fpenalty": "float", "gpenalty": "float",
    "letters": "flag",
}
FLAGS = [name for name, holds in FIELDS.items() if holds == "flag"]
LETTERS_LIMIT = 131072
HAPLOTYPES_LIMIT = 16

SETTINGS_FORM = "<" + "".join({"byte": "B", "flag": "B", "count": "I", "float": "I"}[holds] for holds in FIELDS.values())
VARIANT_FORM = "<QQiBII"  # start, end, size, negative, letter count; the record number is edition 2's alone
# what follows the byte of kind
BODIES = {
    END: struct.Struct("<"),
    SETTINGS: struct.Struct(SETTINGS_FORM[:-1]),
    VARIANT: struct.Struct(VARIANT_FORM[:-1]),
    PART: struct.Struct("<iBI"),       # size, negative, letter count
    LETTERS: struct.Struct("<16s"),    # zero-padded
    NEXT: struct.Struct("<"),          # begins the next haplotype
    SETTINGS_2: struct.Struct(SETTINGS_FORM),
    VARIANT_2: struct.Struct(VARIANT_FORM),
}
LENGTHS = {kind: 1 + body.size for kind, body in BODIES.items()}


class Variant(NamedTuple):
    """In edition 1 a variant's record number is its row."""
    start: int
    end: int
    size: int
    letters: bytes
    negative: int = 0
    number: int = 0


class Part(NamedTuple):
    size: int
    letters: bytes
    negative: int = 0


class Job(NamedTuple):
    """The settings are a value for each name of FIELDS, a float as its bits; in edition 1 `letters` is 0. Each haplotype is a list of its parts;
    there is at least one."""
    settings: dict
    variants: list
    haplotypes: list
    edition: int = 1


def float_of_bits(bits):
    return struct.unpack("<f", struct.pack("<I", bits))[0]


def bits_of_float(value):
    return struct.unpack("<I", struct.pack("<f", value))[0]


# --- writing ----------------------------------------------------------------

def record(kind, *values):
    return bytes([kind]) + BODIES[kind].pack(*values)


def letters_records(letters):
    held = BODIES[LETTERS].size
    return b"".join(record(LETTERS, letters[at:at + held]) for at in range(0, len(letters), held))


def settings_record(values, edition=1):
    """What the edition has no place for is left out."""
    kind, _ = EDITIONS[edition]
    named = list(FIELDS) if edition == 2 else list(FIELDS)[:-1]
    return record(kind, *(values[name] for name in named))


def variant(start, end, size, letters, negative=0, number=None):
    """The record of a variant and those of its letters: of edition 2 where a record number is named."""
    values = (start, end, size, negative, len(letters))
    head = record(VARIANT, *values) if number is None else record(VARIANT_2, *values, number)
    return head + letters_records(letters)


def part(size, letters, negative=0):
    """The record of a part and those of its letters."""
    return record(PART, size, negative, len(letters)) + letters_records(letters)


def haplotypes(*lists):
    """The records of several haplotypes, each given as a list of its parts' records."""
    return record(NEXT).join(b"".join(parts) for parts in lists)


def job(head, *records):
    return head + b"".join(records) + record(END)


def settings(k=1, squish=0, one_to_one=0, full=1, maxpaths=10, maxnodes=10, fnmax=1, pileupmax=5, minkfreq=1,
             sizesim=0.5, seqsim=0.5, fpenalty=0.0, gpenalty=0.0, letters=None):
    """The settings record of the worked example, but for what is named; a float is given as a float. Of edition 2 where `letters` is named."""
    floats = map(bits_of_float, (sizesim, seqsim, fpenalty, gpenalty))
    values = dict(zip(FIELDS, (k, squish, one_to_one, full, maxpaths, maxnodes, fnmax, pileupmax, minkfreq, *floats, letters)))
    return settings_record(values, 1 if letters is None else 2)


def write(found):
    """The bytes of a job."""
    rows = (row if found.edition == 2 else row._replace(number=None) for row in found.variants)
    lists = ([part(*one) for one in parts] for parts in found.haplotypes)
    return job(settings_record(found.settings, found.edition), *(variant(*row) for row in rows), haplotypes(*lists))


# --- reading ----------------------------------------------------------------

class FormFault(Exception):
    """The number of the form's first fault, and the byte at which the faulty record begins."""

    def __init__(self, number, place):
        super().__init__(number, place)
        self.number, self.place = number, place


class Reader:
    """Takes records off the front. Within a record the faults come in document 01's order, 27 after 22 (document 02, P1); a kind of the other
    edition is out of place, a 22 (P7)."""

    def __init__(self, data):
        self.data, self.place, self.record = data, 0, 0

    def fault(self, number):
        return FormFault(number, self.record)

    def take(self, *allowed):
        """The next record's kind and values: 20 comes before 21, and 21 before 22."""
        self.record = self.place
        if self.place >= len(self.data):
            raise self.fault(21)
        kind = self.data[self.place]
        if kind not in BODIES:
            raise self.fault(20)
        if self.place + LENGTHS[kind] > len(self.data):
            raise self.fault(21)
        if kind not in allowed:
            raise self.fault(22)
        self.place += LENGTHS[kind]
        return kind, BODIES[kind].unpack_from(self.data, self.record + 1)

    def flags(self, values):
        if any(value > 1 for value in values):
            raise self.fault(24)

    def letters(self, count, negative):
        """What a variant or a part owes, once its own record is good: just enough records, zeros after the last letter."""
        self.flags([negative])
        if count > LETTERS_LIMIT:
            raise self.fault(13)
        letters = b""
        while len(letters) < count:
            letters += self.take(LETTERS)[1][0]
            if any(letters[count:]):
                raise self.fault(23)
        return letters[:count]


def read(data):
    """The job that the bytes hold; FormFault where they hold none. The first record decides the edition."""
    reader = Reader(data)
    kind, values = reader.take(SETTINGS, SETTINGS_2)
    edition = next(number for number, own in EDITIONS.items() if kind in own)
    _, of_variants = EDITIONS[edition]
    found = Job({"letters": 0} | dict(zip(FIELDS, values)), [], [[]], edition)
    reader.flags(found.settings[name] for name in FLAGS)
    allowed = (of_variants, PART, NEXT, END)
    kind, values = reader.take(*allowed)
    while kind != END:
        if kind == NEXT:
            if len(found.haplotypes) == HAPLOTYPES_LIMIT:
                raise reader.fault(27)
            found.haplotypes.append([])
        elif kind == PART:
            size, negative, count = values
            found.haplotypes[-1].append(Part(size, reader.letters(count, negative), negative))
        else:
            start, end, size, negative, count, *number = values
            letters = reader.letters(count, negative)
            found.variants.append(Variant(start, end, size, letters, negative, *number or [len(found.variants)]))
        if kind != of_variants:
            allowed = (PART, NEXT, END)
        kind, values = reader.take(*allowed)
    if reader.place < len(data):
        raise FormFault(25, reader.place)
    return found


# --- answers ----------------------------------------------------------------

NUMBER = "(?:0|[1-9][0-9]{0,9})"
# what may follow a line's name: its form, and that form in words
ANSWER_VALUES = {
    "list": (re.compile(f"(?: {NUMBER})*"), "numbers with one space before each"),
    "bits": (re.compile(" [0-9a-f]{8}"), "a space and 8 hexadecimal digits"),
    "flag": (re.compile(" (?:yes|no)"), "a space and yes or no"),
    "count": (re.compile(f" {NUMBER}"), "a space and a number"),
}
# the lines of an answer that is no refusal, in their order
ANSWER_LINES = {
    "rows": "list", "records": "list", "score": "bits", "sizesim": "bits", "seqsim": "bits",
    "full": "flag", "scored": "count", "complete": "flag",
}


class Answer(NamedTuple):
    """A refusal's number and nothing else, or 0 and the values of the lines: a float as its bits."""
    refused: int
    rows: tuple = ()
    records: tuple = ()
    score: int = 0
    sizesim: int = 0
    seqsim: int = 0
    whole: bool = False  # the line `full`; the setting of that name is another thing
    scored: int = 0
    complete: bool = False


class AnswerFault(Exception):
    """What stands in an answer, where, and what should stand there."""


def line_value(place, line, name):
    """The value of the line at this place, counted from 1, which must be the one of this name."""
    if line.split(" ")[0] != name:
        raise AnswerFault(f'line {place} is "{line[:60]}", and "{name}" should stand there')
    kind, text = ANSWER_LINES[name], line[len(name):]
    form, words = ANSWER_VALUES[kind]
    if not form.fullmatch(text):
        raise AnswerFault(f'line {place} is "{line[:60]}", and after "{name}" there should stand {words}')
    if kind == "list":
        return tuple(int(word) for word in text.split())
    return text == " yes" if kind == "flag" else int(text, 16 if kind == "bits" else 10)


def block_answer(lines, first):
    """The answer in these lines, the first of which is the text's line of that number."""
    refusal = re.fullmatch("refused ([1-9][0-9]{0,9})", lines[0]) if len(lines) == 1 else None
    if refusal:
        return Answer(int(refusal[1]))
    names = list(ANSWER_LINES)
    values = [line_value(place, line, name) for place, (line, name) in enumerate(zip(lines, names), first)]
    if len(lines) < len(names):
        raise AnswerFault(f'line {first + len(lines)} is missing, and "{names[len(lines)]}" should stand there')
    if len(lines) > len(names):
        raise AnswerFault(f'line {first + len(names)} is "{lines[len(names)][:60]}", and the answer should end before it')
    answer = Answer(0, *values)
    if len(answer.records) != len(answer.rows):
        raise AnswerFault(f"line {first} lists {len(answer.rows)} and line {first + 1} lists {len(answer.records)}, "
                          "and there should be one record for each row")
    return answer


def read_answers(text):
    """The answers that the program's text holds: one for the whole job, or one for each of several haplotypes, each after
    a line `hap` with its number; AnswerFault where it holds none."""
    lines = text.split("\n")
    if lines.pop():
        raise AnswerFault(f"line {len(lines) + 1} is the last, and a newline should stand at its end")
    haps = [at for at, line in enumerate(lines) if line.split(" ")[0] == "hap"]
    if haps[:1] != [0]:
        return [block_answer(lines, 1)]
    for number, at in enumerate(haps):
        if lines[at] != f"hap {number}":
            raise AnswerFault(f'line {at + 1} is "{lines[at][:60]}", and "hap {number}" should stand there')
    if len(haps) == 1:
        raise AnswerFault('line 1 is "hap 0", and the answer for one haplotype should have no such line')
    return [block_answer(lines[at + 1:until], at + 2) for at, until in zip(haps, haps[1:] + [len(lines)])]
