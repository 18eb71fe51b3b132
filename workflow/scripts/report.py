#!/usr/bin/env python3
"""One page about many tables: what was refused and why, what stopped early, how the scores lie, and a link to each table's picture.

report.py [--pictures FOLDER] --out report.html TABLE..: the tables of `ndigo batch`, one a chunk, in order. FOLDER is where the pictures stand, seen from the page: each
chunk's in a folder of its own name, as draw.py lays them. The page is one file that asks for nothing from elsewhere.
"""
import argparse
import collections
import csv
import html
import math
import os
import urllib.parse

import draw

csv.field_size_limit(1 << 30)

# of each list the page shows so many; answers.tsv has all of them
SHOWN = 2000
LISTED = 20000
BINS = 20
STATUSES = {"answered": "answered", "nothing": "without a path", "refused": "refused", "unread": "not read"}

Line = collections.namedtuple("Line", "chunk file job haplotype status refused words names score scored complete warnings")


def chunk_of(table):
    return os.path.splitext(os.path.basename(table))[0]


def read(table):
    chunk = chunk_of(table)
    with open(table, encoding="utf-8", errors="replace", newline="") as text:
        for row in csv.DictReader(text, delimiter="\t"):
            yield Line(chunk, *(row[name] for name in Line._fields[1:]))


def escaped(text):
    return html.escape(text, quote=True)


class Page:
    def __init__(self, pictures, beside):
        self.pictures = pictures
        # the folder of the page
        self.beside = beside
        # where the pictures of the sheets that the lists show stand, by chunk and sheet
        self.drawn = {}
        # base names, each with the files of that name that the lists show
        self.named = {}
        self.statuses = collections.Counter()
        self.tables = 0
        self.warned = 0
        self.lists = {name: [] for name in ("refused", "unread", "early", "nothing", "all")}
        self.counts = collections.Counter()
        self.reasons = collections.Counter()
        self.words = {}
        self.scores = [0] * BINS
        self.least, self.most, self.sum = math.inf, -math.inf, 0.0
        self.last = None

    def keep(self, name, line, most):
        self.counts[name] += 1
        if len(self.lists[name]) < most:
            self.lists[name].append(line)
            self.named.setdefault(os.path.basename(line.file), set()).add(line.file)
            self.drawn[line.chunk, line.file] = None

    def add(self, line, first):
        self.tables += first
        self.statuses[line.status] += 1
        self.warned += bool(line.warnings) and first
        self.keep("all", line, LISTED)
        if line.status == "refused":
            number = int(line.refused)
            self.reasons[number] += 1
            # the words of the refusal stand between its number and the place's own
            self.words.setdefault(number, line.words.split(f"refused {number}: ", 1)[-1].split(": ", 1)[0])
            self.keep("refused", line, SHOWN)
        elif line.status == "unread":
            self.keep("unread", line, SHOWN)
        else:
            if line.complete == "no":
                self.keep("early", line, SHOWN)
            if line.status == "nothing":
                self.keep("nothing", line, SHOWN)
            else:
                self.score(float(line.score))

    def place(self, chunk, files):
        for file, place in draw.places(files).items():
            if (chunk, file) in self.drawn:
                self.drawn[chunk, file] = place

    def score(self, value):
        self.scores[min(BINS - 1, max(0, int(value * BINS)))] += 1
        self.least, self.most, self.sum = min(self.least, value), max(self.most, value), self.sum + value

    def table_name(self, line):
        """The file's name, or its path where another file has that name too, and what of the file it is."""
        name = os.path.basename(line.file)
        job = f", job {line.job}" if line.job else ""
        haplotype = f", haplotype {line.haplotype}" if line.haplotype else ""
        return escaped(line.file if len(self.named[name]) > 1 else name), escaped(f"{job}{haplotype}")

    def picture(self, line):
        """Where its picture stands, seen from the page; none where it has none, as a sheet that cannot be read, or a job."""
        if self.pictures is None or line.status == "unread" or line.job:
            return None
        place = f"{self.pictures}/{line.chunk}/{self.drawn[line.chunk, line.file]}"
        return place if os.path.exists(os.path.join(self.beside, place)) else None

    def link(self, line):
        name, rest = self.table_name(line)
        place, whole = self.picture(line), escaped(line.file)
        if place is None:
            return f'<span title="{whole}">{name}</span>{rest}'
        return f'<a href="{escaped(urllib.parse.quote(place))}" title="picture of {whole}">{name}</a>{rest}'

    # the parts of the page

    def summary(self):
        lines = sum(self.statuses.values())
        answered, early = self.statuses["answered"], self.counts["early"]
        tiles = [("tables", self.tables, None), ("lines, one a haplotype", lines, "all"), ("answered", answered, "scores"), ("stopped early", early, "early"),
                 ("without a path", self.statuses["nothing"], "nothing"), ("refused", self.statuses["refused"], "refused"), ("not read", self.statuses["unread"], "unread")]
        words = [f'<b>{count:,}</b> {word}' for word, count, _ in tiles]
        cells = [f'<li><a href="#{place}">{text}</a></li>' if place else f"<li><span>{text}</span></li>" for text, (_, _, place) in zip(words, tiles)]
        warned = f"<p>Tables with warnings: {self.warned:,}. What they are stands in the column <code>warnings</code> of answers.tsv.</p>"
        return f'<nav aria-label="Sections"><ul class="tiles">{"".join(cells)}</ul></nav>{warned}'

    def histogram(self):
        answered = self.statuses["answered"]
        if not answered:
            return "<p>No haplotype was answered, so there are no scores.</p>"
        left, top, width, height, step = 60, 16, 760, 220, 760 / BINS
        most = max(self.scores)
        shapes = []
        for mark in (0, most / 2, most):
            y = top + height - height * mark / most
            shapes.append(f'<line class="grid" x1="{left}" x2="{left + width}" y1="{y:.1f}" y2="{y:.1f}"/><text x="{left - 8}" y="{y + 4:.1f}" text-anchor="end">{mark:,.0f}</text>')
        for at, count in enumerate(self.scores):
            tall = height * count / most
            between = f"{at / BINS:.2f} to {(at + 1) / BINS:.2f}"
            place = f'x="{left + at * step + 1:.1f}" y="{top + height - tall:.1f}" width="{step - 2:.1f}" height="{tall:.1f}"'
            shapes.append(f'<rect class="bar" {place}><title>{between}: {count:,}</title></rect>')
        for mark in range(0, BINS + 1, 4):
            shapes.append(f'<text x="{left + mark * step:.1f}" y="{top + height + 18}" text-anchor="middle">{mark / BINS:.1f}</text>')
        shapes.append(f'<text x="{left + width / 2}" y="{top + height + 38}" text-anchor="middle">score</text>')
        said = f"{answered:,} scores, from {self.least:.4g} to {self.most:.4g}, in the mean {self.sum / answered:.4g}"
        rows = "".join(f"<tr><td>{at / BINS:.2f}</td><td>{(at + 1) / BINS:.2f}</td><td>{count:,}</td></tr>" for at, count in enumerate(self.scores))
        return (f'<svg role="img" aria-label="How many haplotypes have which score: {said}" viewBox="0 0 {left + width + 20} {top + height + 46}">{"".join(shapes)}</svg><p>{said}.</p>'
                "<details><summary>The same in numbers</summary><table><thead><tr><th>from</th><th>to, not counted in but for the last</th><th>haplotypes</th></tr></thead>"
                f"<tbody>{rows}</tbody></table></details>")

    def rest(self, name, column, value):
        left = self.counts[name] - len(self.lists[name])
        if not left:
            return ""
        return f"<p>{left:,} more are not shown here: in answers.tsv they are the lines whose column <code>{column}</code> is <code>{value}</code>.</p>"

    def listing(self, name, headings, cells, none):
        lines = self.lists[name]
        if not lines:
            return f"<p>{none}</p>"
        head = "".join(f"<th>{heading}</th>" for heading in headings)
        rows = "".join(f"<tr><td>{self.link(line)}</td>{''.join(f'<td>{cell}</td>' for cell in cells(line))}</tr>" for line in lines)
        return f'<div class="scroll" tabindex="0" role="region" aria-labelledby="{name}"><table><thead><tr>{head}</tr></thead><tbody>{rows}</tbody></table></div>'

    def refused(self):
        counts = "".join(f"<tr><td>{number}</td><td>{escaped(self.words[number])}</td><td>{count:,}</td></tr>" for number, count in sorted(self.reasons.items()))
        head = f"<table><thead><tr><th>refusal</th><th>in words</th><th>haplotypes or tables</th></tr></thead><tbody>{counts}</tbody></table>" if counts else ""
        return head + self.listing("refused", ["table", "why"], lambda line: [escaped(line.words)], "None was refused.") + self.rest("refused", "status", "refused")

    def unread(self):
        return self.listing("unread", ["table", "what stands where, and what to write instead"], lambda line: [escaped(line.words)], "Every table was read.") + self.rest("unread", "status", "unread")

    def early(self):
        said = "<p>More paths exist than were scored, and a better one may be among them: raise maxpaths, or leave out variants that can be ruled out.</p>" if self.counts["early"] else ""
        cells = lambda line: [escaped(line.scored), escaped(line.score), escaped(line.names)]
        return said + self.listing("early", ["table", "paths scored", "best score", "rows"], cells, "Every search scored all paths.") + self.rest("early", "complete", "no")

    def nothing(self):
        said = "<p><code>ndigo answer SHEET</code> says why.</p>" if self.counts["nothing"] else ""
        listing = self.listing("nothing", ["table", "paths scored"], lambda line: [escaped(line.scored)], "Each haplotype that was searched has a path.")
        return said + listing + self.rest("nothing", "status", "nothing")

    def all_tables(self):
        parts = []
        chunks = {}
        for line in self.lists["all"]:
            chunks.setdefault(line.chunk, []).append(line)
        for chunk, lines in chunks.items():
            cells = lambda line: [self.link(line), STATUSES[line.status], escaped(line.score), escaped(line.complete), escaped(line.names)]
            rows = "".join(f"<tr>{''.join(f'<td>{cell}</td>' for cell in cells(line))}</tr>" for line in lines)
            between = f"{self.table_name(lines[0])[0]} to {self.table_name(lines[-1])[0]}"
            parts.append(f'<details class="chunk"><summary>{between} <small>({len(lines):,})</small></summary><div class="scroll" tabindex="0" role="region" aria-label="{between}">'
                         f"<table><thead><tr><th>table</th><th>status</th><th>score</th><th>complete</th><th>rows</th></tr></thead><tbody>{rows}</tbody></table></div></details>")
        left = self.counts["all"] - len(self.lists["all"])
        more = f"<p>{left:,} more are not listed here, but stand in answers.tsv; their pictures are below {escaped(self.pictures or '')}, by chunk and name.</p>" if left else ""
        find = '<p class="find" hidden><label for="find">Find a table by its name: </label><input id="find" type="search" autocomplete="off"> <span id="found" role="status"></span></p>'
        return find + "".join(parts) + more

    def text(self):
        sections = [("scores", "Scores", self.histogram()), ("early", "Stopped early", self.early()), ("nothing", "Without a path", self.nothing()), ("refused", "Refused", self.refused()),
                    ("unread", "Not read", self.unread()), ("all", "All tables", self.all_tables())]
        body = "".join(f'<section><h2 id="{place}" tabindex="-1">{title}</h2>{content}</section>' for place, title, content in sections)
        return (f'<!DOCTYPE html>\n<html lang="en"><head><meta charset="utf-8"><meta name="viewport" content="width=device-width"><title>{self.tables:,} tables</title><style>{STYLE}</style></head>'
                f'<body><a class="skip" href="#scores">To the scores</a><header><h1>{self.tables:,} tables</h1>{self.summary()}</header><main>{body}</main><script>{FIND}</script></body></html>\n')


STYLE = """
:root{color-scheme:light dark;--ink:#1b2733;--paper:#fff;--soft:#eef2f5;--line:#c6d0d8;--link:#0b5394;--bar:#2a7f9e}
@media (prefers-color-scheme:dark){:root{--ink:#e4e9ed;--paper:#14191e;--soft:#222a31;--line:#45525d;--link:#8cc4f5;--bar:#5fb3cf}}
body{font:16px/1.45 system-ui,sans-serif;color:var(--ink);background:var(--paper);margin:0 auto;max-width:64rem;padding:1rem}
a{color:var(--link)} :focus-visible{outline:3px solid var(--link);outline-offset:2px}
.skip{position:absolute;left:-99rem} .skip:focus{position:static}
.tiles{list-style:none;display:flex;flex-wrap:wrap;gap:.5rem;padding:0}
.tiles a,.tiles span{display:block;background:var(--soft);border:1px solid var(--line);border-radius:.4rem;padding:.5rem .8rem;text-decoration:none;color:inherit}
.tiles a{text-decoration:underline;text-decoration-color:var(--link)} .tiles b{display:block;font-size:1.4rem}
table{border-collapse:collapse;font-variant-numeric:tabular-nums;margin:.5rem 0} td:first-child{min-width:11rem}
th,td{text-align:left;vertical-align:top;padding:.2rem .8rem .2rem 0;border-bottom:1px solid var(--line);overflow-wrap:anywhere}
th{position:sticky;top:0;background:var(--paper)} .scroll{max-height:26rem;overflow:auto;border:1px solid var(--line);border-radius:.3rem;padding:0 .6rem}
svg{width:100%;max-width:54rem;height:auto} svg text{fill:var(--ink);font-size:13px} .bar{fill:var(--bar)} .grid{stroke:var(--line)}
details{margin:.3rem 0} summary{cursor:pointer}
@media print{.scroll{max-height:none;overflow:visible}.find{display:none}}
"""

# the list can be read without it
FIND = """
const find=document.getElementById('find'),found=document.getElementById('found');
find.parentElement.hidden=false;
find.addEventListener('input',()=>{
  const wanted=find.value.trim().toLowerCase();let count=0;
  for(const chunk of document.querySelectorAll('.chunk')){
    let here=0;
    for(const row of chunk.querySelectorAll('tbody tr')){const fits=row.cells[0].textContent.toLowerCase().includes(wanted);row.hidden=!fits;here+=fits}
    chunk.hidden=here===0;chunk.open=wanted!==''&&here>0;count+=here;
  }
  found.textContent=wanted===''?'':count+' found';
});
"""


def main():
    words = argparse.ArgumentParser(description=__doc__, formatter_class=argparse.RawDescriptionHelpFormatter)
    words.add_argument("tables", nargs="+")
    words.add_argument("--pictures")
    words.add_argument("--out", required=True)
    asked = words.parse_args()
    page = Page(asked.pictures, os.path.dirname(asked.out))
    for table in asked.tables:
        before = None
        files = {}
        for line in read(table):
            page.add(line, (line.file, line.job) != before)
            before = (line.file, line.job)
            files[line.file] = None
        page.place(chunk_of(table), files)
    with open(asked.out, "w", encoding="utf-8") as out:
        out.write(page.text())


if __name__ == "__main__":
    main()
