//! Where everything stands: columns of numbers, names and sizes, the variants over the axis, the parts below, the legend.
use super::names::{cut, shown};
use super::scale::Scale;
use super::svg::{width, Anchor, Look, Picture, Shape, CHOSEN_NAME, FAINT, PLAIN, TITLE, WARNING};
use super::{Marks, Use};
use crate::model::{Sheet, Variant};

const LEAST_WIDTH: f64 = 1100.0;
/// The plot never becomes narrower than this: a name that needs more room makes the picture wider.
const LEAST_PLOT: f64 = 440.0;
const EDGE: f64 = 16.0;
const TOP: f64 = 112.0;
const REMARK_ROOM: f64 = 210.0;

/// The columns from left to right, and the rows' height.
struct Layout {
    width: f64,
    number_end: f64,
    name: f64,
    size_end: f64,
    left: f64,
    right: f64,
    lane: f64,
    names: Vec<String>,
    part_names: Vec<String>,
}

/// Whether one is an insertion and lies inside the other; at the other's start or end it does not.
fn lies_inside(insertion: &Variant, other: &Variant) -> bool {
    insertion.start == insertion.end && other.start < insertion.start && insertion.start < other.end
}

fn overlap(a: &Variant, b: &Variant) -> bool {
    a.start.max(b.start) < a.end.min(b.end) || lies_inside(a, b) || lies_inside(b, a)
}

/// For each row the rows that it overlaps, the same for both.
fn overlaps(variants: &[Variant]) -> Vec<Vec<usize>> {
    let others = |row: usize| (0..variants.len()).filter(|&other| other != row && overlap(&variants[row], &variants[other])).collect();
    (0..variants.len()).map(others).collect()
}

fn number_word(sheet: &Sheet) -> &'static str {
    if sheet.numbered { "record" } else { "row" }
}

fn size_words(size: i32) -> String {
    if size == 0 { "0".into() } else { format!("{size:+}").replace('-', "−") }
}

fn widest<T: AsRef<str>>(texts: impl Iterator<Item = T>, look: Look) -> f64 {
    texts.map(|text| width(text.as_ref(), look)).fold(0.0, f64::max)
}

impl Layout {
    /// Names get the room that the plot leaves, and more where they would not stay distinct.
    fn of(sheet: &Sheet) -> Self {
        let numbers = (0..sheet.variants.len()).map(|row| sheet.number(row).to_string()).chain((0..sheet.parts.len()).map(|part| part.to_string()));
        let number_end = EDGE + widest(numbers.chain([number_word(sheet).to_string()]), FAINT);
        let sizes = widest(sheet.sequences().map(|s| size_words(s.size)).chain(["size".into()]), PLAIN);
        let name = number_end + 10.0;
        let room = LEAST_WIDTH - EDGE - REMARK_ROOM - LEAST_PLOT - name - sizes - 40.0;
        let variant_names: Vec<&str> = sheet.variants.iter().map(Variant::name).collect();
        let part_names: Vec<&str> = sheet.parts.iter().map(|part| part.name.as_str()).collect();
        let (names, part_names) = (shown(&variant_names, room, CHOSEN_NAME), shown(&part_names, room, CHOSEN_NAME));
        let name_room = widest(names.iter().chain(&part_names).map(String::as_str).chain(["no parts"]), CHOSEN_NAME);
        let size_end = name + name_room + 14.0 + sizes;
        let left = size_end + 16.0;
        let width = LEAST_WIDTH.max(left + LEAST_PLOT + REMARK_ROOM + EDGE);
        let lane = if sheet.variants.len() <= 24 { 26.0 } else { 18.0 };
        Self { width, number_end, name, size_end, left, right: width - REMARK_ROOM - EDGE, lane, names, part_names }
    }

    fn middle(&self, top: f64, row: usize) -> f64 {
        top + (row as f64 + 0.5) * self.lane
    }

    fn remark(&self) -> f64 {
        self.right + 14.0
    }

    /// Number, name and size of a row, and the band that leads an eye across.
    fn columns(&self, picture: &mut Picture, y: f64, cells: [&str; 3], marked: bool) {
        let base = y + 4.0;
        picture.label(self.number_end, base, cells[0], FAINT, Anchor::End);
        picture.label(self.name, base, cells[1], if marked { CHOSEN_NAME } else { PLAIN }, Anchor::Start);
        picture.label(self.size_end, base, cells[2], PLAIN, Anchor::End);
    }

    fn band(&self, picture: &mut Picture, top: f64, row: usize, marked: bool) {
        if marked || row % 2 == 0 {
            let class = if marked { "chosen-band" } else { "band" };
            picture.rect(8.0, top + row as f64 * self.lane, self.width - 16.0, self.lane - 1.0, class);
        }
    }
}

/// Axis, its title, ticks with labels, breaks, and the columns' headings.
fn axis(picture: &mut Picture, layout: &Layout, scale: &Scale, sheet: &Sheet, bottom: f64) {
    let base = TOP - 14.0;
    picture.label(layout.number_end, base, number_word(sheet), FAINT, Anchor::End);
    picture.label(layout.name, base, "name", FAINT, Anchor::Start);
    picture.label(layout.size_end, base, "size", FAINT, Anchor::End);
    let middle = (layout.left + layout.right) / 2.0;
    let broken = if scale.segments.len() > 1 { "; the axis is broken" } else { "" };
    picture.label(middle, TOP - 32.0, format!("position, from 0, the end not counted in{broken}"), FAINT, Anchor::Middle);
    for segment in &scale.segments {
        picture.line((segment.left, TOP - 6.0), (segment.right, TOP - 6.0), "axis");
    }
    for tick in scale.ticks() {
        picture.line((tick.x, TOP - 10.0), (tick.x, bottom), "grid");
        picture.label(tick.label_x, base, tick.words, FAINT, Anchor::Middle);
    }
}

/// A white stretch through all rows, and two slanted strokes on the axis.
fn axis_breaks(picture: &mut Picture, scale: &Scale, bottom: f64) {
    for pair in scale.segments.windows(2) {
        let (from, to) = (pair[0].right + 6.0, pair[1].left - 6.0);
        picture.rect(from, TOP, to - from, bottom - TOP, "gap");
        for x in [from, to] {
            picture.line((x - 3.0, TOP - 1.0), (x + 3.0, TOP - 11.0), "break");
            let steps = ((bottom - TOP) / 6.0) as usize;
            let zigzag = (0..=steps).map(|step| (x + if step % 2 == 0 { -2.0 } else { 2.0 }, TOP + step as f64 * 6.0));
            picture.points(zigzag.collect(), false, "break");
        }
    }
}

/// A bar, at least 3 wide to be seen; a diamond where the interval has no length.
fn interval(picture: &mut Picture, scale: &Scale, v: &Variant, y: f64, half: f64, class: &'static str) {
    let (left, right) = (scale.across(v.start), scale.across(v.end));
    if v.start >= v.end {
        picture.diamond(left, y, half, class);
    } else {
        picture.rect(left, y - half, (right - left).max(3.0), 2.0 * half, class);
    }
}

/// Hatching where the row shares its stretch with another; touching stretches are drawn as one. An insertion inside another row is hatched itself,
/// and the other row where it stands.
fn shared(picture: &mut Picture, scale: &Scale, variants: &[Variant], row: usize, others: &[usize], y: f64, half: f64) {
    let mine = &variants[row];
    let mut stretches: Vec<(u64, u64)> = others.iter().map(|&other| (mine.start.max(variants[other].start), mine.end.min(variants[other].end))).collect();
    stretches.sort_unstable();
    let mut reached = None;
    for (start, end) in stretches {
        if reached.is_some_and(|reached| end <= reached) {
            continue;
        }
        if start == end {
            let wide = if mine.start == mine.end { half } else { 1.5 };
            picture.rect(scale.across(start) - wide, y - half, 2.0 * wide, 2.0 * half, "shared");
        } else {
            let right = scale.across(end).max(scale.across(mine.start) + 3.0);
            let left = scale.across(reached.map_or(start, |reached| start.max(reached))).min(right - 3.0);
            picture.rect(left, y - half, right - left, 2.0 * half, "shared");
        }
        reached = Some(end);
    }
}

/// As many of the overlapped rows as fit, and how many more there are: by name, or by number where a name would be cut beyond telling.
fn overlap_words(layout: &Layout, sheet: &Sheet, others: &[usize]) -> String {
    let room = REMARK_ROOM - 20.0;
    let short = others.iter().all(|&other| width(&layout.names[other], FAINT) <= 110.0);
    let names: Vec<String> = others.iter().map(|&other| if short { layout.names[other].clone() } else { sheet.number(other).to_string() }).collect();
    let word = if short { String::new() } else { format!("{} ", number_word(sheet)) };
    let told = |count: usize| {
        let some = names[..count].join(", ");
        if count == names.len() { format!("{word}{some}") } else { format!("{word}{some} and {} more", names.len() - count) }
    };
    (1..=names.len()).rev().map(told).find(|words| width(words, FAINT) <= room).unwrap_or_else(|| format!("{} rows", names.len()))
}

fn variant_row(picture: &mut Picture, layout: &Layout, scale: &Scale, sheet: &Sheet, row: usize, others: &[usize], marked: bool) {
    let (v, number, y, half) = (&sheet.variants[row], sheet.number(row), layout.middle(TOP, row), layout.lane * 0.3);
    picture.shapes.push(Shape::Group(format!("{}, {} {number}: {} to {}, size {}", v.name(), number_word(sheet), v.start, v.end, v.sequence.size)));
    layout.columns(picture, y, [&number.to_string(), &layout.names[row], &size_words(v.sequence.size)], marked);
    interval(picture, scale, v, y, half, if marked { "chosen" } else { "row" });
    shared(picture, scale, &sheet.variants, row, others, y, half);
    if v.start > v.end {
        picture.label(layout.remark(), y + 4.0, "starts after its end", WARNING, Anchor::Start);
    } else if !others.is_empty() {
        picture.label(layout.remark(), y + 4.0, overlap_words(layout, sheet, others), FAINT, Anchor::Start);
    }
    picture.shapes.push(Shape::GroupEnd);
}

/// A dashed line from each chosen row's end to the next one's start.
fn path(picture: &mut Picture, layout: &Layout, scale: &Scale, variants: &[Variant], rows: &[usize]) {
    let ends = |row: &usize| [variants[*row].start, variants[*row].end].map(|position| (scale.across(position), layout.middle(TOP, *row)));
    if rows.len() > 1 {
        picture.points(rows.iter().flat_map(ends).collect(), false, "path");
    }
}

/// The parts have sizes and no positions: bars of one scale from a common line, to the right; a deletion's is outlined.
fn parts(picture: &mut Picture, layout: &Layout, sheet: &Sheet, uses: &[Use], top: f64) {
    let base = top - 12.0;
    picture.label(layout.name, base, "parts of the haplotype", FAINT, Anchor::Start);
    let heading = "length of a bar: size; dashed: a deletion";
    let fits = layout.name + width("parts of the haplotype", FAINT) + 12.0;
    picture.label(layout.left.max(fits), base, heading, FAINT, Anchor::Start);
    if sheet.parts.is_empty() {
        picture.label(layout.name, layout.middle(top, 0) + 4.0, "no parts", WARNING, Anchor::Start);
    }
    let most = sheet.parts.iter().map(|part| part.size.unsigned_abs()).max().unwrap_or(1).max(1);
    for (at, (part, used)) in sheet.parts.iter().zip(uses).enumerate() {
        let (y, half) = (layout.middle(top, at), layout.lane * 0.3);
        let marked = *used == Use::Used;
        layout.band(picture, top, at, marked);
        picture.shapes.push(Shape::Group(format!("{}: size {}, {} letters", part.name, part.size, part.letters.len())));
        layout.columns(picture, y, [&at.to_string(), &layout.part_names[at], &size_words(part.size)], marked);
        let long = (f64::from(part.size.unsigned_abs()) / f64::from(most) * (layout.right - layout.left) * 0.6).max(3.0);
        let class = match (part.size < 0, marked) {
            (true, true) => "deletion-used",
            (true, false) => "deletion",
            (false, true) => "chosen",
            (false, false) => "row",
        };
        picture.rect(layout.left, y - half, long, 2.0 * half, class);
        let (words, look) = match used {
            Use::Unknown => ("", FAINT),
            Use::Used => ("used", FAINT),
            Use::LeftOut => ("left out", WARNING),
        };
        if !words.is_empty() {
            picture.label(layout.remark(), y + 4.0, words, look, Anchor::Start);
        }
        picture.shapes.push(Shape::GroupEnd);
    }
}

/// Each sign with its meaning, from left to right.
fn legend(picture: &mut Picture, y: f64) {
    let signs = [("chosen", "row of the path, or part used"), ("row", "other row or part"), ("shared", "stretch shared with another row")];
    let mut x = EDGE;
    for (class, words) in signs {
        if class == "shared" {
            picture.rect(x, y - 6.0, 22.0, 12.0, "row");
        }
        picture.rect(x, y - 6.0, 22.0, 12.0, class);
        picture.label(x + 28.0, y + 4.0, words, FAINT, Anchor::Start);
        x += 28.0 + width(words, FAINT) + 26.0;
    }
    picture.diamond(x + 6.0, y, 6.0, "row");
    picture.label(x + 18.0, y + 4.0, "no length: start and end are equal", FAINT, Anchor::Start);
}

pub fn picture(sheet: &Sheet, marks: &Marks) -> Picture {
    let layout = Layout::of(sheet);
    let scale = Scale::of(&sheet.variants, layout.left, layout.right);
    let bottom = TOP + sheet.variants.len() as f64 * layout.lane;
    let parts_top = bottom + 40.0;
    let legend_y = parts_top + sheet.parts.len().max(1) as f64 * layout.lane + 24.0;
    let mut picture = Picture { width: layout.width, height: legend_y + 22.0, shapes: vec![] };
    let (whole, height) = (layout.width, picture.height);
    picture.rect(0.0, 0.0, whole, height, "page");
    picture.label(EDGE, 28.0, cut(&marks.title, whole - 2.0 * EDGE, TITLE), TITLE, Anchor::Start);
    picture.label(EDGE, 50.0, cut(&marks.caption, whole - 2.0 * EDGE, PLAIN), PLAIN, Anchor::Start);
    (0..sheet.variants.len()).for_each(|row| layout.band(&mut picture, TOP, row, marks.rows.contains(&row)));
    axis_breaks(&mut picture, &scale, bottom);
    axis(&mut picture, &layout, &scale, sheet, bottom);
    path(&mut picture, &layout, &scale, &sheet.variants, &marks.rows);
    let table = overlaps(&sheet.variants);
    if table.iter().any(|others| !others.is_empty()) {
        picture.label(layout.remark(), TOP - 14.0, "overlaps", FAINT, Anchor::Start);
    }
    for (row, others) in table.iter().enumerate() {
        variant_row(&mut picture, &layout, &scale, sheet, row, others, marks.rows.contains(&row));
    }
    parts(&mut picture, &layout, sheet, &marks.parts, parts_top);
    legend(&mut picture, legend_y);
    picture
}

#[cfg(test)]
mod tests;
