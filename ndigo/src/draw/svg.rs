//! A picture as a list of shapes, so that a test can ask where each label stands; then as SVG.

/// How a label looks: the class of the style sheet, with the same size and weight for measuring.
#[derive(Clone, Copy, Debug, PartialEq)]
pub struct Look {
    pub class: &'static str,
    pub size: f64,
    pub bold: bool,
}

const fn look(class: &'static str, size: f64, bold: bool) -> Look {
    Look { class, size, bold }
}

pub const PLAIN: Look = look("plain", 12.0, false);
pub const TITLE: Look = look("title", 16.0, true);
pub const FAINT: Look = look("faint", 11.0, false);
pub const CHOSEN_NAME: Look = look("chosen-name", 12.0, true);
pub const WARNING: Look = look("warning", 11.0, true);

/// Widths of the letters of DejaVu Sans, which Verdana's are too, in thousandths of the size.
fn letter_width(letter: char) -> f64 {
    match letter {
        'i' | 'j' | 'l' | '\'' => 280.0,
        'I' | 'J' | '|' => 340.0,
        ' ' | '.' | ',' | ':' | ';' | '!' | 'f' | 't' | '-' | '/' | '(' | ')' | '[' | ']' => 400.0,
        'r' => 420.0,
        '"' | '°' | '*' => 510.0,
        'c' | 's' | 'z' | 'k' | 'v' | 'x' | 'y' | 'L' | '_' | '?' => 600.0,
        'a'..='z' if letter != 'm' && letter != 'w' => 640.0,
        '0'..='9' | 'E' | 'F' | 'P' | 'S' | 'T' | 'Y' | '$' => 640.0,
        'A'..='Z' if !matches!(letter, 'M' | 'W' | 'G' | 'H' | 'N' | 'O' | 'Q' | 'D' | 'U') => 705.0,
        'G' | 'H' | 'N' | 'O' | 'Q' | 'D' | 'U' => 790.0,
        '\u{300}'..='\u{36f}' => 0.0,
        '+' | '−' | '<' | '>' | '=' | '~' | '#' | 'M' => 870.0,
        '\u{a0}'..='\u{17f}' => 720.0,
        _ => 1020.0,
    }
}

pub fn width(words: &str, look: Look) -> f64 {
    let weight = if look.bold { 1.14 } else { 1.0 };
    words.chars().map(letter_width).sum::<f64>() * look.size * weight / 1000.0
}

#[derive(Clone, Copy, Debug, PartialEq)]
pub enum Anchor {
    Start,
    Middle,
    End,
}

#[derive(Clone, Debug)]
pub struct Label {
    pub x: f64,
    pub y: f64,
    pub words: String,
    pub look: Look,
    pub anchor: Anchor,
}

impl Label {
    /// Left, top, right, bottom: what the tests of geometry look at.
    #[cfg(test)]
    pub fn bounds(&self) -> [f64; 4] {
        let width = width(&self.words, self.look);
        let left = match self.anchor {
            Anchor::Start => self.x,
            Anchor::Middle => self.x - width / 2.0,
            Anchor::End => self.x - width,
        };
        [left, self.y - 0.78 * self.look.size, left + width, self.y + 0.24 * self.look.size]
    }
}

#[derive(Clone, Debug)]
pub enum Shape {
    Rect { x: f64, y: f64, width: f64, height: f64, class: &'static str },
    Line { from: (f64, f64), to: (f64, f64), class: &'static str },
    Points { points: Vec<(f64, f64)>, closed: bool, class: &'static str },
    Label(Label),
    /// What a browser tells of all shapes up to the end.
    Group(String),
    GroupEnd,
}

#[derive(Clone, Debug, Default)]
pub struct Picture {
    pub width: f64,
    pub height: f64,
    pub shapes: Vec<Shape>,
}

impl Picture {
    pub fn rect(&mut self, x: f64, y: f64, width: f64, height: f64, class: &'static str) {
        self.shapes.push(Shape::Rect { x, y, width, height, class });
    }

    pub fn line(&mut self, from: (f64, f64), to: (f64, f64), class: &'static str) {
        self.shapes.push(Shape::Line { from, to, class });
    }

    pub fn points(&mut self, points: Vec<(f64, f64)>, closed: bool, class: &'static str) {
        self.shapes.push(Shape::Points { points, closed, class });
    }

    pub fn diamond(&mut self, x: f64, y: f64, half: f64, class: &'static str) {
        self.points(vec![(x, y - half), (x + half, y), (x, y + half), (x - half, y)], true, class);
    }

    pub fn label(&mut self, x: f64, y: f64, words: impl Into<String>, look: Look, anchor: Anchor) {
        self.shapes.push(Shape::Label(Label { x, y, words: words.into(), look, anchor }));
    }

    /// What the tests of geometry look at.
    #[cfg(test)]
    pub fn labels(&self) -> Vec<&Label> {
        self.shapes.iter().filter_map(|shape| if let Shape::Label(label) = shape { Some(label) } else { None }).collect()
    }

    fn elements(&self) -> String {
        self.shapes.iter().map(|shape| element(shape) + "\n").collect()
    }

    pub fn svg(&self) -> String {
        document(self.width, self.height, &self.elements())
    }
}

fn document(width: f64, height: f64, elements: &str) -> String {
    format!(
        "<?xml version=\"1.0\" encoding=\"UTF-8\"?>\n<svg xmlns=\"http://www.w3.org/2000/svg\" width=\"{width:.0}\" height=\"{height:.0}\" \
         viewBox=\"0 0 {width:.0} {height:.0}\">\n<style>{STYLE}</style><defs>{HATCH}</defs>\n{elements}</svg>\n"
    )
}

/// Several pictures as one, each below the one before it.
pub fn below_each_other(pictures: &[Picture]) -> String {
    if let [one] = pictures {
        return one.svg();
    }
    let width = pictures.iter().map(|picture| picture.width).fold(0.0, f64::max);
    let mut height = 0.0;
    let mut elements = format!("<rect width=\"{width:.0}\" height=\"{:.0}\" class=\"page\"/>\n", pictures.iter().map(|picture| picture.height).sum::<f64>());
    for picture in pictures {
        elements += &format!("<g transform=\"translate(0 {height:.0})\">\n{}</g>\n", picture.elements());
        height += picture.height.round();
    }
    document(width, height, &elements)
}

fn escaped(words: &str) -> String {
    words.replace('&', "&amp;").replace('<', "&lt;").replace('>', "&gt;").replace('"', "&quot;")
}

fn label_element(label: &Label) -> String {
    let anchor = match label.anchor {
        Anchor::Start => "start",
        Anchor::Middle => "middle",
        Anchor::End => "end",
    };
    format!("<text x=\"{:.1}\" y=\"{:.1}\" class=\"{}\" text-anchor=\"{anchor}\">{}</text>", label.x, label.y, label.look.class, escaped(&label.words))
}

fn element(shape: &Shape) -> String {
    match shape {
        Shape::Rect { x, y, width, height, class } => {
            format!("<rect x=\"{x:.1}\" y=\"{y:.1}\" width=\"{width:.1}\" height=\"{height:.1}\" class=\"{class}\"/>")
        }
        Shape::Line { from, to, class } => {
            format!("<line x1=\"{:.1}\" y1=\"{:.1}\" x2=\"{:.1}\" y2=\"{:.1}\" class=\"{class}\"/>", from.0, from.1, to.0, to.1)
        }
        Shape::Points { points, closed, class } => {
            let points = points.iter().map(|(x, y)| format!("{x:.1},{y:.1}")).collect::<Vec<_>>().join(" ");
            format!("<{} points=\"{points}\" class=\"{class}\"/>", if *closed { "polygon" } else { "polyline" })
        }
        Shape::Label(label) => label_element(label),
        Shape::Group(title) => format!("<g><title>{}</title>", escaped(title)),
        Shape::GroupEnd => "</g>".into(),
    }
}

const STYLE: &str = "
text { font-family: 'DejaVu Sans', Verdana, Arial, sans-serif; font-size: 12px; fill: #222 }
.title { font-size: 16px; font-weight: bold }
.faint { fill: #555; font-size: 11px }
.chosen-name { font-weight: bold; fill: #b34700 }
.warning { font-weight: bold; fill: #b00020; font-size: 11px }
.page { fill: #fff }
.band { fill: #f4f6f8 }
.chosen-band { fill: #fdebdd }
.grid { stroke: #d5dae0 }
.axis { stroke: #444 }
.break { stroke: #777; stroke-width: 1.5; fill: none }
.gap { fill: #fff }
.row { fill: #8ea3b8; stroke: #5d7186 }
.chosen { fill: #e8731a; stroke: #8a3d00 }
.deletion { fill: #fff; stroke: #5d7186; stroke-dasharray: 3 2 }
.deletion-used { fill: #fbd3b3; stroke: #8a3d00; stroke-dasharray: 3 2 }
.shared { fill: url(#hatch) }
.path { fill: none; stroke: #b34700; stroke-width: 2; stroke-dasharray: 5 3 }
";
const HATCH: &str = "<pattern id=\"hatch\" width=\"5\" height=\"5\" patternUnits=\"userSpaceOnUse\" patternTransform=\"rotate(45)\">\
<rect width=\"1.6\" height=\"5\" fill=\"#1c2733\"/></pattern>";
