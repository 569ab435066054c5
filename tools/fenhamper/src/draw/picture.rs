//! What is on the line from a place to another, and the picture of it.
use super::sign::Sign;
use super::svg::{escaped, px, rect, text};
use crate::found::Found;
use crate::names::control_name;
use crate::stretch::Stretch;
use fenhamper::{limits::OUTCOMES, Reason};
use std::collections::BTreeMap;
use std::fmt::Write;
use std::ops::Range;

/// The picture's width, and where a row begins and how long it is.
const WIDTH: f64 = 1200.0;
const LEFT: f64 = 80.0;
const LENGTH: usize = 1100;
/// Where the first row is, and how far it is from one to the next.
const TOP: f64 = 90.0;
const PITCH: f64 = 36.0;
/// A box's height.
const HEIGHT: f64 = 18.0;
/// What is narrower is drawn together with its neighbours.
const NARROW: f64 = 4.0;
/// A letter's width.
const LETTER: f64 = 6.4;
/// Symbols of a row at least and at most, and rows where there is a choice.
const SHORTEST_ROW: u64 = 64;
const LONGEST_ROW: u64 = 2048;
const FEW_ROWS: u64 = 8;
/// Up to so many symbols their octets are written.
const LEGIBLE: u64 = SHORTEST_ROW * FEW_ROWS;
/// Signs in a line of the legend, and how far it is from one line to the next.
const IN_LINE: usize = 4;
const LINE: usize = 24;
/// Parts of a row with a place above them.
const PARTS: u64 = 8;

/// Something on the line, from a place to another.
struct Shape {
    places: Range<u64>,
    sign: Sign,
    reason: Option<Reason>,
}

impl Shape {
    fn is_run(&self) -> bool {
        matches!(self.sign, Sign::Run(_) | Sign::Open)
    }

    // What is said where the pointer rests on it.
    fn title(&self) -> String {
        let Range { start, end } = self.places;
        match self.reason {
            Some(reason) => format!("Start at {start}: {reason}; ended at {end}"),
            None => format!("{} from {start} on", self.sign.name()),
        }
    }
}

/// The line from a place to another.
pub struct Picture {
    places: Range<u64>,
    shapes: Vec<Shape>,
    // octets and whether they are data, of the first symbols
    octets: Vec<Option<(u8, bool)>>,
}

impl Picture {
    /// Nothing but Idle.
    pub fn new(places: Range<u64>) -> Picture {
        let symbols = places.end - places.start;
        Picture {
            places,
            shapes: Vec::new(),
            octets: vec![None; symbols.min(LEGIBLE) as usize],
        }
    }

    /// The places that it shows.
    pub fn places(&self) -> &Range<u64> {
        &self.places
    }

    /// The line ends here, if not before.
    pub fn ends_at(&mut self, end: u64) {
        let end = end.max(self.places.start);
        self.places.end = self.places.end.min(end);
    }

    /// How many runs of each outcome it shows.
    pub fn counters(&self) -> [u64; OUTCOMES] {
        let mut counters = [0; OUTCOMES];
        for shape in &self.shapes {
            if let Sign::Run(outcome) = shape.sign {
                counters[usize::from(outcome.number()) - 1] += 1;
            }
        }
        counters
    }

    /// A Start and its run.
    pub fn run(&mut self, found: &Found<'_>) {
        let r = &found.counted;
        self.keep(&found.stretch, r.start..r.next);
        self.add(Shape {
            places: found.start()..found.next(),
            sign: Sign::Run(r.outcome),
            reason: Some(found.reason()),
        });
    }

    /// A Start whose run has not ended.
    pub fn open(&mut self, stretch: &Stretch<'_>, from: usize) {
        let end = stretch.capture.octets.len();
        self.keep(stretch, from..end);
        self.add(Shape {
            places: stretch.place(from)..stretch.place(end - 1) + 1,
            sign: Sign::Open,
            reason: None,
        });
    }

    /// What stands between runs.
    pub fn gap(&mut self, stretch: &Stretch<'_>, places: Range<usize>) {
        self.keep(stretch, places.clone());
        let (octets, marks) = (stretch.capture.octets, stretch.capture.marks);
        for at in places {
            let sign = match (marks[at], control_name(octets[at])) {
                (0, _) => Sign::Data,
                (_, Some("Idle" | "Terminate")) => continue,
                _ => Sign::Control,
            };
            let place = stretch.place(at);
            match self.shapes.last_mut() {
                Some(last) if last.sign == sign && last.places.end == place => {
                    last.places.end += 1;
                }
                _ => self.add(Shape {
                    places: place..place + 1,
                    sign,
                    reason: None,
                }),
            }
        }
    }

    // Keeps what of it can be seen.
    fn add(&mut self, shape: Shape) {
        if shape.places.start < self.places.end && shape.places.end > self.places.start {
            self.shapes.push(shape);
        }
    }

    // Keeps the octets of the first symbols.
    fn keep(&mut self, stretch: &Stretch<'_>, places: Range<usize>) {
        for at in places {
            let place = stretch.place(at) - self.places.start;
            let Some(octet) = self.octets.get_mut(place as usize) else {
                return;
            };
            *octet = Some((stretch.capture.octets[at], stretch.capture.marks[at] == 0));
        }
    }

    // Whether there are few enough symbols for their octets to be written.
    fn is_legible(&self) -> bool {
        self.places.end - self.places.start <= LEGIBLE
    }

    /// The picture, under a file's name and an own address.
    pub fn svg(&self, name: &str, own: &str) -> String {
        let rows = Rows::of(&self.places);
        let bottom = TOP + rows.number as f64 * PITCH + 12.0;
        let height = bottom + self.legend_height();
        let mut out = format!(
            "<svg xmlns=\"http://www.w3.org/2000/svg\" viewBox=\"0 0 {WIDTH} {height}\" \
             width=\"{WIDTH}\" height=\"{height}\" role=\"img\">\n<title>{}</title>\n",
            escaped(name)
        );
        out += &style();
        out += &self.head(name, own);
        out += &Picture::scale(&rows);
        let pieces = self.pieces(&rows);
        for (number, pieces) in pieces.iter().enumerate() {
            out += &self.row(&rows, number as u64, pieces);
        }
        out += &self.legend(bottom);
        out + "</svg>\n"
    }

    fn head(&self, name: &str, own: &str) -> String {
        let Range { start, end } = self.places;
        let (handed, taken, thrown) = crate::names::summed(&self.counters());
        let starts = handed + taken + thrown;
        let told = format!(
            "places {start} to {end}; {starts} Starts: {handed} handed out, {taken} taken, \
             {thrown} thrown away; own address {own}"
        );
        text("head", LEFT, 26.0, name) + &text("told", LEFT, 44.0, &told)
    }

    // Thin lines down the rows, with how many symbols on they are.
    fn scale(rows: &Rows) -> String {
        let mut out = String::new();
        let (top, bottom) = (TOP - 32.0, TOP + rows.number as f64 * PITCH - 10.0);
        for part in 0..=PARTS {
            let x = LEFT + (LENGTH as u64 * part / PARTS) as f64;
            let _ = writeln!(
                out,
                "<path class=\"grid\" d=\"M{} {}V{}\"/>",
                px(x),
                px(top),
                px(bottom)
            );
            if part < PARTS {
                let on = format!("+{}", rows.symbols * part / PARTS);
                out += &text("on", x + 3.0, TOP - 22.0, &on);
            }
        }
        out
    }

    // Each shape's part in each row.
    fn pieces(&self, rows: &Rows) -> Vec<Vec<Piece<'_>>> {
        let mut pieces: Vec<Vec<Piece<'_>>> = Vec::new();
        pieces.resize_with(rows.number as usize, Vec::new);
        for shape in &self.shapes {
            let from = shape.places.start.max(self.places.start) - self.places.start;
            let to = shape.places.end.min(self.places.end) - self.places.start;
            for row in from / rows.symbols..=(to - 1) / rows.symbols {
                let first = row * rows.symbols;
                let part = from.max(first) - first..to.min(first + rows.symbols) - first;
                pieces[row as usize].push(Piece {
                    shape,
                    x: part.start as f64 * rows.scale,
                    end: part.end as f64 * rows.scale,
                    begins: first + part.start + self.places.start == shape.places.start,
                });
            }
        }
        pieces
    }

    fn row(&self, rows: &Rows, number: u64, pieces: &[Piece<'_>]) -> String {
        let y = TOP + number as f64 * PITCH;
        let first = self.places.start + number * rows.symbols;
        let symbols = rows.symbols.min(self.places.end - first);
        let end = px(symbols as f64 * rows.scale);
        let mut out = format!("<g transform=\"translate({LEFT} {})\">\n", px(y));
        out += &text("place", -8.0, HEIGHT / 2.0 + 4.0, &first.to_string());
        let _ = writeln!(
            out,
            "<path class=\"idle\" d=\"M0 {}H{end}\"/>",
            HEIGHT / 2.0
        );
        out += &together(pieces);
        out += &boxes(pieces);
        if self.is_legible() {
            out += &names_above(pieces);
            out += &self.letters(rows, number);
        } else {
            out += &names_inside(pieces);
        }
        out + "</g>\n"
    }

    // The octets of a row, where there are few enough.
    fn letters(&self, rows: &Rows, number: u64) -> String {
        let from = (number * rows.symbols) as usize;
        let octets = self.octets.iter().skip(from).take(rows.symbols as usize);
        let mut out = String::new();
        for (at, octet) in octets.enumerate() {
            let Some((octet, data)) = *octet else {
                continue;
            };
            let x = (at as f64 + 0.5) * rows.scale;
            let (class, letters) = match control_name(octet) {
                Some(name) if !data => ("sign", name[..1].to_owned()),
                _ if data => ("hex", format!("{octet:02X}")),
                _ => ("sign", format!("{octet:02X}")),
            };
            out += &text(class, x, HEIGHT / 2.0 + 3.5, &letters);
        }
        out
    }

    // The signs that the picture shows and how often, in the order of the legend.
    fn signs(&self) -> Vec<(Sign, usize)> {
        let times = |sign| {
            self.shapes
                .iter()
                .filter(|shape| shape.sign == sign)
                .count()
        };
        let signs = Sign::all().map(|sign| (sign, times(sign)));
        signs.filter(|(_, times)| *times > 0).collect()
    }

    // Each sign with its pattern, its names and how often it comes, in columns.
    fn legend(&self, y: f64) -> String {
        let mut out = format!("<g transform=\"translate({LEFT} {})\">\n", px(y));
        for (n, (sign, times)) in self.signs().into_iter().enumerate() {
            let (x, y) = (n % IN_LINE * (LENGTH / IN_LINE), n / IN_LINE * LINE);
            let words = match sign {
                Sign::Run(_) if sign.name() != sign.short() => {
                    format!("{} ({}) {times}", sign.name(), sign.short())
                }
                _ => format!("{} {times}", sign.name()),
            };
            let _ = write!(out, "<g transform=\"translate({x} {y})\">");
            out += &rect(&sign.class(), 0.0, 20.0, 14.0, "");
            out += &text("told", 26.0, 11.5, &words);
            out += "</g>\n";
        }
        let below = self.signs().len().div_ceil(IN_LINE) * LINE;
        out += &text(
            "on",
            0.0,
            below as f64 + 10.0,
            "flag: Start; thin line: Idle",
        );
        out + "</g>\n"
    }

    // How high it is.
    fn legend_height(&self) -> f64 {
        (self.signs().len().div_ceil(IN_LINE) * LINE) as f64 + 36.0
    }
}

// How places lie in rows.
struct Rows {
    symbols: u64,
    number: u64,
    scale: f64,
}

impl Rows {
    fn of(places: &Range<u64>) -> Rows {
        let all = places.end - places.start;
        let symbols = all.div_ceil(FEW_ROWS).next_power_of_two();
        let symbols = symbols.clamp(SHORTEST_ROW, LONGEST_ROW);
        Rows {
            symbols,
            number: all.div_ceil(symbols).max(1),
            scale: LENGTH as f64 / symbols as f64,
        }
    }
}

// A shape's part in a row.
struct Piece<'a> {
    shape: &'a Shape,
    x: f64,
    end: f64,
    begins: bool,
}

impl Piece<'_> {
    fn is_narrow(&self) -> bool {
        self.end - self.x < NARROW
    }
}

// Boxes, with a flag where a Start stands.
fn boxes(pieces: &[Piece<'_>]) -> String {
    let (mut out, mut flags) = (String::new(), String::new());
    for piece in pieces.iter().filter(|piece| !piece.is_narrow()) {
        let width = piece.end - piece.x;
        let (class, title) = (piece.shape.sign.class(), piece.shape.title());
        out += &rect(&class, piece.x, width, HEIGHT, &title);
        if piece.begins && piece.shape.is_run() {
            let _ = write!(flags, "M{} -5V{HEIGHT}", px(piece.x));
        }
    }
    if !flags.is_empty() {
        let _ = writeln!(out, "<path class=\"flag\" d=\"{flags}\"/>");
    }
    out
}

// Names in boxes, long or short as there is room.
fn names_inside(pieces: &[Piece<'_>]) -> String {
    let mut out = String::new();
    for piece in pieces.iter().filter(|piece| piece.shape.is_run()) {
        let (sign, width) = (piece.shape.sign, piece.end - piece.x);
        let fits = |name: &&str| name.len() as f64 * LETTER + 4.0 <= width;
        if let Some(name) = [sign.name(), sign.short()].into_iter().find(fits) {
            out += &text("name", piece.x + width / 2.0, HEIGHT / 2.0 + 4.0, name);
        }
    }
    out
}

// Names above boxes, where octets stand inside, but for those that would run into the one before.
fn names_above(pieces: &[Piece<'_>]) -> String {
    let (mut out, mut free) = (String::new(), 0.0);
    for piece in pieces.iter().filter(|piece| piece.shape.is_run()) {
        if piece.begins && piece.x >= free {
            let name = piece.shape.sign.name();
            out += &text("above", piece.x + 3.0, -3.0, name);
            free = piece.x + (name.len() + 1) as f64 * LETTER;
        }
    }
    out
}

// What is too narrow for a box: for each pixel the first sign in their order, and all of a sign in
// one path.
fn together(pieces: &[Piece<'_>]) -> String {
    let mut pixels: Vec<Option<Sign>> = vec![None; LENGTH];
    for piece in pieces.iter().filter(|piece| piece.is_narrow()) {
        let (first, last) = (piece.x as usize, (piece.end - 0.01) as usize);
        for pixel in &mut pixels[first.min(LENGTH - 1)..=last.min(LENGTH - 1)] {
            let sign = piece.shape.sign;
            *pixel = Some(pixel.map_or(sign, |before| before.min(sign)));
        }
    }
    let mut paths: BTreeMap<Sign, String> = BTreeMap::new();
    let mut x = 0;
    for same in pixels.chunk_by(PartialEq::eq) {
        let width = same.len();
        if let Some(sign) = same[0] {
            let path = paths.entry(sign).or_default();
            let _ = write!(path, "M{x} 0h{width}v{HEIGHT}h-{width}z");
        }
        x += width;
    }
    let path = |(sign, path): (&Sign, &String)| {
        let title = format!(
            "{}, among what is too short for a box of its own",
            sign.name()
        );
        let class = sign.class();
        format!("<path class=\"{class}\" d=\"{path}\"><title>{title}</title></path>\n")
    };
    paths.iter().map(path).collect()
}

// The style, and a pattern for each sign.
fn style() -> String {
    let mut out = String::from("<defs>\n");
    let mut fills = String::new();
    for sign in Sign::all() {
        let (class, (colour, lines)) = (sign.class(), sign.fill());
        let _ = writeln!(
            out,
            "<pattern id=\"p-{class}\" width=\"8\" height=\"8\" patternUnits=\"userSpaceOnUse\">\
             <path fill=\"{colour}\" d=\"M0 0H8V8H0z\"/>\
             <path stroke=\"#000\" stroke-opacity=\".4\" fill=\"none\" d=\"{lines}\"/></pattern>"
        );
        let _ = writeln!(fills, ".{class}{{fill:url(#p-{class})}}");
    }
    out += "</defs>\n<style>\n";
    out += "svg{background:#fff;font-family:sans-serif;font-size:11px}\n";
    out += "rect{stroke:#555;stroke-width:.6}\n.open{stroke-dasharray:3 2}\n";
    out += ".o7{stroke-dasharray:2 2}\n";
    out += ".head{font-size:16px;font-weight:bold}\n.told{font-size:12px;fill:#333}\n";
    out += ".place,.on{fill:#666}\n.place{text-anchor:end}\n.grid{stroke:#ddd}\n";
    out += ".idle{stroke:#999;stroke-width:2}\n.flag{stroke:#000;stroke-width:1.6;fill:none}\n";
    out +=
        ".name,.hex,.sign{text-anchor:middle}\n.hex,.sign{font-family:monospace;font-size:9px}\n";
    out += ".name,.hex,.sign{paint-order:stroke;stroke:#fff;stroke-width:3px}\n";
    out += ".sign{font-weight:bold}\n";
    out + &fills + "</style>\n"
}
