//! The page of a drawing: the plot, its legend, the answer below.

use std::f64::consts::PI;
use std::fmt::Write;

use super::text::{escaped, place, short};
use super::trims::Trims;
use super::{Drawn, Point, Seen};
use crate::{Face, Kind, Phase, Refusal, Sense, Uv};

/// Sizes on the page. A plot's longer side is `PLOT`, its shorter one at least
/// `NARROWEST`, and the lines below it have room on a page of `LEAST_WIDTH`.
const PLOT: f64 = 440.0;
const NARROWEST: f64 = PLOT / 3.0;
const LEAST_WIDTH: f64 = 520.0;
const LEFT: f64 = 92.0;
const TOP: f64 = 84.0;
const GAP: f64 = 32.0;
const LEGEND: f64 = 176.0;
const ROW: f64 = 22.0;
const MARGIN: f64 = 24.0;
const EDGE: f64 = 2.0;

/// The least distance of two grid points, in parts of the plot's side.
const STEP: f64 = 1.0 / 32.0;

/// Rings have these in turn; a sheet that is not refused has no more than 16. They keep
/// away from the grid's blue and the answer's red.
const COLOURS: [&str; 16] = [
    "#24323f", "#e07b00", "#2a9134", "#8e3fb0", "#8a5a3b", "#d6369a", "#7d7a00", "#00938f",
    "#b58900", "#5a4fcf", "#5f9e1f", "#c2607f", "#4d6b7c", "#a34a17", "#7a8794", "#4f6228",
];
const ANSWER: &str = "#c8102e";

/// The grid's shades, from no clearance to the greatest. The clearances of a plain
/// face are sixteenths of the greatest, and with one shade more none of them falls
/// where two shades meet.
const SHADES: usize = 17;

const INK: &str = "#24323f";
const PALE_INK: &str = "#5d6975";
const FONT: &str = "DejaVu Sans, Segoe UI, Helvetica, Arial, sans-serif";

pub(super) fn text(title: &str, seen: &Seen) -> String {
    let mut page = Page::new(seen);
    let answer = answer_lines(seen, page.width());
    let height = page.below() + 30.0 + ROW * (answer.len() as f64 - 1.0) + MARGIN;
    page.open(title, &answer, height);
    match &seen.drawn {
        Some(drawn) => {
            page.small(MARGIN, 58.0, "start", &about(drawn));
            page.plot(drawn, seen.answer.as_ref().ok());
            page.axes(&drawn.trims, drawn.phase);
            page.legend(drawn, seen.answer.is_ok());
        }
        None => page.small(MARGIN, 58.0, "start", "These bytes are no sheet"),
    }
    page.answer(&answer, seen.answer.is_err());
    page.text + "</svg>\n"
}

/// The lines below the plot: what was found, or why nothing was.
fn answer_lines(seen: &Seen, width: f64) -> Vec<String> {
    let mut lines = match &seen.answer {
        Ok(point) => point_lines(point),
        Err(refusal) => refusal_lines(*refusal, width),
    };
    if let Some(drawn) = &seen.drawn {
        if drawn.trims.left_out > 0 {
            let points = counted(drawn.trims.left_out, "point");
            lines.push(format!("{points} beyond the limits not drawn"));
        }
    }
    lines
}

fn point_lines(Point { chart, pick }: &Point) -> Vec<String> {
    let [u, v] = chart.uv.map(short);
    let place = match pick.map(|pick| pick.point.map(short)) {
        Some([x, y, z]) => format!("Point ({x}, {y}, {z})"),
        None => format!("Point at u {u}, v {v}"),
    };
    let (clearance, count) = (short(chart.clearance), chart.count);
    let grid = format!("clearance {clearance} of the box · {count} of 961 grid points on the face");
    vec![place, grid]
}

/// The name, and the document's words in lines that fit the page.
fn refusal_lines(refusal: Refusal, width: f64) -> Vec<String> {
    let fitting = ((width - 2.0 * MARGIN) / 7.0) as usize;
    let mut lines = vec![format!("Refusal {} · {refusal:?}", refusal.number())];
    let mut line = String::new();
    for word in refusal.words().split(' ') {
        if !line.is_empty() && line.chars().count() + word.chars().count() >= fitting {
            lines.push(std::mem::take(&mut line));
        }
        line += if line.is_empty() { "" } else { " " };
        line += word;
    }
    lines.push(line);
    lines
}

fn about(Drawn { face, phase, .. }: &Drawn) -> String {
    let kind = match face.kind {
        Kind::Plane(_) => "Plane",
        Kind::Cylinder => "Cylinder",
        Kind::Cone => "Cone",
        Kind::Sphere => "Sphere",
        Kind::Torus => "Torus",
        Kind::Nurbs => "NURBS",
        Kind::Other => "Other surface",
    };
    let sense = match face.sense {
        Sense::Absent => "no sense",
        Sense::Forward => "forward",
        Sense::Reversed => "reversed",
    };
    let rings = counted(face.rings.len(), "ring");
    let coedges = face.rings.iter().map(|ring| ring.coedges.len()).sum();
    let coedges = counted(coedges, "coedge");
    let phase = match phase {
        Phase::Zero => "",
        Phase::One => " · phase 1",
    };
    format!("{kind}, {sense} · {rings}, {coedges}{phase}")
}

fn counted(count: usize, what: &str) -> String {
    let plural = if count == 1 { "" } else { "s" };
    format!("{count} {what}{plural}")
}

/// Width and height of the plot: a plane's true proportions, else a square.
fn plot_size(face: &Face, scale: Uv) -> [f64; 2] {
    if !matches!(face.kind, Kind::Plane(_)) {
        return [PLOT; 2];
    }
    let longer = scale[0].max(scale[1]);
    scale.map(|side| (PLOT * side / longer).max(NARROWEST))
}

struct Page {
    text: String,
    plot: [f64; 2],
    rows: usize,
}

/// Writes a piece of the page; a String takes every piece.
macro_rules! put {
    ($page:expr, $($piece:tt)+) => {
        writeln!($page.text, $($piece)+).expect("a String takes every piece")
    };
}

impl Page {
    fn new(seen: &Seen) -> Page {
        let plot = match &seen.drawn {
            Some(drawn) => plot_size(&drawn.face, drawn.trims.scale),
            None => [PLOT, 0.0],
        };
        let rows = seen.drawn.as_ref().map_or(0, |drawn| {
            let below = if drawn.grid.is_empty() { 0 } else { 6 };
            drawn.face.rings.len().min(COLOURS.len() + 1) + below
        });
        Page {
            text: String::new(),
            plot,
            rows,
        }
    }

    fn width(&self) -> f64 {
        (LEFT + self.plot[0] + GAP + LEGEND + MARGIN).max(LEAST_WIDTH)
    }

    /// Where plot and legend end.
    fn below(&self) -> f64 {
        let plot = if self.plot[1] > 0.0 {
            self.plot[1] + ROW
        } else {
            0.0
        };
        TOP + plot.max(ROW * self.rows as f64)
    }

    /// A place of the unit box on the page.
    fn at(&self, [u, v]: Uv) -> [String; 2] {
        let [width, height] = self.plot;
        [LEFT + u * width, TOP + (1.0 - v) * height].map(place)
    }

    fn open(&mut self, title: &str, answer: &[String], height: f64) {
        let (width, title) = (place(self.width()), escaped(title));
        let height = place(height);
        put!(
            self,
            r#"<svg xmlns="http://www.w3.org/2000/svg" width="{width}" height="{height}" viewBox="0 0 {width} {height}" role="img" font-family="{FONT}" font-size="13" fill="{INK}">"#
        );
        put!(self, "<title>{title}</title>");
        put!(self, "<desc>{}</desc>", escaped(&answer.join(". ")));
        put!(
            self,
            r##"<rect width="100%" height="100%" rx="10" fill="#ffffff"/>"##
        );
        put!(
            self,
            r#"<text x="{MARGIN}" y="38" font-size="20" font-weight="bold">{title}</text>"#
        );
    }

    /// Words that begin, end or have their middle at a place.
    fn small(&mut self, x: f64, y: f64, anchor: &str, words: &str) {
        let ([x, y], words) = ([x, y].map(place), escaped(words));
        put!(
            self,
            r#"<text x="{x}" y="{y}" font-size="12" fill="{PALE_INK}" text-anchor="{anchor}">{words}</text>"#
        );
    }

    fn plot(&mut self, drawn: &Drawn, point: Option<&Point>) {
        let [width, height] = self.plot.map(place);
        let frame = format!(r#"x="{LEFT}" y="{TOP}" width="{width}" height="{height}""#);
        put!(
            self,
            r##"<rect {frame} fill="#f7f8fa" stroke="#c9d0d8" stroke-width="1"/>"##
        );
        // Copies around a period end a little outside of the box.
        let [x, y] = [LEFT, TOP].map(|start| place(start - EDGE));
        let [width, height] = self.plot.map(|side| place(side + 2.0 * EDGE));
        put!(
            self,
            r#"<svg x="{x}" y="{y}" width="{width}" height="{height}" viewBox="{x} {y} {width} {height}">"#
        );
        self.grid(drawn);
        if let Some(point) = point {
            self.clearance(drawn, point);
        }
        for (index, ring) in drawn.trims.rings.iter().enumerate() {
            let colour = COLOURS[index % COLOURS.len()];
            let lines = drawn.trims.lines(ring);
            let lines: String = lines.iter().map(|line| self.line(line)).collect();
            self.path(&lines, colour, 2.5);
        }
        if let Some(point) = point {
            self.chosen(drawn, point);
        }
        put!(self, "</svg>");
    }

    /// Each shade's points as one path of dots, and before them those off the face.
    fn grid(&mut self, drawn: &Drawn) {
        let size = self.plot[0].min(self.plot[1]) * STEP;
        let greatest = greatest(drawn);
        let mut dots = vec![String::new(); SHADES + 1];
        for point in &drawn.grid {
            let shade = point.clearance.map_or(0, |c| 1 + shade_of(c, greatest));
            let [x, y] = self.at(point.place);
            dots[shade] += &format!("M{x} {y}h0");
        }
        for (shade, dots) in dots.iter().enumerate().filter(|(_, dots)| !dots.is_empty()) {
            let (colour, part) = match shade {
                0 => ("#d3d8de".into(), 0.2),
                _ => (colour_of(shade - 1), 0.72),
            };
            self.path(dots, &colour, size * part);
        }
    }

    fn path(&mut self, path: &str, colour: &str, width: f64) {
        let width = place(width);
        put!(
            self,
            r#"<path d="{path}" fill="none" stroke="{colour}" stroke-width="{width}" stroke-linecap="round" stroke-linejoin="round"/>"#
        );
    }

    fn line(&self, points: &[Uv]) -> String {
        let mut line = String::new();
        for (index, point) in points.iter().enumerate() {
            let [x, y] = self.at(*point);
            line += if index == 0 { "M" } else { "L" };
            line += &format!("{x} {y}");
        }
        line
    }

    /// The chosen point's place on the page, around a period in every copy whose
    /// clearance touches the box.
    fn copies(&self, drawn: &Drawn, point: &Point) -> Vec<[String; 2]> {
        let trims = &drawn.trims;
        let [u, v] = point.chart.uv;
        let v = v + shift(drawn.phase);
        let u = (u - trims.low[0]) / trims.scale[0];
        let v = (v - trims.low[1]) / trims.scale[1];
        let mut copies = match trims.period {
            Some(period) => vec![u - period, u, u + period],
            None => vec![u],
        };
        let reach = point.chart.clearance;
        copies.retain(|u| u + reach > 0.0 && u - reach < 1.0);
        copies.into_iter().map(|u| self.at([u, v])).collect()
    }

    fn clearance(&mut self, drawn: &Drawn, point: &Point) {
        let [width, height] = self.plot.map(|side| place(side * point.chart.clearance));
        for [x, y] in self.copies(drawn, point) {
            put!(
                self,
                r#"<ellipse cx="{x}" cy="{y}" rx="{width}" ry="{height}" fill="{ANSWER}" fill-opacity="0.10" stroke="{ANSWER}" stroke-width="1.5"/>"#
            );
        }
    }

    fn chosen(&mut self, drawn: &Drawn, point: &Point) {
        for [x, y] in self.copies(drawn, point) {
            self.marker(&x, &y);
        }
    }

    fn marker(&mut self, x: &str, y: &str) {
        put!(
            self,
            r##"<circle cx="{x}" cy="{y}" r="5.5" fill="{ANSWER}" stroke="#ffffff" stroke-width="2"/>"##
        );
    }

    /// The box's bounds, in the answer's u and v.
    fn axes(&mut self, trims: &Trims, phase: Phase) {
        let [width, height] = self.plot;
        let (right, bottom) = (LEFT + width, TOP + height);
        let [u, v] = trims.low;
        let v = v - shift(phase);
        let (low_u, high_u) = (short(u), short(u + trims.scale[0]));
        let (low_v, high_v) = (short(v), short(v + trims.scale[1]));
        let under = bottom + 18.0;
        self.small(LEFT, under, "start", &low_u);
        self.small(LEFT + width / 2.0, under, "middle", "u");
        self.small(right, under, "end", &high_u);
        let beside = LEFT - 9.0;
        self.small(beside, bottom, "end", &low_v);
        self.small(beside, TOP + height / 2.0 + 4.0, "end", "v");
        self.small(beside, TOP + 10.0, "end", &high_v);
    }

    fn legend(&mut self, drawn: &Drawn, answered: bool) {
        let left = LEFT + self.plot[0] + GAP;
        let mut y = TOP + 10.0;
        let rings = &drawn.face.rings;
        for (index, ring) in rings.iter().enumerate().take(COLOURS.len()) {
            let colour = COLOURS[index];
            let [from, middle] = [left, y - 4.0].map(place);
            self.path(&format!("M{from} {middle}h22"), colour, 3.5);
            let coedges = counted(ring.coedges.len(), "coedge");
            let words = format!("ring {} · {coedges}", index + 1);
            self.small(left + 34.0, y, "start", &words);
            y += ROW;
        }
        if rings.len() > COLOURS.len() {
            let more = format!("and {} more", rings.len() - COLOURS.len());
            self.small(left + 34.0, y, "start", &more);
            y += ROW;
        }
        if !drawn.grid.is_empty() {
            self.key(drawn, answered, left, y + ROW / 2.0);
        }
    }

    /// What the dots mean.
    fn key(&mut self, drawn: &Drawn, answered: bool, left: f64, mut y: f64) {
        if answered {
            let [x, middle] = [left + 11.0, y - 4.0].map(place);
            put!(
                self,
                r#"<circle cx="{x}" cy="{middle}" r="10" fill="{ANSWER}" fill-opacity="0.10" stroke="{ANSWER}" stroke-width="1.5"/>"#
            );
            self.marker(&x, &middle);
            self.small(left + 34.0, y, "start", "point, clearance");
            y += ROW * 1.2;
        }
        let Some(greatest) = greatest(drawn) else {
            self.small(left, y, "start", "no grid point on the face");
            return;
        };
        self.small(left, y, "start", "grid points on the face,");
        self.small(left, y + 16.0, "start", "by clearance");
        let (width, top) = (LEGEND / SHADES as f64, place(y + 26.0));
        for shade in 0..SHADES {
            let (x, colour) = (place(left + shade as f64 * width), colour_of(shade));
            let wide = place(width + 0.5);
            put!(
                self,
                r#"<rect x="{x}" y="{top}" width="{wide}" height="10" fill="{colour}"/>"#
            );
        }
        self.small(left, y + 52.0, "start", "0");
        self.small(left + LEGEND, y + 52.0, "end", &short(greatest));
    }

    fn answer(&mut self, lines: &[String], refused: bool) {
        let mut y = self.below() + 30.0;
        let colour = if refused { ANSWER } else { INK };
        for (index, line) in lines.iter().enumerate() {
            let (at, words) = (place(y), escaped(line));
            let first = match index {
                0 => format!(r#" font-size="15" font-weight="bold" fill="{colour}""#),
                _ => String::new(),
            };
            put!(self, r#"<text x="{MARGIN}" y="{at}"{first}>{words}</text>"#);
            y += ROW;
        }
    }
}

/// What phase 1 adds to v.
fn shift(phase: Phase) -> f64 {
    match phase {
        Phase::Zero => 0.0,
        Phase::One => PI,
    }
}

/// The greatest clearance of a grid point on the face, if there is one.
fn greatest(drawn: &Drawn) -> Option<f64> {
    let clearances = drawn.grid.iter().filter_map(|point| point.clearance);
    clearances.reduce(f64::max)
}

fn shade_of(clearance: f64, greatest: Option<f64>) -> usize {
    let part = greatest.filter(|g| *g > 0.0).map_or(0.0, |g| clearance / g);
    ((part * SHADES as f64) as usize).min(SHADES - 1)
}

/// From pale to deep blue, in two straight parts.
fn colour_of(shade: usize) -> String {
    const STOPS: [[usize; 3]; 3] = [[0xd9, 0xe8, 0xf5], [0x5b, 0xa3, 0xd0], [0x0b, 0x3c, 0x7d]];
    let half = SHADES / 2;
    let (from, to, part) = if shade < half {
        (STOPS[0], STOPS[1], shade)
    } else {
        (STOPS[1], STOPS[2], shade - half)
    };
    let mix = |k: usize| (from[k] * (half - part) + to[k] * part) / half;
    format!("#{:02x}{:02x}{:02x}", mix(0), mix(1), mix(2))
}

#[cfg(test)]
mod tests {
    use super::{colour_of, shade_of, SHADES};

    #[test]
    fn shades_go_from_pale_to_deep() {
        let stops = [0, 8, SHADES - 1].map(colour_of);
        assert_eq!(stops, ["#d9e8f5", "#5ba3d0", "#0b3c7d"]);
        let shades: Vec<String> = (0..SHADES).map(colour_of).collect();
        assert!(shades.windows(2).all(|pair| pair[0] > pair[1]));
        assert_eq!(shade_of(0.5, Some(0.5)), SHADES - 1);
        assert_eq!(shade_of(0.0, Some(0.5)), 0);
        assert_eq!(shade_of(0.0, Some(0.0)), 0);
    }
}
