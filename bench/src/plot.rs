//! Cost against size as an SVG: one panel for each measure, both axes logarithmic, one line for each contestant.

use crate::numbers::grouped;

/// The lines' colours and the marks on them, in the order of the contestants.
const COLOURS: [&str; 4] = ["#d62728", "#1f77b4", "#2ca02c", "#7f3fbf"];

/// The size of the drawing area of a panel, and of the panel with its texts.
const AREA: (f64, f64) = (250.0, 170.0);
const PANEL: (f64, f64) = (330.0, 270.0);

/// Panels beside each other, and the height of the legend above them.
const ACROSS: usize = 3;
const LEGEND: f64 = 50.0;

/// A measure: its title, in which a semicolon starts a second line, and for each contestant its milliseconds at each size.
pub struct Panel {
    pub title: String,
    pub lines: Vec<Vec<f64>>,
}

/// A logarithmic axis from one value to another over a length.
struct Axis {
    from: f64,
    to: f64,
    length: f64,
}

impl Axis {
    /// Where a value lies.
    fn place(&self, value: f64) -> f64 {
        (value / self.from).ln() / (self.to / self.from).ln() * self.length
    }
}

/// The whole plot.
pub fn plot(names: &[&str], sizes: &[usize], panels: &[Panel]) -> String {
    let (width, height) = (PANEL.0 * ACROSS as f64, LEGEND + PANEL.1 * panels.len().div_ceil(ACROSS) as f64);
    let mut out = String::from("<svg xmlns=\"http://www.w3.org/2000/svg\"");
    out += &format!(" viewBox=\"0 0 {width} {height}\" width=\"{width}\" height=\"{height}\"");
    out += " font-family=\"sans-serif\" font-size=\"11\">\n";
    out += &format!("<rect width=\"{width}\" height=\"{height}\" fill=\"white\"/>\n");
    for (i, name) in names.iter().enumerate() {
        let x = 68.0 + 160.0 * i as f64;
        out += &format!("<path d=\"M{x} 24h36\" stroke=\"{}\" stroke-width=\"2\"/>\n", COLOURS[i]);
        out += &mark(i, x + 18.0, 24.0);
        out += &text(x + 44.0, 28.0, "start", name);
    }
    for (i, panel) in panels.iter().enumerate() {
        let (x, y) = ((i % ACROSS) as f64 * PANEL.0 + 68.0, (i / ACROSS) as f64 * PANEL.1 + LEGEND + 40.0);
        out += &format!("<g transform=\"translate({x} {y})\">\n{}</g>\n", drawn(panel, sizes));
    }
    out + "</svg>\n"
}

/// A text; it is start, middle or end that stands at the place.
fn text(x: f64, y: f64, anchor: &str, words: &str) -> String {
    format!("<text x=\"{x:.1}\" y=\"{y:.1}\" text-anchor=\"{anchor}\">{words}</text>\n")
}

/// The mark of a contestant: a disc, a square, a triangle or a diamond.
fn mark(i: usize, x: f64, y: f64) -> String {
    let shape = ["m-4 0a4 4 0 1 0 8 0a4 4 0 1 0 -8 0z", "m-3.5 -3.5h7v7h-7z", "m0 -4.5l4.5 8h-9z", "m0 -5l5 5l-5 5l-5 -5z"][i];
    format!("<path d=\"M{x:.1} {y:.1}{shape}\" fill=\"{}\"/>\n", COLOURS[i])
}

/// One panel: its title, axes, grid and lines.
fn drawn(panel: &Panel, sizes: &[usize]) -> String {
    let values: Vec<f64> = panel.lines.concat();
    let least = values.iter().fold(f64::MAX, |a, &b| a.min(b)).log10().floor() as i32;
    let most = values.iter().fold(f64::MIN_POSITIVE, |a, &b| a.max(b)).log10().ceil() as i32;
    let x = Axis { from: sizes[0] as f64, to: sizes[sizes.len() - 1] as f64, length: AREA.0 };
    let y = Axis { from: 10f64.powi(least), to: 10f64.powi(most.max(least + 1)), length: AREA.1 };
    let mut out = format!("<rect width=\"{}\" height=\"{}\" fill=\"none\" stroke=\"#888\"/>\n", AREA.0, AREA.1);
    for (line, part) in panel.title.split("; ").enumerate() {
        out += &text(AREA.0 / 2.0, -22.0 + 14.0 * line as f64, "middle", part);
    }
    for decade in least..=most.max(least + 1) {
        let at = AREA.1 - y.place(10f64.powi(decade));
        out += &format!("<path d=\"M0 {at:.1}h{}\" stroke=\"#ddd\"/>\n", AREA.0);
        out += &text(-6.0, at + 4.0, "end", &label(decade));
    }
    for &size in sizes {
        let at = x.place(size as f64);
        out += &format!("<path d=\"M{at:.1} {}v5\" stroke=\"#888\"/>\n", AREA.1);
        out += &text(at, AREA.1 + 18.0, "middle", &format!("{}", size as f64 / 1000.0));
    }
    out += &text(AREA.0 / 2.0, AREA.1 + 34.0, "middle", "thousand facts");
    out += &format!("<text transform=\"translate(-56 {}) rotate(-90)\" text-anchor=\"middle\">milliseconds</text>\n", AREA.1 / 2.0);
    for (i, line) in panel.lines.iter().enumerate() {
        let points: Vec<(f64, f64)> = sizes.iter().zip(line).map(|(&n, &ms)| (x.place(n as f64), AREA.1 - y.place(ms))).collect();
        let path: Vec<String> = points.iter().map(|(x, y)| format!("{x:.1},{y:.1}")).collect();
        out += &format!("<polyline points=\"{}\" fill=\"none\" stroke=\"{}\" stroke-width=\"2\"/>\n", path.join(" "), COLOURS[i]);
        out += &points.iter().map(|&(x, y)| mark(i, x, y)).collect::<String>();
    }
    out
}

/// A power of ten as a number.
fn label(decade: i32) -> String {
    if decade < 0 {
        format!("{:.*}", -decade as usize, 10f64.powi(decade))
    } else {
        grouped(10usize.pow(decade as u32))
    }
}
