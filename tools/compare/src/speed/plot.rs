//! Curves as SVG, for a white page.

use std::fmt::Write;

/// Whose time a curve is.
#[derive(Clone, Copy)]
pub enum Side {
    Archive,
    Tuned,
    Rust,
}

impl Side {
    fn name(self) -> &'static str {
        match self {
            Side::Archive => "archive",
            Side::Tuned => "hand-tuned Rust",
            Side::Rust => "Rust",
        }
    }

    /// Colours that stay apart for readers who do not tell red from green.
    fn colour(self) -> &'static str {
        match self {
            Side::Archive => "#0072b2",
            Side::Tuned => "#d55e00",
            Side::Rust => "#555555",
        }
    }
}

pub struct Curve {
    pub side: Side,
    pub dashed: bool,
    /// What grows, and nanoseconds.
    pub points: Vec<(f64, f64)>,
}

pub struct Panel {
    pub title: String,
    pub curves: Vec<Curve>,
}

/// How a number becomes a place between 0 and 1.
struct Scale {
    from: f64,
    to: f64,
    log: bool,
    ticks: Vec<(f64, String)>,
}

impl Scale {
    fn place(&self, value: f64) -> f64 {
        if self.log {
            (value / self.from).ln() / (self.to / self.from).ln()
        } else {
            (value - self.from) / (self.to - self.from)
        }
    }

    /// Powers of ten around all values.
    fn of_times(panels: &[Panel]) -> Scale {
        let (least, most) = ends(panels);
        let (first, last) = (least.log10().floor() as i32, most.log10().ceil() as i32);
        let ticks = (first..=last).map(|power| (10f64.powi(power), time(power))).collect();
        Scale { from: 10f64.powi(first), to: 10f64.powi(last), log: true, ticks }
    }

    /// From 0 to above all values, in steps that are easy to read.
    fn from_zero(panels: &[Panel]) -> Scale {
        let (_, most) = ends(panels);
        let power = 10f64.powf(most.log10().floor());
        let step = [0.2, 0.5, 1.0, 2.0].map(|part| part * power).into_iter().find(|step| most / step <= 8.0);
        let step = step.unwrap_or(2.0 * power);
        let count = (most / step).ceil() as usize;
        let ticks = (0..=count).map(|i| (i as f64 * step, nanoseconds(i as f64 * step))).collect();
        Scale { from: 0.0, to: count as f64 * step, log: false, ticks }
    }
}

/// The least and the greatest time of all curves.
fn ends(panels: &[Panel]) -> (f64, f64) {
    let all = panels.iter().flat_map(|panel| &panel.curves).flat_map(|curve| &curve.points);
    all.fold((f64::MAX, f64::MIN), |(least, most), point| (least.min(point.1), most.max(point.1)))
}

fn time(power: i32) -> String {
    match power {
        ..=2 => format!("{} ns", 10f64.powi(power)),
        3..=5 => format!("{} \u{b5}s", 10f64.powi(power - 3)),
        _ => format!("{} ms", 10f64.powi(power - 6)),
    }
}

fn nanoseconds(value: f64) -> String {
    if value < 1000.0 {
        format!("{value} ns")
    } else {
        format!("{} \u{b5}s", value / 1000.0)
    }
}

const WIDTH: f64 = 300.0;
const HEIGHT: f64 = 220.0;
/// Room beside and around a panel, for its ticks, labels and title.
const LEFT: f64 = 84.0;
const TOP: f64 = 40.0;
const RIGHT: f64 = 18.0;
const BOTTOM: f64 = 52.0;

/// A panel and the scales that it is drawn with.
struct Frame<'a> {
    x: f64,
    y: f64,
    across: &'a Scale,
    up: &'a Scale,
    /// What grows, and which time.
    labels: [&'a str; 2],
}

impl Frame<'_> {
    fn point(&self, (x, y): (f64, f64)) -> (f64, f64) {
        (self.x + WIDTH * self.across.place(x), self.y + HEIGHT * (1.0 - self.up.place(y)))
    }

    fn draw(&self, panel: &Panel, svg: &mut String) {
        self.draw_axes(svg);
        put(svg, self.x + WIDTH / 2.0, self.y - 12.0, "middle", 15, &panel.title);
        for curve in &panel.curves {
            self.draw_curve(curve, svg);
        }
    }

    fn draw_axes(&self, svg: &mut String) {
        let (x, y) = (self.x, self.y);
        for (value, name) in &self.up.ticks {
            let at = self.point((self.across.from, *value)).1;
            line(svg, (x, at), (x + WIDTH, at), "stroke=\"#dddddd\"");
            put(svg, x - 6.0, at + 4.0, "end", 12, name);
        }
        for (value, name) in &self.across.ticks {
            let at = x + WIDTH * self.across.place(*value);
            line(svg, (at, y), (at, y + HEIGHT), "stroke=\"#eeeeee\"");
            put(svg, at, y + HEIGHT + 16.0, "middle", 12, name);
        }
        let frame = "fill=\"none\" stroke=\"#333333\"";
        writeln!(svg, "<rect x=\"{x}\" y=\"{y}\" width=\"{WIDTH}\" height=\"{HEIGHT}\" {frame}/>").unwrap();
        let [grows, time] = self.labels;
        put(svg, x + WIDTH / 2.0, y + HEIGHT + 36.0, "middle", 13, grows);
        let (x, y) = (x - 60.0, y + HEIGHT / 2.0);
        writeln!(svg, "<g transform=\"translate({x:.1} {y:.1}) rotate(-90)\">").unwrap();
        put(svg, 0.0, 0.0, "middle", 13, time);
        writeln!(svg, "</g>").unwrap();
    }

    fn draw_curve(&self, curve: &Curve, svg: &mut String) {
        let colour = curve.side.colour();
        let places: Vec<(f64, f64)> = curve.points.iter().map(|&point| self.point(point)).collect();
        let path: Vec<String> = places.iter().map(|(x, y)| format!("{x:.1},{y:.1}")).collect();
        writeln!(
            svg,
            "<polyline points=\"{}\" fill=\"none\" stroke=\"{colour}\" stroke-width=\"1.8\"{}/>",
            path.join(" "),
            dashes(curve.dashed)
        )
        .unwrap();
        for (x, y) in places {
            let fill = if curve.dashed { "#ffffff" } else { colour };
            writeln!(
                svg,
                "<circle cx=\"{x:.1}\" cy=\"{y:.1}\" r=\"2.4\" fill=\"{fill}\" stroke=\"{colour}\"/>"
            )
            .unwrap();
        }
    }
}

fn dashes(dashed: bool) -> &'static str {
    if dashed {
        " stroke-dasharray=\"5 3\""
    } else {
        ""
    }
}

fn line(svg: &mut String, from: (f64, f64), to: (f64, f64), how: &str) {
    let ((a, b), (c, d)) = (from, to);
    writeln!(svg, "<line x1=\"{a:.1}\" y1=\"{b:.1}\" x2=\"{c:.1}\" y2=\"{d:.1}\" {how}/>").unwrap();
}

fn put(svg: &mut String, x: f64, y: f64, anchor: &str, size: u32, text: &str) {
    writeln!(
        svg,
        "<text x=\"{x:.1}\" y=\"{y:.1}\" text-anchor=\"{anchor}\" font-size=\"{size}\">{text}</text>"
    )
    .unwrap();
}

/// The sides' colours, and what full and broken lines are, below each other.
fn legend(svg: &mut String, (x, y): (f64, f64), lines: [&str; 2]) {
    let mut at = y;
    let mut sample = |how: &str, text: &str| {
        line(svg, (x, at), (x + 34.0, at), how);
        put(svg, x + 44.0, at + 4.0, "start", 14, text);
        at += 24.0;
    };
    for side in [Side::Archive, Side::Tuned, Side::Rust] {
        sample(&format!("stroke=\"{}\" stroke-width=\"3\"", side.colour()), side.name());
    }
    for (text, dashed) in lines.into_iter().zip([false, true]) {
        sample(&format!("stroke=\"#333333\" stroke-width=\"1.8\"{}", dashes(dashed)), text);
    }
}

/// The whole picture, on white.
fn picture(width: f64, height: f64, body: &str) -> String {
    format!(
        "<svg xmlns=\"http://www.w3.org/2000/svg\" viewBox=\"0 0 {width} {height}\" width=\"{width}\" \
         height=\"{height}\" font-family=\"sans-serif\" fill=\"#222222\">\n\
         <rect width=\"{width}\" height=\"{height}\" fill=\"#ffffff\"/>\n{body}</svg>\n"
    )
}

/// The room of one panel.
const WIDE: f64 = LEFT + WIDTH + RIGHT;
const HIGH: f64 = TOP + HEIGHT + BOTTOM;

/// One panel for each call, all with the same scales, and the legend as the last.
pub fn by_bytes(panels: &[Panel]) -> String {
    let ticks = [1, 2, 4, 8, 16, 32, 64, 128, 256].map(|size| (size as f64, size.to_string()));
    let across = Scale { from: 1.0, to: 256.0, log: true, ticks: ticks.to_vec() };
    let up = Scale::of_times(panels);
    let place = |number: usize| ((number % 2) as f64 * WIDE + LEFT, (number / 2) as f64 * HIGH + TOP);
    let labels = ["bytes of the text", "time a call"];
    let mut body = String::new();
    for (number, panel) in panels.iter().enumerate() {
        let (x, y) = place(number);
        Frame { x, y, across: &across, up: &up, labels }.draw(panel, &mut body);
    }
    let (x, y) = place(panels.len());
    legend(&mut body, (x + 20.0, y + 40.0), ["syllables", "ASCII letters, nothing to respell"]);
    picture(2.0 * WIDE, (panels.len() / 2 + 1) as f64 * HIGH, &body)
}

/// The cost of one keying, which begins at 0, and of each keying of all; the legend
/// beside them.
pub fn by_parts(panels: &[Panel; 2]) -> String {
    let ticks = (1..=16).map(|parts| (parts as f64, parts.to_string())).collect();
    let across = Scale { from: 1.0, to: 16.0, log: false, ticks };
    let scales = [Scale::from_zero(&panels[..1]), Scale::of_times(&panels[1..])];
    let labels = [["parts of the entry", "time a call"], ["parts of the entry", "time a keying"]];
    let mut body = String::new();
    for (number, (panel, up)) in panels.iter().zip(&scales).enumerate() {
        let (x, y) = (number as f64 * WIDE + LEFT, TOP);
        Frame { x, y, across: &across, up, labels: labels[number] }.draw(panel, &mut body);
    }
    legend(&mut body, (2.0 * WIDE + 10.0, TOP + 40.0), ["call by call", "by listing"]);
    picture(2.0 * WIDE + 190.0, HIGH, &body)
}

#[cfg(test)]
mod tests {
    use super::*;

    #[test]
    fn ticks_have_units() {
        assert_eq!([time(0), time(2), time(4), time(6)], ["1 ns", "100 ns", "10 \u{b5}s", "1 ms"]);
        let curve = Curve { side: Side::Archive, dashed: false, points: vec![(1.0, 30.0), (16.0, 1430.0)] };
        let scale = Scale::from_zero(&[Panel { title: String::new(), curves: vec![curve] }]);
        assert_eq!((scale.to, scale.ticks[1].1.as_str()), (1600.0, "200 ns"));
        assert_eq!(scale.place(800.0), 0.5);
    }
}
