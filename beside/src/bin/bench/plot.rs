//! Lines over two logarithmic axes, as SVG: numbers of rules to the right, the time of a call upwards.

use std::fmt::Write;

/// A line with a point for each number of rules: that number, and nanoseconds.
pub struct Line {
    pub name: &'static str,
    pub color: &'static str,
    pub points: Vec<(f64, f64)>,
}

const WIDTH: f64 = 760.0;
const HEIGHT: f64 = 480.0;
/// Where the axes stand.
const LEFT: f64 = 80.0;
const RIGHT: f64 = 560.0;
const TOP: f64 = 50.0;
const BOTTOM: f64 = 420.0;
/// The least that two names stand apart.
const APART: f64 = 18.0;

/// From the numbers of all lines to places in the drawing.
struct Axes {
    rules: [f64; 2],
    /// Powers of ten.
    decades: [i32; 2],
}

impl Axes {
    fn of(lines: &[Line]) -> Self {
        let points = || lines.iter().flat_map(|line| &line.points);
        let least = |of: fn(&(f64, f64)) -> f64| points().map(of).fold(f64::MAX, f64::min);
        let most = |of: fn(&(f64, f64)) -> f64| points().map(of).fold(0.0, f64::max);
        Self {
            rules: [least(|p| p.0), most(|p| p.0)],
            decades: [
                least(|p| p.1).max(1.0).log10().floor() as i32,
                most(|p| p.1).max(1.0).log10().ceil() as i32,
            ],
        }
    }

    fn x(&self, rules: f64) -> f64 {
        let [least, most] = self.rules.map(f64::ln);
        LEFT + 20.0 + (rules.ln() - least) / (most - least) * (RIGHT - LEFT - 40.0)
    }

    fn y(&self, nanoseconds: f64) -> f64 {
        let [least, most] = self.decades.map(f64::from);
        BOTTOM - (nanoseconds.max(1.0).log10() - least) / (most - least) * (BOTTOM - TOP)
    }
}

/// The whole drawing.
pub fn drawn(lines: &[Line]) -> String {
    let axes = Axes::of(lines);
    let mut svg = format!(
        "<svg xmlns=\"http://www.w3.org/2000/svg\" viewBox=\"0 0 {WIDTH} {HEIGHT}\" width=\"{WIDTH}\" height=\"{HEIGHT}\" \
         font-family=\"sans-serif\" font-size=\"14\">\n\
         <rect width=\"{WIDTH}\" height=\"{HEIGHT}\" fill=\"white\"/>\n"
    );
    let middle = (LEFT + RIGHT) / 2.0;
    text(
        &mut svg,
        middle,
        28.0,
        "middle",
        "#000",
        "Time of a phase call in which no rule matches",
    );
    text(
        &mut svg,
        middle,
        BOTTOM + 46.0,
        "middle",
        "#000",
        "number of rules; both axes are logarithmic",
    );
    time_axis(&mut svg, &axes);
    rule_axis(&mut svg, &axes, lines);
    for line in lines {
        draw(&mut svg, &axes, line);
    }
    names(&mut svg, &axes, lines);
    svg.push_str("</svg>\n");
    svg
}

fn time_axis(svg: &mut String, axes: &Axes) {
    for decade in axes.decades[0]..=axes.decades[1] {
        let y = axes.y(10_f64.powi(decade));
        stroke(svg, [LEFT, y, RIGHT, y], "#ddd");
        text(svg, LEFT - 8.0, y + 5.0, "end", "#000", &unit(decade));
    }
    stroke(svg, [LEFT, TOP, LEFT, BOTTOM], "#000");
}

fn rule_axis(svg: &mut String, axes: &Axes, lines: &[Line]) {
    stroke(svg, [LEFT, BOTTOM, RIGHT, BOTTOM], "#000");
    for (rules, _) in lines.first().map_or(&[][..], |line| &line.points) {
        let x = axes.x(*rules);
        stroke(svg, [x, BOTTOM, x, BOTTOM + 6.0], "#000");
        text(svg, x, BOTTOM + 22.0, "middle", "#000", &rules.to_string());
    }
}

fn draw(svg: &mut String, axes: &Axes, line: &Line) {
    let places = line.points.iter().map(|p| (axes.x(p.0), axes.y(p.1)));
    let path: Vec<String> = places
        .clone()
        .map(|(x, y)| format!("{x:.1},{y:.1}"))
        .collect();
    let _ = writeln!(
        svg,
        "<polyline points=\"{}\" fill=\"none\" stroke=\"{}\" stroke-width=\"2\"/>",
        path.join(" "),
        line.color
    );
    for (x, y) in places {
        let _ = writeln!(
            svg,
            "<circle cx=\"{x:.1}\" cy=\"{y:.1}\" r=\"3.5\" fill=\"{}\"/>",
            line.color
        );
    }
}

/// The lines' names after their last points, pushed down where they would touch.
fn names(svg: &mut String, axes: &Axes, lines: &[Line]) {
    let last = |line: &Line| line.points.last().map_or(0.0, |point| point.1);
    let mut ends: Vec<(f64, &Line)> = lines.iter().map(|l| (axes.y(last(l)), l)).collect();
    ends.sort_by(|a, b| a.0.total_cmp(&b.0));
    let mut free = f64::MIN;
    for (y, line) in ends {
        let y = y.max(free);
        free = y + APART;
        text(svg, RIGHT + 6.0, y + 5.0, "start", line.color, line.name);
    }
}

/// A power of ten nanoseconds in the unit that keeps it below a thousand.
fn unit(decade: i32) -> String {
    let number = 10_u32.pow(decade.rem_euclid(3) as u32);
    let unit = ["ns", "µs", "ms", "s"][(decade / 3).clamp(0, 3) as usize];
    format!("{number} {unit}")
}

fn stroke(svg: &mut String, [x1, y1, x2, y2]: [f64; 4], color: &str) {
    let _ = writeln!(
        svg,
        "<line x1=\"{x1:.1}\" y1=\"{y1:.1}\" x2=\"{x2:.1}\" y2=\"{y2:.1}\" stroke=\"{color}\"/>"
    );
}

fn text(svg: &mut String, x: f64, y: f64, anchor: &str, color: &str, said: &str) {
    let _ = writeln!(
        svg,
        "<text x=\"{x:.1}\" y=\"{y:.1}\" text-anchor=\"{anchor}\" fill=\"{color}\">{said}</text>"
    );
}
