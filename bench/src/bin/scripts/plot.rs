//! The growth of the calls as an SVG picture: a panel for each of pages, records and dead blocks.
use crate::both::Times;
use crate::growth::{Point, CALLS};
use std::fmt::Write;

const WIDTH: f64 = 400.0;
const HEIGHT: f64 = 260.0;
const LEFT: f64 = 64.0;
const TOP: f64 = 44.0;

/// The colour of each of the calls.
const COLOURS: [&str; 4] = ["#1f5fa8", "#b3541e", "#2b7a3b", "#7a3b8f"];

/// A step of 1, 2 or 5 times a power of ten, at most six of them up to the top.
fn step(top: f64) -> f64 {
    let power = 10f64.powf((top / 6.0).log10().floor());
    [1.0, 2.0, 5.0, 10.0].map(|n| n * power).into_iter().find(|s| 6.0 * s >= top).unwrap_or(10.0 * power)
}

/// A panel's scales: how far right a value of `at` stands, how far down a time.
struct Scale {
    left: f64,
    last: f64,
    top: f64,
}

impl Scale {
    fn x(&self, at: f64) -> f64 {
        self.left + WIDTH * at / self.last
    }

    fn y(&self, time: f64) -> f64 {
        TOP + HEIGHT * (1.0 - time.max(0.0) / self.top)
    }
}

fn text(svg: &mut String, x: f64, y: f64, anchor: &str, words: &str) {
    writeln!(svg, "<text x=\"{x:.0}\" y=\"{y:.0}\" text-anchor=\"{anchor}\">{words}</text>").unwrap();
}

fn line(svg: &mut String, x: [f64; 2], y: [f64; 2], style: &str) {
    writeln!(svg, "<line x1=\"{:.1}\" y1=\"{:.1}\" x2=\"{:.1}\" y2=\"{:.1}\" {style}/>", x[0], y[0], x[1], y[1]).unwrap();
}

fn axes(svg: &mut String, scale: &Scale, label: &str, points: &[Point]) {
    let (left, right, bottom) = (scale.left, scale.left + WIDTH, TOP + HEIGHT);
    let by = step(scale.top);
    let mut time = 0.0;
    while time <= scale.top {
        line(svg, [left, right], [scale.y(time); 2], "stroke=\"#ddd\"");
        text(svg, left - 6.0, scale.y(time) + 4.0, "end", &format!("{time}"));
        time += by;
    }
    for p in points {
        let x = scale.x(p.at as f64);
        line(svg, [x; 2], [bottom, bottom + 5.0], "stroke=\"#000\"");
        text(svg, x, bottom + 19.0, "middle", &p.at.to_string());
    }
    line(svg, [left, right], [bottom; 2], "stroke=\"#000\"");
    line(svg, [left; 2], [TOP, bottom], "stroke=\"#000\"");
    text(svg, left + WIDTH / 2.0, bottom + 38.0, "middle", label);
    text(svg, left - 40.0, TOP - 14.0, "start", "nanoseconds a call");
}

fn curve(svg: &mut String, scale: &Scale, points: &[Point], call: usize, time: fn(Times) -> f64, dash: &str) {
    let mut path = String::new();
    for p in points {
        write!(path, "{:.1},{:.1} ", scale.x(p.at as f64), scale.y(time(p.times[call]))).unwrap();
    }
    writeln!(svg, "<polyline points=\"{path}\" fill=\"none\" stroke=\"{}\" stroke-width=\"2\"{dash}/>", COLOURS[call]).unwrap();
}

fn panel(svg: &mut String, left: f64, label: &str, points: &[Point]) {
    let times = points.iter().flat_map(|p| p.times);
    let most = times.flat_map(|t| [t.proved, t.unproved]).fold(1.0, f64::max);
    let top = step(most) * (most / step(most)).ceil();
    let last = points.iter().map(|p| p.at).max().unwrap_or(1) as f64;
    let scale = Scale { left, last, top };
    axes(svg, &scale, label, points);
    for call in 0..CALLS.len() {
        curve(svg, &scale, points, call, |t| t.unproved, " stroke-dasharray=\"5 4\"");
        curve(svg, &scale, points, call, |t| t.proved, "");
    }
}

fn legend(svg: &mut String, y: f64) {
    let mut x = LEFT;
    for (name, colour) in CALLS.iter().zip(COLOURS) {
        line(svg, [x, x + 26.0], [y; 2], &format!("stroke=\"{colour}\" stroke-width=\"3\""));
        text(svg, x + 32.0, y + 4.0, "start", name);
        x += 60.0 + 7.0 * name.len() as f64;
    }
    text(svg, LEFT, y + 26.0, "start", "Solid: the proved store, calls in a script. Dashed: the unproved one. Each panel has its own scale.");
}

pub fn svg(panels: [(&str, &[Point]); 3]) -> String {
    let (width, height) = (3.0 * (WIDTH + LEFT + 20.0), TOP + HEIGHT + 110.0);
    let mut svg =
        format!("<svg xmlns=\"http://www.w3.org/2000/svg\" viewBox=\"0 0 {width} {height}\" font-family=\"sans-serif\" font-size=\"13\">\n");
    writeln!(svg, "<rect width=\"{width}\" height=\"{height}\" fill=\"#fff\"/>").unwrap();
    for (i, (label, points)) in panels.into_iter().enumerate() {
        panel(&mut svg, LEFT + i as f64 * (WIDTH + LEFT + 16.0), label, points);
    }
    legend(&mut svg, TOP + HEIGHT + 70.0);
    svg += "</svg>\n";
    svg
}
