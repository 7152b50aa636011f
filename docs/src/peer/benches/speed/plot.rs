//! A small plot of times against calls, as SVG text with a background of its own.
//! Both axes begin at 0.

use std::fmt::Write;

const WIDTH: f64 = 680.0;
const HEIGHT: f64 = 380.0;
const LEFT: f64 = 70.0;
const RIGHT: f64 = 24.0;
const TOP: f64 = 58.0;
const BOTTOM: f64 = 56.0;

pub struct Curve<'a> {
    pub name: &'a str,
    pub color: &'a str,
    /// Calls and nanoseconds.
    pub points: &'a [(f64, f64)],
}

pub fn draw(title: &str, below: &str, curves: &[Curve]) -> String {
    let all = || curves.iter().flat_map(|curve| curve.points);
    let (step_x, most_x) = scale(all().map(|point| point.0).fold(0.0, f64::max));
    let (step_y, most_y) = scale(all().map(|point| point.1 / 1000.0).fold(0.0, f64::max));
    let x = |calls: f64| LEFT + (WIDTH - LEFT - RIGHT) * calls / most_x;
    let y = |us: f64| HEIGHT - BOTTOM - (HEIGHT - TOP - BOTTOM) * us / most_y;
    let mut svg = format!(
        "<svg xmlns=\"http://www.w3.org/2000/svg\" viewBox=\"0 0 {WIDTH} {HEIGHT}\" width=\"{WIDTH}\" height=\"{HEIGHT}\" \
         font-family=\"sans-serif\" font-size=\"13\" fill=\"#222\">\n\
         <rect width=\"{WIDTH}\" height=\"{HEIGHT}\" fill=\"#fff\"/>\n\
         <text x=\"{LEFT}\" y=\"24\" font-size=\"15\">{title}</text>\n\
         <text x=\"{LEFT}\" y=\"43\" font-size=\"12\" fill=\"#555\">{below}</text>\n"
    );
    for tick in ticks(step_x, most_x) {
        line(&mut svg, tick, (x(tick), y(0.0)), (x(tick), y(most_y)));
        text(&mut svg, (x(tick), y(0.0) + 18.0), "middle", &tick.to_string());
    }
    for tick in ticks(step_y, most_y) {
        line(&mut svg, tick, (x(0.0), y(tick)), (x(most_x), y(tick)));
        text(&mut svg, (x(0.0) - 8.0, y(tick) + 4.0), "end", &tick.to_string());
    }
    text(&mut svg, (x(most_x / 2.0), HEIGHT - 14.0), "middle", "calls in the list");
    let middle = y(most_y / 2.0);
    let _ = writeln!(
        svg,
        "<text x=\"20\" y=\"{middle}\" text-anchor=\"middle\" transform=\"rotate(-90 20 {middle})\">time of the list, µs</text>"
    );
    for Curve { color, points, .. } in curves {
        let place = |&(calls, ns): &(f64, f64)| (x(calls), y(ns / 1000.0));
        let path: Vec<String> = points.iter().map(place).map(|(x, y)| format!("{x:.1},{y:.1}")).collect();
        let path = path.join(" ");
        let _ = writeln!(svg, "<polyline points=\"{path}\" fill=\"none\" stroke=\"{color}\" stroke-width=\"2\"/>");
        for (x, y) in points.iter().map(place) {
            let _ = writeln!(svg, "<circle cx=\"{x:.1}\" cy=\"{y:.1}\" r=\"3.5\" fill=\"{color}\"/>");
        }
    }
    legend(&mut svg, curves);
    svg.push_str("</svg>\n");
    svg
}

fn legend(svg: &mut String, curves: &[Curve]) {
    let (left, top, height) = (LEFT + 14.0, TOP + 12.0, 10.0 + 20.0 * curves.len() as f64);
    let _ = writeln!(
        svg,
        "<rect x=\"{left}\" y=\"{top}\" width=\"110\" height=\"{height}\" fill=\"#fff\" stroke=\"#bbb\"/>"
    );
    for (place, Curve { name, color, .. }) in curves.iter().enumerate() {
        let (x, y) = (left + 10.0, top + 13.0 + 20.0 * place as f64);
        let _ = writeln!(svg, "<rect x=\"{x}\" y=\"{y}\" width=\"22\" height=\"4\" fill=\"{color}\"/>");
        text(svg, (x + 30.0, y + 6.0), "start", name);
    }
}

/// A line of the grid; at 0 it is the axis.
fn line(svg: &mut String, tick: f64, (x0, y0): (f64, f64), (x1, y1): (f64, f64)) {
    let color = if tick == 0.0 { "#777" } else { "#ddd" };
    let _ = writeln!(svg, "<path d=\"M{x0:.1} {y0:.1}L{x1:.1} {y1:.1}\" stroke=\"{color}\" fill=\"none\"/>");
}

fn text(svg: &mut String, (x, y): (f64, f64), anchor: &str, said: &str) {
    let _ = writeln!(svg, "<text x=\"{x:.1}\" y=\"{y:.1}\" text-anchor=\"{anchor}\">{said}</text>");
}

/// The step between the marks of an axis, and where it ends: four to ten marks of 1, 2 or 5 times a power of ten.
fn scale(most: f64) -> (f64, f64) {
    let power = 10_f64.powf((most / 4.0).log10().floor());
    let step = [5.0, 2.0, 1.0].into_iter().map(|one| one * power).find(|step| step * 4.0 <= most).unwrap_or(power);
    (step, step * (most / step).ceil())
}

fn ticks(step: f64, most: f64) -> impl Iterator<Item = f64> {
    (0..=(most / step).round() as usize).map(move |mark| mark as f64 * step)
}
