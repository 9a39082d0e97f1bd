//! A map from above, with the order in which its subsectors are drawn from a point, as SVG. North is up.

use std::fmt::Write;

/// A line between two points of the map.
pub type Line = [(i16, i16); 2];

/// What is drawn.
pub struct Sketch {
    /// The linedefs.
    pub linedefs: Vec<Line>,
    /// Each subsector's number and segs, the nearest first.
    pub subsectors: Vec<(u16, Vec<Line>)>,
    /// The point that they are seen from.
    pub camera: (i16, i16),
}

/// The longer side of the picture, in pixels.
const PIXELS: f64 = 900.0;
/// Red, green and blue of the nearest subsector and of the farthest.
const NEAR: [f64; 3] = [165.0, 0.0, 38.0];
const FAR: [f64; 3] = [171.0, 217.0, 233.0];

impl Sketch {
    /// The picture. Nearer subsectors are drawn over farther ones.
    pub fn svg(&self) -> String {
        let [left, top, width, height] = self.frame();
        let scale = PIXELS / width.max(height);
        let (x, y, radius) = (self.camera.0, -i32::from(self.camera.1), 7.0 / scale);
        let mut svg = format!(
            "<svg xmlns=\"http://www.w3.org/2000/svg\" viewBox=\"{left} {top} {width} {height}\" width=\"{:.0}\" height=\"{:.0}\">\n\
             <rect x=\"{left}\" y=\"{top}\" width=\"{width}\" height=\"{height}\" fill=\"white\"/>\n\
             <g fill=\"none\" stroke-linecap=\"round\">\n<path stroke=\"#999\" stroke-width=\"{:.2}\" d=\"{}\"/>\n",
            width * scale,
            height * scale,
            1.0 / scale,
            path(&self.linedefs),
        );
        let count = self.subsectors.len();
        for (at, (number, segs)) in self.subsectors.iter().enumerate().rev() {
            let (shade, width, place) = (shade(at, count), 4.0 / scale, at + 1);
            let title = format!("<title>subsector {number}, {place} of {count}</title>");
            let line = format!("<path stroke=\"{shade}\" stroke-width=\"{width:.2}\" d=\"{}\">{title}</path>\n", path(segs));
            svg.push_str(&line);
        }
        let camera = format!("<circle cx=\"{x}\" cy=\"{y}\" r=\"{radius:.2}\" fill=\"black\"><title>the point</title></circle>");
        svg + "</g>\n" + &camera + "\n</svg>\n"
    }

    /// Left, top, width and height of all that is drawn, with an edge around it.
    fn frame(&self) -> [f64; 4] {
        let lines = self.linedefs.iter().chain(self.subsectors.iter().flat_map(|(_, segs)| segs));
        let points = || lines.clone().flatten().chain([&self.camera]).map(|&(x, y)| (f64::from(x), -f64::from(y)));
        let span = |values: Vec<f64>| {
            let (least, most) = values.iter().fold((f64::MAX, f64::MIN), |(a, b), &it| (a.min(it), b.max(it)));
            (least, most - least)
        };
        let (left, width) = span(points().map(|(x, _)| x).collect());
        let (top, height) = span(points().map(|(_, y)| y).collect());
        let edge = width.max(height).max(64.0) / 20.0;
        [left - edge, top - edge, width + 2.0 * edge, height + 2.0 * edge]
    }
}

/// The colour of the subsector that comes `at` so many.
fn shade(at: usize, count: usize) -> String {
    let part = at as f64 / count.saturating_sub(1).max(1) as f64;
    let [red, green, blue] = [0, 1, 2].map(|it| (NEAR[it] + (FAR[it] - NEAR[it]) * part).round() as u8);
    format!("#{red:02x}{green:02x}{blue:02x}")
}

fn path(lines: &[Line]) -> String {
    let mut path = String::new();
    for [(x, y), (to_x, to_y)] in lines {
        let (y, to_y) = (-i32::from(*y), -i32::from(*to_y));
        write!(path, "M{x} {y}L{to_x} {to_y}").expect("a string takes all text");
    }
    path
}
