//! A line plot as SVG: tightness from left to right, a logarithmic scale upwards.

use std::fmt::Write;

pub struct Curve {
    pub name: String,
    pub colour: &'static str,
    pub dashed: bool,
    /// x and y, y above 0.
    pub points: Vec<(f64, f64)>,
}

pub struct Plot {
    pub title: String,
    pub x_name: String,
    pub y_name: String,
    pub x_range: (f64, f64),
    pub x_marks: Vec<f64>,
    pub curves: Vec<Curve>,
}

const WIDTH: f64 = 760.0;
const HEIGHT: f64 = 440.0;
const LEFT: f64 = 70.0;
const RIGHT: f64 = 600.0;
const TOP: f64 = 50.0;
const BOTTOM: f64 = 380.0;

impl Plot {
    /// Powers of ten below and above every point.
    fn decades(&self) -> (i32, i32) {
        let ys = || self.curves.iter().flat_map(|curve| curve.points.iter().map(|point| point.1.log10()));
        let low = ys().fold(f64::INFINITY, f64::min).floor() as i32;
        let high = ys().fold(f64::NEG_INFINITY, f64::max).ceil() as i32;
        (low, high.max(low + 1))
    }

    fn x(&self, x: f64) -> f64 {
        let (low, high) = self.x_range;
        LEFT + (x - low) / (high - low) * (RIGHT - LEFT)
    }

    fn y(&self, y: f64) -> f64 {
        let (low, high) = self.decades();
        BOTTOM - (y.log10() - f64::from(low)) / f64::from(high - low) * (BOTTOM - TOP)
    }

    pub fn svg(&self) -> String {
        let mut svg = format!(
            "<svg xmlns=\"http://www.w3.org/2000/svg\" viewBox=\"0 0 {WIDTH} {HEIGHT}\" \
             font-family=\"sans-serif\" font-size=\"13\">\n\
             <rect width=\"{WIDTH}\" height=\"{HEIGHT}\" fill=\"white\"/>\n\
             <text x=\"{LEFT}\" y=\"24\" font-size=\"16\">{}</text>\n",
            self.title
        );
        self.axes(&mut svg);
        for (k, curve) in self.curves.iter().enumerate() {
            self.curve(&mut svg, curve);
            legend(&mut svg, k, curve);
        }
        svg + "</svg>\n"
    }

    fn axes(&self, svg: &mut String) {
        let (low, high) = self.decades();
        for decade in low..=high {
            let y = self.y(10f64.powi(decade));
            line(svg, (LEFT, y), (RIGHT, y), "#ddd");
            text(svg, (LEFT - 8.0, y + 4.0), "end", &power_of_ten(decade));
        }
        for mark in &self.x_marks {
            let x = self.x(*mark);
            line(svg, (x, BOTTOM), (x, BOTTOM + 5.0), "#444");
            text(svg, (x, BOTTOM + 20.0), "middle", &format!("{mark}"));
        }
        line(svg, (LEFT, BOTTOM), (RIGHT, BOTTOM), "#444");
        text(svg, ((LEFT + RIGHT) / 2.0, BOTTOM + 42.0), "middle", &self.x_name);
        text(svg, (LEFT - 50.0, TOP - 10.0), "start", &self.y_name);
    }

    fn curve(&self, svg: &mut String, curve: &Curve) {
        let place = |point: &(f64, f64)| (self.x(point.0), self.y(point.1));
        let path: Vec<String> = curve.points.iter().map(place).map(|(x, y)| format!("{x:.1},{y:.1}")).collect();
        let _ = writeln!(
            svg,
            "<polyline points=\"{}\" fill=\"none\" stroke=\"{}\" stroke-width=\"2\"{}/>",
            path.join(" "),
            curve.colour,
            dashes(curve.dashed)
        );
        for point in &curve.points {
            let (x, y) = place(point);
            let _ = writeln!(svg, "<circle cx=\"{x:.1}\" cy=\"{y:.1}\" r=\"3.5\" fill=\"{}\"/>", curve.colour);
        }
    }
}

fn dashes(dashed: bool) -> &'static str {
    if dashed {
        " stroke-dasharray=\"6 4\""
    } else {
        ""
    }
}

fn power_of_ten(decade: i32) -> String {
    format!("10<tspan dy=\"-5\" font-size=\"10\">{decade}</tspan>")
}

fn line(svg: &mut String, from: (f64, f64), to: (f64, f64), colour: &str) {
    let _ = writeln!(
        svg,
        "<line x1=\"{:.1}\" y1=\"{:.1}\" x2=\"{:.1}\" y2=\"{:.1}\" stroke=\"{colour}\"/>",
        from.0, from.1, to.0, to.1
    );
}

fn text(svg: &mut String, at: (f64, f64), anchor: &str, words: &str) {
    let _ = writeln!(svg, "<text x=\"{:.1}\" y=\"{:.1}\" text-anchor=\"{anchor}\">{words}</text>", at.0, at.1);
}

fn legend(svg: &mut String, place: usize, curve: &Curve) {
    let y = TOP + 24.0 * place as f64 + 10.0;
    let _ = writeln!(
        svg,
        "<line x1=\"{}\" y1=\"{y}\" x2=\"{}\" y2=\"{y}\" stroke=\"{}\" stroke-width=\"2\"{}/>",
        RIGHT + 16.0,
        RIGHT + 44.0,
        curve.colour,
        dashes(curve.dashed)
    );
    text(svg, (RIGHT + 50.0, y + 4.0), "start", &curve.name);
}
