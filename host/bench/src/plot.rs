//! A picture of the sections size and held, as SVG that needs nothing else.

use crate::held::{KINDS, SHAPES};
use crate::table::Table;

/// The sections that it shows.
pub const DRAWN: [&str; 2] = ["size", "held"];

/// Library and oracle. Blue and vermilion are told apart by colour-blind readers too; labels at the lines name them.
const SIDES: [(&str, &str); 2] = [("library", "#0072B2"), ("oracle", "#D55E00")];
const GREY: &str = "#555";
const TITLE: &str = "Time of an accepted call in µs, logarithmic: the proved library and the oracle";

const WIDTH: f64 = 900.0;
const HEIGHT: f64 = 640.0;
/// Where the first panel stands, and the panels' size and distance.
const LEFT: f64 = 56.0;
const TOPS: [f64; 2] = [92.0, 390.0];
const PANEL: (f64, f64) = (194.0, 176.0);
const STEP: f64 = 210.0;

/// Number on the x axis, and nanoseconds of library and oracle.
type Series = Vec<(f64, [f64; 2])>;

/// A row of panels, one for each kind of call: of each kind a line, and maybe marks beside it.
struct Panels {
    top: f64,
    title: &'static str,
    axis: &'static str,
    ticks: &'static [f64],
    lines: Vec<Series>,
    marks: Vec<Series>,
}

pub fn draw(size: &Table, held: &Table) -> String {
    let names = KINDS.map(|kind| format!("{kind:?}"));
    let of_shape = |shape: &str| names.iter().map(|name| held.series(&[shape, name])).collect();
    let rows = [
        Panels {
            top: TOPS[0],
            title: "A cluster at work, three views of four go well",
            axis: "replicas",
            ticks: &[6.0, 9.0, 13.0, 18.0, 24.0, 32.0],
            lines: names.iter().map(|name| size.series(&[name])).collect(),
            marks: Vec::new(),
        },
        Panels {
            top: TOPS[1],
            title: "Cluster of 6 with blocks held above the tip: in one chain (lines and dots), as a bush (rings)",
            axis: "blocks held",
            ticks: &[0.0, 16.0, 64.0, 120.0],
            lines: of_shape(SHAPES[0]),
            marks: of_shape(SHAPES[1]),
        },
    ];
    let mut out = format!(
        "<svg xmlns=\"http://www.w3.org/2000/svg\" viewBox=\"0 0 {WIDTH} {HEIGHT}\" width=\"{WIDTH}\" \
         height=\"{HEIGHT}\" font-family=\"system-ui, sans-serif\" font-size=\"12\">\n\
         <rect width=\"{WIDTH}\" height=\"{HEIGHT}\" fill=\"white\"/>\n"
    );
    out += &text((16.0, 28.0), "start", "black", 17, TITLE);
    rows.iter().for_each(|panels| out += &panels.draw());
    out + "</svg>\n"
}

impl Panels {
    fn draw(&self) -> String {
        let scale = Scale::of(self);
        let mut out = text((16.0, self.top - 34.0), "start", "black", 14, self.title);
        for (i, kind) in KINDS.iter().enumerate() {
            let left = LEFT + STEP * i as f64;
            let title = format!("{kind:?}").to_lowercase();
            out += &text((left + PANEL.0 / 2.0, self.top - 10.0), "middle", "black", 13, &title);
            out += &self.axes(&scale, left, i == 0);
            out += &self.curves(&scale, left, i);
        }
        out
    }

    /// Grid lines with microseconds at the first panel; numbers and the axis title below.
    fn axes(&self, scale: &Scale, left: f64, is_first: bool) -> String {
        let (right, bottom) = (left + PANEL.0, self.top + PANEL.1);
        let mut out = String::new();
        for &tick in &scale.levels {
            let y = scale.y(self.top, tick);
            out += &line((left, y), (right, y), if tick == scale.levels[0] { GREY } else { "#ddd" });
            if is_first {
                out += &text((left - 6.0, y + 4.0), "end", GREY, 12, &format!("{} µs", tick / 1000.0));
            }
        }
        for &tick in self.ticks {
            let x = scale.x(left, tick);
            out += &line((x, bottom), (x, bottom + 4.0), GREY);
            out += &text((x, bottom + 18.0), "middle", GREY, 12, &tick.to_string());
        }
        out + &text((left + PANEL.0 / 2.0, bottom + 35.0), "middle", GREY, 12, self.axis)
    }

    /// Library and oracle of one kind, the one named above both lines, the other below their ends.
    fn curves(&self, scale: &Scale, left: f64, kind: usize) -> String {
        let mut out = String::new();
        for (side, (name, colour)) in SIDES.iter().enumerate() {
            let place = |(x, times): &(f64, [f64; 2])| (scale.x(left, *x), scale.y(self.top, times[side]));
            let dots: Vec<(f64, f64)> = self.lines[kind].iter().map(place).collect();
            let points: Vec<String> = dots.iter().map(|(x, y)| format!("{x:.1},{y:.1}")).collect();
            let points = points.join(" ");
            out += &format!("<polyline points=\"{points}\" fill=\"none\" stroke=\"{colour}\" stroke-width=\"2\"/>\n");
            dots.iter().for_each(|dot| out += &circle(*dot, 3.0, colour, colour));
            for ring in self.marks.get(kind).into_iter().flatten().map(place) {
                out += &circle(ring, 5.0, "none", colour);
            }
            if let Some((_, times)) = self.lines[kind].last() {
                let label = format!("{name} {:.2}{}", times[side] / 1000.0, ratio(side, times));
                let y = self.label_at(scale, kind, side);
                out += &text((left + PANEL.0, y), "end", colour, 12, &label);
            }
        }
        out
    }

    /// Above all dots for the library; for the oracle below the last two of both lines, over which its label stands.
    fn label_at(&self, scale: &Scale, kind: usize, side: usize) -> f64 {
        let dots = self.lines[kind].iter().rev().map(|(_, times)| times.map(|time| scale.y(self.top, time)));
        match side {
            0 => dots.flatten().fold(f64::MAX, f64::min) - 9.0,
            _ => dots.take(2).flatten().fold(0.0, f64::max) + 20.0,
        }
    }
}

/// Behind the library's time: how many times the oracle's it is.
fn ratio(side: usize, [library, oracle]: &[f64; 2]) -> String {
    match side {
        0 => format!(" ({:.1}×)", library / oracle),
        _ => String::new(),
    }
}

/// From numbers and nanoseconds to places: numbers from 0 on, times by their logarithm.
struct Scale {
    most: f64,
    levels: Vec<f64>,
}

impl Scale {
    fn of(panels: &Panels) -> Scale {
        let points = panels.lines.iter().chain(&panels.marks).flatten();
        let times: Vec<f64> = points.flat_map(|(_, times)| *times).collect();
        let lowest = times.iter().copied().fold(f64::MAX, f64::min) * 0.9;
        let highest = times.iter().copied().fold(0.0, f64::max) * 1.5; // room for a label
        let steps = (0..8).flat_map(|power| [1.0, 2.0, 5.0].map(|digit| digit * 10f64.powi(power)));
        let (below, above): (Vec<f64>, Vec<f64>) = steps.partition(|step| *step <= highest);
        let low = below.iter().copied().filter(|step| *step <= lowest).fold(1.0, f64::max);
        let levels = below.into_iter().filter(|step| *step >= low).chain(above.into_iter().take(1));
        Scale { most: panels.ticks.last().copied().unwrap_or(1.0), levels: levels.collect() }
    }

    fn x(&self, left: f64, number: f64) -> f64 {
        left + 8.0 + (PANEL.0 - 20.0) * number / self.most
    }

    fn y(&self, top: f64, time: f64) -> f64 {
        let (low, high) = (self.levels[0], self.levels[self.levels.len() - 1]);
        top + PANEL.1 * (high / time).ln() / (high / low).ln()
    }
}

fn text((x, y): (f64, f64), anchor: &str, colour: &str, size: u32, words: &str) -> String {
    format!(
        "<text x=\"{x:.1}\" y=\"{y:.1}\" text-anchor=\"{anchor}\" fill=\"{colour}\" font-size=\"{size}\">{words}</text>\n"
    )
}

fn line((x1, y1): (f64, f64), (x2, y2): (f64, f64), colour: &str) -> String {
    format!("<line x1=\"{x1:.1}\" y1=\"{y1:.1}\" x2=\"{x2:.1}\" y2=\"{y2:.1}\" stroke=\"{colour}\"/>\n")
}

fn circle((x, y): (f64, f64), radius: f64, fill: &str, colour: &str) -> String {
    format!("<circle cx=\"{x:.1}\" cy=\"{y:.1}\" r=\"{radius}\" fill=\"{fill}\" stroke=\"{colour}\"/>\n")
}
