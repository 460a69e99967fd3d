//! The picture: panels of lanes with marks and arrows, a legend, captions.

use std::collections::BTreeSet;

use oracle::{Name, GENESIS};

use crate::layout::{lay_out, Scene};
use crate::marks::{draw_shape, Shape};
use crate::panel::{Panel, PanelDrawing};
use crate::play::Played;
use crate::svg::{escape, number, text_width, wrap, Svg};

/// The least width of a picture.
pub const WIDTH: f64 = 1200.0;
pub const MARGIN: f64 = 20.0;
/// The size of captions.
pub const CAPTION: f64 = 13.5;

/// Colours that stay apart for the colour-blind; blocks take them in the order in which they come up.
const COLOURS: [&str; 6] = ["#0072b2", "#d55e00", "#00795a", "#9a4f7f", "#7a6a00", "#1f4e79"];

const STYLE: &str = "\
text{font-family:'Helvetica Neue',Helvetica,Arial,'Liberation Sans',sans-serif}\
.title{font-size:24px;font-weight:bold}.heading{font-size:17px;font-weight:bold}\
.plain{font-size:13.5px}.small{font-size:12px}.tiny{font-size:9px;font-weight:bold}\
.note{font-size:10.5px;paint-order:stroke;stroke:#fff;stroke-width:3.5px;stroke-linejoin:round}\
.bold{font-weight:bold}.letter{font-size:11px;font-weight:bold}.medium{font-size:14px;font-weight:bold}.big{font-size:17px;font-weight:bold}\
.middle{text-anchor:middle}";

/// The blocks of a picture and their colours.
pub struct Palette(Vec<Name>);

impl Palette {
    fn of(scenes: &[Scene]) -> Palette {
        let mut names = Vec::new();
        for mark in scenes.iter().flat_map(|scene| &scene.nodes).flat_map(|node| &node.marks) {
            if let Some(name) = mark.name.filter(|name| *name != GENESIS && !names.contains(name)) {
                names.push(name);
            }
        }
        Palette(names)
    }

    pub fn colour(&self, name: Option<Name>) -> &'static str {
        let at = name.and_then(|name| self.0.iter().position(|known| *known == name));
        at.map_or("#444", |at| COLOURS[at % COLOURS.len()])
    }
}

/// The whole picture as an SVG document.
pub fn picture(title: &str, panels: &[Panel]) -> String {
    let scenes: Vec<Scene> = panels.iter().map(|panel| lay_out(panel.played)).collect();
    let palette = Palette::of(&scenes);
    let drawings: Vec<PanelDrawing> =
        panels.iter().zip(&scenes).map(|(panel, scene)| PanelDrawing::new(panel, scene, &palette)).collect();
    let width = drawings.iter().map(PanelDrawing::width).fold(WIDTH, f64::max);
    let mut svg = Svg::default();
    let mut y = draw_head(&mut svg, title, panels, &scenes);
    let mut before = None;
    for drawing in &drawings {
        svg.line((MARGIN, y), (width - MARGIN, y), r##"stroke="#bbb""##);
        y = drawing.draw(&mut svg, y, before) + 26.0;
        before = Some(drawing);
    }
    document(title, width, y, &svg.into_body())
}

fn document(title: &str, width: f64, height: f64, body: &str) -> String {
    let [width, height] = [width, height].map(number);
    format!(
        r##"<svg xmlns="http://www.w3.org/2000/svg" viewBox="0 0 {width} {height}" width="{width}" height="{height}" role="img">
<title>{}</title>
<style>{STYLE}</style>
<defs><pattern id="hatch" width="7" height="7" patternUnits="userSpaceOnUse" patternTransform="rotate(45)"><rect width="7" height="7" fill="#f6f6f4"/><line x1="0" y1="0" x2="0" y2="7" stroke="#dcdcd6" stroke-width="2"/></pattern></defs>
<rect x="0" y="0" width="{width}" height="{height}" fill="#fff"/>
{body}</svg>
"##,
        escape(title)
    )
}

// ---------------------------------------------------------------- title and legend

/// Gives the height that is used up.
fn draw_head(svg: &mut Svg, title: &str, panels: &[Panel], scenes: &[Scene]) -> f64 {
    svg.text((MARGIN, 40.0), "title", "", title);
    let mut y = 66.0;
    let Some(Panel { played, .. }) = panels.first() else { return y };
    let about = played.opened.about.as_deref().unwrap_or_default();
    for (words, colour) in [(about, "#222"), (&cluster_words(played), "#555"), (reading_words(scenes), "#555")] {
        for line in wrap(words, CAPTION, WIDTH - 2.0 * MARGIN) {
            svg.text((MARGIN, y), "plain", &format!(r#"fill="{colour}""#), &line);
            y += 19.0;
        }
        if words == about && !about.is_empty() {
            y += 5.0;
        }
    }
    draw_legend(svg, y + 10.0, scenes) + 22.0
}

fn cluster_words(played: &Played) -> String {
    let settings = played.opened.protocol.settings;
    let quorums = oracle::Quorums::new(settings, oracle::Faults::NONE);
    format!(
        "A cluster of {} replicas; {} may lie, {} may stop. A block certificate takes {} votes, a weak one {}; a timeout \
         certificate {} timeouts; a release {} commits (slow) or {} votes (fast).",
        settings.n(),
        settings.f(),
        settings.c(),
        quorums.block,
        quorums.weak,
        quorums.timeout,
        quorums.slow,
        quorums.fast
    )
}

fn reading_words(scenes: &[Scene]) -> &'static str {
    if scenes.iter().any(|scene| !scene.arrows.is_empty()) {
        "Time runs from left to right. An arrow is a record on its way; colour and letter tell its block."
    } else {
        "Time runs from left to right; colour and letter tell the block."
    }
}

fn legend_words(shape: Shape) -> &'static str {
    match shape {
        Shape::Proposal => "proposal (on its parent)",
        Shape::Vote => "vote",
        Shape::BlockCertificate => "block certificate",
        Shape::Commit => "commit",
        Shape::Clock => "clock runs out",
        Shape::Timeout => "timeout, and what it speaks for",
        Shape::TimeoutCertificate => "timeout certificate, and its safe block",
        Shape::Release => "RELEASE",
        Shape::Block => "block fetched by the host",
        Shape::Heard => "heard, nothing sent",
        Shape::Refused => "refused, with its number",
    }
}

/// All shapes that come up, in rows.
fn draw_legend(svg: &mut Svg, top: f64, scenes: &[Scene]) -> f64 {
    let marks = scenes.iter().flat_map(|scene| &scene.nodes).flat_map(|node| &node.marks);
    let shapes: BTreeSet<Shape> = marks.map(|mark| mark.shape).collect();
    let (mut x, mut y) = (MARGIN, top + 10.0);
    for shape in shapes {
        let words = legend_words(shape);
        let room = 40.0 + text_width(words, 12.0) * 0.95;
        if x + room > WIDTH - MARGIN {
            (x, y) = (MARGIN, y + 36.0);
        }
        draw_shape(svg, shape, (x + 17.0, y), "#555", "");
        svg.text((x + 40.0, y + 4.0), "small", "", words);
        x += room + 10.0;
    }
    y + 20.0
}
