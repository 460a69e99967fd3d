//! What each replica released, on the right of its lane: one column for each height, so that rows can be compared.

use oracle::Name;
use sim::words;

use crate::lanes::Lanes;
use crate::marks::short;
use crate::svg::{Point, Svg};
use crate::tracks::HEIGHT_WIDTH;

/// At most so many heights are shown, the highest.
pub const HEIGHTS: usize = 4;

pub fn draw_releases(svg: &mut Svg, lanes: &Lanes) {
    let played = lanes.panel.played;
    let longest = played.longest_row();
    let first = longest.saturating_sub(HEIGHTS);
    let left = lanes.panel.tracks.end() + 20.0;
    let x = |at: usize| left + HEIGHT_WIDTH * (at - first) as f64 + 15.0;
    svg.text((left, lanes.top + 12.0), "plain bold", "", "released");
    let conflict = played.two_chains().map(|(height, ..)| height as usize - 1);
    for at in first..longest {
        if conflict == Some(at) {
            draw_frame(svg, (x(at), lanes.top + 20.0), lanes.bottom());
        }
        svg.text((x(at), lanes.top + 34.0), "small middle", r##"fill="#666""##, &(at + 1).to_string());
    }
    for (lane, replica) in lanes.lanes().iter().map(|lane| lane.replica).enumerate() {
        for (at, name) in played.row(replica).iter().enumerate().skip(first) {
            svg.begin_group(&format!("replica {replica} released {} at height {}", words::name(name), at + 1));
            draw_block(svg, (x(at), lanes.lane_y(lane)), name, lanes.panel.palette.colour(Some(*name)));
            svg.end_group();
        }
    }
}

/// Around a height at which rows differ.
fn draw_frame(svg: &mut Svg, (x, y): Point, bottom: f64) {
    let style = r##"rx="4" fill="#fff" stroke="#111" stroke-width="2" stroke-dasharray="5 3""##;
    svg.rect((x - 17.0, y), (34.0, bottom - y), style);
}

fn draw_block(svg: &mut Svg, (x, y): Point, name: &Name, colour: &str) {
    let style = format!(r##"rx="2" fill="{colour}" stroke="#111" stroke-width="1.5""##);
    svg.rect((x - 12.0, y - 12.0), (24.0, 24.0), &style);
    svg.text((x, y + 5.0), "medium middle", r##"fill="#fff""##, &short(name));
}
