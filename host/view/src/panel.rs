//! One panel of the picture: a run with its lanes, releases and captions.

use crate::captions::draw_captions;
use crate::lanes::Lanes;
use crate::layout::{Node, Scene};
use crate::picture::{Palette, MARGIN};
use crate::play::Played;
use crate::releases::{draw_releases, HEIGHTS};
use crate::svg::Svg;
use crate::tracks::Tracks;
use crate::unsent::unsent_words;

/// A run with its heading.
pub struct Panel<'a> {
    pub heading: String,
    pub played: &'a Played,
}

/// A panel with all that its drawing needs.
pub struct PanelDrawing<'a> {
    pub played: &'a Played,
    pub scene: &'a Scene,
    pub palette: &'a Palette,
    pub tracks: Tracks,
    heading: &'a str,
}

impl<'a> PanelDrawing<'a> {
    pub fn new(panel: &'a Panel<'a>, scene: &'a Scene, palette: &'a Palette) -> Self {
        let heights = panel.played.longest_row().clamp(1, HEIGHTS);
        let tracks = Tracks::new(scene, heights);
        PanelDrawing { played: panel.played, scene, palette, tracks, heading: &panel.heading }
    }

    pub fn width(&self) -> f64 {
        self.tracks.width()
    }

    /// Draws it from this height on and gives the height where it ends. `before` is the panel above.
    pub fn draw(&self, svg: &mut Svg, top: f64, before: Option<&PanelDrawing>) -> f64 {
        svg.text((MARGIN, top + 26.0), "heading", "", self.heading);
        let lanes = Lanes { panel: self, top: top + 38.0 };
        lanes.draw(svg);
        if let Some(node) = before.and_then(|before| self.parting(before)) {
            lanes.draw_ring(svg, node);
        }
        draw_releases(svg, &lanes);
        let y = self.draw_verdict(svg, lanes.bottom() + 26.0);
        let told = before.map_or(&[][..], |before| &before.played.opened.steps[..]);
        draw_captions(svg, y + 10.0, &self.played.opened.steps, told)
    }

    /// The first call that goes another way than in the panel above.
    fn parting(&self, before: &PanelDrawing) -> Option<&Node> {
        let differs = |(one, other): &(&Node, &Node)| (one.lane, &one.marks) != (other.lane, &other.marks);
        self.scene.nodes.iter().zip(&before.scene.nodes).find(differs).map(|(node, _)| node)
    }

    /// The verdict, and what else has to be known of the picture.
    fn draw_verdict(&self, svg: &mut Svg, y: f64) -> f64 {
        svg.text((MARGIN, y), "plain bold", "", &verdict(self.played));
        let left_out = Some(self.scene.left_out).filter(|count| *count > 0);
        let left_out =
            left_out.map(|count| format!("{count} more calls follow that aren't drawn; the text form has them."));
        let notes: Vec<String> = unsent_words(self.played).into_iter().chain(left_out).collect();
        for (at, words) in notes.iter().enumerate() {
            svg.text((MARGIN, y + 19.0 * (at + 1) as f64), "plain", "", words);
        }
        y + 10.0 + 19.0 * notes.len() as f64
    }
}

/// Whether the rows of releases are one chain, in words.
pub fn verdict(played: &Played) -> String {
    match played.two_chains() {
        Some((height, one, other)) => {
            let released = |replica: u16| sim::words::name(&played.row(replica)[height as usize - 1]);
            let (a, b) = (released(one), released(other));
            format!("Two chains: at height {height} replica {one} released {a} and replica {other} released {b}.")
        }
        None if played.longest_row() == 0 => "Nothing is released.".to_string(),
        None => "One chain: of any two rows of releases the shorter begins the longer.".to_string(),
    }
}
