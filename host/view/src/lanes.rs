//! The lanes of a panel: time runs from left to right, one column for each view.

use oracle::wire::kind;

use crate::captions::draw_number;
use crate::layout::{Arrow, Node};
use crate::panel::PanelDrawing;
use crate::picture::MARGIN;
use crate::play::Lane;
use crate::svg::{text_width, Point, Svg};

const LANE: f64 = 62.0;
/// The views' names and the steps' numbers.
const HEADER: f64 = 48.0;

const GREY: &str = r##"fill="#666""##;

/// The lanes from this height on.
pub struct Lanes<'a> {
    pub panel: &'a PanelDrawing<'a>,
    pub top: f64,
}

impl Lanes<'_> {
    pub fn lanes(&self) -> &[Lane] {
        &self.panel.played.opened.lanes
    }

    fn lanes_top(&self) -> f64 {
        self.top + HEADER
    }

    pub fn bottom(&self) -> f64 {
        self.lanes_top() + LANE * self.lanes().len() as f64
    }

    pub fn lane_y(&self, lane: usize) -> f64 {
        self.lanes_top() + LANE * (lane as f64 + 0.5) - 2.0
    }

    pub fn draw(&self, svg: &mut Svg) {
        self.draw_bands(svg);
        self.draw_views(svg);
        self.draw_steps(svg);
        self.draw_lines(svg);
        for arrow in &self.panel.scene.arrows {
            self.draw_arrow(svg, arrow);
        }
        for (at, node) in self.panel.scene.nodes.iter().enumerate() {
            self.draw_node(svg, node, self.only_down(at) && node.enters.is_none());
        }
    }

    /// Byzantine lanes are hatched.
    fn draw_bands(&self, svg: &mut Svg) {
        for (at, lane) in self.lanes().iter().enumerate() {
            let fill = match lane.is_byzantine {
                true => "url(#hatch)",
                false if at % 2 == 0 => "#fff",
                false => "#f7f7f5",
            };
            let corner = (MARGIN, self.lanes_top() + LANE * at as f64);
            svg.rect(corner, (self.panel.tracks.end() - MARGIN, LANE), &format!(r#"fill="{fill}""#));
        }
    }

    fn draw_views(&self, svg: &mut Svg) {
        let (scene, tracks) = (self.panel.scene, &self.panel.tracks);
        for (at, &(view, column)) in scene.views.iter().enumerate() {
            let left = tracks.left(column);
            let next = scene.views.get(at + 1).map_or(tracks.end(), |(_, next)| tracks.left(*next));
            svg.line((left, self.top), (left, self.bottom()), r##"stroke="#999" stroke-width="1.2""##);
            let fits = |words: &String| text_width(words, 13.5) + 10.0 <= next - left;
            if let Some(words) = self.view_words(view).into_iter().find(fits) {
                svg.text((left + 6.0, self.top + 12.0), "plain bold", "", &words);
            }
        }
    }

    /// A view's heading, the longest first.
    fn view_words(&self, view: u64) -> [String; 3] {
        let leader = self.panel.played.opened.leader(view);
        let lies = self.lanes().iter().any(|lane| lane.replica == leader && lane.is_byzantine);
        let lies = if lies { " (Byzantine)" } else { "" };
        [format!("view {view}, leader {leader}{lies}"), format!("view {view}"), view.to_string()]
    }

    fn draw_steps(&self, svg: &mut Svg) {
        for (at, &column) in self.panel.scene.steps.iter().enumerate() {
            let left = self.panel.tracks.left(column);
            let y = self.lanes_top() - 16.0;
            svg.line((left, y + 8.0), (left, self.bottom()), r##"stroke="#999" stroke-dasharray="1 4""##);
            draw_number(svg, (left + 14.0, y), at + 1);
        }
    }

    /// Names, and lines as far as there are calls.
    fn draw_lines(&self, svg: &mut Svg) {
        let (scene, tracks) = (self.panel.scene, &self.panel.tracks);
        for (at, lane) in self.lanes().iter().enumerate() {
            let y = self.lane_y(at);
            let name_y = if lane.is_byzantine { y - 2.0 } else { y + 5.0 };
            svg.text((MARGIN + 8.0, name_y), "plain bold", "", &format!("replica {}", lane.replica));
            if lane.is_byzantine {
                svg.text((MARGIN + 8.0, y + 14.0), "small", r##"fill="#a03000""##, "Byzantine");
            }
            let last = scene.last_column(at).map_or(tracks.left(0), |column| tracks.centre(column));
            svg.line((tracks.left(0), y), (last, y), r##"stroke="#888" stroke-width="1.3""##);
            let silence = r##"stroke="#ccc" stroke-width="1.3" stroke-dasharray="2 5""##;
            svg.line((last, y), (tracks.end() - 4.0, y), silence);
            if self.falls_silent(at) {
                svg.text((last + 34.0, y - 6.0), "note", GREY, "no more calls");
            }
        }
    }

    /// An honest replica without a call in the last view.
    fn falls_silent(&self, lane: usize) -> bool {
        let scene = self.panel.scene;
        let last_view = scene.views.last().map_or(0, |(_, column)| *column);
        !self.lanes()[lane].is_byzantine && scene.last_column(lane).is_some_and(|column| column < last_view)
    }

    // ------------------------------------------------------------ marks

    /// The centre of one of a node's marks.
    fn mark_at(&self, node: &Node, mark: usize) -> Point {
        let whole: f64 = node.marks.iter().map(|mark| mark.width()).sum();
        let before: f64 = node.marks[..mark].iter().map(|mark| mark.width()).sum();
        let left = self.panel.tracks.centre(node.column) - whole / 2.0;
        (left + before + node.marks[mark].width() / 2.0, self.lane_y(node.lane))
    }

    fn draw_node(&self, svg: &mut Svg, node: &Node, notes_above: bool) {
        svg.begin_group(&node.title);
        for (at, mark) in node.marks.iter().enumerate() {
            mark.draw(svg, self.mark_at(node, at), self.panel.palette.colour(mark.name), notes_above);
        }
        if let Some(view) = node.enters {
            let (x, y) = self.mark_at(node, node.marks.len() - 1);
            svg.text((x + 4.0, y - 18.0), "note middle", GREY, &format!("→ view {view}"));
        }
        svg.end_group();
    }

    /// Marks the call from which on a run goes another way than the one above.
    pub fn draw_ring(&self, svg: &mut Svg, node: &Node) {
        let (x, y) = self.mark_at(node, 0);
        let style = r##"rx="5" fill="none" stroke="#111" stroke-width="2" stroke-dasharray="5 3""##;
        svg.rect((x - 24.0, y - 15.0), (48.0, 43.0), style);
        svg.text((x, y + 41.0), "note bold middle", "", "here the runs part");
    }

    // ------------------------------------------------------------ arrows

    /// Whether arrows leave this node, all of them downwards.
    fn only_down(&self, node: usize) -> bool {
        let scene = self.panel.scene;
        let mut leaving = scene.arrows.iter().filter(|arrow| arrow.from.0 == node).peekable();
        leaving.peek().is_some() && leaving.all(|arrow| scene.nodes[arrow.to].lane > scene.nodes[node].lane)
    }

    fn draw_arrow(&self, svg: &mut Svg, arrow: &Arrow) {
        let nodes = &self.panel.scene.nodes;
        let (from, to) = (&nodes[arrow.from.0], &nodes[arrow.to]);
        let start = self.mark_at(from, arrow.from.1);
        let end = self.mark_at(to, 0);
        let direction = direction(start, end);
        let start = along(start, direction, from.marks[arrow.from.1].radius());
        let tip = along(end, direction, -to.marks[0].radius());
        let colour = self.panel.palette.colour(arrow.name);
        let style = format!(r#"stroke="{colour}" stroke-opacity="0.6" {}"#, line_style(arrow.kind));
        svg.begin_group(&arrow.title);
        svg.line(start, along(tip, direction, -5.0), &style);
        svg.polygon(&head(tip, direction), &format!(r#"fill="{colour}""#));
        svg.end_group();
    }
}

/// Proposals and certificates are heavy, timeouts dashed.
fn line_style(kind: u16) -> &'static str {
    match kind {
        kind::PROPOSAL | kind::BLOCK_CERTIFICATE => r#"stroke-width="2""#,
        kind::TIMEOUT => r#"stroke-width="1.3" stroke-dasharray="5 3""#,
        _ => r#"stroke-width="1.3""#,
    }
}

/// Of length 1. The points differ: an arrow ends in a later column.
fn direction(from: Point, to: Point) -> Point {
    let (dx, dy) = (to.0 - from.0, to.1 - from.1);
    let length = dx.hypot(dy);
    (dx / length, dy / length)
}

fn along(point: Point, direction: Point, by: f64) -> Point {
    (point.0 + direction.0 * by, point.1 + direction.1 * by)
}

/// An arrow's head with its tip here.
fn head(tip: Point, (dx, dy): Point) -> [Point; 3] {
    let back = (tip.0 - dx * 8.0, tip.1 - dy * 8.0);
    [tip, (back.0 - dy * 3.5, back.1 + dx * 3.5), (back.0 + dy * 3.5, back.1 - dx * 3.5)]
}
