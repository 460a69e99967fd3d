//! Where the marks of a picture stand: lanes, columns, arrows. A call stands in a column to the right of the calls that
//! it follows from: the one before on its replica, and the one that wrote the record that it hands in. A new view and a
//! new step of the story begin a column to the right of everything before.

use std::collections::HashMap;

use oracle::wire::{self, kind};
use oracle::{Name, Protocol};

use crate::choice::Choice;
use crate::marks::{Mark, Shape};
use crate::meaning::answer_words;
use crate::play::{Event, Lane, Played};
use crate::recording::Call;
use crate::text::{call_words, state_words, written_words};

/// At most this many calls are drawn.
pub const MOST: usize = 400;

/// A call, or what a Byzantine replica sends.
pub struct Node {
    pub lane: usize,
    pub column: usize,
    pub marks: Vec<Mark>,
    /// All about it in words.
    pub title: String,
    /// The view that the replica enters by it.
    pub enters: Option<u64>,
}

/// A record from the mark of its sending to the call that hands it in.
pub struct Arrow {
    /// Node and mark.
    pub from: (usize, usize),
    pub to: usize,
    pub kind: u16,
    pub name: Option<Name>,
    pub title: String,
}

#[derive(Default)]
pub struct Scene {
    pub nodes: Vec<Node>,
    pub arrows: Vec<Arrow>,
    /// Each view with its first column.
    pub views: Vec<(u64, usize)>,
    /// Each step's first column.
    pub steps: Vec<usize>,
    pub columns: usize,
    /// Calls that aren't drawn.
    pub left_out: usize,
}

impl Scene {
    /// The room that each column takes.
    pub fn widths(&self) -> Vec<f64> {
        let mut widths = vec![0.0f64; self.columns];
        for node in &self.nodes {
            let width = node.marks.iter().map(Mark::width).sum();
            widths[node.column] = widths[node.column].max(width);
        }
        widths
    }

    /// The last column with a call of this lane.
    pub fn last_column(&self, lane: usize) -> Option<usize> {
        self.nodes.iter().filter(|node| node.lane == lane).map(|node| node.column).max()
    }
}

struct Builder<'a> {
    lanes: &'a [Lane],
    protocol: &'a Protocol,
    scene: Scene,
    /// Who wrote a record: node and mark.
    made: HashMap<Vec<u8>, (usize, usize)>,
    /// For each lane the first column that is free.
    free: Vec<usize>,
    /// Nothing is put to the left of it any more.
    barrier: usize,
    is_cluster: bool,
}

/// Lays a run out. Lanes of runs without a common order are laid out view by view.
pub fn lay_out(played: &Played) -> Scene {
    let lanes = &played.opened.lanes[..];
    let mut builder = Builder {
        lanes,
        protocol: &played.opened.protocol,
        scene: Scene::default(),
        made: HashMap::new(),
        free: vec![0; lanes.len()],
        barrier: 0,
        is_cluster: played.opened.is_cluster,
    };
    let mut steps = played.opened.steps.iter().peekable();
    for (at, event) in played.events.iter().take(MOST).enumerate() {
        while steps.next_if(|step| step.first <= at).is_some() {
            builder.begin_step();
        }
        builder.enter_view(event.reached);
        builder.event(event);
    }
    builder.scene.left_out = played.events.len().saturating_sub(MOST);
    builder.scene
}

impl Builder<'_> {
    fn raise_barrier(&mut self) {
        self.barrier = self.scene.columns;
    }

    fn begin_step(&mut self) {
        self.raise_barrier();
        self.scene.steps.push(self.barrier);
    }

    fn enter_view(&mut self, view: u64) {
        if self.scene.views.last().is_none_or(|(last, _)| *last != view) {
            self.raise_barrier();
            self.scene.views.push((view, self.barrier));
        }
    }

    fn lane_of(&self, replica: u16) -> Option<usize> {
        self.lanes.iter().position(|lane| lane.replica == replica)
    }

    fn put(&mut self, lane: usize, after: Option<usize>, marks: Vec<Mark>, title: String) -> usize {
        let column = self.barrier.max(self.free[lane]).max(after.map_or(0, |column| column + 1));
        self.free[lane] = column + 1;
        self.scene.columns = self.scene.columns.max(column + 1);
        self.scene.nodes.push(Node { lane, column, marks, title, enters: None });
        self.scene.nodes.len() - 1
    }

    fn event(&mut self, event: &Event) {
        let Some(lane) = self.lane_of(event.replica) else { return };
        let source = self.source(event);
        let after = source.map(|(node, _)| self.scene.nodes[node].column);
        let (marks, first_written) = marks(event, self.protocol);
        let node = self.put(lane, after, marks, title(event, self.protocol));
        if event.after.view != event.before.view {
            self.scene.nodes[node].enters = Some(event.after.view);
        }
        for (at, record) in event.written.iter().enumerate() {
            self.made.insert(record.clone(), (node, first_written + at));
        }
        if let Some(from) = source {
            self.add_arrow(from, node, event);
        }
    }

    fn add_arrow(&mut self, from: (usize, usize), to: usize, event: &Event) {
        let mark = &self.scene.nodes[from.0].marks[from.1];
        let arrow = Arrow {
            from,
            to,
            kind: wire::kind_of(&event.record),
            name: mark.name,
            title: call_words(event, self.protocol),
        };
        self.scene.arrows.push(arrow);
    }

    /// Where the record of a call was sent: an honest replica wrote it, or a Byzantine one sends it now.
    fn source(&mut self, event: &Event) -> Option<(usize, usize)> {
        if !self.is_cluster || !matches!(event.call(), Call::Record(Some(_))) {
            return None;
        }
        if let Some(made) = self.made.get(&event.record) {
            return Some(*made);
        }
        let lane = self.lane_of(wire::sender_of(&event.record))?;
        let sent = self.lanes[lane].is_byzantine && event.kind() != Some(kind::BLOCK);
        sent.then(|| self.send(lane, event))
    }

    /// A mark in a Byzantine replica's lane.
    fn send(&mut self, lane: usize, event: &Event) -> (usize, usize) {
        let title =
            format!("Byzantine replica {} sends {}", self.lanes[lane].replica, call_words(event, self.protocol));
        let node = self.put(lane, None, vec![Mark::of(&event.record, self.protocol)], title);
        self.made.insert(event.record.clone(), (node, 0));
        (node, 0)
    }
}

/// The marks of a call, and which of them is the first written record.
fn marks(event: &Event, protocol: &Protocol) -> (Vec<Mark>, usize) {
    if !event.is_accepted() {
        return (vec![Mark::refused(event.answer)], 1);
    }
    let mut marks = match event.call() {
        Call::Timer(_) => vec![Mark::plain(Shape::Clock)],
        Call::Record(Some(kind::BLOCK)) => vec![Mark::of(&event.record, protocol)],
        _ if event.written.is_empty() => vec![Mark::plain(Shape::Heard)],
        _ => Vec::new(),
    };
    let first_written = marks.len();
    marks.extend(event.written.iter().map(|record| Mark::of(record, protocol)));
    (marks, first_written)
}

fn title(event: &Event, protocol: &Protocol) -> String {
    let mut lines = vec![
        format!("call {}, replica {}", event.index, event.replica),
        call_words(event, protocol),
        answer_words(event.answer, event.kind()),
    ];
    lines.extend(written_words(event, protocol).into_iter().map(|words| format!("writes {words}")));
    lines.extend(event.choices.iter().map(Choice::to_string));
    lines.push(state_words(&event.after));
    lines.join("\n")
}

#[cfg(test)]
mod tests {
    use super::*;
    use crate::recording::Recording;
    use oracle::{Faults, Replica};

    fn story() -> Played {
        let path = concat!(env!("CARGO_MANIFEST_DIR"), "/../runs/story.run");
        let recording = Recording::read(&std::fs::read(path).unwrap()).unwrap();
        Played::new::<Replica>(&recording, Faults::NONE, Protocol::new(recording.settings, Faults::NONE))
    }

    #[test]
    fn every_call_of_the_story_and_every_lie_stands_in_it() {
        let played = story();
        let scene = lay_out(&played);
        let lies: Vec<Shape> =
            scene.nodes.iter().filter(|node| node.lane == 0).map(|node| node.marks[0].shape).collect();
        assert_eq!(lies, [Shape::Proposal, Shape::Proposal, Shape::Vote, Shape::Commit, Shape::Timeout]);
        assert_eq!(scene.nodes.len(), played.events.len() + lies.len());
        assert_eq!(scene.views.iter().map(|(view, _)| *view).collect::<Vec<_>>(), [1, 2, 3]);
        assert_eq!(scene.steps.len(), 7);
    }

    /// Every record has its arrow but the four blocks that hosts fetch; the timer and propose have none.
    #[test]
    fn arrows_go_to_the_right() {
        let scene = lay_out(&story());
        assert_eq!(scene.arrows.len(), 42 - 4 - 2);
        for arrow in &scene.arrows {
            assert!(scene.nodes[arrow.from.0].column < scene.nodes[arrow.to].column, "{}", arrow.title);
        }
    }

    /// No two calls of a replica stand in one column, and they stand in their order.
    #[test]
    fn lanes_run_to_the_right() {
        let scene = lay_out(&story());
        for lane in 0..6 {
            let columns: Vec<usize> =
                scene.nodes.iter().filter(|node| node.lane == lane).map(|node| node.column).collect();
            assert!(columns.is_sorted_by(|a, b| a < b), "lane {lane}: {columns:?}");
        }
    }
}
