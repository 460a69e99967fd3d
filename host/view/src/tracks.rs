//! Where the columns of a panel stand from left to right.

use crate::layout::Scene;
use crate::picture::{MARGIN, WIDTH};

/// The lanes' names.
const LABELS: f64 = 104.0;

/// Space between the marks of neighbouring columns, at least and at most.
const GAP: (f64, f64) = (6.0, 27.0);

/// The place of a height among the releases on the right.
pub const HEIGHT_WIDTH: f64 = 32.0;

/// Where columns stand from left to right.
pub struct Tracks {
    /// The left edge of each column, and of what comes after the last.
    edges: Vec<f64>,
    /// How many heights are shown on the right.
    heights: usize,
}

impl Tracks {
    pub fn new(scene: &Scene, heights: usize) -> Tracks {
        let left = MARGIN + LABELS;
        let room = WIDTH - MARGIN - Self::releases_width(heights) - left;
        let widths = scene.widths();
        // Short runs are spread out a little, long ones make the picture wider.
        let gap = ((room - widths.iter().sum::<f64>()) / widths.len().max(1) as f64).clamp(GAP.0, GAP.1);
        let mut edges = vec![left];
        for width in widths {
            edges.push(edges[edges.len() - 1] + width + gap);
        }
        Tracks { edges, heights }
    }

    fn releases_width(heights: usize) -> f64 {
        24.0 + HEIGHT_WIDTH * heights.max(2) as f64
    }

    pub fn width(&self) -> f64 {
        self.end() + Self::releases_width(self.heights) + MARGIN
    }

    pub fn end(&self) -> f64 {
        self.edges[self.edges.len() - 1]
    }

    pub fn left(&self, column: usize) -> f64 {
        self.edges[column.min(self.edges.len() - 1)]
    }

    pub fn centre(&self, column: usize) -> f64 {
        (self.left(column) + self.left(column + 1)) / 2.0
    }
}
