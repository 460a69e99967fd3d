//! Numbered captions in two columns.

use crate::picture::{CAPTION, MARGIN, WIDTH};
use crate::recording::Step;
use crate::svg::{wrap, Point, Svg};

/// Between the columns.
const BETWEEN: f64 = 40.0;
const LINE: f64 = 18.0;

/// A step's number and its caption in lines.
struct Block {
    number: usize,
    lines: Vec<String>,
}

impl Block {
    fn height(&self) -> f64 {
        self.lines.len() as f64 * LINE + 9.0
    }
}

/// Draws the captions of these steps and gives the height where they end. What the panel above has `told` already,
/// isn't told twice.
pub fn draw_captions(svg: &mut Svg, top: f64, steps: &[Step], told: &[Step]) -> f64 {
    let column = (WIDTH - 2.0 * MARGIN - BETWEEN) / 2.0;
    let blocks = blocks(steps, told, column - 34.0);
    let (one, other) = blocks.split_at(best_split(&blocks));
    let left = draw_column(svg, (MARGIN, top), one);
    let right = draw_column(svg, (MARGIN + column + BETWEEN, top), other);
    left.max(right)
}

fn blocks(steps: &[Step], told: &[Step], width: f64) -> Vec<Block> {
    let same = steps.iter().zip(told).take_while(|(one, other)| one.caption == other.caption).count();
    let block = |number, words: &str| Block { number, lines: wrap(words, CAPTION, width) };
    let above = (same > 0).then(|| block(1, &format!("Steps 1 to {same} are as above.")));
    let others = steps.iter().enumerate().skip(same).map(|(at, step)| block(at + 1, &step.caption));
    above.into_iter().chain(others).collect()
}

/// How many of these go to the first of two columns so that the longer one is shortest.
fn best_split(blocks: &[Block]) -> usize {
    let longer = |split: usize| {
        let [one, other] = [&blocks[..split], &blocks[split..]].map(|part| part.iter().map(Block::height).sum::<f64>());
        one.max(other)
    };
    (0..=blocks.len()).rev().min_by(|a, b| longer(*a).total_cmp(&longer(*b))).unwrap_or(0)
}

fn draw_column(svg: &mut Svg, (left, top): Point, blocks: &[Block]) -> f64 {
    let mut y = top;
    for block in blocks {
        draw_number(svg, (left + 10.0, y + 11.5), block.number);
        for (at, words) in block.lines.iter().enumerate() {
            svg.text((left + 30.0, y + 16.0 + LINE * at as f64), "plain", "", words);
        }
        y += block.height();
    }
    y
}

/// A number in a disc.
pub fn draw_number(svg: &mut Svg, at: Point, number: usize) {
    svg.circle(at, 9.0, r##"fill="#222""##);
    svg.text((at.0, at.1 + 4.0), "letter middle", r##"fill="#fff""##, &number.to_string());
}
