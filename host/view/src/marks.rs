//! The marks of the picture: what a replica heard, wrote or refused, each with its own shape.

use oracle::wire::{self, kind, Record};
use oracle::{Certificate, CertificateKind, Name, Protocol, Vote, GENESIS};
use sim::words;

use crate::svg::{text_width, Point, Svg};

#[derive(Clone, Copy, Debug, PartialEq, Eq, PartialOrd, Ord)]
pub enum Shape {
    Proposal,
    Vote,
    BlockCertificate,
    Commit,
    Clock,
    Timeout,
    TimeoutCertificate,
    Release,
    /// A block by itself, as a host fetches it.
    Block,
    /// Taken, and nothing written.
    Heard,
    Refused,
}

#[derive(Clone, Debug, PartialEq, Eq)]
pub struct Mark {
    pub shape: Shape,
    /// The block it is about.
    pub name: Option<Name>,
    /// A word or two under the mark.
    pub note: String,
}

/// The size of notes.
const NOTE: f64 = 10.5;

/// Half a usual mark.
const R: f64 = 9.5;

impl Mark {
    pub fn plain(shape: Shape) -> Mark {
        Mark { shape, name: None, note: String::new() }
    }

    pub fn refused(number: u16) -> Mark {
        Mark { shape: Shape::Refused, name: None, note: number.to_string() }
    }

    /// The mark of a record that a replica wrote, or that a Byzantine one sent.
    pub fn of(record: &[u8], protocol: &Protocol) -> Mark {
        if record.len() >= wire::RELEASE && wire::kind_of(record) == kind::RELEASE {
            let height = wire::u64_at(record, 48);
            return Mark::about(Shape::Release, wire::name_at(record, 16), format!("height {height}"));
        }
        match wire::read(record, protocol.settings.n()) {
            Ok(Record::Vote { vote, .. }) => Mark::about(Shape::Vote, vote.name, String::new()),
            Ok(Record::Commit { vote, .. }) => Mark::about(Shape::Commit, vote.name, String::new()),
            Ok(Record::BlockCertificate { certificate, .. }) => {
                Mark::about(Shape::BlockCertificate, certificate.name, String::new())
            }
            Ok(Record::Timeout { timeout, .. }) => {
                Mark { shape: Shape::Timeout, name: None, note: timeout_note(&timeout.certificate, timeout.high_vote) }
            }
            Ok(Record::TimeoutCertificate { certificate, .. }) => {
                let safe = protocol.safe_certificate(certificate.timeouts);
                Mark::about(Shape::TimeoutCertificate, safe.name, format!("safe: {}", short(&safe.name)))
            }
            Ok(Record::Proposal(proposal)) => {
                let parent = proposal.block.parent;
                let note = if parent == GENESIS { String::new() } else { format!("on {}", short(&parent)) };
                Mark::about(Shape::Proposal, proposal.block.name, note)
            }
            Ok(Record::Block { block, .. }) => Mark::about(Shape::Block, block.name, String::new()),
            Err(_) => Mark::plain(Shape::Heard),
        }
    }

    fn about(shape: Shape, name: Name, note: String) -> Mark {
        Mark { shape, name: Some(name), note }
    }

    /// The room that it takes.
    pub fn width(&self) -> f64 {
        let shape = match self.shape {
            Shape::Heard => 8.0,
            Shape::Refused => 12.0,
            Shape::Clock => 16.0,
            Shape::Release => 34.0,
            Shape::BlockCertificate => 2.0 * R + 7.0,
            _ => 2.0 * R + 2.0,
        };
        let note = text_width(&self.note, NOTE) + 4.0;
        if self.note.is_empty() {
            shape
        } else {
            shape.max(note)
        }
    }

    /// How far from its centre arrows end.
    pub fn radius(&self) -> f64 {
        match self.shape {
            Shape::Heard => 4.0,
            Shape::Refused => 5.0,
            Shape::Release => 17.0,
            _ => R + 2.0,
        }
    }

    /// Draws it; `colour` is its block's, or a dark grey. The note stands below, or above it.
    pub fn draw(&self, svg: &mut Svg, at: Point, colour: &str, note_above: bool) {
        let letter = self.name.map(|name| short(&name)).unwrap_or_default();
        draw_shape(svg, self.shape, at, colour, &letter);
        match self.shape {
            Shape::Refused => svg.text((at.0, at.1 + 17.0), "note middle", r##"fill="#777""##, &self.note),
            Shape::Release => svg.text((at.0, at.1 + 29.0), "note bold middle", r##"fill="#111""##, &self.note),
            _ if self.note.is_empty() => {}
            _ if note_above => svg.text((at.0, at.1 - 14.0), "note middle", r##"fill="#222""##, &self.note),
            _ => svg.text((at.0, at.1 + 23.0), "note middle", r##"fill="#222""##, &self.note),
        }
    }
}

/// What a timeout speaks for: the certificate that it carries, otherwise its high vote.
fn timeout_note(certificate: &Certificate, high_vote: Vote) -> String {
    let carries = *certificate != Certificate::GENESIS;
    match certificate.kind {
        CertificateKind::Block if carries => format!("cert {}", short(&certificate.name)),
        CertificateKind::Weak if carries => format!("weak {}", short(&certificate.name)),
        _ if high_vote == Vote::NONE => "no vote".to_string(),
        _ => format!("vote {}", short(&high_vote.name)),
    }
}

/// A name in at most two letters; genesis is 0.
pub fn short(name: &Name) -> String {
    if *name == GENESIS {
        return "0".to_string();
    }
    words::name(name).chars().take(2).collect()
}

fn filled(colour: &str) -> String {
    format!(r##"fill="{colour}" stroke="#fff" stroke-width="1""##)
}

fn hollow(colour: &str) -> String {
    format!(r##"fill="#fff" stroke="{colour}" stroke-width="2""##)
}

fn square(at: Point, half: f64) -> (Point, Point) {
    ((at.0 - half, at.1 - half), (2.0 * half, 2.0 * half))
}

fn diamond((x, y): Point, half: f64) -> [Point; 4] {
    [(x - half, y), (x, y - half), (x + half, y), (x, y + half)]
}

fn hourglass((x, y): Point, half: f64) -> [Point; 4] {
    let w = half * 0.8;
    [(x - w, y - half), (x + w, y - half), (x - w, y + half), (x + w, y + half)]
}

fn letter_on(svg: &mut Svg, at: Point, fill: &str, letter: &str) {
    svg.text((at.0, at.1 + 4.0), "letter middle", &format!(r#"fill="{fill}""#), letter);
}

/// The shape with its letter.
pub fn draw_shape(svg: &mut Svg, shape: Shape, at: Point, colour: &str, letter: &str) {
    match shape {
        Shape::Proposal => {
            let (corner, size) = square(at, R);
            svg.rect(corner, size, &filled(colour));
            letter_on(svg, at, "#fff", letter);
        }
        Shape::Vote => {
            svg.circle(at, R - 0.5, &hollow(colour));
            letter_on(svg, at, colour, letter);
        }
        Shape::Commit => {
            svg.circle(at, R, &filled(colour));
            letter_on(svg, at, "#fff", letter);
        }
        Shape::BlockCertificate => {
            svg.polygon(&diamond(at, R + 3.0), &hollow(colour));
            letter_on(svg, at, colour, letter);
        }
        Shape::Timeout => svg.polygon(&hourglass(at, R - 1.0), r##"fill="#333" stroke="#fff" stroke-width="1""##),
        Shape::TimeoutCertificate => {
            let (corner, size) = square(at, R);
            svg.rect(corner, size, &hollow(colour));
            svg.polygon(&hourglass(at, R - 4.0), &format!(r#"fill="{colour}""#));
        }
        Shape::Release => draw_release(svg, at, colour, letter),
        Shape::Block => {
            let (corner, size) = square(at, R - 3.0);
            svg.rect(corner, size, &format!(r##"fill="#fff" stroke="{colour}" stroke-dasharray="2 2""##));
            svg.text((at.0, at.1 + 3.5), "tiny middle", &format!(r#"fill="{colour}""#), letter);
        }
        Shape::Clock => {
            svg.circle(at, 6.0, r##"fill="#fff" stroke="#333" stroke-width="1.4""##);
            svg.line((at.0, at.1 - 4.0), at, r##"stroke="#333" stroke-width="1.4""##);
            svg.line(at, (at.0 + 3.0, at.1 + 1.5), r##"stroke="#333" stroke-width="1.4""##);
        }
        Shape::Heard => svg.circle(at, 3.0, r##"fill="#555" stroke="#fff" stroke-width="1""##),
        Shape::Refused => {
            for (dx, dy) in [(3.5, 3.5), (3.5, -3.5)] {
                let style = r##"stroke="#999" stroke-width="1.6""##;
                svg.line((at.0 - dx, at.1 - dy), (at.0 + dx, at.1 + dy), style);
            }
        }
    }
}

/// A large square in a heavy frame.
fn draw_release(svg: &mut Svg, at: Point, colour: &str, letter: &str) {
    let (corner, size) = square(at, 15.0);
    svg.rect(corner, size, &format!(r##"rx="3" fill="{colour}" stroke="#111" stroke-width="3""##));
    svg.text((at.0, at.1 + 6.0), "big middle", r##"fill="#fff""##, letter);
}
