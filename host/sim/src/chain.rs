//! The claim of demand 3, checked release by release.

use oracle::{Block, Name, GENESIS};

/// How the claim fails.
#[derive(Clone, Copy, Debug, PartialEq, Eq)]
pub enum Violation {
    /// A row's heights don't run 1, 2, 3 and on.
    Height { replica: usize, expected: u64, released: u64 },
    /// A release's parent isn't the release before it (genesis for the first).
    Parent { replica: usize, height: u64 },
    /// Two rows differ at this height.
    TwoChains { replica: usize, height: u64 },
}

/// The rows of releases. While the claim holds every row begins `chain`, the longest row; so one comparison per
/// release is enough for all pairs of rows.
#[derive(Clone, Debug)]
pub struct Rows {
    rows: Vec<Vec<Name>>,
    chain: Vec<Name>,
    violation: Option<Violation>,
}

impl Rows {
    pub fn new(n: usize) -> Rows {
        Rows { rows: vec![Vec::new(); n], chain: Vec::new(), violation: None }
    }

    pub fn row(&self, replica: usize) -> &[Name] {
        &self.rows[replica]
    }

    pub fn longest(&self) -> usize {
        self.chain.len()
    }

    /// The first violation.
    pub fn violation(&self) -> Option<Violation> {
        self.violation
    }

    /// Takes the next release of a replica. `block` is what the run knows of its name.
    pub fn release(&mut self, replica: usize, name: Name, height: u64, block: Option<&Block>) {
        let found = self.judge(replica, name, height, block);
        self.violation = self.violation.or(found);
        let at = self.rows[replica].len();
        self.rows[replica].push(name);
        if at == self.chain.len() {
            self.chain.push(name);
        }
    }

    fn judge(&self, replica: usize, name: Name, height: u64, block: Option<&Block>) -> Option<Violation> {
        let row = &self.rows[replica];
        let expected = row.len() as u64 + 1;
        let before = row.last().copied().unwrap_or(GENESIS);
        if height != expected {
            return Some(Violation::Height { replica, expected, released: height });
        }
        if block.is_none_or(|block| block.parent != before || block.height.0 != height) {
            return Some(Violation::Parent { replica, height });
        }
        let differs = self.chain.get(row.len()).is_some_and(|other| *other != name);
        differs.then_some(Violation::TwoChains { replica, height })
    }

    /// The same claim by comparing all pairs of rows: slow, for the ends of scripted runs.
    pub fn is_one_chain(&self) -> bool {
        let begins = |a: &[Name], b: &[Name]| a.iter().zip(b).all(|(x, y)| x == y);
        self.rows.iter().all(|a| self.rows.iter().all(|b| begins(a, b)))
    }
}
