//! A group of cases: it holds two answers against each other, counts the cases, prints what differs and ends with one line.

use std::fmt::{Debug, Display};

/// So many mismatches of one group are printed in full; the rest are only counted.
const PRINTED: u64 = 3;

pub struct Group {
    name: String,
    cases: u64,
    mismatches: u64,
}

impl Group {
    pub fn new(name: impl Into<String>) -> Group {
        Group {
            name: name.into(),
            cases: 0,
            mismatches: 0,
        }
    }

    /// One case: the archive's answer must be the rival's (or one that is typed in), in every field.
    pub fn same<A: PartialEq + Debug>(&mut self, inputs: impl Display, archive: A, rival: A) {
        self.cases += 1;
        if archive != rival {
            self.differs(inputs, &archive, &rival);
        }
    }

    /// One case of another kind: a fact about an answer, or about two.
    pub fn holds(&mut self, inputs: impl Display, fact: bool, one: &dyn Debug, other: &dyn Debug) {
        self.cases += 1;
        if !fact {
            self.differs(inputs, one, other);
        }
    }

    fn differs(&mut self, inputs: impl Display, archive: &dyn Debug, rival: &dyn Debug) {
        self.mismatches += 1;
        if self.mismatches <= PRINTED {
            println!("mismatch in group: {}", self.name);
            println!("  inputs:   {inputs}");
            println!("  archive:  {archive:?}");
            println!("  expected: {rival:?}");
        }
    }

    /// Prints the group's line and says how many cases did not agree. A group without a case proves nothing and counts as one.
    pub fn end(self) -> u64 {
        if self.mismatches > 0 {
            println!(
                "{}: {} cases, {} MISMATCHES",
                self.name, self.cases, self.mismatches
            );
            return self.mismatches;
        }
        println!("{}: {} cases", self.name, self.cases);
        u64::from(self.cases == 0)
    }
}
