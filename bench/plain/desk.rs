// The office with what came of the filings.

use super::filings::{Filing, Outcome, Verdict, What};
use super::office::{Office, Place};
use super::orders::Desk;
use std::fmt;

#[derive(Default)]
pub struct PlainDesk {
    office: Office,
    pub accepted: u32,
    refused: u32,
    pell: u64,
    returned: u64,
}

impl PlainDesk {
    pub fn reserve(&mut self, filings: u32) {
        self.office.reserve(filings as usize);
    }
}

impl Desk for PlainDesk {
    fn file(&mut self, filing: Filing) {
        match self.office.judge(&filing) {
            Verdict::Admit(outcome) => {
                self.accepted += 1;
                if let What::Pay(amount) = &filing.what {
                    self.pell += amount.cents;
                }
                if let Outcome::Returned { school, .. } = outcome {
                    self.returned += school;
                }
                self.office.admit(filing, outcome);
            }
            Verdict::Again { .. } => self.accepted += 1,
            Verdict::Refused(_) => self.refused += 1,
        }
    }

    fn quote(&mut self, place: &Place) -> u64 {
        self.office.quote(place)
    }

    fn filings(&self) -> u32 {
        self.accepted + self.refused
    }
}

impl fmt::Display for PlainDesk {
    fn fmt(&self, f: &mut fmt::Formatter) -> fmt::Result {
        writeln!(f, "accepted {}", self.accepted)?;
        writeln!(f, "refused {}", self.refused)?;
        writeln!(f, "pell {}.{:02}", self.pell / 100, self.pell % 100)?;
        writeln!(f, "returned {}.{:02}", self.returned / 100, self.returned % 100)
    }
}
