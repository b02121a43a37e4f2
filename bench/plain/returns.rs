// The worksheet of a withdrawal, as crate law_r2t4 has it.

use super::filings::{FSEOG, PELL, PROGRAMS};

const TEACH: usize = 5;
const FORGIVEN: u64 = 5000;

pub struct Worksheet {
    pub percent: u16,
    pub school: u64,
    pub returned: [u64; PROGRAMS],
    pub owed: [u64; PROGRAMS],
    pub post: u64,
}

pub fn half_up(dividend: u64, divisor: u64) -> u64 {
    (2 * dividend + divisor) / (2 * divisor)
}

pub fn worksheet(
    completed: u64,
    total: u64,
    charges: u64,
    net: &[u64; PROGRAMS],
    could: &[u64; PROGRAMS],
) -> Worksheet {
    let percent = if 10 * completed > 6 * total { 1000 } else { half_up(1000 * completed, total) };
    let disbursed: u64 = net.iter().sum();
    let earned = half_up((disbursed + could.iter().sum::<u64>()) * percent, 1000);
    let unearned = disbursed.saturating_sub(earned);
    let school = unearned.min(half_up(charges * (1000 - percent), 1000));
    let returned = spread(school, net);
    let left: [u64; PROGRAMS] = std::array::from_fn(|program| net[program] - returned[program]);
    let laid = spread(unearned - school, &left);
    let mut owed = [0; PROGRAMS];
    for program in [PELL, FSEOG, TEACH] {
        let half = half_up(net[program] + could[program], 2);
        let due = laid[program].saturating_sub(half);
        owed[program] = if due > FORGIVEN { due } else { 0 };
    }
    Worksheet { percent: percent as u16, school, returned, owed, post: earned.saturating_sub(disbursed) }
}

fn spread(mut left: u64, amounts: &[u64; PROGRAMS]) -> [u64; PROGRAMS] {
    amounts.map(|amount| {
        let part = amount.min(left);
        left -= part;
        part
    })
}
