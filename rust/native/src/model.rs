//! The models of 64 scenarios.

use crate::digits::Digit;
use crate::program::{Program, Rule};

/// What is kept from one batch of scenarios to the next, a word for each judged
/// literal and a last one for u.
pub struct Settling {
    pub t: Vec<u64>,
    pub f: Vec<u64>,
    /// The rounds of each lane.
    pub rounds: [u64; 64],
    next_t: Vec<u64>,
    p: Vec<u64>,
    seed: Vec<u64>,
    possible: Vec<u64>,
    not_t: Vec<u64>,
    allowed: Vec<u64>,
}

impl Settling {
    pub fn new(program: &Program) -> Self {
        let words = || vec![0; program.judged + 1];
        let mut p = words();
        p[program.undefined()] = u64::MAX;
        Settling {
            t: words(),
            f: words(),
            rounds: [0; 64],
            next_t: words(),
            p,
            seed: words(),
            possible: words(),
            not_t: words(),
            allowed: words(),
        }
    }

    /// From J0 on, until no lane changes.
    pub fn settle(&mut self, program: &Program, digits: &[Digit]) {
        self.t.fill(0);
        self.f.fill(0);
        self.rounds.fill(0);
        for (&atom, digit) in program.abducibles.iter().zip(digits) {
            self.seed[atom] = digit.assumed;
            self.seed[atom + 1] = digit.ruled;
            self.possible[atom] = !digit.ruled;
            self.possible[atom + 1] = !digit.assumed;
        }
        for round in 1.. {
            let changed = self.round(program);
            if changed == 0 {
                return;
            }
            for (lane, rounds) in self.rounds.iter_mut().enumerate() {
                if changed >> lane & 1 == 1 {
                    *rounds = round;
                }
            }
        }
    }

    /// T(j+1), P(j+1) and F(j+1). The lanes that changed.
    fn round(&mut self, program: &Program) -> u64 {
        self.next_t.copy_from_slice(&self.seed);
        close(&program.rules, &mut self.next_t, &self.f, |_| u64::MAX);
        for o in 0..program.judged {
            let conjugate = if o == program.falsum() {
                0
            } else {
                self.t[o ^ 1]
            };
            self.allowed[o] = !conjugate;
            self.not_t[o] = !self.t[o];
            self.p[o] = self.possible[o] & self.allowed[o];
        }
        let allowed = &self.allowed;
        close(&program.rules, &mut self.p, &self.not_t, |o| allowed[o]);
        let mut changed = 0;
        for o in 0..program.judged {
            changed |= self.t[o] ^ self.next_t[o] | self.f[o] ^ !self.p[o];
            self.t[o] = self.next_t[o];
            self.f[o] = !self.p[o];
        }
        changed
    }
}

/// The least set that holds the given one and is closed under the rules, each
/// head only in its allowed lanes.
fn close(rules: &[Rule], set: &mut [u64], negated: &[u64], allowed: impl Fn(usize) -> u64) {
    let mut changed = true;
    while changed {
        changed = false;
        for Rule { head, body } in rules {
            let lacking = !set[*head] & allowed(*head);
            let lanes = body.lanes(lacking, set, negated);
            set[*head] |= lanes;
            changed |= lanes != 0;
        }
    }
}
