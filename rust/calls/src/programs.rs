//! The programs of the reference calls.

use crate::text;

/// A program as text.
#[derive(Clone, Copy, Debug)]
pub struct Source {
    /// Numbered from 0 in order.
    pub atoms: &'static str,
    pub abducibles: &'static str,
    /// Parted by semicolons.
    pub rules: &'static str,
}

impl Source {
    pub fn file(&self) -> Vec<u8> {
        text::file(self.atoms, self.abducibles, self.rules)
    }

    pub fn sheet(&self, query: &str) -> Vec<u8> {
        text::sheet(self.atoms, query)
    }
}

pub const EXAMPLE_2_1: Source = Source {
    atoms: "a b c",
    abducibles: "",
    rules: "c :- not b; b :- a; -b; a :- not a",
};

pub const EXAMPLE_3_1: Source = Source {
    atoms: "s p q r",
    abducibles: "",
    rules: "s :- not p, not q, not r;
        p :- not s, not r, q;
        q :- not p, r;
        r :- not q, p",
};

pub const EXAMPLE_3_2: Source = Source {
    atoms: "p q p* q* p_constr q_constr",
    abducibles: "p* q*",
    rules: "p :- not q*;
        q :- not p*;
        p_constr :- p, -p*;
        q_constr :- q, -q*;
        falsum :- p_constr;
        falsum :- q_constr",
};

/// Figure 1 of document 001, each program without the others.
pub const P0: Source = Source {
    atoms: "a b p0 q0",
    abducibles: "a b",
    rules: "p0 :- q0; p0 :- a; q0 :- p0; q0 :- b",
};

pub const P3: Source = Source {
    atoms: "p3 q3 r3",
    abducibles: "",
    rules: "p3 :- q3; q3 :- not r3; r3 :- p3",
};

pub const P4: Source = Source {
    atoms: "a b p4 q4",
    abducibles: "a b",
    rules: "p4 :- q4; q4 :- p4; q4 :- not a, not b",
};

pub const P8: Source = Source {
    atoms: "a b p8 q8",
    abducibles: "a b",
    rules: "p8 :- not q8, a; q8 :- not p8; q8 :- b",
};

pub const P11: Source = Source {
    atoms: "a p11 q11",
    abducibles: "a",
    rules: "p11 :- not q11, a; q11 :- p11, not a",
};

pub const CONTRADICTION: Source = Source {
    atoms: "a d",
    abducibles: "a",
    rules: "d :- a; -d; falsum :- d, -d",
};

pub const CONTRADICTION_ALONE: Source = Source {
    rules: "d :- a; -d",
    ..CONTRADICTION
};

/// What the desk program is shown with.
pub const DESK: Source = Source {
    atoms: "p a",
    abducibles: "a",
    rules: "p :- a",
};
