//! Scenarios: their digits, their assumptions, and how they value the
//! abducible literals.

use crate::numbering::ObjectiveLiteral;
use crate::program::Program;

/// The number of scenarios of a program that a file can hold: 3^k.
pub fn scenario_count(program: &Program) -> u32 {
    3_u32.pow(program.abducibles.len() as u32)
}

/// A digit of a scenario in base 3.
#[derive(Clone, Copy, Debug, PartialEq, Eq)]
pub enum Digit {
    /// 0: A and -A undefined.
    Open,
    /// 1: A true, -A false.
    Assumed,
    /// 2: A false, -A true.
    RuledOut,
}

/// The digits of the scenario in base 3, lowest first: digit i belongs to the
/// i-th of the `abducibles` abducibles.
pub fn digits(scenario: u32, abducibles: usize) -> Vec<Digit> {
    let mut rest = scenario;
    let mut digits = Vec::new();
    for _ in 0..abducibles {
        digits.push(match rest % 3 {
            0 => Digit::Open,
            1 => Digit::Assumed,
            _ => Digit::RuledOut,
        });
        rest /= 3;
    }
    digits
}

/// Whether the scenario contains the assumptions of `part`: its nonzero
/// digits, equal where nonzero.
pub fn contains_assumptions(scenario: u32, part: u32) -> bool {
    let (mut scenario, mut part) = (scenario, part);
    while part > 0 {
        let digit = part % 3;
        if digit != 0 && digit != scenario % 3 {
            return false;
        }
        scenario /= 3;
        part /= 3;
    }
    true
}

/// How a scenario values an abducible literal.
#[derive(Clone, Copy, Debug, PartialEq, Eq)]
pub enum Value {
    Undefined,
    True,
    False,
}

/// How a scenario values each abducible literal.
#[derive(Clone, Debug, PartialEq, Eq)]
pub struct Valuation {
    /// By the number of the judged literal; none where it is not abducible.
    values: Vec<Option<Value>>,
}

impl Valuation {
    /// That of the scenario, which is below 3^k.
    pub fn new(program: &Program, scenario: u32) -> Self {
        let mut values: Vec<Option<Value>> = ObjectiveLiteral::judged(program.atoms)
            .map(|_| None)
            .collect();
        let digits = digits(scenario, program.abducibles.len());
        for (&atom, digit) in program.abducibles.iter().zip(digits) {
            let (value, of_negation) = match digit {
                Digit::Open => (Value::Undefined, Value::Undefined),
                Digit::Assumed => (Value::True, Value::False),
                Digit::RuledOut => (Value::False, Value::True),
            };
            values[usize::from(ObjectiveLiteral::of(atom).0)] = Some(value);
            values[usize::from(ObjectiveLiteral::negation_of(atom).0)] = Some(of_negation);
        }
        Valuation { values }
    }

    /// The value of an abducible literal, none for any other.
    pub fn of(&self, literal: ObjectiveLiteral) -> Option<Value> {
        self.values[usize::from(literal.0)]
    }
}
