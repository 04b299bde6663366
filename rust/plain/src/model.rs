//! Scenarios and the model: Definitions 2.1 and 2.2 of document 000 as
//! document 01 words them, with the constant u of Card 5 of document 02, and
//! judging, whose verdict Card 3, "Explanations that rest on a contradiction",
//! makes stricter.

use crate::dual::dual;
use crate::numbering::{BodyLiteral, Form, Literal, ObjectiveLiteral};
use crate::program::{Program, Query};
use crate::read::read_papers;
use crate::refusal::JudgeRefusal;
use crate::scenario::{scenario_count, Valuation, Value};
use crate::sets::JudgedSet;
use crate::write::encode_dual;

/// The bytes of the longest model.
pub const LONGEST_MODEL: usize = 513;

/// (Tj, Fj) for some j.
#[derive(Clone, Debug, PartialEq, Eq)]
pub struct Interpretation {
    pub true_set: JudgedSet,
    pub false_set: JudgedSet,
}

impl Interpretation {
    /// J0 = (T0, F0), both empty.
    pub fn start(atoms: u16) -> Self {
        Interpretation {
            true_set: JudgedSet::empty(atoms),
            false_set: JudgedSet::empty(atoms),
        }
    }

    /// (T(j+1), F(j+1)) where this is (T(j), F(j)). F(j+1) is all judged
    /// literals outside P(j+1).
    pub fn successor(&self, program: &Program, valuation: &Valuation) -> Self {
        Interpretation {
            true_set: next_true(program, valuation, self),
            false_set: next_possible(program, valuation, self).complement(),
        }
    }
}

/// T(j+1): the least set holding the true abducible literals and every head
/// whose body has its objective literals in T(j+1) and its not(o) with o in
/// F(j). u never holds, so a body with it does not either.
pub fn next_true(program: &Program, valuation: &Valuation, now: &Interpretation) -> JudgedSet {
    let is_given = |literal| valuation.of(literal) == Some(Value::True);
    let not_holds = |literal| now.false_set.contains(literal);
    let undefined_passes = false;
    let is_barred = |_| false;
    least_set(program, is_given, not_holds, undefined_passes, is_barred)
}

/// P(j+1): the least set holding each objective literal o whose conjugate is
/// not in T(j) and which is a true or undefined abducible literal, or heads a
/// rule whose objective literals are in P(j+1) and whose not(g) have g outside
/// T(j). u never fails, so it blocks no rule.
pub fn next_possible(program: &Program, valuation: &Valuation, now: &Interpretation) -> JudgedSet {
    let is_given = |literal| {
        let value = valuation.of(literal);
        value == Some(Value::True) || value == Some(Value::Undefined)
    };
    let not_holds = |literal| !now.true_set.contains(literal);
    let undefined_passes = true;
    let is_barred = |literal: ObjectiveLiteral| {
        let conjugate = literal.conjugate(program.atoms);
        conjugate.is_some_and(|conjugate| now.true_set.contains(conjugate))
    };
    least_set(program, is_given, not_holds, undefined_passes, is_barred)
}

/// The least set holding each objective literal that is not barred and is
/// given, or heads a rule whose objective literals are in the set, whose not(o)
/// hold and whose u, where it has any, passes.
fn least_set(
    program: &Program,
    is_given: impl Fn(ObjectiveLiteral) -> bool,
    not_holds: impl Fn(ObjectiveLiteral) -> bool,
    undefined_passes: bool,
    is_barred: impl Fn(ObjectiveLiteral) -> bool,
) -> JudgedSet {
    let mut set = JudgedSet::empty(program.atoms);
    for literal in ObjectiveLiteral::judged(program.atoms) {
        if is_given(literal) && !is_barred(literal) {
            set.insert(literal);
        }
    }
    loop {
        let mut has_grown = false;
        for (_, head, body) in program.folds() {
            let passes = |literal: &BodyLiteral| match literal {
                BodyLiteral::Literal(literal) => match literal.form() {
                    Form::Objective(objective) => set.contains(objective),
                    Form::Not(objective) => not_holds(objective),
                },
                BodyLiteral::Undefined => undefined_passes,
            };
            if !set.contains(head) && !is_barred(head) && body.iter().all(passes) {
                set.insert(head);
                has_grown = true;
            }
        }
        if !has_grown {
            return set;
        }
    }
}

/// The model of a program in a scenario.
#[derive(Clone, Debug, PartialEq, Eq)]
pub struct Model {
    /// The atom count n.
    pub atoms: u16,
    /// The first (Tj, Fj) equal to its successor.
    pub interpretation: Interpretation,
    /// Its round count: j.
    pub rounds: u64,
}

/// The model of a program that a file can hold in a scenario below 3^k.
pub fn model(program: &Program, scenario: u32) -> Model {
    let valuation = Valuation::new(program, scenario);
    let mut interpretation = Interpretation::start(program.atoms);
    let mut rounds = 0;
    loop {
        let successor = interpretation.successor(program, &valuation);
        if successor == interpretation {
            return Model {
                atoms: program.atoms,
                interpretation,
                rounds,
            };
        }
        interpretation = successor;
        rounds += 1;
    }
}

impl Model {
    /// 0 undefined, 1 true, 2 false, 3 both.
    pub fn byte(&self, literal: ObjectiveLiteral) -> u8 {
        let is_true = self.interpretation.true_set.contains(literal);
        let is_false = self.interpretation.false_set.contains(literal);
        match (is_true, is_false) {
            (false, false) => 0,
            (true, false) => 1,
            (false, true) => 2,
            (true, true) => 3,
        }
    }

    /// The bytes of the N judged literals.
    pub fn bytes(&self) -> Vec<u8> {
        ObjectiveLiteral::judged(self.atoms)
            .map(|literal| self.byte(literal))
            .collect()
    }

    /// "A scenario is an explanation exactly if falsum's byte is 2 and each query
    /// literal holds" (document 01). "From now on a scenario with any model byte 3
    /// is no explanation" (document 02, Card 3).
    pub fn explains(&self, query: &Query) -> bool {
        let falsum = ObjectiveLiteral::falsum(self.atoms);
        let mut literals = query.literals.iter();
        self.byte(falsum) == 2
            && literals.all(|&literal| self.holds(literal))
            && !self.is_contradictory()
    }

    /// Whether any of the N model bytes is 3, falsum's and those of atoms that no
    /// query touches among them.
    pub fn is_contradictory(&self) -> bool {
        self.bytes().contains(&3)
    }

    /// o: byte 1 or 3; not(o): byte 2 or 3. What holds by byte 3 holds, though the
    /// scenario is no explanation.
    pub fn holds(&self, literal: Literal) -> bool {
        match literal.form() {
            Form::Objective(objective) => matches!(self.byte(objective), 1 | 3),
            Form::Not(objective) => matches!(self.byte(objective), 2 | 3),
        }
    }
}

/// Whether the scenario, which is below 3^k, is an explanation.
pub fn explains(program: &Program, query: &Query, scenario: u32) -> bool {
    model(program, scenario).explains(query)
}

/// The answer of judging: it tells verdict and rounds.
#[derive(Clone, Copy, Debug, PartialEq, Eq)]
pub struct Judgement {
    /// Whether the scenario is an explanation.
    pub explains: bool,
    pub rounds: u64,
}

impl Judgement {
    /// That of the scenario, which is below 3^k.
    pub fn of(program: &Program, query: &Query, scenario: u32) -> Self {
        Judgement::from_model(&model(program, scenario), query)
    }

    fn from_model(model: &Model, query: &Query) -> Self {
        Judgement {
            explains: model.explains(query),
            rounds: model.rounds,
        }
    }
}

/// Judges the scenario. Leaves the dual at the start of the dual buffer and the
/// model in the first N bytes of the model buffer, the rest of both staying;
/// where judging is refused all bytes stay.
pub fn judge(
    file: &[u8],
    sheet: &[u8],
    scenario: u32,
    dual_buffer: &mut [u8],
    model_buffer: &mut [u8],
) -> Result<Judgement, JudgeRefusal> {
    let (program, query) = read_papers(file, sheet).map_err(JudgeRefusal::Papers)?;
    let dual_bytes = encode_dual(&dual(&program));
    let Some(dual_start) = dual_buffer.get_mut(..dual_bytes.len()) else {
        return Err(JudgeRefusal::ShortDual);
    };
    let judged = ObjectiveLiteral::judged(program.atoms).count();
    let Some(model_start) = model_buffer.get_mut(..judged) else {
        return Err(JudgeRefusal::ShortModel);
    };
    if scenario >= scenario_count(&program) {
        return Err(JudgeRefusal::NoScenario);
    }
    let model = model(&program, scenario);
    dual_start.copy_from_slice(&dual_bytes);
    model_start.copy_from_slice(&model.bytes());
    Ok(Judgement::from_model(&model, &query))
}
