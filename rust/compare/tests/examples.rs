//! The calls told in `examples/`: their papers are those of their rules, and
//! both finders give what is expected, the one behind the C boundary however its
//! work is sliced.

use assemble::parse;
use compare::examples::{examples, Example};
use compare::judged::is_contradicted;
use finder::{continue_search, fresh, judge, State, LONGEST_FILE};
use plain::desk::LIST_LENGTH;
use plain::dual::LONGEST_DUAL;
use plain::model::LONGEST_MODEL;
use plain::{
    minimal_explanations, minimal_of, model, read_papers, scenario_count, BodyLiteral, Held,
    Program, Query, Search,
};

const ALLOWANCES: [u32; 8] = [1, 2, 3, 7, 63, 64, 65, u32::MAX];

fn each(check: impl Fn(&Example)) {
    let examples = examples();
    assert!(examples.len() >= 4, "{} examples", examples.len());
    for example in &examples {
        println!("{}", example.folder.display());
        check(example);
    }
}

/// The scenarios found by what the desk program prints.
fn found(printed: &str) -> Vec<u32> {
    let lines = printed
        .lines()
        .filter_map(|line| line.strip_prefix("found "));
    let numbers = lines.filter_map(|line| line.split(' ').next());
    numbers
        .map(|number| number.parse().expect("a scenario"))
        .collect()
}

/// Searches with these allowances, one a call, until the search has ended, and
/// compares what is found and the sums over all calls with what is expected.
fn search(example: &Example, allowances: impl Iterator<Item = u32>) {
    let Example { causes, sheet, .. } = example;
    let mut dual = vec![0; LONGEST_DUAL];
    let mut list = vec![u32::MAX; LIST_LENGTH];
    let mut record = fresh(causes, 0, 0).expect("an accepted file");
    let (mut tried, mut rounds) = (0, 0);
    for allowance in allowances {
        let answer = continue_search(causes, sheet, &mut dual, &mut list, record, allowance);
        let continued = answer.expect("an accepted call");
        record = continued.record;
        tried += continued.tried;
        rounds += continued.rounds;
        if continued.state == State::Ended {
            break;
        }
        assert_eq!(continued.state, State::Going);
    }
    assert_eq!(list[..record.found as usize], found(&example.expected));
    let last_line = format!("ended tried {tried} rounds {rounds}\n");
    assert!(example.expected.ends_with(&last_line), "{last_line}");
}

#[test]
fn the_papers_are_those_of_the_rules() {
    each(|example| {
        let call = parse(&example.rules).unwrap_or_else(|mistake| panic!("{mistake}"));
        assert_eq!(call.typed(), example.typed);
        assert_eq!(call.causes(), example.causes);
        assert_eq!(call.sheet(), example.sheet);
    });
}

#[test]
fn the_rules_as_typed_are_imported_as_the_file() {
    each(|example| {
        let (text, length) = (example.typed.as_bytes(), example.causes.len());
        let mut file = vec![0; LONGEST_FILE];
        assert_eq!(finder::import_text(text, &mut file), Ok(length));
        assert_eq!(file[..length], example.causes);
        let mut file = vec![0; LONGEST_FILE];
        assert_eq!(plain::import_text(text, &mut file), Ok(length));
        assert_eq!(file[..length], example.causes);
    });
}

#[test]
fn the_separate_finder_prints_what_is_expected() {
    each(|example| {
        let printed = plain::desk(Some(&example.causes), Some(&example.sheet));
        assert_eq!(printed, example.expected);
    });
}

#[test]
fn every_slicing_finds_what_is_expected() {
    each(|example| {
        for allowance in ALLOWANCES {
            search(example, std::iter::repeat(allowance));
        }
        search(example, ALLOWANCES[..7].iter().copied().cycle());
    });
}

/// Each fault by itself, held either way, and the faults of one half against
/// those of the other.
fn some_held(abducibles: usize) -> Vec<Held> {
    let half = (1 << (abducibles / 2)) - 1;
    let all = (1 << abducibles) - 1;
    let bits = (0..abducibles).map(|fault| 1 << fault);
    let assumed = bits.clone().map(|bit| (bit, 0));
    let ruled = bits.map(|bit| (0, bit));
    let halves = [(half, all & !half), (all & !half, half)];
    let masks = assumed.chain(ruled).chain(halves);
    masks
        .map(|(assumed, ruled)| Held { assumed, ruled })
        .collect()
}

#[test]
fn what_is_found_with_held_faults_is_that_of_the_definition() {
    each(|example| {
        let Example { causes, sheet, .. } = example;
        let (program, query) = read_papers(causes, sheet).expect("accepted papers");
        let abducibles = program.abducibles.len();
        let mut by_definition = Search::keeping(program, query);
        let mut dual = vec![0; LONGEST_DUAL];
        for held in some_held(abducibles) {
            let mut list = vec![u32::MAX; LIST_LENGTH];
            let record = fresh(causes, held.assumed, held.ruled).expect("masks that are accepted");
            let answer = continue_search(causes, sheet, &mut dual, &mut list, record, u32::MAX);
            let continued = answer.expect("an accepted call");
            assert_eq!(continued.state, State::Ended);
            list.truncate(continued.record.found as usize);
            assert_eq!(list, by_definition.minimal_explanations(held), "{held:?}");
        }
    });
}

#[test]
fn judging_each_scenario_finds_what_is_expected() {
    each(|example| {
        let Example { causes, sheet, .. } = example;
        let (program, _) = read_papers(causes, sheet).expect("accepted papers");
        let (mut dual, mut model) = (vec![0; LONGEST_DUAL], vec![0; LONGEST_MODEL]);
        let mut explains = |scenario| {
            let judgement = judge(causes, sheet, scenario, &mut dual, &mut model);
            judgement.expect("an accepted call").explains
        };
        let mut explanations: Vec<u32> = (0..scenario_count(&program)).collect();
        explanations.retain(|&scenario| explains(scenario));
        assert_eq!(minimal_of(&explanations), found(&example.expected));
    });
}

#[test]
fn each_readme_has_the_numbers_of_the_atoms_and_the_output() {
    each(|example| {
        let call = parse(&example.rules).expect("a text without a mistake");
        for (atom, name) in call.names.iter().enumerate() {
            let row = format!("\n| {atom} | `{name}` |");
            assert!(example.readme.contains(&row), "no row{row}");
        }
        let lines = example.expected.lines();
        let output: String = lines.map(|line| format!("    {line}\n")).collect();
        assert!(example.readme.contains(&output), "no output\n{output}");
    });
}

fn program_of(name: &str) -> (Program, Query) {
    let examples = examples();
    let mut of_name = examples
        .iter()
        .filter(|example| example.folder.ends_with(name));
    let example = of_name.next().expect("an example of that name");
    read_papers(&example.causes, &example.sheet).expect("accepted papers")
}

/// The minimal of those that were explanations before Card 3.
fn told_before(program: &Program, query: &Query) -> Vec<u32> {
    let mut told: Vec<u32> = (0..scenario_count(program)).collect();
    told.retain(|&scenario| {
        let model = model(program, scenario);
        model.explains(query) || is_contradicted(query, &model.bytes())
    });
    minimal_of(&told)
}

#[test]
fn without_its_integrity_rule_two_sensors_are_not_both_right_either() {
    let (mut program, query) = program_of("two-sensors");
    let minimal = |program: &Program| minimal_explanations(program, &query, Held::NONE);
    assert_eq!(minimal(&program), [15, 29, 37, 39]);
    assert_eq!(told_before(&program, &query), [15, 29, 37, 39]);
    program.integrity_bodies.clear();
    assert_eq!(minimal(&program), [15, 29, 36]);
    assert_eq!(told_before(&program, &query), [8, 15, 29, 36]);
}

#[test]
fn a_sealed_meter_that_is_faulty_and_not_is_not_told() {
    let (mut program, query) = program_of("sealed-meter");
    let minimal = |program: &Program| minimal_explanations(program, &query, Held::NONE);
    assert_eq!(minimal(&program), [10, 33, 36]);
    assert_eq!(told_before(&program, &query), [7, 10, 33, 36]);
    // a, -a for each atom; falsum.
    let bytes = [1, 2, 2, 1, 0, 0, 0, 0, 1, 2, 3, 3, 1, 2, 1, 2, 2];
    assert_eq!(model(&program, 7).bytes(), bytes);

    let (faulty, not_faulty) = (BodyLiteral::read(4 * 5), BodyLiteral::read(4 * 5 + 2));
    program.integrity_bodies.push(vec![faulty, not_faulty]);
    assert_eq!(minimal(&program), [10, 33, 38, 39]);
}
