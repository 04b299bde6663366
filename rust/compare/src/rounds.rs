//! Programs, damage and noise put together into pairs of papers.

use plain::{encode_file, encode_sheet, Program, Query};
use random::Random;

use crate::causes::{causes, query_of_heads};
use crate::damage::{a_few, damaged, Bounds};
use crate::fields::Fields;
use crate::noise::{noise, noise_after, soup, tag_noise};
use crate::places::FIRST_PAST_LIMIT;
use crate::programs::{program, query, Size};

/// What the papers are made for.
pub trait Examiner {
    /// Takes a program and query whose papers must be accepted.
    fn valid(&mut self, program: &Program, query: &Query);
    /// Takes any two papers.
    fn pair(&mut self, file: &[u8], sheet: &[u8]);
}

/// Some thousands of pairs, most of them small.
pub fn mixed_rounds(random: &mut Random, examiner: &mut impl Examiner) {
    for _ in 0..10 {
        small_round(random, examiner);
    }
    limit_round(random, examiner);
}

/// The papers of a small program and query, the same cut everywhere and
/// damaged in many ways, and noise.
pub fn small_round(random: &mut Random, examiner: &mut impl Examiner) {
    let size = Size::small(random);
    let program = program(random, &size);
    let query = query(random, &size);
    examiner.valid(&program, &query);

    let papers = Papers::of(&program, &query);
    examiner.pair(&papers.file, &papers.sheet);
    each_cut(&papers, examiner);
    damaged_files(random, &papers, 160, examiner);
    damaged_sheets(random, &papers, 60, examiner);
    mixed_up(&papers, examiner);
    noisy(random, &papers, 40, examiner);
}

/// The papers of a program at or past a limit and of some queries, the same
/// damaged. The papers are large, so there are fewer.
pub fn limit_round(random: &mut Random, examiner: &mut impl Examiner) {
    let size = Size::around_limits(random);
    let program = program(random, &size);
    for round in 0..3 {
        let query = query(random, &size);
        if size.is_within_limits() {
            examiner.valid(&program, &query);
        }

        let papers = Papers::of(&program, &query);
        examiner.pair(&papers.file, &papers.sheet);
        if round == 0 {
            cuts_at_limits(&papers, examiner);
        }
        damaged_files(random, &papers, 16, examiner);
        damaged_sheets(random, &papers, 4, examiner);
        mixed_up(&papers, examiner);
        long_tails(random, &papers, examiner);
    }
}

/// The papers of a small program in which much follows and of some queries, the
/// same damaged.
pub fn causes_round(random: &mut Random, examiner: &mut impl Examiner) {
    let (abducibles, others) = (random.below(6), random.between(1, 5));
    let program = causes(random, abducibles, others);
    for _ in 0..4 {
        let query = query_of_heads(random, &program);
        examiner.valid(&program, &query);

        let papers = Papers::of(&program, &query);
        examiner.pair(&papers.file, &papers.sheet);
        damaged_files(random, &papers, 2, examiner);
        damaged_sheets(random, &papers, 1, examiner);
    }
}

/// The papers of a program and query, and what bounds the numbers in them.
struct Papers {
    file: Vec<u8>,
    sheet: Vec<u8>,
    bounds: Bounds,
}

impl Papers {
    fn of(program: &Program, query: &Query) -> Self {
        Papers {
            file: encode_file(program),
            sheet: encode_sheet(query),
            bounds: Bounds::of(program),
        }
    }
}

fn each_cut(papers: &Papers, examiner: &mut impl Examiner) {
    for length in 0..papers.file.len() {
        examiner.pair(&papers.file[..length], &papers.sheet);
    }
    for length in 0..papers.sheet.len() {
        examiner.pair(&papers.file, &papers.sheet[..length]);
    }
}

/// Cuts the file at each byte of the fields about its limits, and of its last.
fn cuts_at_limits(papers: &Papers, examiner: &mut impl Examiner) {
    let fields = Fields::of(&papers.file);
    let last = fields.count() - 1;
    let limits = FIRST_PAST_LIMIT.into_iter().filter(|&index| index < last);
    for index in limits.chain([last]) {
        for length in fields.range(index - 1).start..fields.range(index).end {
            examiner.pair(&papers.file[..length], &papers.sheet);
        }
    }
}

fn damaged_files(random: &mut Random, papers: &Papers, count: usize, examiner: &mut impl Examiner) {
    for _ in 0..count {
        let times = a_few(random);
        let file = damaged(random, &papers.file, &papers.bounds, times);
        // Now and then with a damaged sheet, which a refused file must hide.
        let sheet_times = usize::from(random.one_in(8));
        let sheet = damaged(random, &papers.sheet, &papers.bounds, sheet_times);
        examiner.pair(&file, &sheet);
    }
}

fn damaged_sheets(
    random: &mut Random,
    papers: &Papers,
    count: usize,
    examiner: &mut impl Examiner,
) {
    for _ in 0..count {
        let times = a_few(random);
        let sheet = damaged(random, &papers.sheet, &papers.bounds, times);
        examiner.pair(&papers.file, &sheet);
    }
}

/// The papers in each other's place, missing, or one behind the other.
fn mixed_up(papers: &Papers, examiner: &mut impl Examiner) {
    let Papers { file, sheet, .. } = papers;
    examiner.pair(sheet, file);
    examiner.pair(file, file);
    examiner.pair(sheet, sheet);
    examiner.pair(file, &[]);
    examiner.pair(&[], sheet);
    examiner.pair(&[&file[..], sheet].concat(), &[]);
}

/// Makes each paper about as long as two bytes can count, or longer.
fn long_tails(random: &mut Random, papers: &Papers, examiner: &mut impl Examiner) {
    let length = random.pick(&[0xFFFF, 0x10000, 0x10001, 0x18000]);
    let with_tail = |paper: &[u8]| {
        let mut paper = paper.to_vec();
        paper.resize(length, 0);
        paper
    };
    examiner.pair(&with_tail(&papers.file), &papers.sheet);
    examiner.pair(&papers.file, &with_tail(&papers.sheet));
}

fn noisy(random: &mut Random, papers: &Papers, count: usize, examiner: &mut impl Examiner) {
    let Papers { file, sheet, .. } = papers;
    for _ in 0..count {
        match random.below(6) {
            0 => examiner.pair(&noise(random), &noise(random)),
            1 => examiner.pair(&tag_noise(random), &tag_noise(random)),
            2 => examiner.pair(&soup(random), sheet),
            3 => examiner.pair(file, &soup(random)),
            4 => examiner.pair(&noise_after(random, file), sheet),
            _ => examiner.pair(file, &noise_after(random, sheet)),
        }
    }
}
