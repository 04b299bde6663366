//! Programs, damage and noise put together into files for their duals.

use plain::{encode_file, Program};
use random::Random;

use crate::damage::{a_few, damaged, Bounds};
use crate::noise::{noise, noise_after, soup, tag_noise};
use crate::programs::{add_facts, program, Size};

/// What the files are made for.
pub trait FileExaminer {
    /// Takes a program whose file must be accepted.
    fn valid(&mut self, program: &Program);
    /// Takes any file.
    fn file(&mut self, file: &[u8]);
}

/// Some thousands of files, most of them small.
pub fn mixed_files(random: &mut Random, examiner: &mut impl FileExaminer) {
    for _ in 0..150 {
        small_files(random, examiner);
    }
    for _ in 0..2 {
        limit_files(random, examiner);
    }
    long_dual_files(random, examiner);
}

/// The files of a small program, without facts and with, the same damaged,
/// and noise.
fn small_files(random: &mut Random, examiner: &mut impl FileExaminer) {
    let size = if random.one_in(3) {
        Size::small(random)
    } else {
        Size::crowded(random)
    };
    let mut program = program(random, &size);
    valid_file(&program, examiner);
    add_facts(random, &mut program);
    valid_file(&program, examiner);
    damaged_files(random, &program, 8, examiner);
    noisy_file(random, &program, examiner);
}

/// The files of a program at or past a limit, the same damaged.
fn limit_files(random: &mut Random, examiner: &mut impl FileExaminer) {
    let size = Size::around_limits(random);
    let program = program(random, &size);
    if size.is_within_limits() {
        valid_file(&program, examiner);
    } else {
        examiner.file(&encode_file(&program));
    }
    damaged_files(random, &program, 8, examiner);
}

/// The files of a program with the longest dual and of one with a dual about
/// as long, the latter damaged.
fn long_dual_files(random: &mut Random, examiner: &mut impl FileExaminer) {
    valid_file(&program(random, &Size::LONGEST_DUAL), examiner);
    let size = Size::long_dual(random);
    let mut program = program(random, &size);
    if random.one_in(4) {
        add_facts(random, &mut program);
    }
    valid_file(&program, examiner);
    damaged_files(random, &program, 2, examiner);
}

fn valid_file(program: &Program, examiner: &mut impl FileExaminer) {
    examiner.valid(program);
    examiner.file(&encode_file(program));
}

fn damaged_files(
    random: &mut Random,
    program: &Program,
    count: usize,
    examiner: &mut impl FileExaminer,
) {
    let file = encode_file(program);
    let bounds = Bounds::of(program);
    for _ in 0..count {
        let times = a_few(random);
        examiner.file(&damaged(random, &file, &bounds, times));
    }
}

fn noisy_file(random: &mut Random, program: &Program, examiner: &mut impl FileExaminer) {
    let file = match random.below(5) {
        0 => noise(random),
        1 => tag_noise(random),
        2 => soup(random),
        _ => noise_after(random, &encode_file(program)),
    };
    examiner.file(&file);
}
