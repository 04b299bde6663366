//! Calls with lent buffers, checked for what must stay in them.

use calls::lent::pattern;
use plain::{
    continue_search, dual, encode_dual, encode_file, encode_sheet, judge, ContinueRefusal,
    Continued, JudgeRefusal, Judgement, Program, Query, Record,
};

/// Judges in buffers that are longer than they must be, and gives the answer
/// and the model's bytes.
pub fn judged(program: &Program, query: &Query, scenario: u32) -> (Judgement, Vec<u8>) {
    let written = encode_dual(&dual(program));
    let mut dual = pattern(written.len() + 7);
    let judged = 2 * usize::from(program.atoms) + 1;
    let mut model = pattern(judged + 5);
    let (file, sheet) = (encode_file(program), encode_sheet(query));
    let judgement = judge(&file, &sheet, scenario, &mut dual, &mut model);
    assert_eq!(&dual[..written.len()], written);
    assert_eq!(dual[written.len()..], pattern(dual.len())[written.len()..]);
    assert_eq!(model[judged..], pattern(model.len())[judged..]);
    model.truncate(judged);
    (judgement.expect("an accepted call"), model)
}

/// Checks that judging is refused and that all bytes stay.
pub fn judge_refused(
    refusal: JudgeRefusal,
    papers: (&[u8], &[u8]),
    scenario: u32,
    lengths: (usize, usize),
) {
    let (mut dual, mut model) = (pattern(lengths.0), pattern(lengths.1));
    let answer = judge(papers.0, papers.1, scenario, &mut dual, &mut model);
    assert_eq!(answer, Err(refusal));
    assert_eq!(dual, pattern(lengths.0));
    assert_eq!(model, pattern(lengths.1));
}

/// Continues with a dual buffer that is longer than it must be.
pub fn continued(
    program: &Program,
    query: &Query,
    list: &mut [u32],
    record: Record,
    allowance: u32,
) -> Continued {
    let written = encode_dual(&dual(program));
    let mut dual = pattern(written.len() + 7);
    let before = list.to_vec();
    let (file, sheet) = (encode_file(program), encode_sheet(query));
    let answer = continue_search(&file, &sheet, &mut dual, list, record, allowance);
    let continued = answer.expect("an accepted call");
    assert_eq!(&dual[..written.len()], written);
    assert_eq!(dual[written.len()..], pattern(dual.len())[written.len()..]);
    let (old, new) = (record.found as usize, continued.record.found as usize);
    assert_eq!(list[..old], before[..old]);
    assert_eq!(list[new..], before[new..]);
    continued
}

/// Checks that continuing is refused and that buffer and list stay.
pub fn continue_refused(
    refusal: ContinueRefusal,
    papers: (&[u8], &[u8]),
    dual_length: usize,
    list: &[u32],
    record: Record,
) {
    for allowance in [0, 1, u32::MAX] {
        let mut dual = pattern(dual_length);
        let mut lent = list.to_vec();
        let answer = continue_search(papers.0, papers.1, &mut dual, &mut lent, record, allowance);
        assert_eq!(answer, Err(refusal));
        assert_eq!(dual, pattern(dual_length));
        assert_eq!(lent, list);
    }
}
