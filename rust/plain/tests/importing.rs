//! Rules typed as text: Card 4 of document 02. The texts are made by hand and
//! their files stand in hexadecimal as document 01 writes them; numbers and
//! places are counted by hand, not taken from the crate.

mod hand;

use calls::lent::pattern;
use hand::{body_literals, bytes};
use plain::{
    encode_file, import, import_text, read_file, Atom, ImportRefusal, Number, ObjectiveLiteral,
    Program, Rule, TextRefusal,
};

/// Edition, one atom, no abducibles: 12 bytes.
const ONE_ATOM: &str = "01 0001 01 02 0002 0001 03 0000";
/// The same with two atoms.
const TWO_ATOMS: &str = "01 0001 01 02 0002 0002 03 0000";
const END: &str = "7F 0000";

/// Checks that the text is accepted, and that its file is read back as exactly
/// what was typed and is written to any buffer that is long enough.
fn accepted(text: impl AsRef<[u8]>) -> Program {
    let text = text.as_ref();
    let program = import(text).unwrap_or_else(|refusal| panic!("{refusal}: {}", shown(text)));
    let file = encode_file(&program);
    for beyond in [0, 1, 50] {
        let mut buffer = pattern(file.len() + beyond);
        assert_eq!(import_text(text, &mut buffer), Ok(file.len()));
        let (start, rest) = buffer.split_at(file.len());
        assert_eq!(start, file);
        assert_eq!(rest, &pattern(buffer.len())[file.len()..]);
        assert_eq!(read_file(start).as_ref(), Ok(&program));
    }
    program
}

/// Checks that the text is accepted and has this file.
fn is_imported(text: impl AsRef<[u8]>, file: &[&str]) {
    let text = text.as_ref();
    let program = accepted(text);
    assert_eq!(encode_file(&program), bytes(file), "{}", shown(text));
}

/// Checks that the text is refused whatever buffer is lent, and that all bytes
/// stay. Not even a short buffer is refused before the text.
fn is_refused(number: Number, place: usize, text: impl AsRef<[u8]>) {
    let text = text.as_ref();
    let refusal = TextRefusal { number, place };
    assert_eq!(import(text), Err(refusal), "{}", shown(text));
    for length in [0, 14, 100] {
        buffer_stays(ImportRefusal::Text(refusal), text, length);
    }
}

fn buffer_stays(refusal: ImportRefusal, text: &[u8], length: usize) {
    let mut buffer = pattern(length);
    assert_eq!(import_text(text, &mut buffer), Err(refusal));
    assert_eq!(buffer, pattern(length));
}

/// The text, or its start where it is long.
fn shown(text: &[u8]) -> String {
    let start = &text[..text.len().min(80)];
    format!("{:?}", String::from_utf8_lossy(start))
}

/// A line with this head, which may be `false`, and so often `not p0`.
fn with_literals(head: &str, count: usize) -> String {
    format!("{head} :- {}.", vec!["not p0"; count].join(","))
}

/// Lines that declare p0 to p16. The first ten have 13 characters, the others 14.
fn seventeen_abducibles() -> String {
    (0..17).map(|atom| format!("abducible p{atom}.")).collect()
}

#[test]
fn the_lines_of_card_4() {
    // Head 2*3; -p1 is literal 2*(2*1+1), not p0 is literal 1.
    is_imported(
        "p3 :- -p1, not p0.",
        &[
            "01 0001 01 02 0002 0004 03 0000",
            "04 0006 0006 0006 0001",
            END,
        ],
    );
    is_imported(
        "abducible p4.",
        &["01 0001 01 02 0002 0005 03 0002 0004", END],
    );
    is_imported("false :- p1.", &[TWO_ATOMS, "05 0002 0004", END]);
    is_imported("false.", &[ONE_ATOM, "05 0000", END]);
    is_imported(
        "p2.",
        &["01 0001 01 02 0002 0003 03 0000 04 0002 0004", END],
    );
}

#[test]
fn a_text_without_lines_has_one_atom_and_no_rules() {
    for text in ["", " ", "\r", "\n", "\r\n \r\n\n   "] {
        is_imported(text, &["01 0001 01 02 0002 0001 03 0000 7F 0000"]);
        assert_eq!(import_text(text.as_bytes(), &mut [0; 15]), Ok(15));
    }
}

#[test]
fn every_form_of_head_and_literal() {
    let body = "p0, -p0, not p0, not -p0, p1, -p1, not p1, not -p1";
    let numbers = "0000 0002 0001 0003 0004 0006 0005 0007";
    for (head, number) in [
        ("p0", "0000"),
        ("-p0", "0001"),
        ("p1", "0002"),
        ("-p1", "0003"),
    ] {
        let text = format!("{head} :- {body}. {head}.");
        let rules = format!("04 0012 {number} {numbers} 04 0002 {number}");
        is_imported(text, &[TWO_ATOMS, &rules, END]);
    }
    let text = format!("false :- {body}.");
    is_imported(text, &[TWO_ATOMS, "05 0010", numbers, END]);
}

#[test]
fn rules_and_integrity_rules_keep_their_order_wherever_the_lines_stand() {
    let text = "false :- p1, p0.
        -p1.
        abducible p2.
        false.
        p0 :- not -p1, not p0, not p0.
        false :- p2.
        -p1.
        abducible p3.";
    let rule = |head, body: &[u16]| Rule {
        head: ObjectiveLiteral(head),
        body: body_literals(body),
    };
    let expected = Program {
        atoms: 4,
        abducibles: vec![Atom(2), Atom(3)],
        rules: vec![rule(3, &[]), rule(0, &[7, 1, 1]), rule(3, &[])],
        integrity_bodies: vec![body_literals(&[4, 0]), vec![], body_literals(&[8])],
    };
    assert_eq!(accepted(text), expected);
}

#[test]
fn the_atom_count_is_one_more_than_the_greatest_atom_named() {
    let texts = [
        ("p0.", 1),
        ("p7. p3.", 8),
        ("p3. -p7.", 8),
        ("p0 :- p1, not -p7, p2.", 8),
        ("false :- p7.", 8),
        ("abducible p7. p1.", 8),
        ("p255.", 256),
        ("abducible p255.", 256),
        ("false :- not -p255, p0.", 256),
    ];
    for (text, atoms) in texts {
        assert_eq!(accepted(text).atoms, atoms, "{text}");
    }
}

#[test]
fn abducibles_are_written_rising_and_once() {
    is_imported(
        "abducible p3. abducible p0. abducible p3. abducible p2. abducible p0.",
        &["01 0001 01 02 0002 0004 03 0006 0000 0002 0003", END],
    );
}

#[test]
fn blanks_may_stand_before_and_after_any_token() {
    let tokens = ["-", "p1", ":-", "not", "-", "p0", ",", "p1", "."];
    let file = [TWO_ATOMS, "04 0006 0003 0003 0004", END];
    for blank in ["", " ", "\r", "\n", "\r\n", " \n \r "] {
        let text = format!("{blank}{}{blank}", tokens.join(blank));
        is_imported(text, &file);
    }
    let integrity = ["false", ":-", "p1", "."];
    let declared = ["abducible", "p1", "."];
    for blank in ["", " ", "\n\r"] {
        is_imported(integrity.join(blank), &[TWO_ATOMS, "05 0002 0004", END]);
        let file = ["01 0001 01 02 0002 0002 03 0002 0001", END];
        is_imported(declared.join(blank), &file);
    }
}

#[test]
fn tokens_may_touch() {
    is_imported("p1:-notp0.", &[TWO_ATOMS, "04 0004 0002 0001", END]);
    is_imported("p1:-not-p0.", &[TWO_ATOMS, "04 0004 0002 0003", END]);
    is_imported(
        "p1:--p0.p0.",
        &[TWO_ATOMS, "04 0004 0002 0002 04 0002 0000", END],
    );
    let file = ["01 0001 01 02 0002 0002 03 0002 0001 05 0002 0004", END];
    is_imported("abduciblep1.false:-p1.", &file);
    // Where they touch they are still what they are.
    is_refused(Number::BrokenLine, 2, "p3p4.");
    is_refused(Number::BrokenLine, 0, "nothing.");
    is_refused(Number::StrayCharacter, 9, "abducibles p1.");
    is_refused(Number::StrayCharacter, 9, "p1 :- notx.");
    is_refused(Number::BrokenLine, 0, "notx");
    is_refused(Number::BrokenLine, 5, "falsefalse.");
    is_refused(Number::StrayCharacter, 5, "falsehood.");
}

#[test]
fn p0_to_p255_are_atoms() {
    for atom in 0..256 {
        let program = accepted(format!("p{atom}."));
        assert_eq!(program.atoms, atom + 1);
        assert_eq!(program.rules[0].head, ObjectiveLiteral(2 * atom));
    }
    for atom in (256..1_000).chain([1_000, 65_535, 65_536, 65_537, 65_791, 65_792]) {
        is_refused(Number::StrayCharacter, 0, format!("p{atom}."));
    }
}

#[test]
fn refusal_17_at_a_p_that_is_no_atom() {
    for typed in [
        "p", "p00", "p01", "p007", "p0255", "p256", "p2550", "p-1", "p 1", "px",
    ] {
        is_refused(Number::StrayCharacter, 0, format!("{typed}."));
        is_refused(Number::StrayCharacter, 6, format!("p1 :- {typed}."));
        is_refused(Number::StrayCharacter, 10, format!("abducible {typed}."));
        // Also where an atom would not have been allowed.
        is_refused(Number::StrayCharacter, 3, format!("p1 {typed}."));
        is_refused(Number::StrayCharacter, 3, format!("p1.{typed}"));
    }
    is_refused(Number::StrayCharacter, 0, "P1.");
}

#[test]
fn refusal_17_at_a_number_of_any_length() {
    // 2^32, 2^64 and 2^128, and each with 1 more.
    let numbers = [
        "4294967296",
        "4294967297",
        "18446744073709551616",
        "18446744073709551617",
        "340282366920938463463374607431768211456",
        "340282366920938463463374607431768211457",
    ];
    for number in numbers {
        is_refused(Number::StrayCharacter, 4, format!("p1. p{number}."));
    }
    for digit in ["0", "1", "9"] {
        let number = digit.repeat(1_000_000);
        is_refused(Number::StrayCharacter, 4, format!("p1. p{number}."));
    }
}

#[test]
fn refusal_17_at_a_word_that_is_cut() {
    for word in ["n", "no", "No", "NOT", "n ot", "no t"] {
        is_refused(Number::StrayCharacter, 6, format!("p1 :- {word} p0."));
        is_refused(Number::StrayCharacter, 6, format!("p1 :- {word}"));
    }
    for word in [
        "f",
        "fals",
        "fal se",
        "False",
        "a",
        "abducibl",
        "abduc ible",
        "Abducible",
    ] {
        is_refused(Number::StrayCharacter, 4, format!("p1. {word} p0."));
        is_refused(Number::StrayCharacter, 4, format!("p1. {word}"));
    }
    for word in [":", ": -", ":\n-", "::-", ":p0"] {
        is_refused(Number::StrayCharacter, 3, format!("p1 {word} p0."));
        is_refused(Number::StrayCharacter, 3, format!("p1 {word}"));
    }
}

#[test]
fn refusal_17_at_every_other_character() {
    for byte in 0..=255 {
        let text = [b'p', b'1', b'.', byte];
        match byte {
            0x20 | 0x0D | 0x0A => {
                accepted(text);
            }
            b'-' => is_refused(Number::BrokenLine, 4, text),
            b',' | b'.' => is_refused(Number::BrokenLine, 3, text),
            _ => is_refused(Number::StrayCharacter, 3, text),
        }
    }
    // A tab, a NUL, a byte-order mark and what looks like a space.
    is_refused(Number::StrayCharacter, 2, "p1\t.");
    is_refused(Number::StrayCharacter, 3, "p1.\0");
    is_refused(Number::StrayCharacter, 0, "\u{FEFF}p1.");
    is_refused(Number::StrayCharacter, 2, "p1\u{A0}:- p0.");
    is_refused(Number::StrayCharacter, 4, "p1. % a remark");
}

#[test]
fn refusal_18_at_the_first_token_that_is_not_allowed() {
    // Where a line begins.
    is_refused(Number::BrokenLine, 0, ".");
    is_refused(Number::BrokenLine, 3, "p1..");
    is_refused(Number::BrokenLine, 1, " , p1.");
    is_refused(Number::BrokenLine, 0, ":- p1.");
    is_refused(Number::BrokenLine, 0, "not p1.");
    // After a minus, and after `not`.
    is_refused(Number::BrokenLine, 1, "--p1.");
    is_refused(Number::BrokenLine, 2, "- not p1.");
    is_refused(Number::BrokenLine, 1, "-false.");
    is_refused(Number::BrokenLine, 1, "-.");
    is_refused(Number::BrokenLine, 10, "p1 :- not not p0.");
    is_refused(Number::BrokenLine, 7, "p1 :- -not p0.");
    is_refused(Number::BrokenLine, 11, "p1 :- not --p0.");
    is_refused(Number::BrokenLine, 10, "p1 :- not false.");
    is_refused(Number::BrokenLine, 9, "p1 :- not, p0.");
    // After the head.
    is_refused(Number::BrokenLine, 2, "p1, p2 :- p0.");
    is_refused(Number::BrokenLine, 3, "p1 not p0.");
    is_refused(Number::BrokenLine, 2, "p1-p0.");
    is_refused(Number::BrokenLine, 6, "false p1.");
    is_refused(Number::BrokenLine, 6, "false -p1.");
    is_refused(Number::BrokenLine, 3, "p1 abducible p1.");
    // In the body, which has at least one literal.
    is_refused(Number::BrokenLine, 6, "p1 :- .");
    is_refused(Number::BrokenLine, 8, "false:- .");
    is_refused(Number::BrokenLine, 6, "p1 :- , p0.");
    is_refused(Number::BrokenLine, 10, "p1 :- p0, .");
    is_refused(Number::BrokenLine, 9, "p1 :- p0,, p0.");
    is_refused(Number::BrokenLine, 9, "p1 :- p0 p0.");
    is_refused(Number::BrokenLine, 9, "p1 :- p0 :- p0.");
    is_refused(Number::BrokenLine, 6, "p1 :- false.");
    is_refused(Number::BrokenLine, 6, "p1 :- abducible p0.");
    is_refused(Number::BrokenLine, 9, "false :- false.");
    // After `abducible`, where a bare atom stands alone.
    is_refused(Number::BrokenLine, 10, "abducible -p1.");
    is_refused(Number::BrokenLine, 10, "abducible not p1.");
    is_refused(Number::BrokenLine, 10, "abducible false.");
    is_refused(Number::BrokenLine, 10, "abducible abducible p1.");
    is_refused(Number::BrokenLine, 9, "abducible.");
    is_refused(Number::BrokenLine, 12, "abducible p1, p2.");
    is_refused(Number::BrokenLine, 13, "abducible p1 p2.");
    is_refused(Number::BrokenLine, 13, "abducible p1 :- p2.");
    // A line ends with its full stop, not with its line end.
    is_refused(Number::BrokenLine, 4, "p1\r\np2\r\n");
    is_refused(Number::BrokenLine, 13, "abducible p1\nabducible p2.");
}

#[test]
fn refusal_18_at_the_end_inside_a_line() {
    let begun = [
        "p1",
        "-",
        "-p1",
        "false",
        "abducible",
        "abducible p1",
        "p1 :-",
        "p1 :- p0",
        "p1 :- p0,",
        "p1 :- not",
        "p1 :- -",
        "p1 :- not -",
        "false :- p1",
    ];
    for text in begun {
        is_refused(Number::BrokenLine, text.len(), text);
        let after_lines = format!("p1.\np2.\n{text}");
        is_refused(Number::BrokenLine, 8 + text.len(), after_lines);
        // Blanks at the end included.
        let with_blanks = format!("{text} \r\n ");
        is_refused(Number::BrokenLine, text.len() + 4, with_blanks);
    }
}

#[test]
fn every_cut_of_a_line_is_refused_where_it_is_cut() {
    let text = "p3 :- -p1, not p0.";
    let words = [(1, 0), (4, 3), (8, 7), (12, 11), (13, 11), (16, 15)];
    for length in 1..text.len() {
        let cut = &text[..length];
        match words.iter().find(|(end, _)| *end == length) {
            Some(&(_, start)) => is_refused(Number::StrayCharacter, start, cut),
            None => is_refused(Number::BrokenLine, length, cut),
        }
    }
}

#[test]
fn the_earlier_of_17_and_18_decides() {
    is_refused(Number::StrayCharacter, 3, "p1 ? p2.");
    is_refused(Number::BrokenLine, 3, "p1 p2 ? .");
    is_refused(Number::StrayCharacter, 3, "p1 ?. p2 p3.");
    is_refused(Number::BrokenLine, 0, ". ?");
    is_refused(Number::StrayCharacter, 0, "? .");
    is_refused(Number::BrokenLine, 9, "p1 :- p0 p25 p256.");
    is_refused(Number::StrayCharacter, 9, "p1 :- p0 p256 p25.");
    // The end comes after any character.
    is_refused(Number::StrayCharacter, 6, "p1 :- x");
    is_refused(Number::StrayCharacter, 2, "p1?");
    is_refused(Number::StrayCharacter, 3, "p1.?");
}

#[test]
fn sixteen_different_abducibles_pass_and_seventeen_do_not() {
    let text = seventeen_abducibles();
    let place = 10 * 13 + 6 * 14;
    let most: Vec<Atom> = (0..16).map(Atom).collect();
    assert_eq!(accepted(&text[..place]).abducibles, most);
    is_refused(Number::Misfit, place, &text);
    is_refused(Number::Misfit, place + 2, format!("\r\n{text}"));

    // Those named again do not count, and the order is that of the text.
    let again = format!("{0}{0}", &text[..place]);
    assert_eq!(accepted(&again).abducibles, most);
    is_refused(Number::Misfit, 2 * place, format!("{again}abducible p99."));
    let lines = format!("{again} abducible p99. abducible p16. abducible p0.");
    is_refused(Number::Misfit, 2 * place + 1, lines);
    let mut falling: Vec<String> = (0..17).map(|atom| format!("abducible p{atom}.")).collect();
    falling.reverse();
    let place = 7 * 14 + 9 * 13;
    is_refused(Number::Misfit, place, falling.concat());
    falling.insert(1, falling[0].clone());
    is_refused(Number::Misfit, place + 14, falling.concat());
}

#[test]
fn sixteen_literals_pass_and_seventeen_do_not() {
    for head in ["p1", "-p1"] {
        let program = accepted(with_literals(head, 16));
        assert_eq!(program.rules[0].body, body_literals(&[1; 16]));
        is_refused(Number::Misfit, 0, with_literals(head, 17));
    }
    let program = accepted(with_literals("false", 16));
    assert_eq!(program.integrity_bodies, [body_literals(&[1; 16])]);
    is_refused(Number::Misfit, 0, with_literals("false", 17));
    // The place is that of the line, whatever stands before it.
    let line = with_literals("-p1", 17);
    is_refused(Number::Misfit, 11, format!("p0.\nfalse.\n{line}p1."));
    is_refused(Number::Misfit, 6, format!("p0. \n {line}"));
}

#[test]
fn no_length_of_a_body_wraps_round() {
    let counts = [
        18, 127, 128, 255, 256, 32_766, 32_767, 32_768, 32_783, 32_784,
    ];
    for count in counts
        .into_iter()
        .chain([40_000, 65_535, 65_536, 65_552, 1_000_000])
    {
        is_refused(
            Number::Misfit,
            4,
            format!("p0. {}", with_literals("p1", count)),
        );
        is_refused(
            Number::Misfit,
            4,
            format!("p0. {}", with_literals("false", count)),
        );
    }
}

#[test]
fn refusal_8_fixed_fault() {
    is_refused(Number::FixedFault, 14, "abducible p1. p1.");
    is_refused(Number::FixedFault, 14, "abducible p1. -p1 :- p0.");
    // An abducible declared after a rule counts for it.
    is_refused(Number::FixedFault, 1, " p1. p0. abducible p1.");
    is_refused(Number::FixedFault, 4, "p0. - p1 :- p1. abducible p1.");
    // The first such rule is refused.
    is_refused(
        Number::FixedFault,
        4,
        "p0. p2. p1. abducible p1. abducible p2.",
    );
    // In bodies they may stand.
    is_imported(
        "p0 :- p1, not -p1. false :- -p1. abducible p1.",
        &[
            "01 0001 01 02 0002 0002 03 0002 0001",
            "04 0006 0000 0004 0007",
            "05 0002 0006",
            END,
        ],
    );
}

#[test]
fn refusal_9_overfull() {
    let most = "p0.\n".repeat(1024);
    assert_eq!(accepted(&most).rules.len(), 1024);
    is_refused(Number::Overfull, 4096, format!("{most}p0."));
    is_refused(Number::Overfull, 4097, format!("{most}\n-p3 :- p0.p1."));
    // Abducibles and integrity rules are not counted with the rules.
    let others = format!("false.abducible p1.{most}false.");
    let program = accepted(&others);
    assert_eq!(
        (program.rules.len(), program.integrity_bodies.len()),
        (1024, 2)
    );
    is_refused(Number::Overfull, 4096 + 25, format!("{others}p0."));

    let most = "false.".repeat(256);
    assert_eq!(accepted(&most).integrity_bodies.len(), 256);
    is_refused(Number::Overfull, 1536, format!("{most}false."));
    is_refused(Number::Overfull, 1540, format!("{most}p0.\nfalse :- p0."));
    // Far above, the place is still that of the first one too many.
    is_refused(Number::Overfull, 4096, "p0.\n".repeat(70_000));
    is_refused(Number::Overfull, 1536, "false.".repeat(70_000));
}

#[test]
fn the_most_that_a_text_can_hold() {
    let abducibles: String = (240..256)
        .map(|atom| format!("abducible p{atom}.\n"))
        .collect();
    let rules = with_literals("p1", 16).repeat(1024);
    let integrity_rules = with_literals("false", 16).repeat(256);
    let text = [integrity_rules, abducibles, rules].concat();
    let length = 4 + 5 + (3 + 32) + 1024 * (3 + 34) + 256 * (3 + 32) + 3;
    let program = accepted(&text);
    assert_eq!(encode_file(&program).len(), length);
    assert_eq!(program.atoms, 256);
    buffer_stays(ImportRefusal::ShortFile, text.as_bytes(), length - 1);
}

#[test]
fn the_numbers_of_17_and_18_come_before_those_of_the_file() {
    let refused = [
        seventeen_abducibles(),
        with_literals("p1", 17),
        with_literals("false", 17),
        "p1. abducible p1.".to_string(),
        "p0.".repeat(1025),
        "false.".repeat(257),
    ];
    for text in refused {
        is_refused(Number::StrayCharacter, text.len(), format!("{text}?"));
        is_refused(Number::BrokenLine, text.len(), format!("{text}."));
        is_refused(Number::BrokenLine, text.len() + 2, format!("{text}p1"));
        is_refused(Number::StrayCharacter, text.len(), format!("{text}p256."));
    }
}

#[test]
fn the_numbers_of_the_file_come_in_the_order_of_its_fields() {
    let seventeen = seventeen_abducibles();
    let (long_rule, long_integrity) = (with_literals("p99", 17), with_literals("false", 17));
    let (rules, integrity_rules) = ("p99.".repeat(1025), "false.".repeat(257));
    let place_in_seventeen = 10 * 13 + 6 * 14;

    // The abducibles before the rules and the integrity rules.
    for before in [&long_rule, &rules, &integrity_rules, &long_integrity] {
        let place = before.len() + place_in_seventeen;
        is_refused(Number::Misfit, place, format!("{before}{seventeen}"));
    }
    is_refused(
        Number::Misfit,
        3 + place_in_seventeen,
        format!("p1.{seventeen}"),
    );
    // The rules before the integrity rules.
    for before in [&integrity_rules, &long_integrity] {
        let start = before.len();
        is_refused(Number::Misfit, start, format!("{before}{long_rule}"));
        is_refused(
            Number::Overfull,
            start + 1024 * 4,
            format!("{before}{rules}"),
        );
        let fixed = format!("{before}p99.abducible p99.");
        is_refused(Number::FixedFault, start, fixed);
    }
    // An earlier rule before a later one.
    let fixed = "p1.abducible p1.";
    is_refused(Number::Misfit, 0, format!("{long_rule}{fixed}"));
    is_refused(Number::FixedFault, 0, format!("{fixed}{long_rule}"));
    is_refused(Number::Misfit, 0, format!("{long_rule}{rules}"));
    is_refused(Number::FixedFault, 0, format!("{fixed}{rules}"));
    is_refused(
        Number::Overfull,
        1024 * 4,
        format!("{rules}{long_rule}{fixed}"),
    );
    is_refused(Number::Misfit, 3, format!("p1.{long_rule}{long_rule}"));
    // An earlier integrity rule before a later one.
    is_refused(
        Number::Misfit,
        0,
        format!("{long_integrity}{integrity_rules}"),
    );
    is_refused(
        Number::Overfull,
        256 * 6,
        format!("{integrity_rules}{long_integrity}"),
    );
}

#[test]
fn the_tests_of_a_rule_come_in_order() {
    let long_fixed = with_literals("p1", 17);
    let declared = "abducible p1.";
    // Count (9) before length (3), length before head (8).
    let most = "p0.".repeat(1024);
    is_refused(
        Number::Overfull,
        3072,
        format!("{most}{long_fixed}{declared}"),
    );
    is_refused(Number::Overfull, 3072, format!("{most}p1.{declared}"));
    is_refused(Number::Misfit, 3, format!("p0.{long_fixed}{declared}"));
    is_refused(Number::FixedFault, 3, format!("p0.p1.{declared}"));
    // And of an integrity rule.
    let most = "false.".repeat(256);
    let long = with_literals("false", 17);
    is_refused(Number::Overfull, 1536, format!("{most}{long}"));
}

#[test]
fn a_short_buffer_is_refused_11() {
    assert_eq!(ImportRefusal::ShortFile.number(), 11);
    let text = b"p3 :- -p1, not p0.";
    for length in 0..24 {
        buffer_stays(ImportRefusal::ShortFile, text, length);
    }
    assert_eq!(import_text(text, &mut pattern(24)), Ok(24));
    for length in 0..15 {
        buffer_stays(ImportRefusal::ShortFile, b"", length);
    }
}

#[test]
fn a_refusal_names_the_text() {
    let refusal = import(b"p3p4.").unwrap_err();
    assert_eq!(refusal.to_string(), "refused 18 text 2");
    assert_eq!(ImportRefusal::Text(refusal).number(), 18);
    let refusal = import(b"abducibles p1.").unwrap_err();
    assert_eq!(refusal.to_string(), "refused 17 text 9");
    assert_eq!(ImportRefusal::Text(refusal).number(), 17);
    let refusal = import(b"p0. p1. abducible p1.").unwrap_err();
    assert_eq!(refusal.to_string(), "refused 8 text 4");
    assert_eq!(ImportRefusal::Text(refusal).number(), 8);
}

#[test]
fn a_long_text_is_read() {
    let blanks = " \r\n".repeat(1_000_000);
    let text = format!("{blanks}p1 :-{blanks}p0{blanks}.{blanks}");
    is_imported(&text, &[TWO_ATOMS, "04 0004 0002 0000", END]);
    is_refused(Number::BrokenLine, text.len() + 3, format!("{text}p1 "));
    let declared = "abducible p1.".repeat(300_000);
    assert_eq!(accepted(declared).abducibles, [Atom(1)]);
}
