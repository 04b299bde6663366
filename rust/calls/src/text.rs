//! Papers of programs and queries as document 01 writes them in its reference
//! calls. Their bytes are put here, and so come from no finder.

/// What the constant u of Card 5 of document 02 is written as.
const UNDEFINED: u16 = 0xFFFF;

/// The file of the program with these atoms, numbered from 0 in order, of which
/// these are abducible. Rules are parted by semicolons; the head of an
/// integrity rule is falsum. In a body the word undefined is the constant u,
/// unless an atom has that name.
pub fn file(atoms: &str, abducibles: &str, rules: &str) -> Vec<u8> {
    let atoms = Atoms::of(atoms);
    let faults = abducibles.split_whitespace();
    let mut faults: Vec<u16> = faults.map(|name| atoms.number(name)).collect();
    faults.sort_unstable();
    let mut file = vec![0x01, 0, 1, 1];
    file.extend(field(0x02, &[atoms.0.len() as u16]));
    file.extend(field(0x03, &faults));

    let mut integrity_rules = vec![];
    let rules = rules.split(';').map(str::trim);
    for rule in rules.filter(|rule| !rule.is_empty()) {
        let (head, body) = rule.split_once(":-").unwrap_or((rule, ""));
        let body = atoms.body(body);
        match head.trim() {
            "falsum" => integrity_rules.extend(field(0x05, &body)),
            head => file.extend(field(0x04, &[vec![atoms.objective(head)], body].concat())),
        }
    }
    file.extend(integrity_rules);
    file.extend(field(0x7F, &[]));
    file
}

/// The sheet of a query over the atoms: literals parted by commas.
pub fn sheet(atoms: &str, query: &str) -> Vec<u8> {
    let literals = Atoms::of(atoms).literals(query);
    [field(0x06, &literals), field(0x7F, &[])].concat()
}

/// The names of atoms, by number.
struct Atoms<'t>(Vec<&'t str>);

impl<'t> Atoms<'t> {
    fn of(names: &'t str) -> Self {
        Atoms(names.split_whitespace().collect())
    }

    fn position(&self, name: &str) -> Option<usize> {
        self.0.iter().position(|other| *other == name)
    }

    fn number(&self, name: &str) -> u16 {
        let number = self.position(name);
        number.unwrap_or_else(|| panic!("`{name}` is no atom")) as u16
    }

    /// 2a is atom a, 2a+1 its explicit negation.
    fn objective(&self, text: &str) -> u16 {
        match text.strip_prefix('-') {
            Some(name) => 2 * self.number(name) + 1,
            None => 2 * self.number(text),
        }
    }

    /// 2o is objective literal o, 2o+1 is not(o).
    fn literal(&self, text: &str) -> u16 {
        match text.strip_prefix("not ") {
            Some(objective) => 2 * self.objective(objective.trim_start()) + 1,
            None => 2 * self.objective(text),
        }
    }

    fn literals(&self, text: &str) -> Vec<u16> {
        let literals = parted(text).into_iter();
        literals.map(|literal| self.literal(literal)).collect()
    }

    /// A literal or the constant u.
    fn body_literal(&self, text: &str) -> u16 {
        if text == "undefined" && self.position(text).is_none() {
            UNDEFINED
        } else {
            self.literal(text)
        }
    }

    fn body(&self, text: &str) -> Vec<u16> {
        let literals = parted(text).into_iter();
        literals.map(|literal| self.body_literal(literal)).collect()
    }
}

/// What the commas part.
fn parted(text: &str) -> Vec<&str> {
    if text.trim().is_empty() {
        return vec![];
    }
    text.split(',').map(str::trim).collect()
}

fn field(tag: u8, numbers: &[u16]) -> Vec<u8> {
    let mut field = vec![tag];
    field.extend((2 * numbers.len() as u16).to_be_bytes());
    field.extend(numbers.iter().flat_map(|number| number.to_be_bytes()));
    field
}

#[cfg(test)]
mod tests {
    use super::{file, sheet};

    #[test]
    fn text_is_numbered_as_document_01_does() {
        let atoms = "a b* c";
        let expected = [
            &[0x01, 0, 1, 1][..],
            &[0x02, 0, 2, 0, 3],
            &[0x03, 0, 4, 0, 0, 0, 1],
            &[0x04, 0, 6, 0, 5, 0, 0, 0, 7],
            &[0x04, 0, 2, 0, 4],
            &[0x05, 0, 2, 0, 2],
            &[0x7F, 0, 0],
        ];
        let found = file(atoms, "a b*", "-c :- a, not -b*; c; falsum :- -a");
        assert_eq!(found, expected.concat());
        let expected = [0x06, 0, 4, 0, 2, 0, 9, 0x7F, 0, 0];
        assert_eq!(sheet(atoms, "-a, not c"), expected);
        assert_eq!(sheet(atoms, ""), [0x06, 0, 0, 0x7F, 0, 0]);
    }

    #[test]
    fn undefined_is_the_constant_in_a_body_unless_it_is_an_atom() {
        let expected = [
            &[0x01, 0, 1, 1, 0x02, 0, 2, 0, 1, 0x03, 0, 0][..],
            &[0x04, 0, 8, 0, 0, 0xFF, 0xFF, 0, 1, 0xFF, 0xFF],
            &[0x05, 0, 2, 0xFF, 0xFF],
            &[0x7F, 0, 0],
        ];
        let rules = "a :- undefined, not a, undefined; falsum :- undefined";
        assert_eq!(file("a", "", rules), expected.concat());
        let expected = [
            &[0x01, 0, 1, 1, 0x02, 0, 2, 0, 1, 0x03, 0, 0][..],
            &[0x04, 0, 4, 0, 0, 0, 0],
            &[0x7F, 0, 0],
        ];
        let found = file("undefined", "", "undefined :- undefined");
        assert_eq!(found, expected.concat());
    }

    #[test]
    #[should_panic(expected = "`undefined` is no atom")]
    fn a_query_has_no_constant() {
        sheet("a", "undefined");
    }

    #[test]
    fn integrity_rules_come_last_and_abducibles_rise() {
        let expected = [
            &[0x01, 0, 1, 1, 0x02, 0, 2, 0, 3][..],
            &[0x03, 0, 4, 0, 0, 0, 1],
            &[0x04, 0, 2, 0, 4],
            &[0x05, 0, 0],
            &[0x7F, 0, 0],
        ];
        assert_eq!(file("a b c", "b a", "falsum; c;"), expected.concat());
    }
}
