//! Another build of the library, from a shared object:
//! `gcc -shared -o OTHER.so -Wl,--whole-archive libfinder_c.a -Wl,--no-whole-archive`
//!
//! It is opened by its path, as its functions have the names of those that are
//! linked. One from before there was finder_fresh is known by lacking it: its
//! finder_continue takes no masks. One that tells contradictions is known by its
//! verdict on one.

use std::ffi::{c_char, c_int, c_void, CStr, CString};
use std::fs::canonicalize;
use std::mem::transmute_copy;
use std::os::unix::ffi::OsStrExt;
use std::path::Path;

use compare::words::Words;
use finder::Record;
use plain::{Held, ObjectiveLiteral, Program, Rule};

use crate::files::Papers;
use crate::finders::{Buffers, Finder};

// As include/finder.h has them: a paper, a buffer or the list is a pointer and
// a length.
type Rest = unsafe extern "C" fn(*const u8, usize, *const u8, usize, *mut u64);
type WriteDual = unsafe extern "C" fn(*const u8, usize, *mut u8, usize, *mut u64);
type Judge = unsafe extern "C" fn(
    *const u8,
    usize,
    *const u8,
    usize,
    u32,
    *mut u8,
    usize,
    *mut u8,
    usize,
    *mut u64,
);
type Fresh = unsafe extern "C" fn(*const u8, usize, u16, u16, *mut u64);
type Continue = unsafe extern "C" fn(
    *const u8,
    usize,
    *const u8,
    usize,
    *mut u8,
    usize,
    *mut u32,
    usize,
    u32,
    u32,
    u16,
    u16,
    u32,
    *mut u64,
);

type ContinueWithoutMasks = unsafe extern "C" fn(
    *const u8,
    usize,
    *const u8,
    usize,
    *mut u8,
    usize,
    *mut u32,
    usize,
    u32,
    u32,
    u32,
    *mut u64,
);

extern "C" {
    fn dlopen(path: *const c_char, flags: c_int) -> *mut c_void;
    fn dlsym(object: *mut c_void, name: *const c_char) -> *mut c_void;
}

/// All is resolved at once, and nothing of it is seen by others.
const NOW_AND_LOCAL: c_int = 2;

pub struct Other {
    rest: Rest,
    write_dual: WriteDual,
    judge: Judge,
    searching: Searching,
    tells_contradictions: bool,
}

/// How it searches.
enum Searching {
    Holding {
        fresh: Fresh,
        continue_search: Continue,
    },
    WithoutMasks(ContinueWithoutMasks),
}

impl Other {
    /// Opens the shared object, which must be a build of the library. It stays
    /// open.
    pub fn open(path: &Path) -> Result<Self, String> {
        let told = |what: String| format!("{}: {what}", path.display());
        // A name without a folder would be looked for elsewhere.
        let whole = canonicalize(path).map_err(|error| told(error.to_string()))?;
        let bytes = CString::new(whole.as_os_str().as_bytes()).expect("a path has no 0");
        // SAFETY: the path ends with 0; opening a build of the library runs
        // nothing of it; each function has the type that goes with its name.
        let mut other = unsafe {
            let object = dlopen(bytes.as_ptr(), NOW_AND_LOCAL);
            if object.is_null() {
                return Err(told("not a shared object".to_string()));
            }
            Other {
                rest: function(object, c"finder_rest").map_err(told)?,
                write_dual: function(object, c"finder_write_dual").map_err(told)?,
                judge: function(object, c"finder_judge").map_err(told)?,
                searching: Searching::of(object).map_err(told)?,
                tells_contradictions: false,
            }
        };
        other.tells_contradictions = other.explains_a_contradiction();
        Ok(other)
    }

    /// Whether it tells an atom that is a fact as its negation is, with nothing
    /// asked for, as an explanation.
    fn explains_a_contradiction(&self) -> bool {
        let fact = |head| Rule {
            head: ObjectiveLiteral(head),
            body: vec![],
        };
        let program = Program {
            atoms: 1,
            abducibles: vec![],
            rules: vec![fact(0), fact(1)],
            integrity_bodies: vec![],
        };
        let papers = Papers::without_query("a contradiction", program);
        let [number, _, _, verdict, ..] = self.judge(&papers, 0, &mut Buffers::new());
        number == 0 && verdict == 1
    }
}

impl Searching {
    /// # Safety
    ///
    /// The object is open, and is a build of the library.
    unsafe fn of(object: *mut c_void) -> Result<Self, String> {
        const CONTINUE: &CStr = c"finder_continue";
        // SAFETY: the object is open; each function has the type that goes with
        // its name, that of finder_continue by whether there is finder_fresh.
        unsafe {
            Ok(match function(object, c"finder_fresh") {
                Ok(fresh) => Searching::Holding {
                    fresh,
                    continue_search: function(object, CONTINUE)?,
                },
                Err(_) => Searching::WithoutMasks(function(object, CONTINUE)?),
            })
        }
    }
}

/// The function of this name.
///
/// # Safety
///
/// The object is open, and F is the type of a pointer to that function.
unsafe fn function<F>(object: *mut c_void, name: &CStr) -> Result<F, String> {
    assert_eq!(size_of::<F>(), size_of::<*mut c_void>(), "a pointer");
    // SAFETY: the object is open and the name ends with 0.
    let address = unsafe { dlsym(object, name.as_ptr()) };
    if address.is_null() {
        return Err(format!("it has no {}", name.to_string_lossy()));
    }
    // SAFETY: that is what F is.
    Ok(unsafe { transmute_copy(&address) })
}

/// The calls are as safe as those of the crate `finder`: each slice is lent
/// with its own length, each buffer is lent alone, and `out` has eight words.
impl Finder for Other {
    fn name(&self) -> &'static str {
        "other"
    }

    fn rest(&self, papers: &Papers) -> Words {
        let Papers { file, sheet, .. } = papers;
        let mut out = Words::default();
        // SAFETY: see above.
        unsafe {
            (self.rest)(
                file.as_ptr(),
                file.len(),
                sheet.as_ptr(),
                sheet.len(),
                out.as_mut_ptr(),
            );
        }
        out
    }

    fn write_dual(&self, papers: &Papers, buffers: &mut Buffers) -> Words {
        let (file, dual) = (&papers.file, &mut buffers.dual);
        let mut out = Words::default();
        // SAFETY: see above.
        unsafe {
            (self.write_dual)(
                file.as_ptr(),
                file.len(),
                dual.as_mut_ptr(),
                dual.len(),
                out.as_mut_ptr(),
            );
        }
        out
    }

    fn judge(&self, papers: &Papers, scenario: u32, buffers: &mut Buffers) -> Words {
        let Papers { file, sheet, .. } = papers;
        let Buffers { dual, model, .. } = buffers;
        let mut out = Words::default();
        // SAFETY: see above.
        unsafe {
            (self.judge)(
                file.as_ptr(),
                file.len(),
                sheet.as_ptr(),
                sheet.len(),
                scenario,
                dual.as_mut_ptr(),
                dual.len(),
                model.as_mut_ptr(),
                model.len(),
                out.as_mut_ptr(),
            );
        }
        out
    }

    fn holds_faults(&self) -> bool {
        matches!(self.searching, Searching::Holding { .. })
    }

    fn tells_contradictions(&self) -> bool {
        self.tells_contradictions
    }

    fn fresh(&self, papers: &Papers, held: Held) -> Words {
        let file = &papers.file;
        let mut out = Words::default();
        match self.searching {
            // SAFETY: see above.
            Searching::Holding { fresh, .. } => unsafe {
                fresh(
                    file.as_ptr(),
                    file.len(),
                    held.assumed,
                    held.ruled,
                    out.as_mut_ptr(),
                );
            },
            // There the caller made the record itself: all of it is 0.
            Searching::WithoutMasks(_) => assert_eq!(held, Held::NONE, "it holds no faults"),
        }
        out
    }

    fn continue_search(
        &self,
        papers: &Papers,
        record: Record,
        allowance: u32,
        buffers: &mut Buffers,
    ) -> Words {
        let Papers { file, sheet, .. } = papers;
        let Buffers { dual, list, .. } = buffers;
        let mut out = Words::default();
        // SAFETY: see above.
        match self.searching {
            Searching::Holding {
                continue_search, ..
            } => unsafe {
                continue_search(
                    file.as_ptr(),
                    file.len(),
                    sheet.as_ptr(),
                    sheet.len(),
                    dual.as_mut_ptr(),
                    dual.len(),
                    list.as_mut_ptr(),
                    list.len(),
                    record.position,
                    record.found,
                    record.assumed,
                    record.ruled,
                    allowance,
                    out.as_mut_ptr(),
                );
            },
            Searching::WithoutMasks(continue_search) => unsafe {
                continue_search(
                    file.as_ptr(),
                    file.len(),
                    sheet.as_ptr(),
                    sheet.len(),
                    dual.as_mut_ptr(),
                    dual.len(),
                    list.as_mut_ptr(),
                    list.len(),
                    record.position,
                    record.found,
                    allowance,
                    out.as_mut_ptr(),
                );
            },
        }
        out
    }
}

#[cfg(test)]
mod tests {
    use super::*;
    use crate::files::seeded::SMALL;
    use crate::finders::{Finders, Linked};
    use crate::measuring::{is_judged_alike, Agreed};
    use crate::searching::{fresh, whole_holding};
    use std::process::{id, Command};
    use std::{env, fs};

    const ARCHIVE: &str = concat!(
        env!("CARGO_MANIFEST_DIR"),
        "/../../target/staticlib/libfinder_c.a"
    );

    /// What comes of a shared object that is linked with these arguments.
    fn opened(name: &str, arguments: &[&str]) -> Result<Other, String> {
        let path = env::temp_dir().join(format!("bench-{name}-{}.so", id()));
        let linking = Command::new("cc")
            .args(["-shared", "-o"])
            .arg(&path)
            .args(arguments)
            .status();
        assert!(linking.expect("cc, which links Rust as well").success());
        let opened = Other::open(&path);
        fs::remove_file(&path).expect("what was linked");
        opened
    }

    /// The arguments that link all of an archive.
    fn whole(archive: &str) -> [&str; 3] {
        ["-Wl,--whole-archive", archive, "-Wl,--no-whole-archive"]
    }

    /// Both libraries give the same to each call that holds no fault.
    fn expect_same(finders: &Finders) {
        let papers = SMALL.papers();
        let agreed = Agreed::new();
        for finder in finders.libraries() {
            let mut buffers = Buffers::new();
            let start = fresh(finder, &papers, Held::NONE);
            let words = [
                finder.rest(&papers),
                finder.write_dual(&papers, &mut buffers),
                finder.judge(&papers, 5, &mut buffers),
                finder.continue_search(&papers, start, 9, &mut buffers),
            ];
            agreed.expect(&(words, buffers), finder);
        }
        assert_eq!(finders.libraries().len(), 2);
    }

    #[test]
    fn another_build_of_the_library_answers() {
        let other = opened("whole", &whole(ARCHIVE)).expect("a library");
        assert!(other.holds_faults() && !other.tells_contradictions());
        let finders = Finders { other: Some(other) };
        expect_same(&finders);
        let papers = SMALL.papers();
        let held = Held {
            assumed: 1,
            ruled: 2,
        };
        let agreed = Agreed::new();
        for finder in finders.libraries() {
            agreed.expect(&whole_holding(finder, &papers, held), finder);
        }
    }

    /// The calls as they were before there were masks, over those that have them.
    const WITHOUT_MASKS: &str = "
#include <stddef.h>
#include <stdint.h>
void with_masks(const uint8_t *, size_t, const uint8_t *, size_t, uint8_t *, size_t, uint32_t *, size_t,
                uint32_t, uint32_t, uint16_t, uint16_t, uint32_t, uint64_t *);
void finder_continue(const uint8_t *file, size_t file_len, const uint8_t *sheet, size_t sheet_len, uint8_t *dual, size_t dual_len,
                     uint32_t *list, size_t list_len, uint32_t position, uint32_t found, uint32_t allowance, uint64_t *out)
{
    with_masks(file, file_len, sheet, sheet_len, dual, dual_len, list, list_len, position, found, 0, 0, allowance, out);
}
";

    /// The library with its symbols changed by these arguments of objcopy, and
    /// with this C beside it.
    fn over_the_library(name: &str, changing: &[&str], c: &str) -> Other {
        let own = |kind| env::temp_dir().join(format!("bench-{}-{name}.{kind}", id()));
        let (archive, source) = (own("a"), own("c"));
        let [archive_text, source_text] =
            [&archive, &source].map(|it| it.to_str().expect("a text"));
        fs::write(&source, c).expect("a file of its own");
        let renaming = Command::new("objcopy")
            .args(changing)
            .args([ARCHIVE, archive_text])
            .status();
        assert!(renaming
            .expect("objcopy, which comes with the linker")
            .success());
        let arguments = [&whole(archive_text)[..], &["-x", "c", source_text]].concat();
        let other = opened(name, &arguments).expect("a library");
        for path in [&archive, &source] {
            fs::remove_file(path).expect("what was written");
        }
        other
    }

    #[test]
    fn a_build_from_before_there_was_finder_fresh_answers() {
        let redefined = ["--redefine-sym", "finder_continue=with_masks"];
        let hidden = ["--localize-symbol", "finder_fresh"];
        let other = over_the_library("without", &[redefined, hidden].concat(), WITHOUT_MASKS);
        assert!(!other.holds_faults());
        expect_same(&Finders { other: Some(other) });
    }

    /// A verdict that is always 1.
    const TELLING: &str = "
#include <stddef.h>
#include <stdint.h>
void judge(const uint8_t *, size_t, const uint8_t *, size_t, uint32_t, uint8_t *, size_t, uint8_t *, size_t, uint64_t *);
void finder_judge(const uint8_t *file, size_t file_len, const uint8_t *sheet, size_t sheet_len, uint32_t scenario, uint8_t *dual, size_t dual_len,
                  uint8_t *model, size_t model_len, uint64_t *out)
{
    judge(file, file_len, sheet, sheet_len, scenario, dual, dual_len, model, model_len, out);
    out[3] = 1;
}
";

    #[test]
    fn verdicts_of_a_build_that_tells_contradictions_may_differ() {
        let redefined = ["--redefine-sym", "finder_judge=judge"];
        let other = over_the_library("telling", &redefined, TELLING);
        assert!(other.tells_contradictions());
        let papers = SMALL.papers();
        let judged = |finder: &dyn Finder| {
            let mut buffers = Buffers::new();
            (finder.judge(&papers, 0, &mut buffers), buffers)
        };
        let agreed = Agreed::new();
        agreed.expect(&judged(&Linked), &Linked);
        agreed.expect_told(&judged(&other), &other, is_judged_alike);
        assert_ne!(*agreed.answer(), judged(&other), "the verdict is another");
        let mut spoilt = judged(&other);
        spoilt.1.model[0] ^= 1;
        assert!(!is_judged_alike(agreed.answer(), &spoilt));
        spoilt = judged(&other);
        spoilt.0[4] += 1;
        assert!(!is_judged_alike(agreed.answer(), &spoilt));
    }

    #[test]
    fn what_is_no_library_is_told() {
        let why = |opened: Result<Other, String>| opened.err().expect("no library");
        let empty = why(opened("empty", &["-x", "c", "/dev/null"]));
        assert!(empty.ends_with("it has no finder_rest"), "{empty}");
        let archive = why(Other::open(Path::new(ARCHIVE)));
        assert!(archive.ends_with("not a shared object"), "{archive}");
        let missing = why(Other::open(Path::new("no/such.so")));
        assert!(missing.starts_with("no/such.so: No such file"), "{missing}");
    }
}
