//! How much stack a call takes: a thread makes it on memory that was filled
//! with a pattern, and what is no longer the pattern was used.

use std::ffi::{c_int, c_ulong, c_void};
use std::ptr::null_mut;

use compare::words::Words;
use plain::Held;

use crate::files::Papers;
use crate::finders::{Buffers, Finders};
use crate::searching::fresh;

/// What a call may take.
const BOUND: usize = 256 << 10;

/// What the thread has, as words.
const STACK_WORDS: usize = (4 << 20) / size_of::<u64>();
const PATTERN: u64 = 0xA5C3_5A3C_96E1_781E;

pub fn print(finders: &Finders, papers: &Papers) {
    let nothing = used_by(|| {});
    println!(
        "\nThe stack of a call on the {} file, beside the {} of a thread that does nothing",
        papers.name,
        kilobytes(nothing)
    );
    for finder in finders.libraries() {
        let mut buffers = Buffers::new();
        let mut words = [Words::default(); 2];
        let judging = used_by(|| {
            let last = papers.scenarios - 1;
            words[0] = finder.judge(papers, last, &mut buffers);
        });
        let start = fresh(finder, papers, Held::NONE);
        let searching = used_by(|| {
            words[1] = finder.continue_search(papers, start, u32::MAX, &mut buffers);
        });
        let are_accepted = words.iter().all(|words| words[0] == 0);
        assert!(are_accepted, "the calls are accepted");
        for (what, used) in [("judging", judging), ("a whole search", searching)] {
            let used = used - nothing;
            let verdict = if used < BOUND { "under" } else { "NOT UNDER" };
            let (name, used) = (finder.name(), kilobytes(used));
            println!("    {what:20}{name:10}{used:>12}, {verdict} 256 KiB");
        }
    }
}

fn kilobytes(bytes: usize) -> String {
    format!("{:.1} KiB", bytes as f64 / 1_024.0)
}

/// As the system's threads have it on Linux, or longer.
#[repr(C, align(16))]
struct Attributes([u8; 128]);

type Start = extern "C" fn(*mut c_void) -> *mut c_void;

extern "C" {
    fn pthread_attr_init(attributes: *mut Attributes) -> c_int;
    fn pthread_attr_setstack(attributes: *mut Attributes, low: *mut c_void, size: usize) -> c_int;
    fn pthread_attr_destroy(attributes: *mut Attributes) -> c_int;
    fn pthread_create(
        thread: *mut c_ulong,
        attributes: *const Attributes,
        start: Start,
        argument: *mut c_void,
    ) -> c_int;
    fn pthread_join(thread: c_ulong, answer: *mut *mut c_void) -> c_int;
}

/// A page of the stack, so that the memory begins and ends with one.
#[derive(Clone)]
#[repr(C, align(4096))]
struct Page([u64; PAGE_WORDS]);

const PAGE_WORDS: usize = 4_096 / size_of::<u64>();

/// The bytes of the stack that a thread used by doing this, which must not
/// panic.
fn used_by<F: FnOnce() + Send>(work: F) -> usize {
    extern "C" fn start<F: FnOnce()>(argument: *mut c_void) -> *mut c_void {
        // SAFETY: `used_by` hands over its work and waits for this thread.
        let work = unsafe { &mut *argument.cast::<Option<F>>() };
        work.take().expect("work that is done once")();
        null_mut()
    }

    let mut work = Some(work);
    let mut stack = vec![Page([PATTERN; PAGE_WORDS]); STACK_WORDS / PAGE_WORDS];
    let mut attributes = Attributes([0; 128]);
    let mut thread = 0;
    let done = |result| assert_eq!(result, 0, "a thread on this stack");
    // SAFETY: the attributes are initialized before they are used, and the
    // thread is made before it is joined. The stack is whole pages of memory
    // that nothing else uses until then, and so is the work.
    unsafe {
        done(pthread_attr_init(&mut attributes));
        let (low, size) = (stack.as_mut_ptr().cast(), size_of_val(&stack[..]));
        done(pthread_attr_setstack(&mut attributes, low, size));
        let argument = (&raw mut work).cast();
        done(pthread_create(
            &mut thread,
            &attributes,
            start::<F>,
            argument,
        ));
        done(pthread_join(thread, null_mut()));
        done(pthread_attr_destroy(&mut attributes));
    }
    // It grows downwards.
    let words = stack.iter().flat_map(|page| page.0);
    let unused = words.take_while(|&word| word == PATTERN).count();
    (STACK_WORDS - unused) * size_of::<u64>()
}

#[cfg(test)]
mod tests {
    use super::used_by;
    use std::hint::black_box;

    #[test]
    fn what_a_frame_takes_is_counted() {
        let nothing = used_by(|| {});
        let large = used_by(|| {
            let mut bytes = [7_u8; 200_000];
            black_box(&mut bytes);
        });
        let used = large - nothing;
        assert!((199_000..210_000).contains(&used), "{used} bytes");
    }
}
