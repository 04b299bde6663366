//! The functions of include/finder.h.

/// How many words a call writes to `out`.
pub const SLOTS: usize = 8;

extern "C" {
    pub fn finder_rest(
        file: *const u8,
        file_len: usize,
        sheet: *const u8,
        sheet_len: usize,
        out: *mut u64,
    );

    pub fn finder_write_dual(
        file: *const u8,
        file_len: usize,
        dual: *mut u8,
        dual_len: usize,
        out: *mut u64,
    );

    pub fn finder_judge(
        file: *const u8,
        file_len: usize,
        sheet: *const u8,
        sheet_len: usize,
        scenario: u32,
        dual: *mut u8,
        dual_len: usize,
        model: *mut u8,
        model_len: usize,
        out: *mut u64,
    );

    pub fn finder_fresh(file: *const u8, file_len: usize, assumed: u16, ruled: u16, out: *mut u64);

    pub fn finder_continue(
        file: *const u8,
        file_len: usize,
        sheet: *const u8,
        sheet_len: usize,
        dual: *mut u8,
        dual_len: usize,
        list: *mut u32,
        list_len: usize,
        position: u32,
        found: u32,
        assumed: u16,
        ruled: u16,
        allowance: u32,
        out: *mut u64,
    );

    pub fn finder_import(
        text: *const u8,
        text_len: usize,
        file: *mut u8,
        file_len: usize,
        out: *mut u64,
    );
}
