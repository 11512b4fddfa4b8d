//! The C interface of the proved library, as `include/celerycrag.h` has it.
//! tests/prototypes.rs compares these lines with the header and with the
//! library's source. It reads this file as a text: the macro, and the calls.

use crate::Record;

/// Declares the calls: each takes the plan's five numbers and four parts, a
/// part as a pointer and a length, and then its own arguments.
macro_rules! calls {
    ($($name:ident($($own:ident: $type:ty),*);)*) => {
        extern "C" {
            $(pub(crate) fn $name(
                p: usize,
                s: usize,
                n: usize,
                m: usize,
                t: usize,
                radices: *const u8,
                radices_len: usize,
                weights: *const u8,
                weights_len: usize,
                tables: *const u8,
                tables_len: usize,
                d: *const u8,
                d_len: usize,
                $($own: $type),*
            ) -> u8;)*
        }
    };
}

calls! {
    celery_check();
    celery_row(entry: usize, row: *mut u8, row_len: usize);
    celery_test(store: *const u8, store_len: usize);
    celery_file(
        store: *mut u8,
        store_len: usize,
        entry: usize,
        value: usize,
        column: *mut usize
    );
    celery_file_recorded(
        store: *mut u8,
        store_len: usize,
        work: *mut u8,
        work_len: usize,
        records: *mut Record,
        records_len: usize,
        count: *mut usize,
        entry: usize,
        value: usize,
        column: *mut usize
    );
    celery_withdraw(
        store: *mut u8,
        store_len: usize,
        work: *mut u8,
        work_len: usize,
        records: *mut Record,
        records_len: usize,
        count: *mut usize,
        entry: usize,
        value: *mut u16
    );
    celery_coefficients(store: *const u8, store_len: usize, beta: *mut u8, beta_len: usize);
    celery_settle(
        store: *const u8,
        store_len: usize,
        entry: usize,
        residue: *mut u8,
        column: *mut usize
    );
    celery_general(work: *mut u8, work_len: usize, general: *mut u8);
    celery_to_half(full: *const u8, full_len: usize, half: *mut u8, half_len: usize);
    celery_to_full(half: *const u8, half_len: usize, full: *mut u8, full_len: usize);
    celery_check_writing(beta: *const u8, beta_len: usize, steps: *const u16, steps_len: usize);
    celery_write(
        beta: *const u8,
        beta_len: usize,
        steps: *mut u16,
        steps_len: usize,
        written: *mut usize
    );
    celery_run(
        steps: *const u16,
        steps_len: usize,
        digits: *const u8,
        digits_len: usize,
        y: *mut u8,
        bootstraps: *mut usize
    );
    celery_worst_norm(beta: *const u8, beta_len: usize, norm: *mut usize);
    celery_read_steps(steps: *const u16, steps_len: usize, beta: *mut u8, beta_len: usize);
    celery_read_listing(
        text: *const u8,
        text_len: usize,
        beta: *mut u8,
        beta_len: usize,
        line: *mut usize
    );
}
