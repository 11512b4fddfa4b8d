//! The calls on a store of a build of the library, opened as a shared object, so
//! that two builds can be timed in one process: `run-bench` links both alike, since
//! in short calls it counts where the code lies.

use celerycrag::raw::Lent;
use celerycrag::{Plan, Store};
use std::ffi::{c_char, c_int, c_void, CStr, CString};
use std::mem::transmute_copy;

extern "C" {
    fn dlopen(file: *const c_char, mode: c_int) -> *mut c_void;
    fn dlsym(object: *mut c_void, name: *const c_char) -> *mut c_void;
}
/// All names are resolved at once; none is lent to the rest of the process.
const RTLD_NOW: c_int = 2;

/// A call as `include/celerycrag.h` has it: the plan, then its own.
macro_rules! call_of {
    ($($own:ty),*) => {
        unsafe extern "C" fn(
            usize, usize, usize, usize, usize,
            *const u8, usize, *const u8, usize, *const u8, usize, *const u8, usize,
            $($own),*
        ) -> u8
    };
}

/// Makes a call with the plan, then its own arguments.
//
// SAFETY, for each use: every pointer goes with the length of its own slice, which
// is all that the header asks; see `raw`.
macro_rules! call {
    ($call:expr, $plan:expr, $($own:expr),*) => {{
        let plan: Lent = $plan;
        unsafe {
            $call(
                plan.p, plan.s, plan.n, plan.m, plan.t,
                plan.radices.as_ptr(), plan.radices.len(),
                plan.weights.as_ptr(), plan.weights.len(),
                plan.tables.as_ptr(), plan.tables.len(),
                plan.d.as_ptr(), plan.d.len(),
                $($own),*
            )
        }
    }};
}

/// A build, by its calls on a store.
pub struct Build {
    /// Whether its stores have C rows of C + 1 bytes, as they had before 02, C-16.
    full: bool,
    check: call_of!(),
    test: call_of!(*const u8, usize),
    file: call_of!(*mut u8, usize, usize, usize, *mut usize),
    coefficients: call_of!(*const u8, usize, *mut u8, usize),
    settle: call_of!(*const u8, usize, usize, *mut u8, *mut usize),
}

/// A shared object.
struct Object(*mut c_void);

impl Object {
    fn open(name: &CStr) -> Object {
        // SAFETY: the C library's function, lent a text that ends in 0.
        let object = unsafe { dlopen(name.as_ptr(), RTLD_NOW) };
        assert!(!object.is_null(), "{name:?} cannot be opened");
        Object(object)
    }

    /// Whether the object has something under this name.
    fn has(&self, name: &CStr) -> bool {
        // SAFETY: as above.
        unsafe { !dlsym(self.0, name.as_ptr()).is_null() }
    }

    /// What the object has under this name.
    ///
    /// # Safety
    /// It is of the type `Call`, which is a pointer to a function.
    unsafe fn get<Call>(&self, name: &CStr) -> Call {
        let found = dlsym(self.0, name.as_ptr());
        assert!(!found.is_null(), "there is no {name:?}");
        transmute_copy(&found)
    }
}

impl Build {
    /// Opens the shared object that the environment variable names, if any.
    pub fn open(variable: &str) -> Option<Build> {
        let name = CString::new(std::env::var(variable).ok()?).expect("a path");
        let object = Object::open(&name);
        // SAFETY: the object is a build of the header, which has these calls. Only
        // the length of a store has changed, and every build tests that.
        unsafe {
            Some(Build {
                full: !object.has(c"celery_to_half"),
                check: object.get(c"celery_check"),
                test: object.get(c"celery_test"),
                file: object.get(c"celery_file"),
                coefficients: object.get(c"celery_coefficients"),
                settle: object.get(c"celery_settle"),
            })
        }
    }

    /// The bytes of a store in the layout that this build takes.
    pub fn bytes(&self, store: &Store) -> Vec<u8> {
        match self.full {
            true => store.to_full_bytes().expect("a store of filings"),
            false => store.as_bytes().to_vec(),
        }
    }

    /// The store of bytes that this build left.
    pub fn store(&self, plan: &Plan, bytes: &[u8]) -> Store {
        let store = match self.full {
            true => Store::from_full_bytes(plan, bytes),
            false => Store::from_bytes(plan, bytes.to_vec()),
        };
        store.expect("a store of filings")
    }

    pub fn check(&self, plan: Lent) -> u8 {
        call!((self.check), plan,)
    }

    pub fn test(&self, plan: Lent, store: &[u8]) -> u8 {
        call!((self.test), plan, store.as_ptr(), store.len())
    }

    /// The number, and the column told.
    pub fn file(&self, plan: Lent, store: &mut [u8], entry: usize, value: usize) -> (u8, usize) {
        let (bytes, length, mut column) = (store.as_mut_ptr(), store.len(), usize::MAX);
        let number = call!((self.file), plan, bytes, length, entry, value, &mut column);
        (number, column)
    }

    pub fn coefficients(&self, plan: Lent, store: &[u8], beta: &mut [u8]) -> u8 {
        let (out, length) = (beta.as_mut_ptr(), beta.len());
        call!(
            (self.coefficients),
            plan,
            store.as_ptr(),
            store.len(),
            out,
            length
        )
    }

    /// The number, the residue and the column told.
    pub fn settle(&self, plan: Lent, store: &[u8], entry: usize) -> (u8, u8, usize) {
        let (mut residue, mut column) = (u8::MAX, usize::MAX);
        let (bytes, length) = (store.as_ptr(), store.len());
        let (out, told) = (&mut residue, &mut column);
        let number = call!((self.settle), plan, bytes, length, entry, out, told);
        (number, residue, column)
    }
}
