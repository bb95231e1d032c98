//! The functions of a checkout, as a shared library has them.

use std::ffi::{c_char, c_int, c_void, CString};

use judge::problem::Problem;

use crate::problems::{Case, Form};

extern "C" {
    fn dlopen(name: *const c_char, flags: c_int) -> *mut c_void;
    fn dlsym(library: *mut c_void, name: *const c_char) -> *mut c_void;
}

type Timed = unsafe extern "C" fn(
    u64, usize, usize,
    *const f64, usize, *const f64, usize, *const f64, usize, *const u16, usize,
    *mut f64, usize, *mut f64, usize,
) -> u64;

type Limit = unsafe extern "C" fn() -> usize;
pub type Root = unsafe extern "C" fn(f64) -> f64;
/// The number, its pattern, and the power of two of its root's least digit.
pub type Guess = unsafe extern "C" fn(f64, u64, u64) -> f64;

pub struct Library {
    dense: Timed,
    packed: Timed,
    split: Option<Timed>,
    /// The largest n and m that it takes.
    limit: usize,
    pub root: Root,
    pub guess: Guess,
}

impl Library {
    pub fn load(path: &str) -> Library {
        let name = CString::new(path).unwrap();
        let library = unsafe { dlopen(name.as_ptr(), 2) };
        assert!(!library.is_null(), "cannot load {path}");
        let found = |name: &str| {
            let name = CString::new(name).unwrap();
            let function = unsafe { dlsym(library, name.as_ptr()) };
            (!function.is_null()).then_some(function)
        };
        let needed = |name: &str| found(name).unwrap_or_else(|| panic!("{path} has no {name}"));
        unsafe {
            Library {
                dense: std::mem::transmute(needed("timed_dense")),
                packed: std::mem::transmute(needed("timed_packed")),
                split: found("timed_split").map(|f| std::mem::transmute(f)),
                limit: std::mem::transmute::<_, Limit>(needed("timed_limit"))(),
                root: std::mem::transmute(needed("timed_root")),
                guess: std::mem::transmute(needed("timed_guess")),
            }
        }
    }

    /// A run of the case, which answers the steps taken; none where the checkout is older than its form or its size.
    pub fn solve<'a>(&self, case: &'a Case) -> Option<impl Fn(u64, &Problem, &mut [f64], &mut [f64]) -> u64 + 'a> {
        let timed = match case.form {
            Form::Dense => Some(self.dense),
            Form::Packed => Some(self.packed),
            Form::Split => self.split,
        };
        let fits = case.n.max(case.m) <= self.limit;
        timed.filter(|_| fits).map(|timed| {
            move |steps: u64, p: &Problem, work: &mut [f64], cone_work: &mut [f64]| unsafe {
                timed(
                    steps, case.m, case.n,
                    p.c.as_ptr(), p.c.len(), p.a.as_ptr(), p.a.len(), p.b.as_ptr(), p.b.len(),
                    case.words.as_ptr(), case.words.len(),
                    work.as_mut_ptr(), work.len(), cone_work.as_mut_ptr(), cone_work.len(),
                )
            }
        })
    }
}
