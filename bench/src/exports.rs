//! The functions of crates/exports, declared by hand: nothing compares these lines with the Rattle source. Each asks only for
//! memory of the caller's own, which a reference always is, so each is safe to call.

/// A message: kind, tag, counter, client, entry.
pub type Fields = [u64; 5];

/// Settings: f, n, the number of clients, and bit k − 1 for a faulty server k.
#[derive(Clone, Copy, Debug, PartialEq, Eq)]
#[allow(missing_docs)] // the fields say what they are
pub struct Setup {
    pub f: u32,
    pub n: u32,
    pub clients: u32,
    pub faulty: u32,
}

mod c {
    use super::Fields;

    // A slice is a pointer and a length.
    extern "C" {
        pub fn exports_pack(fields: *const Fields, out: *mut u8, length: usize) -> u32;
        pub fn exports_unpack(bytes: *const u8, length: usize, fields: *mut Fields) -> u32;
        pub fn exports_run(
            f: u32,
            n: u32,
            clients: u32,
            faulty: u32,
            steps: *const u64,
            steps_length: usize,
            out: *mut u64,
            out_length: usize,
        ) -> u32;
        pub fn exports_run_by_steps(
            f: u32,
            n: u32,
            clients: u32,
            faulty: u32,
            steps: *const u64,
            steps_length: usize,
            out: *mut u64,
            out_length: usize,
        ) -> u32;
    }
}

/// `message::pack`: 0, or the refusal's number.
pub fn pack(fields: &Fields, out: &mut [u8]) -> u32 {
    unsafe { c::exports_pack(fields, out.as_mut_ptr(), out.len()) }
}

/// `message::unpack`: 0, or the refusal's number.
pub fn unpack(bytes: &[u8], fields: &mut Fields) -> u32 {
    unsafe { c::exports_unpack(bytes.as_ptr(), bytes.len(), fields) }
}

/// `system::run`, five numbers a step and two an answer: 0, or the number of the setup's refusal.
pub fn run(setup: Setup, steps: &[u64], out: &mut [u64]) -> u32 {
    let Setup { f, n, clients, faulty } = setup;
    unsafe { c::exports_run(f, n, clients, faulty, steps.as_ptr(), steps.len(), out.as_mut_ptr(), out.len()) }
}

/// The same run, each step through `system::step`.
pub fn run_by_steps(setup: Setup, steps: &[u64], out: &mut [u64]) -> u32 {
    let Setup { f, n, clients, faulty } = setup;
    unsafe { c::exports_run_by_steps(f, n, clients, faulty, steps.as_ptr(), steps.len(), out.as_mut_ptr(), out.len()) }
}
