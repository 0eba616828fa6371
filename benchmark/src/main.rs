//! Measures the proved library beside the reference model, on the same cases in one run: steps per
//! second and depth of the stack, by the number of cabinets. A case's time is the least of several
//! runs, which leaves out what other programs on the machine take.

mod stack;

use reference::cases::{case_seed, make_case, Case, Wishes};
use reference::listing::listing;
use stack::depth;
use std::hint::black_box;
use std::process::ExitCode;
use std::time::{Duration, Instant};

const SEED: u64 = 1;
const CASES: u64 = 40;
const RUNS: usize = 7;
const HIGHEST_KIND: u8 = 14;

/// No listing is longer.
const TEXT_MOST: usize = 200_000;

/// As long as a step record.
const RECORD_LENGTH: usize = 6;

extern "C" {
    /// Of the crate `exported`. A slice is where it begins and how many octets it has.
    fn kirsodza_listing(
        file: *const u8,
        file_length: usize,
        list: *const u8,
        list_length: usize,
        out: *mut u8,
        out_length: usize,
    ) -> usize;
}

/// The library's listing of the case, from the start of the buffer, and its length.
fn library_listing(case: &Case, out: &mut [u8]) -> usize {
    let (file, list) = (&case.group, &case.steps);
    // SAFETY: the pointers and lengths are of slices that live during the call, the last of them
    // lent to nobody else, and the library is proved to stay within the slices that it is lent.
    unsafe {
        kirsodza_listing(
            file.as_ptr(),
            file.len(),
            list.as_ptr(),
            list.len(),
            out.as_mut_ptr(),
            out.len(),
        )
    }
}

/// Steps that were run, and on either side the time that they took and the octets of stack that
/// the deepest listing took.
#[derive(Clone, Copy, Default)]
struct Measured {
    steps: usize,
    library: Duration,
    model: Duration,
    library_stack: usize,
    model_stack: usize,
}

impl Measured {
    fn and(self, other: Measured) -> Measured {
        Measured {
            steps: self.steps + other.steps,
            library: self.library + other.library,
            model: self.model + other.model,
            library_stack: self.library_stack.max(other.library_stack),
            model_stack: self.model_stack.max(other.model_stack),
        }
    }

    fn row(&self, name: &str) -> String {
        let speed = |time: Duration| self.steps as f64 / time.as_secs_f64();
        let (library, model) = (speed(self.library), speed(self.model));
        let ratio = library / model;
        let speeds = format!("{library:15.0}  {model:15.0}  {ratio:7.4}");
        let stacks = format!("{:13}  {:11}", self.library_stack, self.model_stack);
        format!("{name:>3}  {:6}  {speeds}  {stacks}", self.steps)
    }
}

fn least_time(mut work: impl FnMut()) -> Duration {
    let time = |_| {
        let start = Instant::now();
        work();
        start.elapsed()
    };
    (0..RUNS).map(time).min().unwrap_or_default()
}

/// The time and depth of one case on either side, if both write the same listing.
fn measure(case: &Case, out: &mut [u8]) -> Option<Measured> {
    let length = library_listing(case, out);
    let expected = listing(&case.group, &case.steps, HIGHEST_KIND);
    if out.get(..length)? != expected.as_bytes() {
        return None;
    }
    let mut run_library = || {
        black_box(library_listing(black_box(case), out));
    };
    let run_model = || {
        black_box(listing(black_box(&case.group), &case.steps, HIGHEST_KIND));
    };
    Some(Measured {
        steps: case.steps.len().div_ceil(RECORD_LENGTH),
        library: least_time(&mut run_library),
        model: least_time(run_model),
        library_stack: depth(run_library),
        model_stack: depth(run_model),
    })
}

fn measure_all(cabinets: usize, out: &mut [u8]) -> Option<Measured> {
    let wishes = Wishes { damage: false, highest_kind: HIGHEST_KIND, cabinets: Some(cabinets) };
    let mut sum = Measured::default();
    for index in 0..CASES {
        sum = sum.and(measure(&make_case(case_seed(SEED, index), wishes), out)?);
    }
    Some(sum)
}

fn main() -> ExitCode {
    let mut out = vec![0; TEXT_MOST];
    let mut sum = Measured::default();
    println!("  n   steps  library steps/s    model steps/s  ratio    library stack  model stack");
    for cabinets in 2..=8 {
        let Some(measured) = measure_all(cabinets, &mut out) else {
            println!("{cabinets:3}  the listings differ");
            return ExitCode::FAILURE;
        };
        println!("{}", measured.row(&cabinets.to_string()));
        sum = sum.and(measured);
    }
    println!("{}", sum.row("all"));
    ExitCode::SUCCESS
}
