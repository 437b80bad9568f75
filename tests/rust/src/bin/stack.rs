//! Measures the stack that each exported call takes, in bytes, on the sites that ask most of it. A
//! call runs on a thread whose stack is painted with a pattern; afterwards the lowest changed word
//! tells how far down it came. Linux with glibc on a 64-bit machine, feature `proved`.

use std::ffi::{c_int, c_void};
use std::fmt::Display;
use std::hint::black_box;

use divanegret_tests::calls::{Date, Planner};
use divanegret_tests::ffi::Proved;
use divanegret_tests::numbers::{Numbers, MOST_IMAGE};
use divanegret_tests::sites::{self, Rng, Site};
use divanegret_tests::times;

/// The painted stack, in words of eight bytes.
const WORDS: usize = 1 << 18;

fn main() {
    let sites = [
        ("full site", sites::hospital(512, 4096, &mut Rng::new(1))),
        ("shared borders", sites::shared_borders()),
        ("one clique", sites::one_clique()),
        ("two hubs", sites::two_hubs()),
        ("no ties", sites::untied(512, 1)),
        ("one repeated tie", repeated()),
    ];
    row("bytes of stack", &NAMES);
    let mut lent = Lent::new();
    let mut most = [0; NAMES.len()];
    for (name, site) in sites {
        let (image, numbers) = (site.plain_image(), Numbers::of(&site));
        let bytes: [usize; NAMES.len()] =
            std::array::from_fn(|call| measure(&mut || run(call, &image, &numbers, &mut lent)));
        row(name, &bytes);
        most = std::array::from_fn(|call| bytes[call].max(most[call]));
    }
    row("most", &most);
}

fn row<T: Display>(name: &str, cells: &[T]) {
    print!("{name:<18}");
    cells.iter().for_each(|cell| print!("{cell:>10}"));
    println!();
}

/// A full site whose last tie repeats its first: refused after everything was read.
fn repeated() -> Site {
    let mut site = sites::shared_borders();
    let (u, v) = site.ties[0];
    *site.ties.last_mut().expect("ties") = (v, u);
    site
}

// ---------------------------------------------------------------- the calls

/// What the calls are lent.
struct Lent {
    starts: Vec<u32>,
    members: Vec<u16>,
    list: Vec<u16>,
    text: Vec<u8>,
    image: Vec<u8>,
}

impl Lent {
    fn new() -> Lent {
        Lent {
            starts: vec![0; 513],
            members: vec![0; 8704],
            list: (0..512).collect(),
            text: vec![0; 65_536],
            image: vec![0; MOST_IMAGE],
        }
    }
}

/// The calls; the first shows what the measurement itself takes.
const NAMES: [&str; 10] = [
    "nothing",
    "open",
    "plan",
    "role",
    "scores",
    "members",
    "nearest",
    "at a time",
    "write",
    "report",
];

const THURSDAY: Date = Date { year: 2024, month: 2, day: 29 };

/// One call by its place in `NAMES`.
fn run(call: usize, image: &[u8], numbers: &Numbers, lent: &mut Lent) {
    let accepted = match call {
        0 => false,
        1 => Proved.open(image).is_ok(),
        2 => Proved.plan(image, &mut lent.starts, &mut lent.members).is_ok(),
        3 => Proved.role(image, 511).is_ok(),
        4 => Proved.scores(image, &lent.list).is_ok(),
        5 => Proved.members(&lent.starts, &lent.members, 0).is_ok(),
        6 => Proved.nearest(image, [0, 0, 0]).is_ok(),
        7 => Proved.members_at(times::in_working_hours(THURSDAY)).is_ok(),
        8 => Proved.write(numbers.contents(), &mut lent.image).is_ok(),
        _ => Proved.report(image, &mut lent.text).is_ok(),
    };
    black_box(accepted);
}

// ---------------------------------------------------------------- a painted stack

/// POSIX threads, as glibc lays them out on 64-bit machines.
mod c {
    use super::{c_int, c_void};

    #[repr(C, align(8))]
    pub struct Attributes(pub [u8; 56]);

    extern "C" {
        pub fn pthread_attr_init(attributes: *mut Attributes) -> c_int;
        pub fn pthread_attr_setstack(
            attributes: *mut Attributes,
            lowest: *mut c_void,
            bytes: usize,
        ) -> c_int;
        pub fn pthread_attr_destroy(attributes: *mut Attributes) -> c_int;
        pub fn pthread_create(
            thread: *mut usize,
            attributes: *const Attributes,
            start: extern "C" fn(*mut c_void) -> *mut c_void,
            argument: *mut c_void,
        ) -> c_int;
        pub fn pthread_join(thread: usize, answer: *mut *mut c_void) -> c_int;
    }
}

/// What the thread runs, and where its stack stood when it began.
struct Task<'a> {
    work: &'a mut dyn FnMut(),
    top: usize,
}

extern "C" fn start(argument: *mut c_void) -> *mut c_void {
    // SAFETY: `measure` passes its task, which it keeps until the thread has been joined.
    let task = unsafe { &mut *argument.cast::<Task>() };
    let here = 0_u8;
    task.top = black_box(&raw const here) as usize;
    (task.work)();
    std::ptr::null_mut()
}

/// The value that an untouched word has.
fn paint(i: usize) -> u64 {
    (i as u64).wrapping_mul(0x9e37_79b9_7f4a_7c15) | 1
}

/// The bytes below the thread's first function that `work` touched.
fn measure(work: &mut dyn FnMut()) -> usize {
    let mut stack: Vec<u64> = (0..WORDS).map(paint).collect();
    let mut task = Task { work, top: 0 };
    on_stack(&mut stack, &mut task);
    let touched = |&i: &usize| stack[i] != paint(i);
    let lowest = (0..WORDS).find(touched).expect("a thread touches its stack");
    assert!(lowest > 0, "the painted stack is too small");
    task.top.saturating_sub(&raw const stack[lowest] as usize)
}

/// Runs the task on a thread with this memory as its stack.
fn on_stack(stack: &mut [u64], task: &mut Task) {
    let lowest = stack.as_mut_ptr().cast();
    let bytes = size_of_val(stack);
    let mut attributes = c::Attributes([0; 56]);
    let mut thread = 0;
    let argument = (task as *mut Task).cast();
    let done = |answer: c_int| assert_eq!(answer, 0, "the thread could not be run");
    // SAFETY: the attributes are initialised before use; the stack and the task outlive the thread,
    // which is joined here, and nothing else uses them meanwhile.
    unsafe {
        done(c::pthread_attr_init(&mut attributes));
        done(c::pthread_attr_setstack(&mut attributes, lowest, bytes));
        done(c::pthread_create(&mut thread, &attributes, start, argument));
        done(c::pthread_join(thread, std::ptr::null_mut()));
        done(c::pthread_attr_destroy(&mut attributes));
    }
}
