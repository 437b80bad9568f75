//! The benchmark: open, plan, nearest, report and write of the proved planner (feature `proved`), of the
//! optimised one and of the reference, on the same images in the same run. Write makes the image anew from
//! its numbers.
//!
//!     bench [ROUNDS]

use std::hint::black_box;
use std::time::{Duration, Instant};

use divanegret_tests::calls::Planner;
use divanegret_tests::fast::Fast;
#[cfg(feature = "proved")]
use divanegret_tests::ffi::Proved;
use divanegret_tests::numbers::{Numbers, MOST_IMAGE};
use divanegret_tests::reference::Reference;
use divanegret_tests::sites::{self, Rng, Site};

const ROUNDS: usize = 51;
/// A sample repeats its call for about this long, short enough to be rarely interrupted.
const SAMPLE: Duration = Duration::from_micros(300);

fn main() {
    let rounds = std::env::args().nth(1).and_then(|word| word.parse().ok()).unwrap_or(ROUNDS);
    let planners: Vec<&dyn Planner> = vec![
        #[cfg(feature = "proved")]
        &Proved,
        &Fast,
        &Reference,
    ];
    explain(rounds);
    let mut bench = Bench { planners, rounds, tables: Tables::new() };
    bench.compare("sites", &named_sites());
    for (title, sites) in [("handsets and ties double", growing(8)), ("ties double", growing(0))] {
        let times = bench.compare(title, &sites);
        bench.growth(title, &sites, &times);
    }
}

fn explain(rounds: usize) {
    println!(
        "Release builds for the default target, without target-cpu flags. Each time is the median of\n\
         {rounds} rounds; in each round every planner takes its turn on every image of the table, and\n\
         each ratio is the median of those within a round, so that a clock that changes from one\n\
         round to the next changes no ratio. All calls get the same lent tables and the same two\n\
         buffers, allocated once and not cleared between calls; whatever a call clears or allocates for\n\
         itself is part of its time. Before each sample the call has run once, so that no planner\n\
         finds the image warmer than another. Times are in microseconds a call.\n"
    );
}

// ---------------------------------------------------------------- the sites

struct Case {
    name: String,
    image: Vec<u8>,
    numbers: Numbers,
}

fn case(name: &str, site: &Site) -> Case {
    let (n, m) = (site.positions.len(), site.ties.len());
    Case { name: format!("{name} {n}/{m}"), image: site.plain_image(), numbers: Numbers::of(site) }
}

fn named_sites() -> Vec<Case> {
    let mut rng = Rng::new(1);
    vec![
        case("full site", &sites::hospital(512, 4096, &mut rng)),
        case("full, shared borders", &sites::shared_borders()),
        case("full, one clique", &sites::one_clique()),
        case("hospital", &sites::hospital(200, 800, &mut rng)),
        case("small site", &sites::hospital(40, 120, &mut rng)),
        case("site S", &sites::site_s(4)),
    ]
}

/// Ties from 256 to 4,096: with as many ties a handset each time, or always with 512 handsets.
fn growing(ties_a_handset: usize) -> Vec<Case> {
    let mut rng = Rng::new(2);
    let doubled = (8..=12).map(|power| 1 << power);
    doubled
        .map(|ties: usize| {
            let handsets = ties.checked_div(ties_a_handset).unwrap_or(512);
            case("site", &sites::hospital(handsets, ties, &mut rng))
        })
        .collect()
}

// ---------------------------------------------------------------- the calls

/// What is lent to every call.
struct Tables {
    starts: Vec<u32>,
    members: Vec<u16>,
    text: Vec<u8>,
    image: Vec<u8>,
}

impl Tables {
    fn new() -> Tables {
        Tables {
            starts: vec![0; 513],
            members: vec![0; 8704],
            text: vec![0; 65_536],
            image: vec![0; MOST_IMAGE],
        }
    }
}

#[derive(Clone, Copy)]
enum Call {
    Open,
    Plan,
    Nearest,
    Report,
    Write,
}

const CALLS: [(Call, &str); 5] = [
    (Call::Open, "open"),
    (Call::Plan, "plan"),
    (Call::Nearest, "nearest"),
    (Call::Report, "report"),
    (Call::Write, "write"),
];

fn run(planner: &dyn Planner, call: Call, case: &Case, tables: &mut Tables) {
    let image = black_box(case.image.as_slice());
    let accepted = match call {
        Call::Open => black_box(planner.open(image)).is_ok(),
        Call::Plan => {
            black_box(planner.plan(image, &mut tables.starts, &mut tables.members)).is_ok()
        }
        Call::Nearest => black_box(planner.nearest(image, black_box([0, 0, 0]))).is_ok(),
        Call::Report => black_box(planner.report(image, &mut tables.text)).is_ok(),
        Call::Write => {
            let contents = black_box(case.numbers.contents());
            black_box(planner.write(contents, &mut tables.image)).is_ok()
        }
    };
    assert!(accepted, "{} refused a site of the benchmark", planner.name());
}

// ---------------------------------------------------------------- times

struct Bench<'a> {
    planners: Vec<&'a dyn Planner>,
    rounds: usize,
    tables: Tables,
}

/// Microseconds a call, by planner and round.
type Samples = Vec<Vec<f64>>;

impl Bench<'_> {
    /// Times every call on each image and prints them with the ratios; gives the samples by call and
    /// case.
    fn compare(&mut self, title: &str, cases: &[Case]) -> [Vec<Samples>; CALLS.len()] {
        print!("{title:<40}");
        self.planners.iter().for_each(|planner| print!("{:>12}", planner.name()));
        let first = self.planners[0].name();
        for other in &self.planners[1..] {
            print!("{:>20}", format!("{first}/{}", other.name()));
        }
        println!();
        let samples = CALLS.map(|(call, _)| self.measure(call, cases));
        for (i, case) in cases.iter().enumerate() {
            for ((_, name), samples) in CALLS.iter().zip(&samples) {
                print!("{:<40}", format!("{} {name}", case.name));
                let samples = &samples[i];
                samples.iter().for_each(|times| print!("{:>12.2}", median(times.clone())));
                samples[1..].iter().for_each(|times| print!("{:>20.3}", ratio(&samples[0], times)));
                println!();
            }
        }
        println!();
        samples
    }

    /// How many times as long each call takes as with half the ties.
    fn growth(&self, title: &str, cases: &[Case], samples: &[Vec<Samples>; CALLS.len()]) {
        println!("growth as {title}: the time divided by the one before");
        for (i, case) in cases.iter().enumerate().skip(1) {
            for ((_, name), samples) in CALLS.iter().zip(samples) {
                print!("{:<40}", format!("{} {name}", case.name));
                let pairs = samples[i].iter().zip(&samples[i - 1]);
                pairs.for_each(|(times, before)| print!("{:>12.2}", ratio(times, before)));
                println!();
            }
        }
        println!();
    }

    /// The samples of one call, by case: a round goes over all cases and planners.
    fn measure(&mut self, call: Call, cases: &[Case]) -> Vec<Samples> {
        let Bench { planners, rounds, tables } = self;
        let repeats: Vec<Vec<u32>> = cases
            .iter()
            .map(|case| {
                planners.iter().map(|planner| repeats(*planner, call, case, tables)).collect()
            })
            .collect();
        let mut samples = vec![vec![Vec::new(); planners.len()]; cases.len()];
        for _ in 0..*rounds {
            for (i, case) in cases.iter().enumerate() {
                for (k, planner) in planners.iter().enumerate() {
                    run(*planner, call, case, tables);
                    let seconds = time(*planner, call, case, tables, repeats[i][k]);
                    samples[i][k].push(1e6 * seconds);
                }
            }
        }
        samples
    }
}

/// How often a call is made for one sample.
fn repeats(planner: &dyn Planner, call: Call, case: &Case, tables: &mut Tables) -> u32 {
    run(planner, call, case, tables);
    let once = time(planner, call, case, tables, 1);
    (SAMPLE.as_secs_f64() / once.max(1e-7)).ceil().max(1.0) as u32
}

/// The median of the ratios of two calls' times, round by round.
fn ratio(times: &[f64], others: &[f64]) -> f64 {
    median(times.iter().zip(others).map(|(time, other)| time / other).collect())
}

/// Seconds a call, over a number of calls.
fn time(planner: &dyn Planner, call: Call, case: &Case, tables: &mut Tables, repeats: u32) -> f64 {
    let started = Instant::now();
    (0..repeats).for_each(|_| run(planner, call, case, tables));
    started.elapsed().as_secs_f64() / f64::from(repeats)
}

fn median(mut samples: Vec<f64>) -> f64 {
    samples.sort_by(f64::total_cmp);
    samples[samples.len() / 2]
}
