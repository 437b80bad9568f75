//! The differential test: many generated sites, their renumberings and their damaged images, through
//! every call of each planner at hand, compared with the reference. With the feature `proved` the
//! proved planner is one of them; the optimised one always is.
//!
//!     differential [--seed N] [--count N | --seconds N] [--program PATH] [--save DIRECTORY]
//!
//! Every date, hostile times, hostile numbers for the writer, named sites, images of before and site S
//! with every choice of faults come first, whatever the count. Then case i has the seed N + i, so a
//! failing case is run again alone with its own seed and `--count 1`. A failing image is written into
//! the directory. With `--program` the report program is run as well.

use std::any::Any;
use std::panic::{catch_unwind, AssertUnwindSafe};
use std::path::{Path, PathBuf};
use std::process::ExitCode;
use std::time::{Duration, Instant};

use divanegret_tests::calls::Planner;
use divanegret_tests::compare::{self, Outcome};
use divanegret_tests::damage;
use divanegret_tests::fast::Fast;
#[cfg(feature = "proved")]
use divanegret_tests::ffi::Proved;
use divanegret_tests::sites::{self, Layout, Rng, Site};

const USAGE: &str =
    "usage: differential [--seed N] [--count N | --seconds N] [--program PATH] [--save DIRECTORY]";

/// The damaged images of a case.
const DAMAGED: usize = 6;
/// One case in this many has each single edit tried, and one the report program.
const EVERY_EDIT: u64 = 40;
const EVERY_PROGRAM: u64 = 10;

fn main() -> ExitCode {
    let options = match Options::read(std::env::args().skip(1)) {
        Ok(options) => options,
        Err(problem) => {
            eprintln!("{problem}\n{USAGE}");
            return ExitCode::from(2);
        }
    };
    let mut run = Run::new(&options);
    let before = run.times().and_then(|()| run.numbers()).and_then(|()| run.fixed());
    match before.and_then(|()| run.random()) {
        Ok(cases) => {
            let names: Vec<&str> = run.planners.iter().map(|planner| planner.name()).collect();
            let names = names.join(" and ");
            println!(
                "differential: every date, {cases} sites, {} images: {names} agreed",
                run.images
            );
            ExitCode::SUCCESS
        }
        Err(failure) => {
            failure.tell(&options.save);
            ExitCode::FAILURE
        }
    }
}

// ---------------------------------------------------------------- the command line

struct Options {
    seed: u64,
    count: u64,
    time: Option<Duration>,
    program: Option<PathBuf>,
    save: PathBuf,
}

impl Options {
    fn read(mut words: impl Iterator<Item = String>) -> Result<Options, String> {
        let mut options =
            Options { seed: 1, count: 2000, time: None, program: None, save: PathBuf::from(".") };
        while let Some(name) = words.next() {
            let value = words.next().ok_or_else(|| format!("{name} has no value"))?;
            let number = || value.parse::<u64>().map_err(|error| format!("{name}: {error}"));
            match name.as_str() {
                "--seed" => options.seed = number()?,
                "--count" => options.count = number()?,
                "--seconds" => {
                    options.count = u64::MAX;
                    options.time = Some(Duration::from_secs(number()?));
                }
                "--program" => options.program = Some(PathBuf::from(value)),
                "--save" => options.save = PathBuf::from(value),
                _ => return Err(format!("{name} is not known")),
            }
        }
        Ok(options)
    }
}

// ---------------------------------------------------------------- failures

/// What differed, with all that is needed to see it again.
struct Failure {
    case: String,
    planner: &'static str,
    problem: String,
    image: Option<Vec<u8>>,
}

impl Failure {
    fn tell(&self, directory: &Path) {
        println!("FAILED: {}: {}: {}", self.case, self.planner, self.problem);
        let Some(image) = &self.image else {
            return;
        };
        let name = format!("failing-{}.image", self.case.replace(' ', "-"));
        let path = directory.join(name);
        match std::fs::write(&path, image) {
            Ok(()) => println!("the image is in {}", path.display()),
            Err(error) => println!("the image could not be written: {error}"),
        }
    }
}

fn panicked(cause: Box<dyn Any + Send>) -> String {
    let text = cause.downcast_ref::<String>().map(String::as_str);
    let text = text.or_else(|| cause.downcast_ref::<&str>().copied());
    format!("panicked: {}", text.unwrap_or("no message"))
}

// ---------------------------------------------------------------- the run

struct Run<'a> {
    options: &'a Options,
    planners: Vec<&'static dyn Planner>,
    images: u64,
}

/// A comparison of one image.
type Check = fn(&dyn Planner, &[u8], &mut Rng) -> Outcome;

impl<'a> Run<'a> {
    fn new(options: &'a Options) -> Run<'a> {
        let planners: Vec<&'static dyn Planner> = vec![
            #[cfg(feature = "proved")]
            &Proved,
            &Fast,
        ];
        Run { options, planners, images: 0 }
    }

    /// The call for the members at a time, on every date and with hostile arguments.
    fn times(&self) -> Result<(), Failure> {
        self.each_planner("every date", None, compare::every_date)?;
        let hostile = |planner: &dyn Planner| compare::hostile_times(planner, &mut Rng::new(0));
        self.each_planner("hostile times", None, hostile)
    }

    /// The writer, with hostile arguments.
    fn numbers(&self) -> Result<(), Failure> {
        let hostile = |planner: &dyn Planner| compare::hostile_numbers(planner, &mut Rng::new(0));
        self.each_planner("hostile numbers", None, hostile)
    }

    /// The named examples, images of before, and site S with every choice of one fault for each question.
    fn fixed(&mut self) -> Result<(), Failure> {
        let case = "fixed";
        let mut rng = Rng::new(0);
        for site in named_sites() {
            self.site(case, &site, &mut rng)?;
        }
        let image = sites::site_s(4).plain_image();
        for old in damage::before(&image).iter().chain(&damage::before_with_the_width(&image)) {
            self.check(case, compare::image, old, &mut rng)?;
        }
        let faults = damage::faults(&image);
        for choice in 1..1_u32 << faults.len() {
            let chosen = |bit: &usize| choice >> bit & 1 == 1;
            let edits: Vec<_> = (0..faults.len()).filter(chosen).map(|bit| faults[bit]).collect();
            self.check(case, compare::image, &damage::apply(&image, &edits), &mut rng)?;
        }
        program_inputs().iter().try_for_each(|input| self.program(case, input))
    }

    /// The generated cases; gives their count.
    fn random(&mut self) -> Result<u64, Failure> {
        let started = Instant::now();
        let in_time = || self.options.time.is_none_or(|time| started.elapsed() < time);
        let mut cases = 0;
        while cases < self.options.count && in_time() {
            let seed = self.options.seed.wrapping_add(cases);
            self.case(seed)?;
            cases += 1;
        }
        Ok(cases)
    }

    fn case(&mut self, seed: u64) -> Result<(), Failure> {
        let case = &format!("seed {seed}");
        let mut rng = Rng::new(seed);
        let site = sites::any(&mut rng);
        self.site(case, &site, &mut rng)?;
        let image = site.image(Layout::any(&mut rng), &mut rng);
        for _ in 0..DAMAGED {
            let damaged = damage::several(&image, &mut rng);
            self.check(case, compare::similar_image, &damaged, &mut rng)?;
        }
        for old in damage::some_before(&image, &mut rng) {
            self.check(case, compare::similar_image, &old, &mut rng)?;
        }
        for edit in damage::edits(&image, &mut rng) {
            if seed.is_multiple_of(EVERY_EDIT) || rng.one_in(40) {
                let damaged = damage::apply(&image, &[edit]);
                self.check(case, compare::similar_image, &damaged, &mut rng)?;
            }
        }
        if seed.is_multiple_of(EVERY_PROGRAM) {
            self.program(case, &image)?;
            self.program(case, &damage::several(&image, &mut rng))?;
        }
        Ok(())
    }

    /// An accepted site in some layout, a renumbering of it, the same with x, y and z in another order,
    /// and its image as the planner writes it.
    fn site(&mut self, case: &str, site: &Site, rng: &mut Rng) -> Result<(), Failure> {
        let image = site.image(Layout::any(rng), rng);
        self.check(case, compare::image, &image, rng)?;
        self.check(case, compare::renumbering, &image, rng)?;
        self.check(case, compare::turning, &image, rng)?;
        let seed = rng.word();
        let writing = |planner: &dyn Planner| compare::writing(planner, site, &mut Rng::new(seed));
        self.each_planner(case, Some(&image), writing)
    }

    /// One comparison of an image, each planner with the same random numbers.
    fn check(
        &mut self,
        case: &str,
        check: Check,
        image: &[u8],
        rng: &mut Rng,
    ) -> Result<(), Failure> {
        self.images += 1;
        let seed = rng.word();
        self.each_planner(case, Some(image), |planner| check(planner, image, &mut Rng::new(seed)))
    }

    /// One comparison with every planner. A panic is a failure.
    fn each_planner(
        &self,
        case: &str,
        image: Option<&[u8]>,
        check: impl Fn(&dyn Planner) -> Outcome,
    ) -> Result<(), Failure> {
        for planner in &self.planners {
            let outcome = catch_unwind(AssertUnwindSafe(|| check(*planner)));
            if let Err(problem) = outcome.unwrap_or_else(|cause| Err(panicked(cause))) {
                return Err(Failure {
                    case: case.to_string(),
                    planner: planner.name(),
                    problem,
                    image: image.map(<[u8]>::to_vec),
                });
            }
        }
        Ok(())
    }

    /// The report program, where one is given.
    fn program(&mut self, case: &str, input: &[u8]) -> Result<(), Failure> {
        let Some(path) = &self.options.program else {
            return Ok(());
        };
        compare::program(path, input).map_err(|problem| Failure {
            case: case.to_string(),
            planner: "program",
            problem,
            image: Some(input.to_vec()),
        })
    }
}

fn named_sites() -> Vec<Site> {
    let mut sites: Vec<Site> = (0..=8).map(sites::site_s).collect();
    sites.extend([0, 1, 2, 511, 512].map(|handsets| sites::untied(handsets, 1)));
    sites.extend([sites::hub(), sites::totals(), sites::two_hubs()]);
    sites.extend(sites::reaching());
    sites.extend(sites::shafts());
    sites.extend([sites::shared_borders(), sites::one_clique()]);
    sites.push(sites::hospital(512, 4096, &mut Rng::new(0)));
    sites
}

/// Inputs around the longest that the report program reads, whole images and noise.
fn program_inputs() -> Vec<Vec<u8>> {
    let mut rng = Rng::new(0);
    let mut inputs: Vec<Vec<u8>> = named_sites().iter().map(Site::plain_image).collect();
    inputs.push(Vec::new());
    for length in [65_535, 65_536, 65_537, 65_600, 200_000] {
        let site = sites::site_s(4);
        let gap = length - site.plain_image().len();
        for gaps in [[gap, 0, 0], [0, gap, 0], [0, 0, gap]] {
            inputs.push(site.image(Layout { ties_first: false, gaps }, &mut rng));
        }
        let mut noise = vec![0; length];
        rng.fill(&mut noise);
        inputs.push(noise);
    }
    inputs
}
