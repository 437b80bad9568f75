//! The proved planner through its C interface, include/divanegret.h: the declarations, and safe
//! functions that decode the answers. Nothing checks these declarations against the library, so they
//! are kept beside the header, in its order.

use crate::calls::{
    Contents, Counts, Nearest, Opened, Parameters, Planner, Plans, Point, Query, Record, Refusal,
    Role, Scheduled, Scores,
};

/// The header's functions.
mod c {
    extern "C" {
        pub fn dvg_report(
            image: *const u8,
            image_len: usize,
            text: *mut u8,
            text_len: usize,
        ) -> i64;
        pub fn dvg_open(image: *const u8, image_len: usize) -> i64;
        pub fn dvg_plan(
            image: *const u8,
            image_len: usize,
            starts: *mut u32,
            starts_len: usize,
            members: *mut u16,
            members_len: usize,
        ) -> i64;
        pub fn dvg_role(image: *const u8, image_len: usize, handset: u64) -> i64;
        pub fn dvg_scores(
            image: *const u8,
            image_len: usize,
            list: *const u16,
            list_len: usize,
        ) -> i64;
        pub fn dvg_members(
            starts: *const u32,
            starts_len: usize,
            members: *const u16,
            members_len: usize,
            k: u64,
        ) -> i64;
        pub fn dvg_nearest(image: *const u8, image_len: usize, x: i32, y: i32, z: i32) -> i64;
        pub fn dvg_members_at(
            year: u32,
            month: u32,
            day: u32,
            minute: u32,
            opening: u32,
            closing: u32,
            k: u64,
            workday_starts: *const u32,
            workday_starts_len: usize,
            workday_members: *const u16,
            workday_members_len: usize,
            restday_starts: *const u32,
            restday_starts_len: usize,
            restday_members: *const u16,
            restday_members_len: usize,
        ) -> i64;
        pub fn dvg_write(
            handsets: u64,
            ties: u64,
            near_squared: u64,
            p: u64,
            q: u64,
            mu: u64,
            coordinates: *const i32,
            coordinates_len: usize,
            ends: *const u16,
            ends_len: usize,
            buffer: *mut u8,
            buffer_len: usize,
        ) -> i64;
    }
}

/// The answer of any function but dvg_report: 0 or more, or -(number + 256 * place).
fn decode(answer: i64) -> Result<u64, Refusal> {
    u64::try_from(answer).map_err(|_| Refusal {
        number: answer.unsigned_abs() % 256,
        place: answer.unsigned_abs() / 256,
    })
}

/// The low 16 bits, and the rest.
fn split(answer: u64) -> (u64, u64) {
    (answer % 65_536, answer / 65_536)
}

/// Kind, value and near count. A kind or a value that the header does not have is an error.
fn decode_record(answer: u64) -> Record {
    let (kind, rest) = split(answer);
    let (value, near) = split(rest);
    let role = match (kind, value) {
        (0, number) => Role::Core(number),
        (1, communities) => Role::Border(communities),
        (2, 0) => Role::Outlier,
        _ => panic!("role of kind {kind} with value {value}"),
    };
    Record { near, role }
}

fn decode_scores(answer: u64) -> Scores {
    let (leaving, rest) = split(answer);
    Scores { pairs: rest / 1_048_576, tied_pairs: rest % 1_048_576, leaving }
}

/// Whether there is a community, its number, and the squared distance. A number or a distance where
/// there is none is an error.
fn decode_nearest(answer: u64) -> Option<Nearest> {
    let (low, squared_distance) = split(answer);
    match (low % 2, low / 2, squared_distance) {
        (1, community, squared_distance) => Some(Nearest { community, squared_distance }),
        (_, 0, 0) => None,
        _ => panic!("no community, yet the answer {answer}"),
    }
}

/// The plan, and the count of members. A count that no start table can hold is an error.
fn decode_scheduled(answer: u64) -> Scheduled {
    let (table, count) = (answer % 2, answer / 2);
    assert!(u32::try_from(count).is_ok(), "{count} members in table {table}");
    match table {
        0 => Scheduled::Workday(count),
        _ => Scheduled::Restday(count),
    }
}

/// The proved planner behind the trait.
pub struct Proved;

// SAFETY, for every call below: a slice's pointer is valid for its length, aligned and never null; a
// table that is written is lent mutably, so that it overlaps nothing else.
impl Planner for Proved {
    fn name(&self) -> &'static str {
        "proved"
    }

    fn open(&self, image: &[u8]) -> Result<Opened, Refusal> {
        let answer = unsafe { c::dvg_open(image.as_ptr(), image.len()) };
        let (handsets, ties) = split(decode(answer)?);
        Ok(Opened { handsets, ties })
    }

    fn plan(
        &self,
        image: &[u8],
        starts: &mut [u32],
        members: &mut [u16],
    ) -> Result<Counts, Refusal> {
        let answer = unsafe {
            c::dvg_plan(
                image.as_ptr(),
                image.len(),
                starts.as_mut_ptr(),
                starts.len(),
                members.as_mut_ptr(),
                members.len(),
            )
        };
        let (communities, memberships) = split(decode(answer)?);
        Ok(Counts { communities, memberships })
    }

    fn role(&self, image: &[u8], handset: u64) -> Result<Record, Refusal> {
        let answer = unsafe { c::dvg_role(image.as_ptr(), image.len(), handset) };
        decode(answer).map(decode_record)
    }

    fn scores(&self, image: &[u8], list: &[u16]) -> Result<Scores, Refusal> {
        let answer =
            unsafe { c::dvg_scores(image.as_ptr(), image.len(), list.as_ptr(), list.len()) };
        decode(answer).map(decode_scores)
    }

    fn members(&self, starts: &[u32], members: &[u16], community: u64) -> Result<u64, Refusal> {
        decode(unsafe {
            c::dvg_members(
                starts.as_ptr(),
                starts.len(),
                members.as_ptr(),
                members.len(),
                community,
            )
        })
    }

    fn nearest(&self, image: &[u8], [x, y, z]: Point) -> Result<Option<Nearest>, Refusal> {
        let answer = unsafe { c::dvg_nearest(image.as_ptr(), image.len(), x, y, z) };
        decode(answer).map(decode_nearest)
    }

    fn members_at(&self, query: Query) -> Result<Scheduled, Refusal> {
        decode(members_at(query)).map(decode_scheduled)
    }

    fn write(&self, contents: Contents, buffer: &mut [u8]) -> Result<u64, Refusal> {
        decode(write(contents, buffer))
    }

    fn report(&self, image: &[u8], text: &mut [u8]) -> Result<u64, u64> {
        let answer =
            unsafe { c::dvg_report(image.as_ptr(), image.len(), text.as_mut_ptr(), text.len()) };
        u64::try_from(answer).map_err(|_| answer.unsigned_abs())
    }
}

/// The answer of dvg_members_at as it stands.
fn members_at(Query { time, window, community, plans: Plans { workday, restday } }: Query) -> i64 {
    // SAFETY: as above.
    unsafe {
        c::dvg_members_at(
            time.date.year,
            time.date.month,
            time.date.day,
            time.minute,
            window.opening,
            window.closing,
            community,
            workday.starts.as_ptr(),
            workday.starts.len(),
            workday.members.as_ptr(),
            workday.members.len(),
            restday.starts.as_ptr(),
            restday.starts.len(),
            restday.members.as_ptr(),
            restday.members.len(),
        )
    }
}

/// The answer of dvg_write as it stands.
fn write(Contents { parameters, coordinates, ends }: Contents, buffer: &mut [u8]) -> i64 {
    let Parameters { handsets, ties, gamma_squared, p, q, mu } = parameters;
    // SAFETY: as above.
    unsafe {
        c::dvg_write(
            handsets,
            ties,
            gamma_squared,
            p,
            q,
            mu,
            coordinates.as_ptr(),
            coordinates.len(),
            ends.as_ptr(),
            ends.len(),
            buffer.as_mut_ptr(),
            buffer.len(),
        )
    }
}

#[cfg(test)]
mod tests {
    use super::*;
    use crate::calls::{Date, Plan, Time, Window};
    use crate::compare;
    use crate::damage;
    use crate::numbers::Numbers;
    use crate::sites::{self, Rng};

    #[test]
    fn named_sites_equal_the_reference() {
        let untied = [sites::untied(0, 0), sites::untied(1, 1), sites::apart()];
        let tied = [sites::site_s(4), sites::hub(), sites::totals(), sites::two_hubs()];
        for site in untied.into_iter().chain(tied).chain(sites::shafts()) {
            let image = site.plain_image();
            assert_eq!(compare::image(&Proved, &image, &mut Rng::new(1)), Ok(()));
            assert_eq!(compare::renumbering(&Proved, &image, &mut Rng::new(1)), Ok(()));
            assert_eq!(compare::writing(&Proved, &site, &mut Rng::new(1)), Ok(()));
        }
    }

    /// Every call on images of before, and on ones with another fault.
    #[test]
    fn refused_images_equal_the_reference() {
        let image = sites::site_s(4).plain_image();
        let faults = damage::faults(&image).map(|fault| damage::apply(&image, &[fault]));
        let old = [damage::before(&image).to_vec(), damage::before_with_the_width(&image).to_vec()];
        for image in old.concat().iter().chain(&faults) {
            assert_eq!(compare::image(&Proved, image, &mut Rng::new(1)), Ok(()));
        }
        for old in damage::before(&image) {
            assert_eq!(Proved.open(&old), Err(Refusal { number: 4, place: 0 }));
        }
    }

    /// From one corner of the space to the opposite one: near with the largest G, and not with one less.
    #[test]
    fn the_longest_way_is_near() {
        let report = |gamma_squared| -> Result<String, u64> {
            let site = sites::Site { gamma_squared, ..sites::corners() };
            let mut text = [0; 512];
            let length = Proved.report(&site.plain_image(), &mut text)?;
            Ok(String::from_utf8_lossy(&text[..length as usize]).into_owned())
        };
        let most = sites::MOST_GAMMA_SQUARED;
        assert!(report(most).is_ok_and(|text| text.contains(" reach 12000000000000:")));
        assert!(report(most - 1).is_ok_and(|text| text.contains(" reach 8000000000000:")));
        assert_eq!(report(most + 1), Err(5));
    }

    /// The numbers that docs/SITE-IMAGE.md has.
    #[test]
    fn nearest_as_documented() {
        let nearest = |image: &[u8], [x, y, z]: Point| unsafe {
            c::dvg_nearest(image.as_ptr(), image.len(), x, y, z)
        };
        let mut s = sites::site_s(4);
        assert_eq!(nearest(&s.plain_image(), [3, -4, 0]), 1_638_401);
        s.gamma_squared = 1;
        s.positions[6] = [0, -1, 0];
        assert_eq!(nearest(&s.plain_image(), [3, -4, 0]), 1_179_651);
        let apart = sites::apart().plain_image();
        assert_eq!((nearest(&apart, [0; 3]), nearest(&apart, [1, 0, 0])), (131_073, 65_539));
        let corner = [1_000_000, -1_000_000, 1_000_000];
        assert_eq!(nearest(&apart, corner), 196_608_000_000_131_073);
        let positions = vec![[5, -3, 0], [5, -3, 8]];
        let above = sites::Site { positions, ..sites::apart() }.plain_image();
        for (z, answer) in [(4, 1_048_577), (5, 589_827), (-1, 65_537)] {
            assert_eq!(nearest(&above, [5, -3, z]), answer);
        }
        let empty = sites::untied(0, 0).plain_image();
        assert_eq!(nearest(&empty, [0, -1_000_000, 1_000_000]), 0);
        for beyond in [[1_000_001, 0, 0], [0, -1_000_001, 0], [0, 0, 1_000_001]] {
            assert_eq!((nearest(&empty, beyond), nearest(&[], beyond)), (-17, -1));
        }
    }

    /// The numbers that docs/SITE-IMAGE.md has: the plans of site S with mu 4 and with mu 3.
    #[test]
    fn members_at_a_time_as_documented() {
        let plans = Plans {
            workday: Plan { starts: &[0, 4, 8], members: &[0, 1, 2, 3, 3, 4, 5, 6] },
            restday: Plan { starts: &[0, 7], members: &[0, 1, 2, 3, 4, 5, 6] },
        };
        let at = |(year, month, day), minute, (opening, closing), community| {
            let time = Time { date: Date { year, month, day }, minute };
            members_at(Query { time, window: Window { opening, closing }, community, plans })
        };
        let (thursday, hours) = ((2024, 2, 29), (480, 1020));
        assert_eq!((at(thursday, 480, hours, 0), at(thursday, 1019, hours, 1)), (8, 8));
        assert_eq!((at(thursday, 479, hours, 0), at(thursday, 1020, hours, 0)), (15, 15));
        assert_eq!((at(thursday, 1020, hours, 1), at(thursday, 480, hours, 2)), (-14, -14));
        assert_eq!(at((2000, 1, 1), 600, hours, 0), 15);
        assert_eq!((at(thursday, 480, (480, 480), 0), at(thursday, 0, (0, 1440), 0)), (15, 8));
        assert_eq!(
            (at((1900, 2, 29), 1440, hours, 0), at((10_000, 1, 3), 0, hours, 0)),
            (-18, -18)
        );
        assert_eq!((at(thursday, 1440, hours, 9), at(thursday, 0, (1020, 480), 0)), (-19, -19));
        assert_eq!(at(thursday, 0, (0, 1441), 0), -19);
    }

    /// The length itself, and refusals with their places.
    #[test]
    fn writer_as_the_header_encodes_it() {
        let mut numbers = Numbers::of(&sites::site_s(4));
        let answer = |numbers: &Numbers, room| write(numbers.contents(), &mut vec![0; room]);
        assert_eq!(
            (answer(&numbers, 148), answer(&numbers, 147), answer(&numbers, 0)),
            (148, -20, -20)
        );
        numbers.parameters.gamma_squared = sites::MOST_GAMMA_SQUARED;
        assert_eq!(answer(&numbers, 148), 148);
        numbers.ends[10..12].copy_from_slice(&[3, 2]);
        assert_eq!(answer(&numbers, 0), -1290);
        numbers.coordinates[20] = -1_000_001;
        assert_eq!(answer(&numbers, 0), -1543);
        numbers.coordinates.truncate(14);
        assert_eq!(answer(&numbers, 148), -6);
        numbers.parameters.gamma_squared += 1;
        assert_eq!(answer(&numbers, 148), -5);
        numbers.parameters.handsets = u64::MAX;
        assert_eq!(answer(&numbers, 148), -3);
    }

    #[test]
    #[should_panic = "4294967296 members in table 1"]
    fn a_count_that_no_table_holds_is_an_error() {
        decode_scheduled(1 + 2 * (1 << 32));
    }

    #[test]
    fn answers_are_decoded_as_the_header_encodes_them() {
        use Scheduled::{Restday, Workday};
        assert_eq!(decode(7 + 65_536 * 8).map(split), Ok((7, 8)));
        assert_eq!(decode(-(10 + 256 * 4095)), Err(Refusal { number: 10, place: 4095 }));
        let near = 4 << 32;
        assert_eq!(decode_record(near), Record { near: 4, role: Role::Core(0) });
        assert_eq!(decode_record(near + 65_537), Record { near: 4, role: Role::Border(1) });
        assert_eq!(decode_record(near + 2), Record { near: 4, role: Role::Outlier });
        let scores = Scores { pairs: 130_816, tied_pairs: 4000, leaving: 4096 };
        assert_eq!(decode_scores(4096 + 65_536 * 4000 + 68_719_476_736 * 130_816), scores);
        let nearest = Nearest { community: 511, squared_distance: 12_000_000_000_000 };
        assert_eq!(decode_nearest(1 + 2 * 511 + 65_536 * 12_000_000_000_000), Some(nearest));
        let here = Nearest { community: 0, squared_distance: 0 };
        assert_eq!((decode_nearest(1), decode_nearest(0)), (Some(here), None));
        let scheduled = |answer: i64| decode(answer).map(decode_scheduled);
        assert_eq!((scheduled(0), scheduled(1)), (Ok(Workday(0)), Ok(Restday(0))));
        assert_eq!((scheduled(8), scheduled(15)), (Ok(Workday(4)), Ok(Restday(7))));
        assert_eq!(scheduled(2 * 4_294_967_295), Ok(Workday(4_294_967_295)));
        assert_eq!(scheduled(-19), Err(Refusal { number: 19, place: 0 }));
    }
}
