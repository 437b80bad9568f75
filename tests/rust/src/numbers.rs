//! Numbers for the writer of images: those of a site, those that an image holds, and changed ones, within
//! the limits, at them, just beyond and far beyond. What is right is for the reference to say.

use crate::calls::{Contents, Parameters};
use crate::sites::{
    plain_length, site_s, Rng, Site, Tables, COORDINATES, COORDINATE_BYTES, END_BYTES, HEADER,
    MOST_COORDINATE, MOST_GAMMA_SQUARED, MOST_HANDSETS, MOST_TIES,
};

use Change::{Coordinate, Coordinates, End, Ends, Parameter, Tie};

/// The length of the longest image without gaps.
pub const MOST_IMAGE: usize = plain_length(MOST_HANDSETS, MOST_TIES);

/// What the writer gets, to be changed.
#[derive(Clone, Debug, PartialEq, Eq)]
pub struct Numbers {
    pub parameters: Parameters,
    pub coordinates: Vec<i32>,
    pub ends: Vec<u16>,
}

impl Numbers {
    pub fn of(site: &Site) -> Numbers {
        Numbers {
            parameters: Parameters {
                handsets: site.positions.len() as u64,
                ties: site.ties.len() as u64,
                gamma_squared: site.gamma_squared,
                p: site.epsilon.0.into(),
                q: site.epsilon.1.into(),
                mu: site.mu.into(),
            },
            coordinates: site.positions.as_flattened().to_vec(),
            ends: site.ties.iter().flat_map(|&(u, v)| [u, v]).collect(),
        }
    }

    /// The header's numbers as they stand and all records of an image that questions 1 to 6 accept.
    pub fn held(image: &[u8]) -> Numbers {
        let tables = Tables::of(image);
        let short = |two: &[u8; 2]| u16::from_le_bytes(*two);
        let shorts = image[..HEADER].as_chunks().0;
        let field = |at: usize| u64::from(short(&shorts[at / 2]));
        let coordinates = image[tables.handset_bytes()].as_chunks().0;
        let ends = image[tables.tie_bytes()].as_chunks().0;
        Numbers {
            parameters: Parameters {
                handsets: field(0),
                ties: field(2),
                gamma_squared: (0..4).map(|place| field(16 + 2 * place) << (16 * place)).sum(),
                p: field(24),
                q: field(26),
                mu: field(28),
            },
            coordinates: coordinates.iter().map(|four| i32::from_le_bytes(*four)).collect(),
            ends: ends.iter().map(short).collect(),
        }
    }

    pub fn contents(&self) -> Contents<'_> {
        Contents { parameters: self.parameters, coordinates: &self.coordinates, ends: &self.ends }
    }

    /// The length of the image with these tables.
    pub fn length(&self) -> usize {
        HEADER + COORDINATE_BYTES * self.coordinates.len() + END_BYTES * self.ends.len()
    }

    /// The image as the tests build it, for numbers that the writer's questions 3, 5 and 6 accept.
    pub fn image(&self) -> Vec<u8> {
        let Parameters { gamma_squared, p, q, mu, .. } = self.parameters;
        let site = Site {
            positions: self.coordinates.as_chunks().0.to_vec(),
            ties: self.ends.as_chunks().0.iter().map(|&[u, v]| (u, v)).collect(),
            gamma_squared,
            epsilon: (p as u16, q as u16),
            mu: mu as u16,
        };
        site.plain_image()
    }

    fn apply(&mut self, change: Change) {
        match change {
            Parameter(field, value) => *field(&mut self.parameters) = value,
            Coordinate(at, value) => put(&mut self.coordinates, at, &[value]),
            End(at, value) => put(&mut self.ends, at, &[value]),
            Tie(tie, ends) => put(&mut self.ends, 2 * tie, &ends),
            Coordinates(length) => self.coordinates.resize(length, 0),
            Ends(length) => self.ends.resize(length, 0),
        }
    }

    fn with(&self, changes: &[Change]) -> Numbers {
        let mut changed = self.clone();
        changes.iter().for_each(|&change| changed.apply(change));
        changed
    }
}

/// Entries of a table, as far as it reaches.
fn put<T: Copy>(table: &mut [T], at: usize, values: &[T]) {
    table.iter_mut().skip(at).zip(values).for_each(|(entry, &value)| *entry = value);
}

// ---------------------------------------------------------------- changes

/// One of the six numbers.
type Field = fn(&mut Parameters) -> &mut u64;

const HANDSETS: Field = |x| &mut x.handsets;
const TIES: Field = |x| &mut x.ties;
const GAMMA_SQUARED: Field = |x| &mut x.gamma_squared;
const P: Field = |x| &mut x.p;
const Q: Field = |x| &mut x.q;
const MU: Field = |x| &mut x.mu;

/// Each of the six with its largest value.
const FIELDS: [(Field, u64); 6] = [
    (HANDSETS, MOST_HANDSETS as u64),
    (TIES, MOST_TIES as u64),
    (GAMMA_SQUARED, MOST_GAMMA_SQUARED),
    (P, 1000),
    (Q, 1000),
    (MU, 512),
];

/// One change of the numbers.
#[derive(Clone, Copy)]
enum Change {
    Parameter(Field, u64),
    Coordinate(usize, i32),
    End(usize, u16),
    Tie(usize, [u16; 2]),
    /// The coordinate table gets this length, cut off or with zeros at its end.
    Coordinates(usize),
    /// The same of the tie table.
    Ends(usize),
}

/// The handsets and the ties of site S, its coordinates and the length of its image.
const S: (usize, usize) = (7, 8);
const S_COORDINATES: usize = COORDINATES * S.0;
const S_LENGTH: usize = plain_length(S.0, S.1);

/// For each of the questions 3, 5, 6, 7, 8, 9 and 10 in their order, three changes of site S, of which
/// each makes its answer a no: of 6 a coordinate too many, x and y alone, and half a tie less. Those of
/// 7 to 10 are in different records; those of 7 are a z, an x and a y of the last handset.
const FAULTS: [[Change; 3]; 7] = [
    [Parameter(HANDSETS, 513), Parameter(HANDSETS, 65_536 + 7), Parameter(TIES, (1 << 32) + 8)],
    [Parameter(P, 0), Parameter(Q, 65_536 + 2), Parameter(MU, 513)],
    [Coordinates(S_COORDINATES + 1), Coordinates(S_COORDINATES - S.0), Ends(15)],
    [
        Coordinate(S_COORDINATES - 1, MOST_COORDINATE + 1),
        Coordinate(S_COORDINATES - 3, -MOST_COORDINATE - 1),
        Coordinate(S_COORDINATES - 2, i32::MIN),
    ],
    [End(15, 7), End(14, 7), End(14, u16::MAX)],
    [Tie(1, [0, 0]), Tie(1, [6, 6]), Tie(1, [3, 3])],
    [Tie(2, [1, 0]), Tie(2, [0, 1]), Tie(2, [0, 1])],
];

/// Lengths of buffers that hold the image of site S, and of ones that do not.
const ROOMS: [usize; 3] = [S_LENGTH, S_LENGTH + 1, MOST_IMAGE];
const SHORT_ROOMS: [usize; 3] = [S_LENGTH - 1, HEADER - 1, 0];

/// Site S with a choice of faults, a bit for each of the questions 3, 5, 6, 7, 8, 9, 10 and 20 in their
/// order, and the length of a buffer: three such.
pub fn with_faults(choice: u32) -> [(Numbers, usize); 3] {
    let chosen = |question: usize| choice >> question & 1 == 1;
    std::array::from_fn(|variant| {
        let questions = (0..FAULTS.len()).filter(|&question| chosen(question));
        let faults: Vec<Change> = questions.map(|question| FAULTS[question][variant]).collect();
        let rooms = if chosen(FAULTS.len()) { SHORT_ROOMS } else { ROOMS };
        (Numbers::of(&site_s(4)).with(&faults), rooms[variant])
    })
}

/// Site S with every two values of two of the six numbers, with tables of every two lengths for several
/// counts, and with every change of a record.
pub fn hostile(rng: &mut Rng) -> Vec<Numbers> {
    let s = Numbers::of(&site_s(4));
    let mut hostile = Vec::new();
    for (i, one) in parameter_changes(&s).into_iter().enumerate() {
        for other in &parameter_changes(&s)[i + 1..] {
            hostile.push(s.with(&[one, *other]));
        }
    }
    for (handsets, ties) in [(7, 8), (8, 7), (0, 0), (0, 8), (7, 0), (512, 4096)] {
        let counts = [Parameter(HANDSETS, handsets), Parameter(TIES, ties)];
        let counted = s.with(&counts);
        for coordinates in lengths(COORDINATES * handsets as usize) {
            let ends = lengths(2 * ties as usize).into_iter();
            let each = ends.map(|ends| counted.with(&[Coordinates(coordinates), Ends(ends)]));
            hostile.extend(each);
        }
    }
    let places = [(0..S.0).collect(), (0..S.1).collect()];
    hostile.extend(record_changes(&s, &places, rng).into_iter().map(|change| s.with(&[change])));
    hostile
}

/// Two to five changes, so that the order of the questions matters; mostly of records alone, so that the
/// first of several bad ones matters.
pub fn several(numbers: &Numbers, rng: &mut Rng) -> Numbers {
    let counts = [numbers.coordinates.len() / COORDINATES, numbers.ends.len() / 2];
    let places = counts.map(|count| some(count, rng));
    let [handsets, ties] = &places;
    let mut pool = match rng.below(6) {
        0 => record_changes(numbers, &[handsets.clone(), Vec::new()], rng),
        1 | 2 => record_changes(numbers, &[Vec::new(), ties.clone()], rng),
        3 => record_changes(numbers, &places, rng),
        _ => Vec::new(),
    };
    if pool.is_empty() {
        pool = parameter_changes(numbers);
        pool.extend(lengths(numbers.coordinates.len()).map(Coordinates));
        pool.extend(lengths(numbers.ends.len()).map(Ends));
        pool.extend(record_changes(numbers, &places, rng));
    }
    let changes: Vec<Change> = (0..rng.count(2, 5)).map(|_| rng.pick(&pool)).collect();
    numbers.with(&changes)
}

/// Each of the six at its limits, beyond them, and with values that would be right in 16, 32 or 63 bits.
fn parameter_changes(numbers: &Numbers) -> Vec<Change> {
    let mut changes = Vec::new();
    for (field, most) in FIELDS {
        let own = *field(&mut numbers.parameters.clone());
        let mut values = vec![0, 1, own + 1, own + 256, most, most + 1, 65_535, u64::MAX];
        for high in [1 << 16, 1 << 32, 1 << 63] {
            values.extend([high, high + own, high + most]);
        }
        changes.extend(values.into_iter().map(|value| Parameter(field, value)));
    }
    changes
}

/// The length that fits, and others: for coordinates two and four of each handset are among them, and
/// the last would fit in 16 bits.
fn lengths(fit: usize) -> [usize; 11] {
    let third = fit / COORDINATES;
    let (less, more) = (fit - third, fit + third);
    [fit, 0, 1, fit.saturating_sub(1), fit + 1, fit + 2, less, more, 2 * fit, fit / 2, fit + 65_536]
}

/// Changes of the records at the given places, of handsets and of ties: coordinates at and beyond their
/// limits; bad ends, ties of a handset with itself, and ties that repeat another one either way round.
fn record_changes(numbers: &Numbers, places: &[Vec<usize>; 2], rng: &mut Rng) -> Vec<Change> {
    let far = MOST_COORDINATE;
    let coordinates = [far, far + 1, -far, -far - 1, i32::MAX, i32::MIN, 0, -1];
    let n = (numbers.coordinates.len() / COORDINATES) as u16;
    let ends = [n.wrapping_sub(1), n, n + 1, n + 256, 511, 512, u16::MAX, 0];
    let mut changes = Vec::new();
    for handset in &places[0] {
        for at in COORDINATES * handset..COORDINATES * (handset + 1) {
            changes.extend(coordinates.map(|value| Coordinate(at, value)));
        }
    }
    for &tie in &places[1] {
        for at in [2 * tie, 2 * tie + 1] {
            changes.extend(ends.map(|value| End(at, value)));
        }
        for _ in 0..3 {
            let other = 2 * rng.below(numbers.ends.len() / 2);
            let (u, v) = (numbers.ends[other], numbers.ends[other + 1]);
            changes.extend([[u, u], [u, v], [v, u]].map(|ends| Tie(tie, ends)));
        }
    }
    changes
}

/// The first, the last and three random places of a table.
fn some(count: usize, rng: &mut Rng) -> Vec<usize> {
    match count {
        0 => Vec::new(),
        _ => vec![0, count - 1, rng.below(count), rng.below(count), rng.below(count)],
    }
}

#[cfg(test)]
mod tests {
    use super::*;
    use crate::reference;
    use crate::sites::{self, Layout};
    use std::collections::HashMap;

    #[test]
    fn images_hold_the_numbers_of_their_sites() {
        let mut rng = Rng::new(7);
        for _ in 0..300 {
            let site = sites::any(&mut rng);
            let numbers = Numbers::of(&site);
            assert_eq!(Numbers::held(&site.image(Layout::any(&mut rng), &mut rng)), numbers);
            let image = site.plain_image();
            assert_eq!((&numbers.image(), numbers.length()), (&image, image.len()));
            assert_eq!(reference::written(numbers.contents(), image.len()), Ok(image));
        }
    }

    /// How many of these are refused with each number, or accepted where that is 0.
    fn kinds(tried: impl Iterator<Item = Numbers>) -> HashMap<u64, usize> {
        let mut kinds = HashMap::new();
        for numbers in tried {
            let answer = reference::written(numbers.contents(), numbers.length());
            *kinds.entry(answer.map_or_else(|refusal| refusal.number, |_| 0)).or_default() += 1;
        }
        kinds
    }

    /// Twenty at least of the hostile numbers are of each kind, and one in fifty at least of those that are
    /// changed for a site.
    #[test]
    fn numbers_are_of_every_kind() {
        const SITES: usize = 4000;
        let mut rng = Rng::new(0);
        let hostile = kinds(hostile(&mut rng).into_iter());
        let changed = kinds((0..SITES).map(|_| {
            let numbers = Numbers::of(&sites::any(&mut rng));
            several(&numbers, &mut rng)
        }));
        for kind in [0, 3, 5, 6, 7, 8, 9, 10] {
            assert!(
                hostile[&kind] >= 20 && 50 * changed[&kind] >= SITES,
                "{hostile:?} {changed:?}"
            );
        }
    }
}
