//! An optimised planner without proofs, the benchmark's opponent. It is written to be as fast as
//! safe, portable Rust in a default release build allows: no target-cpu flags, no detection of
//! instruction sets at run time, no unsafe code, no heap and no state between calls.
//!
//! What makes it fast:
//! - rows of bits, 1, 2, 4 or 8 words wide by the count of handsets, each width compiled apart;
//! - records are tested without branches, and one pass over the ties both sets their bits and finds
//!   whether one repeats another; only a fault starts the search for its number and place;
//! - bits are cleared for the ties that are not near, then for those that are not alike, as most
//!   ties are both, and handsets are counted the same way;
//! - communities are joined a row at a time, and a community's set takes the row of its first core;
//! - one pass over the ties counts those inside each community and finds its reach, by rows that have
//!   the communities of each handset; those that leave it follow from the degrees of its members.
//!
//! Every pass is linear in the handsets and ties, times the words of a row.

use crate::calls::{
    Contents, Counts, Date, Nearest, Opened, Parameters, Planner, Point, Query, Record, Refusal,
    Role, Scheduled, Scores, Time, Window,
};

const HEADER: usize = 32;
const COORDINATES: usize = 3;
const HANDSET_WIDTH: usize = 4 * COORDINATES;
const TIE_WIDTH: usize = 4;
const MOST_HANDSETS: usize = 512;
const MOST_TIES: usize = 4096;
const MOST_COORDINATE: i32 = 1_000_000;
const MOST_GAMMA_SQUARED: u64 = 12_000_000_000_000;

fn refuse<T>(number: u64, place: usize) -> Result<T, Refusal> {
    Err(Refusal { number, place: place as u64 })
}

// ---------------------------------------------------------------- the image

/// An image whose header has passed questions 1 to 6, and its two tables.
struct Image<'a> {
    handsets: &'a [[u8; HANDSET_WIDTH]],
    ties: &'a [[u8; TIE_WIDTH]],
    gamma_squared: u64,
    p: u64,
    q: u64,
    mu: u16,
}

/// Beyond the limits of question 5.
fn thresholds_are_bad(gamma_squared: u64, p: u64, q: u64, mu: u64) -> bool {
    gamma_squared > MOST_GAMMA_SQUARED || p == 0 || p > q || q > 1000 || mu > 512
}

/// Beyond the limits of a coordinate.
fn outside(coordinate: i32) -> bool {
    coordinate.wrapping_add(MOST_COORDINATE) as u32 > 2 * MOST_COORDINATE as u32
}

/// Where a handset stands, as the near test has it: x, y, z and a 0, so that two and two are computed at
/// once. Coordinates fit in 21 bits, so that squares of their differences, and the sum of three, are
/// exact in f64.
type Place = [f64; 4];

fn squared_distance(here: &Place, there: &Place) -> f64 {
    let square = |axis: usize| (here[axis] - there[axis]) * (here[axis] - there[axis]);
    (square(0) + square(2)) + (square(1) + square(3))
}

/// A tie record as it stands: the first end in the low half.
type Tie = u32;

fn ends(tie: Tie) -> (usize, usize) {
    ((tie & 0xffff) as usize, (tie >> 16) as usize)
}

fn joined([u, v]: [u16; 2]) -> Tie {
    u32::from(u) | u32::from(v) << 16
}

impl<'a> Image<'a> {
    fn read(image: &'a [u8]) -> Result<Image<'a>, Refusal> {
        let Some(header) = image.first_chunk::<HEADER>() else {
            return refuse(1, 0);
        };
        let short = |at: usize| u16::from_le_bytes([header[at], header[at + 1]]);
        let long = |at: usize| u64::from(short(at)) | u64::from(short(at + 2)) << 16;
        if long(12) != image.len() as u64 {
            return refuse(2, 0);
        }
        let (n, m) = (usize::from(short(0)), usize::from(short(2)));
        if n > MOST_HANDSETS || m > MOST_TIES {
            return refuse(3, 0);
        }
        if usize::from(short(30)) != HANDSET_WIDTH {
            return refuse(4, 0);
        }
        let gamma_squared = long(16) | long(20) << 32;
        let (p, q, mu) = (short(24), short(26), short(28));
        if thresholds_are_bad(gamma_squared, p.into(), q.into(), mu.into()) {
            return refuse(5, 0);
        }
        let (handsets_at, ties_at) = (long(4) as usize, long(8) as usize);
        let (handsets_end, ties_end) = (handsets_at + HANDSET_WIDTH * n, ties_at + TIE_WIDTH * m);
        let apart = handsets_end <= ties_at || ties_end <= handsets_at;
        if handsets_at < HEADER || ties_at < HEADER || !apart {
            return refuse(6, 0);
        }
        let handsets = image.get(handsets_at..handsets_end);
        let (Some(handsets), Some(ties)) = (handsets, image.get(ties_at..ties_end)) else {
            return refuse(6, 0);
        };
        Ok(Image {
            handsets: handsets.as_chunks().0,
            ties: ties.as_chunks().0,
            gamma_squared,
            p: p.into(),
            q: q.into(),
            mu: if mu == 0 { 4 } else { mu },
        })
    }

    fn handset_count(&self) -> usize {
        self.handsets.len()
    }

    fn tie_count(&self) -> usize {
        self.ties.len()
    }

    /// All coordinates in a row, whosever they are.
    fn coordinates(&self) -> impl Iterator<Item = i32> + Clone + 'a {
        self.handsets.as_flattened().as_chunks().0.iter().map(|four| i32::from_le_bytes(*four))
    }

    fn positions(&self) -> impl Iterator<Item = [i32; COORDINATES]> + Clone + 'a {
        self.handsets.iter().map(|record| {
            let (fours, _) = record.as_chunks();
            std::array::from_fn(|axis| i32::from_le_bytes(fours[axis]))
        })
    }

    fn ties(&self) -> impl Iterator<Item = Tie> + Clone + 'a {
        self.ties.iter().map(|record| Tie::from_le_bytes(*record))
    }

    fn for_each_tie(&self, mut each: impl FnMut(Tie)) {
        by_fours(self.ties, |record| each(Tie::from_le_bytes(record)));
    }

    fn check_positions(&self) -> Result<(), Refusal> {
        check_coordinates(self.coordinates())
    }

    fn ends_are_good(&self) -> bool {
        ends_are_good(self.handset_count(), self.ties())
    }

    /// Questions 8, 9 and 10.
    fn check_ties<const W: usize, const R: usize>(&self) -> Result<(), Refusal> {
        let mut seen = [[0; W]; R];
        let mut repeated = false;
        self.for_each_tie(|tie| repeated |= tie_again::<W, R>(&mut seen, tie));
        if repeated | !self.ends_are_good() {
            return Err(self.tie_fault());
        }
        Ok(())
    }

    fn tie_fault(&self) -> Refusal {
        tie_fault(self.handset_count(), self.ties())
    }
}

// ---------------------------------------------------------------- records

/// Calls `each` with every record, four to a turn of the loop: a short loop's speed depends much on
/// where its jump happens to stand.
fn by_fours<T: Copy>(records: &[T], mut each: impl FnMut(T)) {
    let (fours, rest) = records.as_chunks::<4>();
    for four in fours {
        four.iter().for_each(|&record| each(record));
    }
    rest.iter().for_each(|&record| each(record));
}

/// Question 7. The whole table is tested without a branch, several coordinates at once; only a fault is
/// searched for.
fn check_coordinates(coordinates: impl Iterator<Item = i32> + Clone) -> Result<(), Refusal> {
    if coordinates.clone().fold(false, |fault, coordinate| fault | outside(coordinate)) {
        let place = coordinates.clone().position(outside).unwrap_or(0);
        return refuse(7, place / COORDINATES);
    }
    Ok(())
}

/// Whether questions 8 and 9 get a yes, without a branch.
fn ends_are_good(handsets: usize, ties: impl Iterator<Item = Tie>) -> bool {
    let n = handsets as u32;
    let bad = |tie: Tie| {
        let (u, v) = (tie & 0xffff, tie >> 16);
        (u >= n) | (v >= n) | (u == v)
    };
    !ties.fold(false, |fault, tie| fault | bad(tie))
}

/// Notes a tie, and says whether it was there before, either way round.
fn tie_again<const W: usize, const R: usize>(seen: &mut Rows<W, R>, tie: Tie) -> bool {
    let (u, v) = ends(tie);
    set_bit::<W, R>(seen, u.min(v), u.max(v))
}

/// The refusal of a tie table with a fault: questions 8, 9 and 10, one after the other.
#[cold]
fn tie_fault(n: usize, ties: impl Iterator<Item = Tie> + Clone) -> Refusal {
    let bad_end = |tie| ends(tie).0 >= n || ends(tie).1 >= n;
    let to_itself = |tie| ends(tie).0 == ends(tie).1;
    let mut seen = [[0; 8]; MOST_HANDSETS];
    let (number, place) = if let Some(place) = ties.clone().position(bad_end) {
        (8, place)
    } else if let Some(place) = ties.clone().position(to_itself) {
        (9, place)
    } else {
        (10, ties.clone().position(|tie| tie_again(&mut seen, tie)).unwrap_or(0))
    };
    Refusal { number, place: place as u64 }
}

// ---------------------------------------------------------------- rows of bits

/// R rows of W words; R is 64 W, so that any index is cut to size with a mask.
type Rows<const W: usize, const R: usize> = [[u64; W]; R];

/// The word of a row that has a handset's bit.
fn word_of<const W: usize>(handset: usize) -> usize {
    (handset / 64) & (W - 1)
}

fn bit_of(handset: usize) -> u64 {
    1 << (handset % 64)
}

/// Sets one bit, and says whether it was set before.
fn set_bit<const W: usize, const R: usize>(rows: &mut Rows<W, R>, row: usize, bit: usize) -> bool {
    let word = &mut rows[row & (R - 1)][word_of::<W>(bit)];
    let before = *word & bit_of(bit) != 0;
    *word |= bit_of(bit);
    before
}

fn clear_bit<const W: usize, const R: usize>(rows: &mut Rows<W, R>, row: usize, bit: usize) {
    rows[row & (R - 1)][word_of::<W>(bit)] &= !bit_of(bit);
}

fn count<const W: usize>(set: &[u64; W]) -> u32 {
    set.iter().map(|word| word.count_ones()).sum()
}

fn count_common<const W: usize>(one: &[u64; W], other: &[u64; W]) -> u32 {
    one.iter().zip(other).map(|(a, b)| (a & b).count_ones()).sum()
}

fn has<const W: usize>(set: &[u64; W], handset: usize) -> bool {
    set[word_of::<W>(handset)] & bit_of(handset) != 0
}

/// Calls `each` with the members of a set, ascending.
fn for_each<const W: usize>(set: &[u64; W], mut each: impl FnMut(usize)) {
    for (i, &word) in set.iter().enumerate() {
        let mut rest = word;
        while rest != 0 {
            each(64 * i + rest.trailing_zeros() as usize);
            rest &= rest - 1;
        }
    }
}

// ---------------------------------------------------------------- the network

/// The ties of a site as rows of bits, no handset in its own row. Ties are dropped from it step by
/// step: all ties, near ties, alike ties.
struct Network<const W: usize, const R: usize> {
    rows: Rows<W, R>,
    /// The ones in each row.
    degrees: [u16; R],
    /// The ties: the near ones from the front, the others from the back.
    list: [Tie; MOST_TIES],
    ties: usize,
    near: usize,
    places: [Place; R],
}

impl<const W: usize, const R: usize> Network<W, R> {
    fn new() -> Self {
        Network {
            rows: [[0; W]; R],
            degrees: [0; R],
            list: [0; MOST_TIES],
            ties: 0,
            near: 0,
            places: [[0.0; 4]; R],
        }
    }

    /// All ties of the image, after questions 7 to 10.
    fn read(&mut self, image: &Image) -> Result<(), Refusal> {
        image.check_positions()?;
        let mut repeated = false;
        image.for_each_tie(|tie| {
            let (u, v) = ends(tie);
            repeated |= set_bit(&mut self.rows, u, v);
            set_bit(&mut self.rows, v, u);
            self.change_degrees(tie, 1);
        });
        if repeated | !image.ends_are_good() {
            return Err(image.tie_fault());
        }
        self.list_ties(image);
        Ok(())
    }

    /// Lists the ties by nearness.
    fn list_ties(&mut self, image: &Image) {
        for (to, [x, y, z]) in self.places.iter_mut().zip(image.positions()) {
            *to = [x.into(), y.into(), z.into(), 0.0];
        }
        let places = &self.places;
        let gamma_squared = image.gamma_squared as f64;
        self.ties = image.tie_count();
        let (mut near_end, mut far_start) = (0, self.ties);
        for tie in image.ties() {
            let (u, v) = ends(tie);
            let distance = squared_distance(&places[u & (R - 1)], &places[v & (R - 1)]);
            let near = distance <= gamma_squared;
            self.list[near_end & (MOST_TIES - 1)] = tie;
            self.list[(far_start - 1) & (MOST_TIES - 1)] = tie;
            near_end += usize::from(near);
            far_start -= usize::from(!near);
        }
        self.near = near_end;
    }

    fn change_degrees(&mut self, tie: Tie, by: u16) {
        let (u, v) = ends(tie);
        let degree = &mut self.degrees[u & (R - 1)];
        *degree = degree.wrapping_add(by);
        let degree = &mut self.degrees[v & (R - 1)];
        *degree = degree.wrapping_add(by);
    }

    fn drop_tie(&mut self, tie: Tie) {
        let (u, v) = ends(tie);
        clear_bit(&mut self.rows, u, v);
        clear_bit(&mut self.rows, v, u);
        self.change_degrees(tie, u16::MAX);
    }

    fn keep_near(&mut self) {
        for i in self.near..self.ties {
            self.drop_tie(self.list[i & (MOST_TIES - 1)]);
        }
    }

    /// Tests each near tie once, then drops those that are not alike. Both ends are in both near sets,
    /// and neither is in both rows.
    fn keep_alike(&mut self, p: u64, q: u64) {
        let size = |u: usize| u64::from(self.degrees[u & (R - 1)]) + 1;
        let weights: [u64; R] = std::array::from_fn(|u| p * p * size(u));
        let mut unlike = 0;
        for i in 0..self.near {
            let tie = self.list[i & (MOST_TIES - 1)];
            let (u, v) = ends(tie);
            let (row, other) = (&self.rows[u & (R - 1)], &self.rows[v & (R - 1)]);
            let common = u64::from(count_common(row, other)) + 2;
            let alike = common * common * q * q >= weights[u & (R - 1)] * size(v);
            self.list[unlike & (MOST_TIES - 1)] = tie;
            unlike += usize::from(!alike);
        }
        for i in 0..unlike {
            self.drop_tie(self.list[i & (MOST_TIES - 1)]);
        }
    }

    /// The communities of a network of near ties. The row of each first core is replaced by its
    /// community.
    fn communities(&mut self, image: &Image) -> Communities<W, R> {
        self.keep_alike(image.p, image.q);
        let mut found = Communities { cores: [0; W], first_cores: [0; R], count: 0 };
        for (u, &degree) in self.degrees[..image.handset_count()].iter().enumerate() {
            found.cores[word_of::<W>(u)] |= u64::from(degree + 1 >= image.mu) << (u % 64);
        }
        let mut waiting = found.cores;
        let mut stack = [0; R];
        for i in 0..W {
            while waiting[i] != 0 {
                let first = 64 * i + waiting[i].trailing_zeros() as usize;
                waiting[i] &= waiting[i] - 1;
                self.rows[first & (R - 1)] = self.grow(first, &mut waiting, &mut stack);
                found.first_cores[found.count & (R - 1)] = first as u16;
                found.count += 1;
            }
        }
        found
    }

    /// The community of a core; its cores are taken out of those waiting.
    fn grow(&self, first: usize, waiting: &mut [u64; W], stack: &mut [u16; R]) -> [u64; W] {
        let mut members = [0; W];
        members[word_of::<W>(first)] = bit_of(first);
        stack[0] = first as u16;
        let mut height = 1;
        while height > 0 {
            height -= 1;
            let core = usize::from(stack[height & (R - 1)]);
            let row = &self.rows[core & (R - 1)];
            for i in 0..W {
                members[i] |= row[i];
                let mut new = row[i] & waiting[i];
                waiting[i] ^= new;
                while new != 0 {
                    stack[height & (R - 1)] = (64 * i) as u16 + new.trailing_zeros() as u16;
                    height += 1;
                    new &= new - 1;
                }
            }
        }
        members
    }
}

/// The cores, and the smallest core of each community, ascending.
struct Communities<const W: usize, const R: usize> {
    cores: [u64; W],
    first_cores: [u16; R],
    count: usize,
}

impl<const W: usize, const R: usize> Communities<W, R> {
    /// The member sets in the rows of the network they were joined in.
    fn sets<'a>(&'a self, network: &'a Network<W, R>) -> impl Iterator<Item = &'a [u64; W]> {
        let first_cores = self.first_cores[..self.count].iter();
        first_cores.map(|&first| &network.rows[usize::from(first) & (R - 1)])
    }
}

// ---------------------------------------------------------------- the calls

/// Calls a function compiled for rows as wide as the image's handsets need.
macro_rules! by_width {
    ($image:expr, $function:ident($($argument:expr),*)) => {
        match $image.handset_count() {
            0..=64 => $function::<1, 64>($($argument),*),
            65..=128 => $function::<2, 128>($($argument),*),
            129..=256 => $function::<4, 256>($($argument),*),
            _ => $function::<8, 512>($($argument),*),
        }
    };
}

fn check<const W: usize, const R: usize>(image: &Image) -> Result<(), Refusal> {
    image.check_positions()?;
    image.check_ties::<W, R>()
}

fn plan<const W: usize, const R: usize>(
    image: &Image,
    starts: &mut [u32],
    members: &mut [u16],
) -> Result<Counts, Refusal> {
    let mut network = Network::<W, R>::new();
    network.read(image)?;
    network.keep_near();
    let found = network.communities(image);
    let memberships = found.sets(&network).map(|set| count(set) as usize).sum();
    if starts.len() <= found.count {
        return refuse(11, 0);
    }
    if members.len() < memberships {
        return refuse(12, 0);
    }
    let members = &mut members[..memberships];
    let mut at = 0;
    for (start, set) in starts.iter_mut().zip(found.sets(&network)) {
        *start = at as u32;
        for_each(set, |handset| {
            members[at] = handset as u16;
            at += 1;
        });
    }
    starts[found.count] = memberships as u32;
    Ok(Counts { communities: found.count as u64, memberships: memberships as u64 })
}

fn role<const W: usize, const R: usize>(image: &Image, handset: u64) -> Result<Record, Refusal> {
    let mut network = Network::<W, R>::new();
    network.read(image)?;
    if handset >= image.handset_count() as u64 {
        return refuse(13, 0);
    }
    let handset = handset as usize;
    network.keep_near();
    let near = u64::from(network.degrees[handset & (R - 1)]) + 1;
    let found = network.communities(image);
    let mut sets = found.sets(&network);
    let role = if has(&found.cores, handset) {
        Role::Core(sets.position(|set| has(set, handset)).unwrap_or(0) as u64)
    } else {
        match sets.filter(|set| has(set, handset)).count() {
            0 => Role::Outlier,
            communities => Role::Border(communities as u64),
        }
    };
    Ok(Record { near, role })
}

/// The members of all communities are looked at together, each handset once; then the first community
/// is searched for that has one of those at the least distance.
fn nearest<const W: usize, const R: usize>(
    image: &Image,
    point: Point,
) -> Result<Option<Nearest>, Refusal> {
    let mut network = Network::<W, R>::new();
    network.read(image)?;
    if point.into_iter().any(outside) {
        return refuse(17, 0);
    }
    network.keep_near();
    let found = network.communities(image);
    if found.count == 0 {
        return Ok(None);
    }
    let mut members = [0; W];
    for set in found.sets(&network) {
        (0..W).for_each(|i| members[i] |= set[i]);
    }
    let square = |difference: i32| i64::from(difference) * i64::from(difference);
    let [x, y, z] = point;
    let mut distances = [i64::MAX; R];
    let mut least = i64::MAX;
    for (u, [other_x, other_y, other_z]) in image.positions().enumerate() {
        let distance = square(x - other_x) + square(y - other_y) + square(z - other_z);
        // All ones for an outlier.
        let mask = i64::from(has(&members, u)) - 1;
        distances[u & (R - 1)] = distance | (mask & i64::MAX);
        least = least.min(distances[u & (R - 1)]);
    }
    let mut at_least_distance = [0; W];
    for (u, &distance) in distances.iter().enumerate() {
        at_least_distance[word_of::<W>(u)] |= u64::from(distance == least) << (u % 64);
    }
    let meets =
        |set: &[u64; W]| (0..W).fold(0, |all, i| all | (set[i] & at_least_distance[i])) != 0;
    let community = found.sets(&network).position(meets).unwrap_or(0) as u64;
    Ok(Some(Nearest { community, squared_distance: least as u64 }))
}

/// One pass over the list, one over the ties; t is the sum over the ties of the places of one end
/// times the places of the other.
fn scores(image: &Image, list: &[u16]) -> Result<Scores, Refusal> {
    let n = image.handset_count();
    let mut places = [0_u64; MOST_HANDSETS];
    for (i, &handset) in list.iter().enumerate() {
        let handset = usize::from(handset);
        if handset >= n || i >= MOST_HANDSETS {
            return refuse(13, i);
        }
        places[handset & (MOST_HANDSETS - 1)] += 1;
    }
    let length = list.len() as u64;
    let pairs = length * length.saturating_sub(1) / 2;
    let mut scores = Scores { pairs, tied_pairs: 0, leaving: 0 };
    for tie in image.ties() {
        let (u, v) = ends(tie);
        let (u, v) = (places[u & (MOST_HANDSETS - 1)], places[v & (MOST_HANDSETS - 1)]);
        scores.tied_pairs += u * v;
        scores.leaving += u64::from((u == 0) != (v == 0));
    }
    Ok(scores)
}

/// What the report says of a community beside its members.
#[derive(Clone, Copy)]
struct Tally {
    /// s, t and o.
    pairs: u32,
    joined: u32,
    leaving: u32,
    /// Below 0 where no near tie joins two members.
    reach: f64,
}

/// The tallies of all communities. A tie is inside those that both its ends have the bit of. The first of
/// them in a word is taken without a branch: place 64 stands for none, and what it gets is not looked at.
/// The degrees of a community's members count the ties inside it twice and those that leave it once.
fn tally<const W: usize, const R: usize>(
    image: &Image,
    network: &Network<W, R>,
    found: &Communities<W, R>,
    degrees: &[u16; R],
) -> [Tally; R] {
    // By word, then by handset. Mostly one word is enough for all communities, and has a loop of its own.
    let mut communities = [[0_u64; R]; W];
    let mut volumes = [0; R];
    for (k, (set, volume)) in found.sets(network).zip(&mut volumes).enumerate() {
        let (word, bit) = (&mut communities[word_of::<W>(k)], bit_of(k));
        for_each(set, |handset| {
            word[handset & (R - 1)] |= bit;
            *volume += u32::from(degrees[handset & (R - 1)]);
        });
    }
    let gamma_squared = image.gamma_squared as f64;
    let tested = |tie: Tie| {
        let (u, v) = (ends(tie).0 & (R - 1), ends(tie).1 & (R - 1));
        let distance = squared_distance(&network.places[u], &network.places[v]);
        (u, v, if distance <= gamma_squared { distance } else { -1.0 })
    };
    let (mut joined, mut reaches) = ([[0; 65]; W], [[-1.0; 65]; W]);
    let mut count_in = |i: usize, (u, v, distance): (usize, usize, f64)| {
        let (joined, reaches) = (&mut joined[i], &mut reaches[i]);
        let mut both = communities[i][u] & communities[i][v];
        loop {
            let k = both.trailing_zeros() as usize;
            joined[k] += 1;
            if distance > reaches[k] {
                reaches[k] = distance;
            }
            both &= both.wrapping_sub(1);
            if both == 0 {
                break;
            }
        }
    };
    match found.count.div_ceil(64).min(W) {
        0 | 1 => image.ties().for_each(|tie| count_in(0, tested(tie))),
        words => image.for_each_tie(|tie| {
            let tested = tested(tie);
            (0..words).for_each(|i| count_in(i, tested));
        }),
    }
    let mut tallies = [Tally { pairs: 0, joined: 0, leaving: 0, reach: -1.0 }; R];
    for (k, (set, tally)) in found.sets(network).zip(&mut tallies).enumerate() {
        let (size, joined) = (count(set), joined[word_of::<W>(k)][k % 64]);
        let leaving = volumes[k & (R - 1)] - 2 * joined;
        let reach = reaches[word_of::<W>(k)][k % 64];
        *tally = Tally { pairs: size * (size - 1) / 2, joined, leaving, reach };
    }
    tallies
}

fn report<const W: usize, const R: usize>(
    image: &Image,
    text: &mut [u8],
) -> Result<usize, Refusal> {
    let mut network = Network::<W, R>::new();
    network.read(image)?;
    let degrees = network.degrees;
    network.keep_near();
    let found = network.communities(image);
    let tallies = tally(image, &network, &found, &degrees);
    let lines = Lines::new(image, &network, &found, &tallies);
    let mut length = Length(0);
    lines.put(&mut length);
    let Some(text) = text.get_mut(..length.0) else {
        return refuse(16, 0);
    };
    lines.put(&mut Writer { text, at: 0 });
    Ok(length.0)
}

// ---------------------------------------------------------------- the writer

/// What the writer gets, after questions 3, 5 and 6.
struct Listed<'a> {
    parameters: Parameters,
    coordinates: &'a [i32],
    ties: &'a [[u16; 2]],
}

impl<'a> Listed<'a> {
    fn read(contents: Contents<'a>) -> Result<Listed<'a>, Refusal> {
        let Contents { parameters, coordinates, ends } = contents;
        let Parameters { handsets, ties, gamma_squared, p, q, mu } = parameters;
        if handsets > MOST_HANDSETS as u64 || ties > MOST_TIES as u64 {
            return refuse(3, 0);
        }
        if thresholds_are_bad(gamma_squared, p, q, mu) {
            return refuse(5, 0);
        }
        let coordinates_fit = coordinates.len() as u64 == COORDINATES as u64 * handsets;
        if !coordinates_fit || ends.len() as u64 != 2 * ties {
            return refuse(6, 0);
        }
        Ok(Listed { parameters, coordinates, ties: ends.as_chunks().0 })
    }

    fn handset_count(&self) -> usize {
        self.parameters.handsets as usize
    }

    fn ties(&self) -> impl Iterator<Item = Tie> + Clone + 'a {
        self.ties.iter().copied().map(joined)
    }

    fn header(&self, ties_at: usize, length: usize) -> [u8; HEADER] {
        let Parameters { handsets, ties, gamma_squared, p, q, mu } = self.parameters;
        let words = [
            handsets | ties << 16 | (HEADER as u64) << 32,
            ties_at as u64 | (length as u64) << 32,
            gamma_squared,
            p | q << 16 | mu << 32 | (HANDSET_WIDTH as u64) << 48,
        ];
        let mut header = [0; HEADER];
        let (eights, _) = header.as_chunks_mut();
        eights.iter_mut().zip(words).for_each(|(eight, word)| *eight = word.to_le_bytes());
        header
    }
}

/// Questions 7 to 10 and 20 of the tables as they stand, then the bytes, a record at a time.
fn write<const W: usize, const R: usize>(
    listed: &Listed,
    buffer: &mut [u8],
) -> Result<u64, Refusal> {
    check_coordinates(listed.coordinates.iter().copied())?;
    let mut seen = [[0; W]; R];
    let mut repeated = false;
    by_fours(listed.ties, |ends| repeated |= tie_again::<W, R>(&mut seen, joined(ends)));
    if repeated | !ends_are_good(listed.handset_count(), listed.ties()) {
        return Err(tie_fault(listed.handset_count(), listed.ties()));
    }
    let ties_at = HEADER + HANDSET_WIDTH * listed.handset_count();
    let length = ties_at + TIE_WIDTH * listed.ties.len();
    let Some(image) = buffer.get_mut(..length) else {
        return refuse(20, 0);
    };
    let (head, records) = image.split_at_mut(HEADER);
    head.copy_from_slice(&listed.header(ties_at, length));
    let (handsets, ties) = records.split_at_mut(ties_at - HEADER);
    for (four, coordinate) in handsets.as_chunks_mut().0.iter_mut().zip(listed.coordinates) {
        *four = coordinate.to_le_bytes();
    }
    for (record, tie) in ties.as_chunks_mut().0.iter_mut().zip(listed.ties()) {
        *record = tie.to_le_bytes();
    }
    Ok(length as u64)
}

// ---------------------------------------------------------------- dates

/// The shift of each month's weekdays, from January on, in years that begin with March.
const SHIFTS: [u32; 12] = [0, 3, 2, 5, 0, 3, 5, 1, 4, 6, 2, 4];

/// Whether there is such a date, in a year from 1600 to 9999.
fn exists(Date { year, month, day }: Date) -> bool {
    if !(1600..=9999).contains(&year) || !(1..=12).contains(&month) {
        return false;
    }
    // A year that 25 divides and 4 too is a century, and then 16 divides it where 400 does.
    let leap = year & if year.is_multiple_of(25) { 15 } else { 3 } == 0;
    let length = match month {
        2 => 28 + u32::from(leap),
        // The odd months before August have 31 days, and the even ones from then on.
        _ => 30 | (month ^ (month >> 3)),
    };
    (1..=length).contains(&day)
}

/// Whether a date that exists is from Monday to Friday, by Sakamoto's formula, in which Sunday is 0.
fn is_workday(Date { year, month, day }: Date) -> bool {
    let year = year - u32::from(month < 3);
    let shift = SHIFTS[(month - 1) as usize];
    let weekday = (year + year / 4 - year / 100 + year / 400 + shift + day) % 7;
    (1..=5).contains(&weekday)
}

// ---------------------------------------------------------------- the text

/// All that the report says.
struct Lines<'a, const W: usize, const R: usize> {
    handsets: usize,
    ties: usize,
    memberships: u32,
    network: &'a Network<W, R>,
    found: &'a Communities<W, R>,
    tallies: &'a [Tally; R],
    outliers: [u64; W],
    totals: Totals,
}

/// How many handsets have each role, and how many are in two communities or more.
struct Totals {
    cores: u32,
    borders: u32,
    outliers: u32,
    multiple: u32,
}

/// Where the text goes: into a count of bytes first, then into the buffer.
trait Sink {
    fn put(&mut self, text: &str);
    fn number(&mut self, value: u64);
    /// The members of a set, a space before each, and the line's end.
    fn handsets<const W: usize>(&mut self, set: &[u64; W]);
}

impl<'a, const W: usize, const R: usize> Lines<'a, W, R> {
    fn new(
        image: &Image,
        network: &'a Network<W, R>,
        found: &'a Communities<W, R>,
        tallies: &'a [Tally; R],
    ) -> Self {
        let mut memberships = 0;
        // Those in one community or more, and those in two or more, of which none is a core.
        let (mut members, mut multiple) = ([0; W], [0; W]);
        for set in found.sets(network) {
            memberships += count(set);
            for i in 0..W {
                multiple[i] |= members[i] & set[i];
                members[i] |= set[i];
            }
        }
        let mut outliers = [0; W];
        for u in 0..image.handset_count() {
            outliers[word_of::<W>(u)] |= u64::from(!has(&members, u)) << (u % 64);
        }
        let cores = count(&found.cores);
        let totals = Totals {
            cores,
            borders: count(&members) - cores,
            outliers: count(&outliers),
            multiple: count(&multiple),
        };
        Lines {
            handsets: image.handset_count(),
            ties: image.tie_count(),
            memberships,
            network,
            found,
            tallies,
            outliers,
            totals,
        }
    }

    fn put(&self, sink: &mut impl Sink) {
        sink.put("handsets ");
        sink.number(self.handsets as u64);
        sink.put(" ties ");
        sink.number(self.ties as u64);
        sink.put(" groups ");
        sink.number(self.found.count as u64);
        sink.put(" memberships ");
        sink.number(self.memberships.into());
        sink.put("\n");
        for (k, set) in self.found.sets(self.network).enumerate() {
            let Tally { pairs, joined, leaving, reach } = self.tallies[k & (R - 1)];
            sink.put("group ");
            sink.number(k as u64);
            sink.put(" density ");
            put_score(sink, pairs - joined, pairs);
            sink.put(" conductance ");
            put_score(sink, leaving, 2 * joined + leaving);
            sink.put(" reach ");
            if reach < 0.0 {
                sink.put("-");
            } else {
                sink.number(reach as u64);
            }
            sink.put(":");
            sink.handsets(set);
        }
        sink.put("cores:");
        sink.handsets(&self.found.cores);
        sink.put("outliers:");
        sink.handsets(&self.outliers);
        sink.put("cores ");
        sink.number(self.totals.cores.into());
        sink.put(" borders ");
        sink.number(self.totals.borders.into());
        sink.put(" outliers ");
        sink.number(self.totals.outliers.into());
        sink.put(" multiple ");
        sink.number(self.totals.multiple.into());
        sink.put("\n");
    }
}

fn put_score(sink: &mut impl Sink, dividend: u32, divisor: u32) {
    if divisor == 0 {
        sink.put("-");
    } else {
        sink.number(dividend.into());
        sink.put("/");
        sink.number(divisor.into());
    }
}

/// Counts the bytes.
struct Length(usize);

impl Sink for Length {
    fn put(&mut self, text: &str) {
        self.0 += text.len();
    }

    fn number(&mut self, value: u64) {
        self.0 += 1 + value.checked_ilog10().unwrap_or(0) as usize;
    }

    /// Four bytes a handset, one less below 100, one less again below 10.
    fn handsets<const W: usize>(&mut self, set: &[u64; W]) {
        let below_10 = (set[0] & ((1 << 10) - 1)).count_ones();
        let next_word = set.get(1).copied().unwrap_or(0);
        let below_100 = set[0].count_ones() + (next_word & ((1 << 36) - 1)).count_ones();
        self.0 += 4 * count(set) as usize - below_10 as usize - below_100 as usize + 1;
    }
}

/// Writes into a buffer that has just the text's length.
struct Writer<'a> {
    text: &'a mut [u8],
    at: usize,
}

impl Sink for Writer<'_> {
    fn put(&mut self, text: &str) {
        self.text[self.at..self.at + text.len()].copy_from_slice(text.as_bytes());
        self.at += text.len();
    }

    fn number(&mut self, value: u64) {
        let mut digits = [0; 20];
        let mut first = digits.len();
        let mut rest = value;
        loop {
            first -= 1;
            digits[first] = b'0' + (rest % 10) as u8;
            rest /= 10;
            if rest == 0 {
                break;
            }
        }
        let digits = &digits[first..];
        self.text[self.at..self.at + digits.len()].copy_from_slice(digits);
        self.at += digits.len();
    }

    fn handsets<const W: usize>(&mut self, set: &[u64; W]) {
        for_each(set, |handset| self.handset(handset));
        self.put("\n");
    }
}

impl Writer<'_> {
    /// Four bytes at once wherever they fit; those past the number are overwritten by what follows.
    fn handset(&mut self, handset: usize) {
        let word = &SPACED[handset & (MOST_HANDSETS - 1)];
        let length = 2 + usize::from(handset >= 10) + usize::from(handset >= 100);
        match self.text[self.at..].first_chunk_mut::<4>() {
            Some(four) => *four = *word,
            None => self.text[self.at..self.at + length].copy_from_slice(&word[..length]),
        }
        self.at += length;
    }
}

/// Each handset's number in decimal after a space.
static SPACED: [[u8; 4]; MOST_HANDSETS] = {
    let mut table = [[b' '; 4]; MOST_HANDSETS];
    let mut handset = 0;
    while handset < MOST_HANDSETS {
        let digits = [handset / 100, handset / 10 % 10, handset % 10];
        let skipped = if handset >= 100 {
            0
        } else if handset >= 10 {
            1
        } else {
            2
        };
        let mut i = skipped;
        while i < 3 {
            table[handset][1 + i - skipped] = b'0' + digits[i] as u8;
            i += 1;
        }
        handset += 1;
    }
    table
};

/// The optimised planner behind the trait.
pub struct Fast;

impl Planner for Fast {
    fn name(&self) -> &'static str {
        "fast"
    }

    fn open(&self, image: &[u8]) -> Result<Opened, Refusal> {
        let image = Image::read(image)?;
        by_width!(image, check(&image))?;
        Ok(Opened { handsets: image.handset_count() as u64, ties: image.tie_count() as u64 })
    }

    fn plan(
        &self,
        image: &[u8],
        starts: &mut [u32],
        members: &mut [u16],
    ) -> Result<Counts, Refusal> {
        let image = Image::read(image)?;
        by_width!(image, plan(&image, starts, members))
    }

    fn role(&self, image: &[u8], handset: u64) -> Result<Record, Refusal> {
        let image = Image::read(image)?;
        by_width!(image, role(&image, handset))
    }

    fn scores(&self, image: &[u8], list: &[u16]) -> Result<Scores, Refusal> {
        let image = Image::read(image)?;
        by_width!(image, check(&image))?;
        scores(&image, list)
    }

    fn members(&self, starts: &[u32], members: &[u16], community: u64) -> Result<u64, Refusal> {
        let refusal = refuse(14, 0);
        let Some(end) = community.checked_add(1).filter(|&end| end < starts.len() as u64) else {
            return refusal;
        };
        let (first, end) = (starts[community as usize], starts[end as usize]);
        if first > end || end as usize > members.len() {
            return refusal;
        }
        Ok(u64::from(end - first))
    }

    fn nearest(&self, image: &[u8], point: Point) -> Result<Option<Nearest>, Refusal> {
        let image = Image::read(image)?;
        by_width!(image, nearest(&image, point))
    }

    fn members_at(&self, query: Query) -> Result<Scheduled, Refusal> {
        let Query { time: Time { date, minute }, window, community, plans } = query;
        let Window { opening, closing } = window;
        if !exists(date) {
            return refuse(18, 0);
        }
        if minute >= 1440 || closing > 1440 || opening > closing {
            return refuse(19, 0);
        }
        if opening <= minute && minute < closing && is_workday(date) {
            let plan = plans.workday;
            self.members(plan.starts, plan.members, community).map(Scheduled::Workday)
        } else {
            let plan = plans.restday;
            self.members(plan.starts, plan.members, community).map(Scheduled::Restday)
        }
    }

    fn write(&self, contents: Contents, buffer: &mut [u8]) -> Result<u64, Refusal> {
        let listed = Listed::read(contents)?;
        by_width!(listed, write(&listed, buffer))
    }

    fn report(&self, image: &[u8], text: &mut [u8]) -> Result<u64, u64> {
        let whole = Image::read(image).and_then(|image| by_width!(image, report(&image, text)));
        whole.map(|length| length as u64).map_err(|refusal| refusal.number)
    }
}

#[cfg(test)]
mod tests {
    use super::*;
    use crate::numbers::{Numbers, MOST_IMAGE};
    use crate::reference::Reference;
    use crate::sites::{self, Layout, Rng};

    /// Site S of the specification, and one site on each side of every change of width.
    #[test]
    fn every_width_equals_the_reference() {
        let mut rng = Rng::new(5);
        agree(&sites::site_s(4).plain_image());
        for handsets in [0, 1, 63, 64, 65, 127, 128, 129, 255, 256, 257, 511, 512] {
            let site = sites::hospital(handsets.max(1), 6 * handsets, &mut rng);
            agree(&site.image(Layout::any(&mut rng), &mut rng));
        }
        let full = [sites::two_hubs(), sites::shared_borders(), sites::one_clique()];
        let small = [sites::hub(), sites::totals()];
        let named = small.into_iter().chain(full).chain(sites::reaching());
        for site in named.chain(sites::shafts()) {
            agree(&site.plain_image());
        }
    }

    #[test]
    fn random_sites_equal_the_reference() {
        let mut rng = Rng::new(6);
        for _ in 0..300 {
            agree(&sites::any(&mut rng).image(Layout::any(&mut rng), &mut rng));
        }
    }

    fn agree(image: &[u8]) {
        assert_eq!(Fast.open(image), Reference.open(image));
        let plan = |planner: &dyn Planner| {
            let (mut starts, mut members) = ([7; 514], [7; 8705]);
            (planner.plan(image, &mut starts, &mut members), starts, members)
        };
        assert_eq!(plan(&Fast), plan(&Reference));
        let report = |planner: &dyn Planner| {
            let mut text = vec![7; 65_536];
            (planner.report(image, &mut text), text)
        };
        assert_eq!(report(&Fast), report(&Reference));
        let limits = [1_000_000, -1_000_000, 1_000_000];
        for point in [[0, 0, 0], [3, -4, 12], limits, [-3, 1_000_001, 0], [0, 0, -1_000_001]] {
            assert_eq!(Fast.nearest(image, point), Reference.nearest(image, point));
        }
        let numbers = Numbers::held(image);
        let write = |planner: &dyn Planner, room: usize| {
            let mut buffer = vec![7; room];
            (planner.write(numbers.contents(), &mut buffer), buffer)
        };
        for room in [numbers.length() - 1, numbers.length(), MOST_IMAGE] {
            assert_eq!(write(&Fast, room), write(&Reference, room));
        }
    }
}
