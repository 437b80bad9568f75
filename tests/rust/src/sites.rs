//! Sites to try, their images, and renumberings of images. Everything is drawn from a small
//! generator with a seed, so that a case can be made again from its seed alone.

use std::collections::HashSet;

pub const MOST_HANDSETS: usize = 512;
pub const MOST_TIES: usize = 4096;
pub const MOST_COORDINATE: i32 = 1_000_000;
/// The square of the longest way in the space: from one corner to the opposite one.
pub const MOST_GAMMA_SQUARED: u64 = 12_000_000_000_000;
/// What a blank mu, 0, means.
pub const BLANK_MU: u16 = 4;
/// How many coordinates a handset has: x, y and z.
pub const COORDINATES: usize = 3;

/// The bytes of an image's header, of each record and of each number in one.
pub const HEADER: usize = 32;
pub const COORDINATE_BYTES: usize = 4;
pub const HANDSET_BYTES: usize = COORDINATES * COORDINATE_BYTES;
pub const END_BYTES: usize = 2;
pub const TIE_BYTES: usize = 2 * END_BYTES;
/// Where the header has the width of a handset's record.
pub const WIDTH_AT: usize = 30;

/// The length of an image without gaps.
pub const fn plain_length(handsets: usize, ties: usize) -> usize {
    HEADER + HANDSET_BYTES * handsets + TIE_BYTES * ties
}

// ---------------------------------------------------------------- random numbers

/// splitmix64.
#[derive(Clone)]
pub struct Rng(u64);

impl Rng {
    pub fn new(seed: u64) -> Rng {
        Rng(seed)
    }

    pub fn word(&mut self) -> u64 {
        self.0 = self.0.wrapping_add(0x9e37_79b9_7f4a_7c15);
        let mut z = self.0;
        z = (z ^ (z >> 30)).wrapping_mul(0xbf58_476d_1ce4_e5b9);
        z = (z ^ (z >> 27)).wrapping_mul(0x94d0_49bb_1331_11eb);
        z ^ (z >> 31)
    }

    /// From 0 up to, not including, `bound`, which is not 0.
    pub fn below(&mut self, bound: usize) -> usize {
        (self.word() % bound as u64) as usize
    }

    /// Both ends included.
    pub fn between(&mut self, low: i32, high: i32) -> i32 {
        low + self.below((high - low) as usize + 1) as i32
    }

    /// A count, both ends included.
    pub fn count(&mut self, low: usize, high: usize) -> usize {
        low + self.below(high - low + 1)
    }

    pub fn one_in(&mut self, count: usize) -> bool {
        self.below(count) == 0
    }

    pub fn pick<T: Copy>(&mut self, items: &[T]) -> T {
        items[self.below(items.len())]
    }

    pub fn shuffle<T>(&mut self, items: &mut [T]) {
        for last in (1..items.len()).rev() {
            items.swap(last, self.below(last + 1));
        }
    }

    pub fn fill(&mut self, bytes: &mut [u8]) {
        bytes.iter_mut().for_each(|byte| *byte = self.word() as u8);
    }
}

// ---------------------------------------------------------------- a site and its image

/// The x, the y and the z of a handset.
pub type Position = [i32; COORDINATES];

/// The place that most of the named sites have all their handsets at.
const ORIGIN: Position = [0; COORDINATES];

#[derive(Clone, Debug, PartialEq, Eq)]
pub struct Site {
    pub positions: Vec<Position>,
    pub ties: Vec<(u16, u16)>,
    pub gamma_squared: u64,
    pub epsilon: (u16, u16),
    pub mu: u16,
}

/// Where the two tables stand: their order, and the bytes before, between and after them.
#[derive(Clone, Copy, Debug, Default)]
pub struct Layout {
    pub ties_first: bool,
    pub gaps: [usize; 3],
}

impl Layout {
    pub fn any(rng: &mut Rng) -> Layout {
        let mut gap = || match rng.below(8) {
            0..=3 => 0,
            4 | 5 => rng.below(9),
            6 => rng.below(70),
            _ if rng.one_in(40) => 65_536 + rng.below(70),
            _ => rng.below(1000),
        };
        Layout { gaps: [gap(), gap(), gap()], ties_first: rng.one_in(2) }
    }
}

impl Site {
    /// The image without gaps, handsets first.
    pub fn plain_image(&self) -> Vec<u8> {
        self.image(Layout::default(), &mut Rng::new(0))
    }

    /// The image in a layout; the gaps are filled with noise.
    pub fn image(&self, layout: Layout, rng: &mut Rng) -> Vec<u8> {
        let sizes = [HANDSET_BYTES * self.positions.len(), TIE_BYTES * self.ties.len()];
        let first = usize::from(layout.ties_first);
        let mut offsets = [0; 2];
        offsets[first] = HEADER + layout.gaps[0];
        offsets[1 - first] = offsets[first] + sizes[first] + layout.gaps[1];
        let length = offsets[1 - first] + sizes[1 - first] + layout.gaps[2];
        let mut image = vec![0; length];
        rng.fill(&mut image);
        self.put_header(&mut image, offsets);
        for (i, coordinate) in self.positions.as_flattened().iter().enumerate() {
            put(&mut image, offsets[0] + COORDINATE_BYTES * i, &coordinate.to_le_bytes());
        }
        put_ties(&mut image, offsets[1], &self.ties);
        image
    }

    fn put_header(&self, image: &mut [u8], [handsets_at, ties_at]: [usize; 2]) {
        let length = image.len() as u32;
        put(image, 0, &(self.positions.len() as u16).to_le_bytes());
        put(image, 2, &(self.ties.len() as u16).to_le_bytes());
        put(image, 4, &(handsets_at as u32).to_le_bytes());
        put(image, 8, &(ties_at as u32).to_le_bytes());
        put(image, 12, &length.to_le_bytes());
        put(image, 16, &self.gamma_squared.to_le_bytes());
        put(image, 24, &self.epsilon.0.to_le_bytes());
        put(image, 26, &self.epsilon.1.to_le_bytes());
        put(image, 28, &self.mu.to_le_bytes());
        put(image, WIDTH_AT, &(HANDSET_BYTES as u16).to_le_bytes());
    }
}

fn put_ties(image: &mut [u8], ties_at: usize, ties: &[(u16, u16)]) {
    for (tie, &(u, v)) in ties.iter().enumerate() {
        put(image, ties_at + TIE_BYTES * tie, &u.to_le_bytes());
        put(image, ties_at + TIE_BYTES * tie + END_BYTES, &v.to_le_bytes());
    }
}

fn put(image: &mut [u8], at: usize, bytes: &[u8]) {
    image[at..at + bytes.len()].copy_from_slice(bytes);
}

/// Counts and offsets of both tables, as an accepted image's header has them.
#[derive(Clone, Copy, Debug)]
pub struct Tables {
    pub handsets: usize,
    pub ties: usize,
    pub handsets_at: usize,
    pub ties_at: usize,
}

impl Tables {
    pub fn of(image: &[u8]) -> Tables {
        let short = |at: usize| usize::from(u16::from_le_bytes([image[at], image[at + 1]]));
        let long = |at: usize| short(at) + 65_536 * short(at + 2);
        Tables { handsets: short(0), ties: short(2), handsets_at: long(4), ties_at: long(8) }
    }

    pub fn handset_bytes(&self) -> std::ops::Range<usize> {
        self.handsets_at..self.handsets_at + HANDSET_BYTES * self.handsets
    }

    pub fn tie_bytes(&self) -> std::ops::Range<usize> {
        self.ties_at..self.ties_at + TIE_BYTES * self.ties
    }
}

/// A renumbering of an accepted image, and the map: handset u of the first image is map[u] of the
/// second. The tie records are in another order, ends are swapped, and gaps hold other bytes.
pub fn renumber(image: &[u8], rng: &mut Rng) -> (Vec<u8>, Vec<u16>) {
    let tables = Tables::of(image);
    let mut map: Vec<u16> = (0..tables.handsets as u16).collect();
    rng.shuffle(&mut map);
    let mut second = vec![0; image.len()];
    rng.fill(&mut second);
    second[..HEADER].copy_from_slice(&image[..HEADER]);
    for (record, &to) in image[tables.handset_bytes()].chunks(HANDSET_BYTES).zip(&map) {
        put(&mut second, tables.handsets_at + HANDSET_BYTES * usize::from(to), record);
    }
    let mapped = |end: &[u8]| map[usize::from(u16::from_le_bytes([end[0], end[1]]))];
    let mut records: Vec<(u16, u16)> = image[tables.tie_bytes()]
        .chunks(TIE_BYTES)
        .map(|record| (mapped(&record[..END_BYTES]), mapped(&record[END_BYTES..])))
        .collect();
    mix_ties(&mut records, rng);
    put_ties(&mut second, tables.ties_at, &records);
    (second, map)
}

/// An accepted image with each handset's coordinates in another order: y, z, x. No distance changes.
pub fn turn(image: &[u8]) -> Vec<u8> {
    let mut turned = image.to_vec();
    let records = turned[Tables::of(image).handset_bytes()].chunks_mut(HANDSET_BYTES);
    records.for_each(|record| record.rotate_left(COORDINATE_BYTES));
    turned
}

/// Another order of the ties and of each tie's ends.
fn mix_ties(ties: &mut [(u16, u16)], rng: &mut Rng) {
    rng.shuffle(ties);
    for tie in ties {
        if rng.one_in(2) {
            *tie = (tie.1, tie.0);
        }
    }
}

// ---------------------------------------------------------------- named examples

/// Site S of the specification: seven handsets at one place, epsilon 1/2.
pub fn site_s(mu: u16) -> Site {
    Site {
        positions: vec![ORIGIN; 7],
        ties: vec![(0, 1), (0, 2), (1, 2), (2, 3), (3, 4), (4, 5), (4, 6), (5, 6)],
        gamma_squared: 0,
        epsilon: (1, 2),
        mu,
    }
}

/// `handsets` at one place and no ties.
pub fn untied(handsets: usize, mu: u16) -> Site {
    Site {
        positions: vec![ORIGIN; handsets],
        ties: Vec::new(),
        gamma_squared: 0,
        epsilon: (1, 2),
        mu,
    }
}

/// Two handsets that are not tied, at (-1, -1, 0) and (1, 1, 0): a community each.
pub fn apart() -> Site {
    Site { positions: vec![[-1, -1, 0], [1, 1, 0]], ..untied(2, 1) }
}

/// How far apart the two of `porters` stand, squared: eight storeys of four metres.
pub const PORTERS_APART: u64 = 32 * 32;

/// Two porters one above the other, on floors 1 and 9, tied: nothing but z tells how far apart they are.
pub fn porters(gamma_squared: u64) -> Site {
    Site {
        positions: vec![[25, -70, 4], [25, -70, 36]],
        ties: vec![(1, 0)],
        gamma_squared,
        ..untied(2, 2)
    }
}

/// The same two on one floor, on both sides of z = 0, at both ends of z and next to one: each with gamma
/// just as long as they are apart, with one less and with one more for its square.
pub fn shafts() -> Vec<Site> {
    let far = MOST_COORDINATE;
    let mut sites = Vec::new();
    for (low, high) in [(-32, -32), (-32, 32), (-1, 0), (-far, far), (far - 1, far)] {
        let apart = u64::from(low.abs_diff(high)).pow(2);
        for gamma_squared in [apart.saturating_sub(1), apart, apart + 1] {
            let positions = vec![[25, -70, low], [25, -70, high]];
            sites.push(Site { positions, ..porters(gamma_squared) });
        }
    }
    sites
}

/// Handset 0 is a border in five communities: five cliques of seven, each with one handset tied to it.
/// It is alike to six handsets, itself among them, one short of mu. The last handset is tied to it from
/// too far away and is an outlier.
pub fn hub() -> Site {
    let (cliques, size) = (5, 7);
    let mut positions = vec![ORIGIN];
    let mut ties = Vec::new();
    for clique in 0..cliques {
        let members = 1 + clique * size..1 + (clique + 1) * size;
        for u in members.clone() {
            ties.extend((u + 1..members.end).map(|v| (u, v)));
        }
        ties.push((members.start + clique, 0));
        positions.extend((-3..=3).map(|y| [i32::from(clique) - 2, y, 0]));
    }
    ties.push((positions.len() as u16, 0));
    positions.push([MOST_COORDINATE, -MOST_COORDINATE, 0]);
    Site { positions, ties, gamma_squared: 100, epsilon: (1, 4), mu: size }
}

/// A site with every role, whose four totals differ: 5 cores, 12 borders, 2 outliers, and 3 borders in
/// two groups or more. Handset 7 is in three groups, 0 and 11 are in two; 12 and 13 are alike to two
/// cores of one group and are in that one only. Cores 5 and 15 of different groups are tied and near,
/// and not alike. Outlier 10 is alike to a border, and outlier 18 is tied to a core from too far away.
pub fn totals() -> Site {
    let mut positions = vec![ORIGIN; 19];
    positions[18] = [1, 0, 0];
    let groups = [
        [(0, 2), (1, 2), (2, 3), (2, 7)].as_slice(),
        &[(4, 5), (5, 6), (5, 7), (5, 17)],
        &[(7, 8), (8, 9), (8, 12), (8, 13), (9, 11), (9, 12), (9, 13)],
        &[(0, 15), (11, 15), (14, 15), (15, 16)],
    ];
    let mut ties = groups.concat();
    ties.extend([(5, 15), (10, 14), (5, 18)]);
    Site { positions, ties, gamma_squared: 0, epsilon: (2, 5), mu: 5 }
}

/// Positions by x and y, with z = 0.
fn on_the_ground(places: &[(i32, i32)]) -> Vec<Position> {
    places.iter().map(|&(x, y)| [x, y, 0]).collect()
}

/// One handset, and a group of it alone: no tie, so no reach.
pub fn alone() -> Site {
    Site { positions: vec![[35, -12, 0]], gamma_squared: 50 * 50, ..untied(1, 1) }
}

/// Four handsets, each two of them tied, in one group. The longest tie, 0-1, is exactly as long as gamma,
/// 50 metres, and is neither the first nor the last.
pub fn at_limit() -> Site {
    Site {
        positions: on_the_ground(&[(120, 80), (150, 120), (140, 90), (130, 100)]),
        ties: vec![(0, 2), (2, 3), (1, 0), (1, 2), (3, 1), (0, 3)],
        gamma_squared: 50 * 50,
        epsilon: (1, 2),
        mu: 3,
    }
}

/// A group of four, 0 to 3, with the reach 1,625 of tie 2-3. Its longest tie, 0-3, is beyond gamma, and the
/// near tie 2-4 to outlier 4 is longer than the reach.
pub fn beyond() -> Site {
    Site {
        positions: on_the_ground(&[(-40, 210), (-10, 210), (-20, 240), (15, 220), (-60, 265)]),
        ties: vec![(0, 1), (3, 0), (2, 3), (0, 2), (4, 2), (1, 2), (1, 3)],
        gamma_squared: 50 * 50,
        epsilon: (3, 4),
        mu: 3,
    }
}

/// Two groups that share two borders, 8 and 9. The tie of these two is the longest inside either group.
/// Handsets 3 and 9 of the first group stand farther apart and within gamma, and are not tied.
pub fn paired_borders() -> Site {
    Site {
        positions: on_the_ground(&[
            (0, 0),
            (1, 0),
            (0, 1),
            (-1, -1),
            (7, 2),
            (7, 3),
            (8, 2),
            (6, 2),
            (3, -2),
            (4, 5),
        ]),
        ties: vec![
            (0, 1),
            (0, 2),
            (0, 3),
            (0, 8),
            (0, 9),
            (8, 9),
            (4, 5),
            (4, 6),
            (4, 7),
            (4, 8),
            (4, 9),
        ],
        gamma_squared: 8 * 8,
        epsilon: (1, 4),
        mu: 6,
    }
}

/// Two cliques of four, 0 to 3 and 5 to 8, in one group by handset 4 between them. The longest near tie,
/// 0-5, joins two cores that are not alike.
pub fn unlike_members() -> Site {
    let mut draft = Draft::new(9);
    draft.clique(0, 4);
    draft.tie(5, 0);
    draft.clique(5, 4);
    [2, 3, 7, 8].into_iter().for_each(|handset| draft.tie(4, handset));
    let left = [(0, 3), (0, 0), (2, 0), (2, 3)];
    let right = left.map(|(x, y)| (10 - x, y));
    Site {
        positions: on_the_ground(&[&left[..], &[(5, 1)], &right].concat()),
        ties: draft.ties,
        gamma_squared: 20 * 20,
        epsilon: (1, 2),
        mu: 3,
    }
}

/// The groups of `at_limit` and of `unlike_members` on one site, each with a reach of its own: exactly
/// G, and that of a tie between two that are not alike.
pub fn two_reaches() -> Site {
    let (first, second) = (at_limit(), unlike_members());
    let past = first.positions.len() as u16;
    let ties = second.ties.iter().map(|&(u, v)| (u + past, v + past));
    Site {
        ties: first.ties.iter().copied().chain(ties).collect(),
        positions: [&first.positions[..], &second.positions].concat(),
        ..first
    }
}

/// A handset at each corner of the space, each two of them tied, and the largest gamma, which is the
/// diagonal. Opposite corners have the numbers k and 7 - k, so that neither the first tie nor the last
/// joins two.
pub fn corners() -> Site {
    let far = MOST_COORDINATE;
    let side = |corner: usize, axis: usize| if corner >> axis & 1 == 0 { -far } else { far };
    let mut draft = Draft::new(1 << COORDINATES);
    draft.clique(0, draft.handsets);
    Site {
        positions: (0..draft.handsets)
            .map(|corner| std::array::from_fn(|axis| side(corner, axis)))
            .collect(),
        ties: draft.ties,
        gamma_squared: MOST_GAMMA_SQUARED,
        epsilon: (1, 2),
        mu: 3,
    }
}

/// Five handsets one above the other, each tied to the others, in one group: from two floors down to
/// three up, on both sides of z = 0. The longest near tie, 4-1, is neither the first nor the last, and
/// 4-0 is beyond gamma.
pub fn tower() -> Site {
    let mut draft = Draft::new(5);
    draft.clique(0, 5);
    Site {
        positions: [-8, -3, 1, 4, 12].map(|z| [3, -2, z]).to_vec(),
        ties: draft.ties,
        gamma_squared: 15 * 15,
        epsilon: (1, 2),
        mu: 3,
    }
}

/// Sites whose reaches are easily got wrong.
pub fn reaching() -> Vec<Site> {
    let limit = |gamma_squared| Site { gamma_squared, ..at_limit() };
    let corner = |gamma_squared| Site { gamma_squared, ..corners() };
    vec![
        site_s(4),
        alone(),
        apart(),
        at_limit(),
        limit(50 * 50 - 1),
        limit(50 * 50 + 1),
        beyond(),
        paired_borders(),
        unlike_members(),
        two_reaches(),
        corners(),
        corner(MOST_GAMMA_SQUARED - 1),
        stretched_borders(),
        porters(PORTERS_APART),
        porters(PORTERS_APART - 1),
        tower(),
    ]
}

/// A site as hospitals have them: wards of some dozen handsets within 60 metres on one of eight floors, most
/// ties within a ward, gamma 200 metres, epsilon 2/5, mu 4.
pub fn hospital(handsets: usize, ties: usize, rng: &mut Rng) -> Site {
    let ward = ward_size(handsets, ties);
    let mut draft = Draft::new(handsets);
    draft.wards(ward, ties, rng);
    Site {
        positions: ward_positions(handsets, ward, rng),
        ties: draft.ties,
        gamma_squared: 200 * 200,
        epsilon: (2, 5),
        mu: 4,
    }
}

/// The most memberships that we know how to make with all handsets and ties in use: cores that are
/// tied to borders only, and borders with just too few ties to be cores.
pub fn shared_borders() -> Site {
    let (cores, borders) = (219, 293);
    let mut draft = Draft::new(cores + borders);
    (0..MOST_TIES).for_each(|step| draft.tie(step % cores, cores + step % borders));
    Site {
        positions: vec![ORIGIN; draft.handsets],
        ties: draft.ties,
        gamma_squared: 0,
        epsilon: (1, 1000),
        mu: 16,
    }
}

/// Two opposite corners of the space: no two positions are farther apart.
const OPPOSITE: [Position; 2] = [
    [-MOST_COORDINATE, MOST_COORDINATE, -MOST_COORDINATE],
    [MOST_COORDINATE, -MOST_COORDINATE, MOST_COORDINATE],
];

/// The same with each tie from one corner of the space to the opposite one, near by the largest gamma: the
/// longest report that we know how to make.
pub fn stretched_borders() -> Site {
    let mut site = shared_borders();
    for &(core, border) in &site.ties {
        site.positions[usize::from(core)] = OPPOSITE[0];
        site.positions[usize::from(border)] = OPPOSITE[1];
    }
    Site { gamma_squared: MOST_GAMMA_SQUARED, ..site }
}

/// Two handsets that are tied to each other and to all others: 512 common members.
pub fn two_hubs() -> Site {
    let mut draft = Draft::new(MOST_HANDSETS);
    for handset in 1..MOST_HANDSETS {
        draft.tie(0, handset);
        draft.tie(handset, 1);
    }
    Site {
        positions: vec![ORIGIN; MOST_HANDSETS],
        ties: draft.ties,
        gamma_squared: 0,
        epsilon: (1, 1),
        mu: 2,
    }
}

/// One community with nearly all ties: 91 handsets, each two of them tied; the others have none.
pub fn one_clique() -> Site {
    let mut draft = Draft::new(MOST_HANDSETS);
    draft.clique(0, 91);
    Site {
        positions: vec![ORIGIN; MOST_HANDSETS],
        ties: draft.ties,
        gamma_squared: 0,
        epsilon: (1, 1),
        mu: 0,
    }
}

// ---------------------------------------------------------------- random sites

/// Handsets and ties while a site is being drawn. A tie that is not allowed is left out.
struct Draft {
    handsets: usize,
    ties: Vec<(u16, u16)>,
    taken: HashSet<(usize, usize)>,
    /// A mu that makes cores and borders of this shape where epsilon is one of these and all are near.
    mu: Option<usize>,
    epsilons: &'static [(u16, u16)],
    /// A tie that is to be longer than all others.
    longest: Option<(usize, usize)>,
}

impl Draft {
    fn new(handsets: usize) -> Draft {
        Draft {
            handsets,
            ties: Vec::new(),
            taken: HashSet::new(),
            mu: None,
            epsilons: &[(1, 1000), (1, 20), (1, 5), (1, 4)],
            longest: None,
        }
    }

    fn tie(&mut self, u: usize, v: usize) {
        let allowed = u != v && u.max(v) < self.handsets && self.ties.len() < MOST_TIES;
        if allowed && self.taken.insert((u.min(v), u.max(v))) {
            self.ties.push((u as u16, v as u16));
        }
    }

    fn clique(&mut self, first: usize, size: usize) {
        for v in first..first + size {
            (first..v).for_each(|u| self.tie(u, v));
        }
    }

    /// Random ties until there are `ties`, or until the attempts run out.
    fn scatter(&mut self, ties: usize, rng: &mut Rng) {
        for _ in 0..20 * ties {
            if self.ties.len() < ties {
                let (u, v) = (rng.below(self.handsets), rng.below(self.handsets));
                self.tie(u, v);
            }
        }
    }

    /// Four ties of five within a ward of `ward` handsets, the others anywhere.
    fn wards(&mut self, ward: usize, ties: usize, rng: &mut Rng) {
        for _ in 0..100 * ties {
            if self.ties.len() < ties {
                let u = rng.below(self.handsets);
                let colleague = u / ward * ward + rng.below(ward);
                let anyone = rng.below(self.handsets);
                self.tie(u, if rng.one_in(5) { anyone } else { colleague });
            }
        }
    }
}

/// A ward with room for four fifths of the ties, half of its pairs tied.
fn ward_size(handsets: usize, ties: usize) -> usize {
    (16 * ties / (5 * handsets.max(1))).clamp(4, 40)
}

/// A ward is on one floor, and each floor is four metres above the one below it.
fn ward_positions(handsets: usize, ward: usize, rng: &mut Rng) -> Vec<Position> {
    let mut centre = ORIGIN;
    let mut positions = Vec::new();
    for handset in 0..handsets {
        if handset % ward == 0 {
            centre = [rng.between(-1000, 1000), rng.between(-1000, 1000), 4 * rng.between(-1, 6)];
        }
        let [x, y, z] = centre;
        positions.push([x + rng.between(-30, 30), y + rng.between(-30, 30), z]);
    }
    positions
}

/// Any site: mostly small ones, so that many can be tried, and now and then a full one.
pub fn any(rng: &mut Rng) -> Site {
    if rng.one_in(100) {
        return full(rng);
    }
    let draft = any_draft(rng);
    complete(draft, rng)
}

/// A site of at most seven handsets.
pub fn tiny(rng: &mut Rng) -> Site {
    let draft = scattered(1, 7, rng);
    complete(draft, rng)
}

/// Positions and limits for the drawn ties.
fn complete(draft: Draft, rng: &mut Rng) -> Site {
    let mut site = Site {
        positions: any_positions(draft.handsets, rng),
        ties: draft.ties,
        gamma_squared: 0,
        epsilon: any_epsilon(rng),
        mu: 0,
    };
    if let Some((u, v)) = draft.longest.filter(|_| !rng.one_in(4)) {
        let coordinates = site.positions.as_flattened_mut().iter_mut();
        coordinates.for_each(|coordinate| *coordinate /= 2);
        [site.positions[u], site.positions[v]] = OPPOSITE;
    }
    relabel(&mut site, rng);
    site.gamma_squared = any_gamma_squared(&site, rng);
    site.mu = any_mu(&site, rng);
    if let Some(mu) = draft.mu.filter(|_| !rng.one_in(4)) {
        site.gamma_squared = MOST_GAMMA_SQUARED;
        site.epsilon = rng.pick(draft.epsilons);
        site.mu = mu as u16;
    }
    if site.mu == BLANK_MU && rng.one_in(2) {
        site.mu = 0;
    }
    site
}

/// A site with 512 handsets and 4,096 ties, or as many as its shape has.
fn full(rng: &mut Rng) -> Site {
    let mut site = match rng.below(6) {
        0 => shared_borders(),
        1 => one_clique(),
        2 => two_hubs(),
        _ => hospital(MOST_HANDSETS, MOST_TIES, rng),
    };
    relabel(&mut site, rng);
    site
}

fn any_draft(rng: &mut Rng) -> Draft {
    match rng.below(40) {
        0 | 1 => Draft::new(rng.pick(&[0, 0, 1, 2, 64, 65, 511, 512])),
        2..=7 => scattered(1, 6, rng),
        8..=12 => scattered(7, 40, rng),
        13..=22 => cliques_with_borders(rng),
        23..=26 => chain(rng),
        27 | 28 => stars(rng),
        29..=31 => wards(2, 60, rng),
        32 | 33 => wards(60, 140, rng),
        34 => wards(140, MOST_HANDSETS, rng),
        35 => cores_with_borders(rng),
        36..=38 => tied_borders(rng),
        _ => bridged_cliques(rng),
    }
}

fn scattered(low: usize, high: usize, rng: &mut Rng) -> Draft {
    let handsets = rng.count(low, high);
    let mut draft = Draft::new(handsets);
    let pairs = handsets * (handsets - 1) / 2;
    draft.scatter(rng.below(pairs + 1), rng);
    draft
}

/// Cliques, and handsets tied to one or more members of several of them.
fn cliques_with_borders(rng: &mut Rng) -> Draft {
    let (cliques, size) = (rng.count(1, 6), rng.count(2, 7));
    let borders = rng.below(4);
    let mut draft = Draft::new(cliques * size + borders);
    draft.mu = Some(size);
    for clique in 0..cliques {
        draft.clique(clique * size, size);
        for border in 0..borders {
            for _ in 0..rng.below(3) {
                draft.tie(clique * size + rng.below(size), cliques * size + border);
            }
        }
    }
    draft
}

/// A chain or a ring, each handset tied to the next one or to the next two.
fn chain(rng: &mut Rng) -> Draft {
    let handsets = rng.count(2, 70);
    let (reach, ring) = (rng.count(1, 3), rng.one_in(3));
    let mut draft = Draft::new(handsets);
    for u in 0..handsets {
        for v in u + 1..=u + reach {
            draft.tie(u, if ring { v % handsets } else { v });
        }
    }
    draft
}

/// Stars that may share leaves.
fn stars(rng: &mut Rng) -> Draft {
    let (centres, leaves) = (rng.count(1, 4), rng.count(1, 40));
    let mut draft = Draft::new(centres + leaves);
    for leaf in centres..centres + leaves {
        for _ in 0..rng.count(1, 2) {
            draft.tie(rng.below(centres), leaf);
        }
    }
    draft
}

fn wards(low: usize, high: usize, rng: &mut Rng) -> Draft {
    let mut draft = Draft::new(rng.count(low, high));
    let ties = rng.below((10 * draft.handsets).min(MOST_TIES));
    draft.wards(rng.count(3, 20), ties, rng);
    draft
}

/// Few cores, tied to borders only: borders in many communities.
fn cores_with_borders(rng: &mut Rng) -> Draft {
    let (cores, borders) = (rng.count(2, 12), rng.count(4, 40));
    let mu = rng.count(3, 8);
    let mut draft = Draft::new(cores + borders);
    draft.mu = Some(mu);
    for core in 0..cores {
        for _ in 0..mu + rng.below(3) {
            draft.tie(core, cores + rng.below(borders));
        }
    }
    draft
}

/// Few cores, each with leaves of its own, and borders that they share, many of them tied to each other.
fn tied_borders(rng: &mut Rng) -> Draft {
    let (cores, borders) = (rng.count(2, 4), rng.count(2, 5));
    let leaves = cores + borders;
    let mut draft = Draft::new(borders + cores * (1 + leaves));
    draft.mu = Some(1 + leaves);
    for core in (borders..draft.handsets).step_by(1 + leaves) {
        (core + 1..=core + leaves).for_each(|leaf| draft.tie(core, leaf));
        (0..borders).filter(|_| !rng.one_in(4)).for_each(|border| draft.tie(border, core));
    }
    for border in 0..borders {
        (0..border).filter(|_| !rng.one_in(3)).for_each(|other| draft.tie(other, border));
    }
    draft.tie(0, 1);
    draft.longest = Some((0, 1));
    draft
}

/// Cliques in a row, a handset between each two that is tied to some of both, and a tie from the first
/// clique to the last, whose ends are hardly alike.
fn bridged_cliques(rng: &mut Rng) -> Draft {
    let (cliques, size) = (rng.count(2, 4), rng.count(4, 6));
    let mut draft = Draft::new(cliques * (size + 1) - 1);
    for first in (0..draft.handsets).step_by(size + 1) {
        draft.clique(first, size);
        // The two last of this clique and the two first of the next one.
        [size - 2, size - 1, size + 1, size + 2]
            .into_iter()
            .for_each(|other| draft.tie(first + size, first + other));
    }
    let across = (rng.below(size - 2), draft.handsets - 1 - rng.below(size - 2));
    draft.tie(across.0, across.1);
    (draft.mu, draft.epsilons, draft.longest) = (Some(3), &[(9, 20), (1, 2)], Some(across));
    draft
}

fn any_positions(handsets: usize, rng: &mut Rng) -> Vec<Position> {
    let far = MOST_COORDINATE;
    let kind = rng.below(10);
    let home: Position = std::array::from_fn(|_| rng.between(-far, far));
    let [a, b, c]: Position = std::array::from_fn(|_| rng.between(0, 9));
    let [home_x, home_y, home_z] = home;
    let mut position = || match kind {
        0 => home,
        1 | 2 => std::array::from_fn(|_| rng.between(-4, 4)),
        3 => {
            let turned = [[a, b, c], [-b, a, c], [c, -a, b], [-a, -b, -c]];
            let beside = [[a + 1, b, c], [a, b + 1, c], [a, b, c + 1]];
            rng.pick(&[&[ORIGIN][..], &turned, &beside].concat())
        }
        4 => [rng.pick(&[-far, far]), rng.pick(&[-far, far, 0]), rng.pick(&[-far, far, 0])],
        5 => std::array::from_fn(|_| rng.between(-far, far)),
        6 => [far - rng.below(3) as i32, rng.below(3) as i32 - far, far - rng.below(3) as i32],
        // One above the other: z alone tells them apart.
        7 => [home_x, home_y, rng.pick(&[-far, -far + 1, -c - 1, -1, 0, 1, a, far - 1, far])],
        // On one level, at z = 0 and at another one.
        8 => [rng.between(-9, 9), rng.between(-9, 9), 0],
        _ => [rng.between(-9, 9), rng.between(-9, 9), home_z],
    };
    (0..handsets).map(|_| position()).collect()
}

/// Often the squared distance of a tie, or one less or more: at the limit exactly, and on both sides of it.
fn any_gamma_squared(site: &Site, rng: &mut Rng) -> u64 {
    let of_a_tie = match site.ties.len() {
        0 => 0,
        ties => {
            let (u, v) = site.ties[rng.below(ties)];
            squared_distance(site.positions[usize::from(u)], site.positions[usize::from(v)])
        }
    };
    match rng.below(10) {
        0 => 0,
        1..=3 => MOST_GAMMA_SQUARED,
        4 => MOST_GAMMA_SQUARED - 1,
        5 => rng.word() % (MOST_GAMMA_SQUARED + 1),
        6 => of_a_tie.saturating_sub(1),
        7 => (of_a_tie + 1).min(MOST_GAMMA_SQUARED),
        _ => of_a_tie,
    }
}

pub fn squared_distance(one: Position, other: Position) -> u64 {
    let square = |axis: usize| u64::from(one[axis].abs_diff(other[axis])).pow(2);
    (0..COORDINATES).map(square).sum()
}

fn any_epsilon(rng: &mut Rng) -> (u16, u16) {
    let known = [(1, 2), (3, 5), (577, 1000), (578, 1000), (7, 10), (2, 3), (1, 3), (3, 4)];
    match rng.below(10) {
        0..=2 => rng.pick(&[(1, 1000), (1, 20), (1, 5)]),
        3 => rng.pick(&[(1, 1), (1000, 1000), (999, 1000)]),
        4 => {
            let q = rng.between(1, 1000);
            (rng.between(1, q) as u16, q as u16)
        }
        5 => {
            let q = rng.between(1, 9);
            (rng.between(1, q) as u16, q as u16)
        }
        _ => rng.pick(&known),
    }
}

/// Often blank, and half of the time one more than the ties of some handset, so that some are cores and
/// some are not.
fn any_mu(site: &Site, rng: &mut Rng) -> u16 {
    let handset = rng.below(site.positions.len().max(1)) as u16;
    let ends_here = |&&(u, v): &&(u16, u16)| u == handset || v == handset;
    match rng.below(16) {
        0 => rng.below(MOST_HANDSETS + 1) as u16,
        1 => rng.pick(&[1, 511, 512]),
        2 | 3 => rng.between(1, 6) as u16,
        4..=7 => 0,
        _ => site.ties.iter().filter(ends_here).count() as u16 + 1,
    }
}

/// Numbers the handsets in another way, so that no number tells its place in the shape.
fn relabel(site: &mut Site, rng: &mut Rng) {
    let mut map: Vec<u16> = (0..site.positions.len() as u16).collect();
    rng.shuffle(&mut map);
    let old = site.positions.clone();
    for (position, &to) in old.iter().zip(&map) {
        site.positions[usize::from(to)] = *position;
    }
    for (u, v) in &mut site.ties {
        (*u, *v) = (map[usize::from(*u)], map[usize::from(*v)]);
    }
    mix_ties(&mut site.ties, rng);
}

#[cfg(test)]
mod tests {
    use super::*;
    use crate::calls::{Point, Role};
    use crate::compare;
    use crate::damage;
    use crate::reaches::WrongReach;
    use crate::reference::{self, Findings, Reference};
    use std::cmp::Reverse;
    use std::collections::HashMap;

    fn any_sites(count: u64) -> impl Iterator<Item = (Site, Vec<u8>)> {
        (0..count).map(|seed| {
            let mut rng = Rng::new(seed);
            let site = any(&mut rng);
            let image = site.image(Layout::any(&mut rng), &mut rng);
            (site, image)
        })
    }

    #[test]
    fn every_image_is_accepted_and_says_its_site() {
        for (site, image) in any_sites(300) {
            let opened = reference::open(&image).expect("accepted");
            let positions = site.positions.iter().map(|position| position.map(i64::from));
            let ties = site.ties.iter().map(|&(u, v)| (u.into(), v.into()));
            assert_eq!(opened.positions, positions.collect::<Vec<_>>());
            assert_eq!(opened.ties, ties.collect::<Vec<(usize, usize)>>());
            assert_eq!(opened.gamma_squared, site.gamma_squared);
        }
    }

    #[test]
    fn renumbered_images_are_renumberings() {
        for (seed, (site, image)) in any_sites(100).enumerate() {
            if site.positions.len() < 50 {
                let outcome = compare::renumbering(&Reference, &image, &mut Rng::new(seed as u64));
                assert_eq!(outcome, Ok(()));
            }
        }
    }

    /// The generated sites have every trait that the tests are for.
    #[test]
    fn sites_are_of_every_kind() {
        let mut seen = [0; 9];
        for (site, image) in any_sites(400) {
            let found = Findings::of(reference::open(&image).expect("accepted"));
            let handsets = 0..site.positions.len() as u64;
            let roles: Vec<Role> =
                handsets.map(|u| found.record(u).expect("a handset").role).collect();
            let communities = found.communities();
            let limit = site.gamma_squared;
            let distances: Vec<u64> = distances(&site, |_, _| true);
            let traits = [
                roles.is_empty(),
                site.ties.len() == MOST_TIES,
                distances.iter().any(|&distance| distance > 0 && distance == limit),
                distances.contains(&(limit + 1)),
                distances.iter().any(|distance| distance + 1 == limit),
                roles.iter().any(|role| matches!(role, Role::Border(count) if *count > 1)),
                roles.contains(&Role::Outlier) && !communities.is_empty(),
                communities.len() > 20,
                communities.iter().any(|c| c.members.first() < c.cores.first()),
            ];
            seen.iter_mut().zip(traits).for_each(|(count, has)| *count += usize::from(has));
        }
        assert!(seen.iter().all(|&count| count > 0), "{seen:?}");
    }

    /// The squared distances of a site's ties, of those whose ends stand in a way.
    fn distances(site: &Site, wanted: fn(Position, Position) -> bool) -> Vec<u64> {
        let position = |end: u16| site.positions[usize::from(end)];
        let ends = site.ties.iter().map(|&(u, v)| (position(u), position(v)));
        let ends = ends.filter(|&(one, other)| wanted(one, other));
        ends.map(|(one, other)| squared_distance(one, other)).collect()
    }

    /// Generated sites have ties whose ends z alone tells apart, at the limit and on both sides of it;
    /// and handsets on one level, at z = 0 and at another one, and at both ends of z.
    #[test]
    fn sites_are_of_every_height() {
        let mut seen = [0; 7];
        for (site, _) in any_sites(400) {
            let limit = site.gamma_squared;
            let upright =
                distances(&site, |[x, y, z], other| [x, y] == other[..2] && z != other[2]);
            let heights: HashSet<i32> = site.positions.iter().map(|position| position[2]).collect();
            let level = heights.len() == 1 && site.ties.len() > 2;
            let traits = [
                upright.contains(&limit),
                upright.contains(&(limit + 1)),
                upright.iter().any(|distance| distance + 1 == limit),
                level && heights.contains(&0),
                level && !heights.contains(&0),
                heights.contains(&MOST_COORDINATE),
                heights.contains(&-MOST_COORDINATE),
            ];
            seen.iter_mut().zip(traits).for_each(|(count, has)| *count += usize::from(has));
        }
        assert!(seen.iter().all(|&count| count > 1), "{seen:?}");
    }

    /// A blank mu is there on one site of eight at least; and a mu that is read in a wrong way gives other
    /// communities, or other cores of them, on one site of fifty at least.
    #[test]
    fn sites_tell_wrong_readings_of_mu() {
        const SITES: u64 = 400;
        let mut blank = 0;
        let mut seen = [0; 4];
        for (site, image) in any_sites(SITES) {
            let opened = reference::open(&image).expect("accepted");
            let right = Findings::of(opened.clone());
            let read_as = |mu| {
                let wrong = Findings::of(reference::Site { mu, ..opened.clone() });
                wrong.communities() != right.communities()
            };
            blank += u64::from(site.mu == 0);
            let differs = [
                // Blank is three, as it was; five; as it stands.
                site.mu == 0 && read_as(3),
                site.mu == 0 && read_as(5),
                site.mu == 0 && read_as(0),
                // One is blank too.
                site.mu == 1 && read_as(BLANK_MU.into()),
            ];
            seen.iter_mut().zip(differs).for_each(|(count, has)| *count += u64::from(has));
        }
        assert!(8 * blank >= SITES, "{blank}");
        assert!(seen.iter().all(|&count| 50 * count >= SITES), "{seen:?}");
    }

    /// Totals that are counted in a wrong way differ from the right ones on one site of fifty at least, so
    /// that 2,000 sites hardly miss one.
    #[test]
    fn sites_tell_wrong_totals() {
        const SITES: u64 = 400;
        let mut seen = [0; 8];
        for (site, image) in any_sites(SITES) {
            let found = Findings::of(reference::open(&image).expect("accepted"));
            let n = site.positions.len();
            let in_groups: Vec<u64> = (0..n as u64)
                .filter_map(|u| match found.record(u).expect("a handset").role {
                    Role::Core(_) => None,
                    Role::Border(groups) => Some(groups),
                    Role::Outlier => Some(0),
                })
                .collect();
            let with = |wanted: fn(u64) -> bool| in_groups.iter().filter(|&&g| wanted(g)).count();
            let (cores, memberships) = (n - in_groups.len(), found.member_table().len());
            let (borders, outliers) = (with(|groups| groups > 0), with(|groups| groups == 0));
            let multiple = with(|groups| groups > 1);
            let right_and_wrong = [
                // One core for each group.
                (cores, found.communities().len()),
                // A border once for each of its groups; the outliers, too; those in one group only.
                (borders, memberships - cores),
                (borders, n - cores),
                (borders, borders - multiple),
                // All that no place of the member table is left for.
                (outliers, n.saturating_sub(memberships)),
                // A border once for each further group; in two groups just; in more than two.
                (multiple, memberships - cores - borders),
                (multiple, with(|groups| groups == 2)),
                (multiple, with(|groups| groups > 2)),
            ];
            let differs = right_and_wrong.map(|(right, wrong)| right != wrong);
            seen.iter_mut().zip(differs).for_each(|(count, has)| *count += u64::from(has));
        }
        assert!(seen.iter().all(|&count| 50 * count >= SITES), "{seen:?}");
    }

    /// A coordinate that is left out of the near test or read in a wrong way gives a handset another near count
    /// or another role, on one site of fifty at least.
    #[test]
    fn sites_tell_wrong_near_tests() {
        const SITES: u64 = 400;
        let wrong: [fn(reference::Position) -> reference::Position; 6] = [
            |[_, y, z]| [0, y, z],
            |[x, _, z]| [x, 0, z],
            |[x, y, _]| [x, y, 0],
            // z for y, y for z, z without its sign.
            |[x, _, z]| [x, z, z],
            |[x, y, _]| [x, y, y],
            |[x, y, z]| [x, y, z.abs()],
        ];
        let records = |site: reference::Site| {
            let found = Findings::of(site);
            let handsets = 0..found.site().positions.len() as u64;
            handsets.map(|u| found.record(u)).collect::<Vec<_>>()
        };
        let mut seen = [0; 6];
        for (_, image) in any_sites(SITES) {
            let opened = reference::open(&image).expect("accepted");
            let right = records(opened.clone());
            for (count, wrong) in seen.iter_mut().zip(wrong) {
                let positions = opened.positions.iter().copied().map(wrong).collect();
                let differs = records(reference::Site { positions, ..opened.clone() }) != right;
                *count += u64::from(differs);
            }
        }
        assert!(seen.iter().all(|&count| 50 * count >= SITES), "{seen:?}");
    }

    /// A reach that is found in a wrong way is another one, for some community, on one site of fifty at
    /// least.
    #[test]
    fn sites_tell_wrong_reaches() {
        const SITES: u64 = 400;
        let mut seen = WrongReach::ALL.map(|wrong| (wrong, 0));
        for (_, image) in any_sites(SITES) {
            let found = Findings::of(reference::open(&image).expect("accepted"));
            for (wrong, count) in &mut seen {
                let communities = found.communities().iter();
                let differs = communities.clone().any(|c| wrong.reach(&found, c) != found.reach(c));
                *count += u64::from(differs);
            }
        }
        assert!(seen.iter().all(|&(_, count)| 50 * count >= SITES), "{seen:?}");
    }

    /// A community that is chosen in a wrong way is another one than the nearest, and limits that are tested
    /// in a wrong way refuse another point, on one site of fifty at least with the points asked for there.
    #[test]
    fn sites_tell_wrong_nearest_communities() {
        const SITES: u64 = 400;
        let mut seen = [0; 18];
        for (seed, (_, image)) in (0..).zip(any_sites(SITES)) {
            let mut rng = Rng::new(seed);
            let found = Findings::of(reference::open(&image).expect("accepted"));
            let points = compare::points(&found, &mut rng);
            let chosen = |choose: &dyn Fn(Point) -> Option<(u64, u64)>| {
                let mut nearest = points.iter().map(|&point| (point, found.nearest(point)));
                nearest.any(|(point, nearest)| {
                    nearest.is_ok_and(|nearest| {
                        nearest.map(|nearest| nearest.community) != choose(point).map(|(_, k)| k)
                    })
                })
            };
            let by = |far: Far, looked_at: &dyn Fn(usize, u64) -> bool| {
                chosen(&|point| members(&found, point, far, looked_at).min())
            };
            let community = |k: u64| &found.communities()[k as usize];
            let mut last = HashMap::new();
            (0..).zip(found.communities()).for_each(|(k, community)| {
                last.extend(community.members.iter().map(|&u| (u, k)));
            });
            let square: Far = |[dx, dy, dz]| dx * dx + dy * dy + dz * dz;
            let anyone = &|_, _| true;
            const FAR: u32 = MOST_COORDINATE as u32;
            let refused = |limits: fn([u32; COORDINATES]) -> bool| {
                let wrong = |point: Point| limits(point.map(i32::unsigned_abs));
                points.iter().any(|&point| found.nearest(point).is_err() != wrong(point))
            };
            let differs = [
                // Of equals the last.
                chosen(&|point| {
                    let members = members(&found, point, square, anyone);
                    members.min_by_key(|&(distance, k)| (distance, Reverse(k)))
                }),
                // The smallest member alone, the smallest core, the cores; each border in its last group.
                by(square, &|u, k| community(k).members.first() == Some(&u)),
                by(square, &|u, k| community(k).cores.first() == Some(&u)),
                by(square, &|u, k| community(k).cores.contains(&u)),
                by(square, &|u, k| last[&u] == k),
                // By one coordinate alone, without z, with y for z.
                by(|[dx, _, _]| dx * dx, anyone),
                by(|[_, dy, _]| dy * dy, anyone),
                by(|[_, _, dz]| dz * dz, anyone),
                by(|[dx, dy, _]| dx * dx + dy * dy, anyone),
                by(|[dx, dy, _]| dx * dx + 2 * dy * dy, anyone),
                // By the sum of the sides, by the largest, in 32 bits.
                by(|sides| sides.iter().sum(), anyone),
                by(|[dx, dy, dz]| dx.max(dy).max(dz), anyone),
                by(|[dx, dy, dz]| (dx * dx + dy * dy + dz * dz) % (1 << 32), anyone),
                // The limits exclusive; those of x alone, of x and y, of z alone.
                refused(|sides| sides.iter().any(|&side| side >= FAR)),
                refused(|[x, _, _]| x > FAR),
                refused(|[x, y, _]| x.max(y) > FAR),
                refused(|[_, _, z]| z > FAR),
                // 17 before the image's refusal: each refused image is asked with such a point.
                reference::open(&damage::several(&image, &mut rng)).is_err(),
            ];
            seen.iter_mut().zip(differs).for_each(|(count, has)| *count += u64::from(has));
        }
        assert!(seen.iter().all(|&count| 50 * count >= SITES), "{seen:?}");
    }

    /// How far away that is which is as far as this in x, in y and in z.
    type Far = fn([u64; COORDINATES]) -> u64;

    /// How far each member is that is looked at, and its community's number.
    fn members<'a>(
        found: &'a Findings,
        point: Point,
        far: Far,
        looked_at: &'a dyn Fn(usize, u64) -> bool,
    ) -> impl Iterator<Item = (u64, u64)> + 'a {
        (0..).zip(found.communities()).flat_map(move |(k, community)| {
            let members = community.members.iter().filter(move |&&u| looked_at(u, k));
            members.map(move |&u| {
                let other = found.site().positions[u];
                let side = |axis: usize| other[axis].abs_diff(point[axis].into());
                (far(std::array::from_fn(side)), k)
            })
        })
    }
}
