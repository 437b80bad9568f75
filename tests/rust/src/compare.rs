//! One image through every call of a planner, compared with the reference: answers, every entry of
//! what was lent, and the image itself. Lent tables hold a pattern before a call and have guards on
//! both sides; images stand at any address, with noise around them. The call for the members at a time
//! and the writer get no image, and are compared on many times and on many numbers besides.

use std::fmt::{Debug, Display};
use std::io::Write;
use std::path::Path;
use std::process::{Command, Stdio};

use crate::calendar::{self, SATURDAY};
use crate::calls::{
    Contents, Counts, Nearest, Opened, Plan, Planner, Plans, Point, Query, Refusal, Role, Scheduled,
};
use crate::numbers::{self, Numbers, MOST_IMAGE};
use crate::reference::{self, Community, Findings};
use crate::sites::{
    self, Rng, Site, Tables, COORDINATES, COORDINATE_BYTES, HANDSET_BYTES, HEADER, MOST_COORDINATE,
    MOST_HANDSETS, TIE_BYTES,
};
use crate::times;

/// Agreement, or what differs.
pub type Outcome = Result<(), String>;

fn same<T: PartialEq + Debug>(what: impl Display, got: T, expected: T) -> Outcome {
    if got == expected {
        return Ok(());
    }
    Err(format!("{what}: got {got:?}, expected {expected:?}"))
}

fn holds(what: impl Display, fact: bool) -> Outcome {
    if fact {
        return Ok(());
    }
    Err(what.to_string())
}

// ---------------------------------------------------------------- what is lent

const GUARD: usize = 16;

/// A table to lend: each entry has its own value, and so have the guards on both sides.
struct Lent<T> {
    all: Vec<T>,
    pattern: fn(usize) -> T,
}

impl<T: Copy + PartialEq> Lent<T> {
    fn new(length: usize, pattern: fn(usize) -> T) -> Lent<T> {
        Lent { all: (0..length + 2 * GUARD).map(pattern).collect(), pattern }
    }

    fn part(&mut self) -> &mut [T] {
        let end = self.all.len() - GUARD;
        &mut self.all[GUARD..end]
    }

    /// Whether it begins with `written` and holds everywhere else what it held before.
    fn holds(&self, written: &[T]) -> bool {
        let end = GUARD + written.len();
        let kept = |i: usize| self.all[i] == (self.pattern)(i);
        self.all[GUARD..end] == *written && (0..GUARD).chain(end..self.all.len()).all(kept)
    }
}

fn lent_starts(length: usize) -> Lent<u32> {
    Lent::new(length, |i| (i as u32).wrapping_mul(0x9e37_79b1) ^ 0xa5a5_5a5a)
}

fn lent_members(length: usize) -> Lent<u16> {
    Lent::new(length, |i| (i as u16).wrapping_mul(0x9e37) ^ 0xa55a)
}

fn lent_bytes(length: usize) -> Lent<u8> {
    Lent::new(length, |i| (i as u8).wrapping_mul(0x9d) ^ 0xa5)
}

/// What is lent to be read, with noise on both sides.
struct Noisy<T> {
    all: Vec<T>,
    from: usize,
    to: usize,
}

impl<T: Copy> Noisy<T> {
    fn new(part: &[T], noise: fn(u64) -> T, rng: &mut Rng) -> Noisy<T> {
        let from = rng.below(16);
        let to = from + part.len();
        let mut all: Vec<T> = (0..from).map(|_| noise(rng.word())).collect();
        all.extend_from_slice(part);
        all.extend((0..GUARD).map(|_| noise(rng.word())));
        Noisy { all, from, to }
    }

    fn part(&self) -> &[T] {
        &self.all[self.from..self.to]
    }
}

// ---------------------------------------------------------------- one image

/// Every call on one image, accepted or not, with the role of every handset.
pub fn image(planner: &dyn Planner, image: &[u8], rng: &mut Rng) -> Outcome {
    every_call(planner, image, MOST_HANDSETS, rng)
}

/// The same with the roles of some handsets only where there are many: for images much like another
/// one that was compared in full.
pub fn similar_image(planner: &dyn Planner, image: &[u8], rng: &mut Rng) -> Outcome {
    every_call(planner, image, 24, rng)
}

fn every_call(planner: &dyn Planner, image: &[u8], roles: usize, rng: &mut Rng) -> Outcome {
    let lent = Noisy::new(image, |word| word as u8, rng);
    match reference::open(image) {
        Err(refusal) => refused(planner, lent.part(), refusal, rng)?,
        Ok(site) => accepted(planner, lent.part(), &Findings::of(site), roles, rng)?,
    }
    holds("the image was changed", lent.part() == image)
}

/// Every call on a refused image ends with its refusal and writes nothing.
fn refused(planner: &dyn Planner, image: &[u8], refusal: Refusal, rng: &mut Rng) -> Outcome {
    same("open", planner.open(image), Err(refusal))?;
    let mut starts = lent_starts(rng.pick(&[0, 1, 20, 513, 514]));
    let mut members = lent_members(rng.pick(&[0, 1, 50, 8704, 8705]));
    same("plan", planner.plan(image, starts.part(), members.part()), Err(refusal))?;
    holds("plan wrote before a refusal", starts.holds(&[]) && members.holds(&[]))?;
    let handset = rng.pick(&[0, 1, 511, 512, u64::MAX]);
    same("role", planner.role(image, handset), Err(refusal))?;
    let mut list = vec![0; rng.pick(&[0, 1, 9, 512, 513])];
    list.iter_mut().for_each(|entry| *entry = rng.word() as u16);
    same("scores", planner.scores(image, &list), Err(refusal))?;
    for point in [point_inside(rng), point_outside(rng)] {
        same(format_args!("nearest to {point:?}"), planner.nearest(image, point), Err(refusal))?;
    }
    let mut text = lent_bytes(rng.pick(&[0, 1, 100, 65_536]));
    same("report", planner.report(image, text.part()), Err(refusal.number))?;
    holds("report wrote before a refusal", text.holds(&[]))?;
    match refusal.number {
        // The records are refused as well where the writer gets them.
        7.. => write_into(planner, &Numbers::held(image), rng.pick(&ROOMS), &Err(refusal), rng),
        _ => Ok(()),
    }
}

/// Every call on an accepted image.
fn accepted(
    planner: &dyn Planner,
    image: &[u8],
    found: &Findings,
    most_roles: usize,
    rng: &mut Rng,
) -> Outcome {
    let opened = Opened {
        handsets: found.site().positions.len() as u64,
        ties: found.site().ties.len() as u64,
    };
    same("open", planner.open(image), Ok(opened))?;
    plans(planner, image, found, rng)?;
    roles(planner, image, found, most_roles, rng)?;
    scores(planner, image, found, rng)?;
    let (starts, members) = (found.start_table(), found.member_table());
    (0..starts.len() as u64 + 2).try_for_each(|k| lookup(planner, &starts, &members, k))?;
    hostile_lookups(planner, &members, rng)?;
    scheduled_lookups(planner, &starts, &members, rng)?;
    let tables = (found.start_table(), found.member_table());
    holds("a lookup changed a table", (starts, members) == tables)?;
    nearest(planner, image, found, rng)?;
    let text = reference::text(found);
    reports(planner, image, &text, rng)?;
    reaches(planner, image)?;
    written_again(planner, image, found, &text, rng)
}

/// Plans with tables of just the length needed, longer, one short, shorter and empty.
fn plans(planner: &dyn Planner, image: &[u8], found: &Findings, rng: &mut Rng) -> Outcome {
    let (s, m) = (found.start_table().len(), found.member_table().len());
    let lengths = [
        (s, m),
        (s + 1, m + 1),
        (s + rng.below(40), m + rng.below(400)),
        (513.max(s), 8704.max(m)),
        (s - 1, m),
        (s, m.saturating_sub(1)),
        (s - 1, m.saturating_sub(1)),
        (s, rng.below(m + 1)),
        (rng.below(s + 1), m + rng.below(9)),
        (0, 8704),
        (513, 0),
        (0, 0),
    ];
    lengths.into_iter().try_for_each(|lengths| plan_into(planner, image, found, lengths))
}

/// One plan, with tables of these lengths.
fn plan_into(
    planner: &dyn Planner,
    image: &[u8],
    found: &Findings,
    (starts_len, members_len): (usize, usize),
) -> Outcome {
    let (mut starts, mut members) = (lent_starts(starts_len), lent_members(members_len));
    let got = planner.plan(image, starts.part(), members.part());
    let what = format_args!("plan with tables of {starts_len} and {members_len}");
    let expected = reference::ask_tables(found, starts_len, members_len);
    same(what, got, expected)?;
    let kept = match expected {
        Ok(_) => starts.holds(&found.start_table()) && members.holds(&found.member_table()),
        Err(_) => starts.holds(&[]) && members.holds(&[]),
    };
    holds(format_args!("what {what} left in them"), kept)
}

/// The roles of handsets, every one where they are no more than `most`, and of numbers that are none.
fn roles(
    planner: &dyn Planner,
    image: &[u8],
    found: &Findings,
    most: usize,
    rng: &mut Rng,
) -> Outcome {
    let n = found.site().positions.len() as u64;
    let mut handsets: Vec<u64> = (0..n).collect();
    rng.shuffle(&mut handsets);
    handsets.truncate(most);
    let any = rng.below(513) as u64;
    handsets.extend([n, n + 1, 512, 65_536 + any, (1 << 32) + any, 1 << 63, u64::MAX]);
    for handset in handsets {
        let what = format_args!("role of {handset}");
        same(what, planner.role(image, handset), found.record(handset))?;
    }
    Ok(())
}

fn scores(planner: &dyn Planner, image: &[u8], found: &Findings, rng: &mut Rng) -> Outcome {
    for list in lists(found, rng) {
        let what = format_args!("scores of {list:?}");
        same(what, planner.scores(image, &list), found.scores(&list))?;
    }
    Ok(())
}

/// Lists to score: none, a community, random ones in any order with repeats, and ones that are
/// refused for an entry, for their length, or for both.
fn lists(found: &Findings, rng: &mut Rng) -> Vec<Vec<u16>> {
    let n = found.site().positions.len();
    let mut random =
        |length: usize| -> Vec<u16> { (0..length).map(|_| rng.below(n.max(1)) as u16).collect() };
    let mut lists = vec![vec![], random(1), random(2), random(7), random(20)];
    let mut refused = random(25);
    let long = (n > 0).then(|| [random(512), random(513)]);
    let mut refused_twice = random(520);
    refused[rng.below(25)] = rng.pick(&[n as u16, n as u16 + 1, 512, 65_535]);
    refused_twice[rng.below(520)] = n as u16;
    lists.extend([refused, refused_twice]);
    if let Some(community) = found.communities().last() {
        lists.push(community.members.iter().map(|&member| member as u16).collect());
    }
    let mut ascending: Vec<u16> = (0..n as u16).filter(|_| rng.one_in(3)).take(60).collect();
    lists.push(ascending.clone());
    ascending.extend_from_within(..);
    lists.push(ascending);
    if rng.one_in(16) {
        lists.extend(long.into_iter().flatten());
    }
    lists
}

/// The member lookup, for one community.
fn lookup(planner: &dyn Planner, starts: &[u32], members: &[u16], k: u64) -> Outcome {
    let expected = reference::members(starts, members, k).map(|part| part.len() as u64);
    let what = format_args!("members of {k} in {starts:?} with {} members", members.len());
    same(what, planner.members(starts, members, k), expected)
}

/// The member lookup on start tables that no plan wrote, and for numbers beyond them.
fn hostile_lookups(planner: &dyn Planner, members: &[u16], rng: &mut Rng) -> Outcome {
    let starts: Vec<u32> = (0..rng.below(9)).map(|_| hostile_start(members, rng)).collect();
    let s = starts.len() as u64;
    let beyond = [(1 << 32) - 1, 1 << 32, (1 << 32) + s / 2, 1 << 61, 1 << 62, 1 << 63];
    let last = [u64::MAX - 1, u64::MAX];
    let each = (0..s + 2).chain(beyond).chain(last);
    for k in each {
        lookup(planner, &starts, members, k)?;
    }
    Ok(())
}

/// A number around the ends and the middle of a member table, or far beyond.
fn hostile_start(members: &[u16], rng: &mut Rng) -> u32 {
    let m = members.len() as u32;
    rng.pick(&[0, 1, m / 2, m.wrapping_sub(1), m, m + 1, 1 << 31, u32::MAX - 1, u32::MAX])
}

// ---------------------------------------------------------------- the members at a time

/// Every date, and every triple of numbers around those, in working hours: refused, or the plan that the
/// counted days say.
pub fn every_date(planner: &dyn Planner) -> Outcome {
    for (date, weekday) in calendar::every_triple() {
        let expected = match weekday {
            None => Err(Refusal { number: 18, place: 0 }),
            Some(weekday) if weekday < SATURDAY => Ok(Scheduled::Workday(2)),
            Some(_) => Ok(Scheduled::Restday(1)),
        };
        let got = planner.members_at(times::in_working_hours(date));
        same(format_args!("members on {date:?}"), got, expected)?;
    }
    Ok(())
}

/// Times, windows, numbers and plans of every kind.
pub fn hostile_times(planner: &dyn Planner, rng: &mut Rng) -> Outcome {
    times::hostile(rng).into_iter().try_for_each(|query| members_at(planner, query))
}

/// The plan of a site together with another one, either way round: with none, a part of it, a damaged one,
/// and itself. Each community is looked up at a time.
fn scheduled_lookups(
    planner: &dyn Planner,
    starts: &[u32],
    members: &[u16],
    rng: &mut Rng,
) -> Outcome {
    let plan = Plan { starts, members };
    let part = rng.below(starts.len());
    let mut damaged = starts.to_vec();
    damaged[part] = hostile_start(members, rng);
    let others = [
        Plan { starts: &[], members: &[] },
        Plan { starts: &starts[..=part], members: &members[..starts[part] as usize] },
        Plan { starts: &damaged, members },
        plan,
    ];
    for community in 0..starts.len() as u64 + 2 {
        let other = rng.pick(&others);
        let (time, window) = times::any(rng);
        for (workday, restday) in [(plan, other), (other, plan)] {
            let plans = Plans { workday, restday };
            members_at(planner, Query { time, window, community, plans })?;
        }
    }
    Ok(())
}

/// The lookup at a time, for one community.
fn members_at(planner: &dyn Planner, query: Query) -> Outcome {
    let Query { time, window, community, plans: Plans { workday, restday } } = query;
    let what = format_args!(
        "members of {community} at {time:?} with {window:?} in {:?} with {} members or {:?} with {}",
        workday.starts,
        workday.members.len(),
        restday.starts,
        restday.members.len()
    );
    same(what, planner.members_at(query), reference::members_at(query))
}

// ---------------------------------------------------------------- the nearest community

/// The community nearest to each of many points, as the reference has it, and as the planner's own plan
/// of the image says.
fn nearest(planner: &dyn Planner, image: &[u8], found: &Findings, rng: &mut Rng) -> Outcome {
    let (sets, _) = plan_sets(planner, image, (513, 8704))?;
    let positions = positions(image);
    for point in points(found, rng) {
        let what = format_args!("nearest to {point:?}");
        let got = planner.nearest(image, point);
        same(what, got, found.nearest(point))?;
        if let Ok(answer) = got {
            let right = is_nearest(&sets, &positions, point, answer);
            holds(format_args!("{what}: {answer:?} is not"), right)?;
        }
    }
    Ok(())
}

/// Whether an answer is right for a plan's sets: the named one is the first that has a member at just that
/// distance, and no member of any is nearer. None is right where there are no sets, and only there.
fn is_nearest(
    sets: &[Vec<u16>],
    positions: &[Point],
    point: Point,
    answer: Option<Nearest>,
) -> bool {
    let Some(Nearest { community, squared_distance }) = answer else {
        return sets.is_empty();
    };
    let distance = |&member: &u16| exact_squared_distance(point, positions[usize::from(member)]);
    let at = |set: &Vec<u16>| set.iter().any(|u| distance(u) == squared_distance.into());
    let nearer = |set: &Vec<u16>| set.iter().any(|u| distance(u) < squared_distance.into());
    sets.iter().position(at) == Some(community as usize) && !sets.iter().any(nearer)
}

/// In so many bits that nothing wraps, whatever the coordinates.
fn exact_squared_distance([x, y, z]: Point, [other_x, other_y, other_z]: Point) -> i128 {
    let square = |here: i32, there: i32| (i128::from(here) - i128::from(there)).pow(2);
    square(x, other_x) + square(y, other_y) + square(z, other_z)
}

/// The positions in an accepted image.
fn positions(image: &[u8]) -> Vec<Point> {
    let (records, _) = image[Tables::of(image).handset_bytes()].as_chunks::<HANDSET_BYTES>();
    let position = |record: &[u8; HANDSET_BYTES]| {
        let (fields, _) = record.as_chunks::<COORDINATE_BYTES>();
        std::array::from_fn(|axis| i32::from_le_bytes(fields[axis]))
    };
    records.iter().map(position).collect()
}

/// Coordinates beyond the limits.
const BEYOND: [i32; 4] = [MOST_COORDINATE + 1, -MOST_COORDINATE - 1, i32::MAX, i32::MIN];

/// Points to ask for: anywhere, near handsets, on them, above and below them, on borders that
/// communities share, as far from one community as from another, at the limits, and beyond them.
pub fn points(found: &Findings, rng: &mut Rng) -> Vec<Point> {
    let far = MOST_COORDINATE;
    let mut points = vec![point_inside(rng), [far; COORDINATES], [-far; COORDINATES]];
    points.extend([(); 2].map(|()| [(); COORDINATES].map(|()| rng.pick(&[far, -far]))));
    for limit in [far, -far].into_iter().chain(BEYOND) {
        points.extend((0..COORDINATES).map(|axis| with(point_inside(rng), axis, limit)));
    }
    points.push([(); COORDINATES].map(|()| rng.pick(&BEYOND)));
    let positions: Vec<Point> =
        found.site().positions.iter().map(|position| position.map(|x| x as i32)).collect();
    if !positions.is_empty() {
        for _ in 0..4 {
            let (position, reach) = (rng.pick(&positions), rng.pick(&[1, 8, 90]));
            let mut near = |x: i32| (x + rng.between(-reach, reach)).clamp(-far, far);
            points.extend([position, position.map(&mut near)]);
            points.push(with(position, 2, near(position[2])));
        }
    }
    let mut members = found.member_table();
    members.sort_unstable();
    let shared: Vec<u16> = members.windows(2).filter(|w| w[0] == w[1]).map(|w| w[0]).collect();
    if !shared.is_empty() {
        points.push(positions[usize::from(rng.pick(&shared))]);
    }
    (0..4).for_each(|_| points.extend(equidistant(found, &positions, rng)));
    points
}

/// A point with another coordinate on one axis.
fn with(mut point: Point, axis: usize, coordinate: i32) -> Point {
    point[axis] = coordinate;
    point
}

/// Points as far from a member of one community as from a member of another, where they have whole
/// numbers: halfway between the two, and some way off from there at a right angle to the way from one to
/// the other. Half of the time the two are close to each other, so that hardly a member is nearer to the
/// point.
fn equidistant(found: &Findings, positions: &[Point], rng: &mut Rng) -> Vec<Point> {
    let communities = found.communities();
    if communities.len() < 2 {
        return Vec::new();
    }
    let chosen = rng.below(communities.len());
    let members = |communities: &[Community]| -> Vec<Point> {
        let members = communities.iter().flat_map(|community| &community.members);
        members.map(|&u| positions[u]).collect()
    };
    let these = members(&communities[chosen..=chosen]);
    let others = [members(&communities[..chosen]), members(&communities[chosen + 1..])].concat();
    let (mut here, mut there) = (rng.pick(&these), rng.pick(&others));
    if rng.one_in(2) {
        there = nearest_to(here, &others);
        here = nearest_to(there, &these);
    }
    let [dx, dy, dz] = std::array::from_fn(|axis| there[axis] - here[axis]);
    let [x, y, z] = std::array::from_fn(|axis| here[axis] + there[axis]);
    let aside = [[x - dy, y + dx, z], [x, y - dz, z + dy], [x + dz, y, z - dx]];
    let doubled = [[x, y, z], rng.pick(&aside)];
    let whole = doubled.into_iter().filter(|point| point.iter().all(|x| x % 2 == 0));
    whole.map(|point| point.map(|x| x / 2)).collect()
}

fn nearest_to(point: Point, others: &[Point]) -> Point {
    let distance = |other: &&Point| sites::squared_distance(point, **other);
    *others.iter().min_by_key(distance).expect("a community has members")
}

/// Every coordinate within the limits.
fn point_inside(rng: &mut Rng) -> Point {
    [(); COORDINATES].map(|()| rng.between(-MOST_COORDINATE, MOST_COORDINATE))
}

/// One coordinate beyond the limits, or all.
fn point_outside(rng: &mut Rng) -> Point {
    let beyond = rng.pick(&BEYOND);
    match rng.below(COORDINATES + 1) {
        COORDINATES => [beyond; COORDINATES],
        axis => with(point_inside(rng), axis, beyond),
    }
}

/// Reports into buffers of just the text's length, longer, one short and empty.
fn reports(planner: &dyn Planner, image: &[u8], text: &[u8], rng: &mut Rng) -> Outcome {
    let length = text.len();
    let lengths = [length, length + 1, length + rng.below(99), length - 1, rng.below(length), 0];
    lengths.into_iter().try_for_each(|buffer| report_into(planner, image, text, buffer))
}

/// One report, into a buffer of this length.
fn report_into(planner: &dyn Planner, image: &[u8], text: &[u8], buffer: usize) -> Outcome {
    let length = text.len();
    let mut lent = lent_bytes(buffer);
    let got = planner.report(image, lent.part());
    let expected = if buffer < length { Err(16) } else { Ok(length as u64) };
    same(format_args!("report into {buffer} bytes"), got, expected)?;
    let written = if buffer < length { &[] } else { text };
    holds(format_args!("what the report left in {buffer} bytes"), lent.holds(written))
}

/// The reach of each group in a planner's own report, by the ties and positions of the image.
fn reaches(planner: &dyn Planner, image: &[u8]) -> Outcome {
    let near_ties = near_ties(image);
    for (k, line) in group_lines(planner, image)?.iter().enumerate() {
        let GroupLine { reach, members, .. } = line;
        let right = is_reach(members, &near_ties, *reach);
        holds(format_args!("reach of group {k}, {members:?}: {reach:?} is not"), right)?;
    }
    Ok(())
}

/// Whether a reach is right for a group's members: some near tie between two of them is just so long, and
/// none is longer. None is right where no near tie joins two of them, and only there.
fn is_reach(members: &[u16], near_ties: &[NearTie], reach: Option<u64>) -> bool {
    let inside = |tie: &&NearTie| members.contains(&tie.ends.0) && members.contains(&tie.ends.1);
    let mut distances = near_ties.iter().filter(inside).map(|tie| tie.squared_distance);
    match reach {
        None => distances.next().is_none(),
        Some(reach) => distances.clone().any(|d| d == reach) && distances.all(|d| d <= reach),
    }
}

/// A near tie of an image.
struct NearTie {
    ends: (u16, u16),
    squared_distance: u64,
}

/// The near ties of an accepted image, by its bytes.
fn near_ties(image: &[u8]) -> Vec<NearTie> {
    let (positions, (records, _)) =
        (positions(image), image[Tables::of(image).tie_bytes()].as_chunks::<TIE_BYTES>());
    let gamma_squared = i128::from(u64::from_le_bytes(*image[16..].first_chunk().expect("G")));
    let near_tie = |&[a, b, c, d]: &[u8; TIE_BYTES]| {
        let ends = (u16::from_le_bytes([a, b]), u16::from_le_bytes([c, d]));
        let (one, other) = (positions[usize::from(ends.0)], positions[usize::from(ends.1)]);
        let squared = exact_squared_distance(one, other);
        (squared <= gamma_squared).then_some(NearTie { ends, squared_distance: squared as u64 })
    };
    records.iter().filter_map(near_tie).collect()
}

/// What the line of a group says after its number; the scores as they stand.
#[derive(Clone, Debug, PartialEq, Eq, PartialOrd, Ord)]
struct GroupLine {
    members: Vec<u16>,
    density: String,
    conductance: String,
    reach: Option<u64>,
}

impl GroupLine {
    fn read(line: &str) -> Option<GroupLine> {
        let (words, members) = line.split_once(':')?;
        let words: Vec<&str> = words.split(' ').collect();
        let ["group", _, "density", density, "conductance", conductance, "reach", reach] =
            words[..]
        else {
            return None;
        };
        let member = |word: &str| word.parse::<u16>().ok();
        Some(GroupLine {
            members: members.split_whitespace().map(member).collect::<Option<Vec<u16>>>()?,
            density: density.to_string(),
            conductance: conductance.to_string(),
            reach: match reach {
                "-" => None,
                digits => Some(digits.parse().ok()?),
            },
        })
    }
}

/// The lines of the groups in a planner's report of an accepted image.
fn group_lines(planner: &dyn Planner, image: &[u8]) -> Result<Vec<GroupLine>, String> {
    let mut text = vec![0; 65_536];
    let length = planner
        .report(image, &mut text)
        .map_err(|number| format!("the report was refused: {number}"))?;
    let text = String::from_utf8_lossy(&text[..length as usize]);
    let lines = text.lines().filter(|line| line.starts_with("group "));
    let read = |line| GroupLine::read(line).ok_or_else(|| format!("no line of a group: {line}"));
    lines.map(read).collect()
}

// ---------------------------------------------------------------- the writer

/// Lengths of buffers: two that hold no image, and one that holds every image.
const ROOMS: [usize; 3] = [0, HEADER - 1, MOST_IMAGE];
/// How many times the numbers of a site are changed.
const CHANGED: usize = 8;

/// The image of a site, into buffers of just its length, longer, one byte short, shorter and empty: each
/// byte is that of the image as the tests build it. Then the site's numbers with several changes.
pub fn writing(planner: &dyn Planner, site: &Site, rng: &mut Rng) -> Outcome {
    let (numbers, image) = (Numbers::of(site), site.plain_image());
    let length = image.len();
    let (whole, short) = (Ok(image), Err(Refusal { number: 20, place: 0 }));
    for room in [length, length + 1, length + rng.below(99), MOST_IMAGE] {
        write_into(planner, &numbers, room, &whole, rng)?;
    }
    for room in [length - 1, rng.below(length), HEADER - 1, 0] {
        write_into(planner, &numbers, room, &short, rng)?;
    }
    (0..CHANGED).try_for_each(|_| changed(planner, &numbers::several(&numbers, rng), rng))
}

/// Numbers and tables of every kind, and site S with every choice of one fault for each question.
pub fn hostile_numbers(planner: &dyn Planner, rng: &mut Rng) -> Outcome {
    for choice in 0..1 << 8 {
        for (numbers, room) in numbers::with_faults(choice) {
            let expected = reference::written(numbers.contents(), room);
            write_into(planner, &numbers, room, &expected, rng)?;
        }
    }
    let hostile = numbers::hostile(rng);
    hostile.iter().try_for_each(|numbers| changed(planner, numbers, rng))
}

/// Any numbers, with a buffer that is long enough for their tables and with another one. The reader, too,
/// refuses the image of numbers that the writer refuses with 7 to 10, and accepts that of others.
fn changed(planner: &dyn Planner, numbers: &Numbers, rng: &mut Rng) -> Outcome {
    let (contents, length) = (numbers.contents(), numbers.length());
    let other = rng.pick(&[length + 9, length - 1, HEADER - 1, 0]);
    for room in [length, other] {
        write_into(planner, numbers, room, &reference::written(contents, room), rng)?;
    }
    match reference::written(contents, length) {
        Err(refusal) if refusal.number < 7 => Ok(()),
        asked => {
            let opened = planner.open(&numbers.image()).map(|_| ());
            same(format_args!("open the image of {contents:?}"), opened, asked.map(|_| ()))
        }
    }
}

/// One call of the writer: its answer, every byte of the buffer, and the tables, which are as they were.
fn write_into(
    planner: &dyn Planner,
    numbers: &Numbers,
    room: usize,
    expected: &Result<Vec<u8>, Refusal>,
    rng: &mut Rng,
) -> Outcome {
    let coordinates = Noisy::new(&numbers.coordinates, |word| word as i32, rng);
    let ends = Noisy::new(&numbers.ends, |word| word as u16, rng);
    let parameters = numbers.parameters;
    let contents = Contents { parameters, coordinates: coordinates.part(), ends: ends.part() };
    let mut buffer = lent_bytes(room);
    let got = planner.write(contents, buffer.part());
    let what = format_args!("write {contents:?} into {room} bytes");
    let (answer, image) = match expected {
        Ok(image) => (Ok(image.len() as u64), image.as_slice()),
        Err(refusal) => (Err(*refusal), [].as_slice()),
    };
    same(what, got, answer)?;
    holds(format_args!("what it left in the buffer: {what}"), buffer.holds(image))?;
    let kept = coordinates.part() == numbers.coordinates && ends.part() == numbers.ends;
    holds(format_args!("a table was changed: {what}"), kept)
}

/// What an accepted image holds, written again: the new image is accepted, and has the plan and the report of
/// the old one, the community nearest to some point, the roles of some handsets and the scores of some lists.
fn written_again(
    planner: &dyn Planner,
    image: &[u8],
    found: &Findings,
    text: &[u8],
    rng: &mut Rng,
) -> Outcome {
    let numbers = Numbers::held(image);
    let mut again = vec![0; numbers.length()];
    let answer = planner.write(numbers.contents(), &mut again);
    same("write again", answer, Ok(again.len() as u64))?;
    holds("what was written again", again == numbers.image())?;
    same("open what was written again", planner.open(&again), planner.open(image))?;
    let lengths = (found.start_table().len(), found.member_table().len());
    plan_into(planner, &again, found, lengths)
        .and_then(|()| report_into(planner, &again, text, text.len()))
        .map_err(|problem| format!("of what was written again: {problem}"))?;
    let lists = lists(found, rng);
    let point = point_inside(rng);
    let nearest = |image: &[u8]| planner.nearest(image, point);
    same(format_args!("nearest to {point:?}, written again"), nearest(&again), nearest(image))?;
    for _ in 0..2 {
        let handset = rng.below(found.site().positions.len() + 1) as u64;
        let role = planner.role(&again, handset);
        same(format_args!("role of {handset}, written again"), role, found.record(handset))?;
        let list = &lists[rng.below(lists.len())];
        let scores = planner.scores(&again, list);
        same(format_args!("scores of {list:?}, written again"), scores, found.scores(list))?;
    }
    Ok(())
}

// ---------------------------------------------------------------- renumberings

/// A renumbering of an accepted image: the plan, numbered back, has the same sets, the report has the same
/// scores and reach for each of them, and each role is the same but for a core's group number. Both sides
/// are the planner's own.
pub fn renumbering(planner: &dyn Planner, first: &[u8], rng: &mut Rng) -> Outcome {
    let (second, map) = sites::renumber(first, rng);
    let mut back = vec![0; map.len()];
    (0..).zip(&map).for_each(|(from, &to)| back[usize::from(to)] = from);
    let plain: Vec<u16> = (0..map.len() as u16).collect();
    let (sets, counts) = numbered_back(planner, first, &plain, (513, 8704))?;
    let lengths = (counts.communities as usize + 1, counts.memberships as usize);
    let (second_sets, second_counts) = numbered_back(planner, &second, &back, lengths)?;
    same("counts after a renumbering", second_counts, counts)?;
    same("sets after a renumbering", second_sets, sets)?;
    let lines = |image: &[u8], back: &[u16]| {
        let mut lines = group_lines(planner, image)?;
        lines.iter_mut().for_each(|line| number_back(&mut line.members, back));
        lines.sort_unstable();
        Ok::<_, String>(lines)
    };
    same(
        "groups of the report after a renumbering",
        lines(&second, &back)?,
        lines(first, &plain)?,
    )?;
    for (handset, &to) in map.iter().enumerate() {
        let role = |image: &[u8], number: u64| {
            let record = planner.role(image, number);
            record.map(|record| (record.near, without_number(record.role)))
        };
        let what = format_args!("role of {handset} after a renumbering");
        same(what, role(&second, to.into()), role(first, handset as u64))?;
    }
    similar_image(planner, &second, rng)
}

fn without_number(role: Role) -> Role {
    match role {
        Role::Core(_) => Role::Core(0),
        other => other,
    }
}

/// The sets of a plan, numbered back and sorted, with its counts.
fn numbered_back(
    planner: &dyn Planner,
    image: &[u8],
    back: &[u16],
    lengths: (usize, usize),
) -> Result<(Vec<Vec<u16>>, Counts), String> {
    let (mut sets, counts) = plan_sets(planner, image, lengths)?;
    sets.iter_mut().for_each(|set| number_back(set, back));
    sets.sort_unstable();
    Ok((sets, counts))
}

/// One set numbered back, ascending.
fn number_back(set: &mut [u16], back: &[u16]) {
    set.iter_mut().for_each(|member| *member = back[usize::from(*member)]);
    set.sort_unstable();
}

/// The sets of a plan, with its counts.
fn plan_sets(
    planner: &dyn Planner,
    image: &[u8],
    (starts_len, members_len): (usize, usize),
) -> Result<(Vec<Vec<u16>>, Counts), String> {
    let (mut starts, mut members) = (vec![0; starts_len], vec![0; members_len]);
    let counts = planner
        .plan(image, &mut starts, &mut members)
        .map_err(|refusal| format!("the plan was refused: {refusal:?}"))?;
    let set = |k| {
        let part = reference::members(&starts, &members, k);
        part.map(<[u16]>::to_vec)
            .map_err(|_| format!("the plan's start table {starts:?} is not one"))
    };
    let sets = (0..counts.communities).map(set).collect::<Result<Vec<Vec<u16>>, String>>()?;
    Ok((sets, counts))
}

// ---------------------------------------------------------------- three coordinates

/// x, y and z count alike: an accepted image with each handset's coordinates in another order has the
/// same report, and the same community nearest to a point that is turned likewise. Both sides are the
/// planner's own.
pub fn turning(planner: &dyn Planner, first: &[u8], rng: &mut Rng) -> Outcome {
    let turned = sites::turn(first);
    let report = |image: &[u8]| {
        let mut text = vec![0; 65_536];
        let length = planner.report(image, &mut text);
        length.map(|length| String::from_utf8_lossy(&text[..length as usize]).into_owned())
    };
    same("report after coordinates were turned", report(&turned), report(first))?;
    let [x, y, z] = point_inside(rng);
    let nearest = [planner.nearest(&turned, [y, z, x]), planner.nearest(first, [x, y, z])];
    same(format_args!("nearest to {:?}, turned", [x, y, z]), nearest[0], nearest[1])
}

// ---------------------------------------------------------------- the report program

/// The report program's standard output for an input.
pub fn program(path: &Path, input: &[u8]) -> Outcome {
    let failed = |error: std::io::Error| format!("{}: {error}", path.display());
    let mut child =
        Command::new(path).stdin(Stdio::piped()).stdout(Stdio::piped()).spawn().map_err(failed)?;
    let mut stdin = child.stdin.take().expect("standard input is piped");
    let output = std::thread::scope(|scope| {
        // The program may end before it has read everything, which breaks the pipe.
        scope.spawn(move || stdin.write_all(input).ok());
        child.wait_with_output()
    });
    let got = String::from_utf8_lossy(&output.map_err(failed)?.stdout).into_owned();
    let expected = String::from_utf8_lossy(&reference::program(input)).into_owned();
    same("the report program", got, expected)
}

#[cfg(test)]
mod tests {
    use super::*;
    use crate::calls::{Date, Parameters, Record, Scores, Time};
    use crate::damage;
    use crate::fast::Fast;
    use crate::reaches::WrongReach;
    use crate::sites::{site_s, Layout, MOST_TIES};

    /// The optimised planner with one mistake, each of a kind that the comparison must notice.
    #[derive(Clone, Copy, Debug, PartialEq)]
    enum Mistake {
        None,
        WritesBeforeRefusing,
        WritesPastTheEnd,
        LosesPlace,
        OneGroupForABorder,
        ReportsTooShort,
        CountsNoMultiple,
        IgnoresRepeats,
        TestsNumberItself,
        TakesLastOfEquals,
        RefusesTheLimit,
        TestsPointBeforeImage,
        SwapsPlans,
        AsksBothPlans,
        LosesALeapDay,
        CutsYears,
        CapsTheFirstGroup,
        WritesAHeaderFirst,
        WritesPastTheImage,
        WritesTheMeaningOfMu,
        SwapsTheEndsOfATie,
        AsksRoomFirst,
        TakesLongerTables,
        CutsCounts,
        CutsLengths,
        ForgetsTheLastTie,
        Reaches(WrongReach),
        /// Of three coordinates: question 4 takes a width of 0, or looks at one byte of it; question 5
        /// has the largest G of before.
        TakesNoWidth,
        TakesHalfAWidth,
        KeepsTheOldLimit,
        /// Question 7 or 17 is not put to z; z counts nowhere, or y for it.
        AsksNoZ,
        AsksNoZOfThePoint,
        LeavesOutZ,
        ReadsYForZ,
        /// The writer leaves the width at 0, has the largest G of before, takes x and y alone, or writes
        /// z before y.
        WritesNoWidth,
        WritesUpToTheOldLimit,
        TakesTwoCoordinates,
        WritesZBeforeY,
    }

    const FAR: i32 = MOST_COORDINATE;
    /// The largest G of before.
    const OLD_GAMMA_SQUARED: u64 = 8_000_000_000_000;

    impl Planner for Mistake {
        fn name(&self) -> &'static str {
            "mistaken"
        }

        fn open(&self, image: &[u8]) -> Result<Opened, Refusal> {
            Fast.open(&self.seen(image)?).map_err(|refusal| match self {
                Mistake::LosesPlace => Refusal { place: 0, ..refusal },
                _ => refusal,
            })
        }

        fn plan(
            &self,
            image: &[u8],
            starts: &mut [u32],
            members: &mut [u16],
        ) -> Result<Counts, Refusal> {
            let answer = Fast.plan(&self.seen(image)?, starts, members);
            match (self, answer) {
                (Mistake::WritesBeforeRefusing, Err(_)) => starts.iter_mut().for_each(|s| *s = 0),
                (Mistake::WritesPastTheEnd, Ok(counts)) => {
                    let past = members.get_mut(counts.memberships as usize);
                    past.into_iter().for_each(|entry| *entry = 0);
                }
                _ => {}
            }
            answer
        }

        fn role(&self, image: &[u8], handset: u64) -> Result<Record, Refusal> {
            let record = Fast.role(&self.seen(image)?, handset)?;
            let role = match record.role {
                Role::Border(_) if *self == Mistake::OneGroupForABorder => Role::Border(1),
                role => role,
            };
            Ok(Record { role, ..record })
        }

        fn scores(&self, image: &[u8], list: &[u16]) -> Result<Scores, Refusal> {
            let mut list = list.to_vec();
            if *self == Mistake::IgnoresRepeats {
                list.sort_unstable();
                list.dedup();
            }
            Fast.scores(image, &list)
        }

        fn members(&self, starts: &[u32], members: &[u16], k: u64) -> Result<u64, Refusal> {
            if *self == Mistake::TestsNumberItself && k.wrapping_add(1) == starts.len() as u64 {
                return Ok(0);
            }
            Fast.members(starts, members, k)
        }

        fn nearest(&self, image: &[u8], mut point: Point) -> Result<Option<Nearest>, Refusal> {
            let most = point.map(i32::unsigned_abs).into_iter().fold(0, u32::max);
            let refuses = match self {
                Mistake::RefusesTheLimit => most == MOST_COORDINATE as u32,
                Mistake::TestsPointBeforeImage => most > MOST_COORDINATE as u32,
                _ => false,
            };
            if refuses {
                return Err(Refusal { number: 17, place: 0 });
            }
            if *self == Mistake::AsksNoZOfThePoint {
                point[2] = point[2].clamp(-MOST_COORDINATE, MOST_COORDINATE);
            }
            let nearest = Fast.nearest(&self.seen(image)?, point)?;
            // All handsets of site S are at one place.
            Ok(nearest.map(|nearest| match self {
                Mistake::TakesLastOfEquals => Nearest { community: 1, ..nearest },
                _ => nearest,
            }))
        }

        fn members_at(&self, query: Query) -> Result<Scheduled, Refusal> {
            let Query { time, community, plans, .. } = query;
            let swapped = Plans { workday: plans.restday, restday: plans.workday };
            match self {
                Mistake::SwapsPlans => Fast.members_at(Query { plans: swapped, ..query }),
                Mistake::LosesALeapDay if time.date == Date { year: 2800, month: 2, day: 29 } => {
                    Err(Refusal { number: 18, place: 0 })
                }
                Mistake::CutsYears => {
                    let date = Date { year: time.date.year % 65_536, ..time.date };
                    Fast.members_at(Query { time: Time { date, ..time }, ..query })
                }
                Mistake::CapsTheFirstGroup if community == 0 => {
                    Fast.members_at(query).map(|answer| match answer {
                        Scheduled::Workday(count) => Scheduled::Workday(count.min(3)),
                        Scheduled::Restday(count) => Scheduled::Restday(count.min(3)),
                    })
                }
                Mistake::AsksBothPlans => {
                    let answer = Fast.members_at(query)?;
                    for Plan { starts, members } in [plans.workday, plans.restday] {
                        Fast.members(starts, members, community)?;
                    }
                    Ok(answer)
                }
                _ => Fast.members_at(query),
            }
        }

        fn write(&self, contents: Contents, buffer: &mut [u8]) -> Result<u64, Refusal> {
            self.ask_numbers(contents.parameters, buffer.len())?;
            if *self == Mistake::WritesAHeaderFirst {
                buffer
                    .iter_mut()
                    .take(1)
                    .for_each(|byte| *byte = contents.parameters.handsets as u8);
            }
            let (pairs, _) = contents.coordinates.as_chunks();
            let grounded: Vec<i32> = pairs.iter().flat_map(|&[x, y]| [x, y, 0]).collect();
            let length = Fast.write(self.taken(contents, &grounded), buffer)?;
            let (image, past) = buffer.split_at_mut(length as usize);
            self.spoil(image, past);
            Ok(length)
        }

        fn report(&self, image: &[u8], text: &mut [u8]) -> Result<u64, u64> {
            if let Mistake::Reaches(wrong) = self {
                return report_with(*wrong, image, text);
            }
            let seen = self.seen(image).map_err(|refusal| refusal.number)?;
            let length = Fast.report(&seen, text)?;
            if *self == Mistake::CountsNoMultiple {
                text[length as usize - 2] = b'0';
            }
            Ok(length - u64::from(*self == Mistake::ReportsTooShort))
        }
    }

    impl Mistake {
        /// What a reader takes an image for, or its refusal.
        fn seen(&self, image: &[u8]) -> Result<Vec<u8>, Refusal> {
            let mut seen = image.to_vec();
            let Some(width) = seen.get_mut(sites::WIDTH_AT..HEADER) else {
                return Ok(seen);
            };
            match self {
                Mistake::TakesNoWidth if *width == [0, 0] => width[0] = HANDSET_BYTES as u8,
                Mistake::TakesHalfAWidth => width[1] = 0,
                Mistake::KeepsTheOldLimit if Fast.open(image).is_ok() => {
                    let limit = Numbers::held(image).parameters.gamma_squared;
                    let five = Err(Refusal { number: 5, place: 0 });
                    return if limit > OLD_GAMMA_SQUARED { five } else { Ok(seen) };
                }
                Mistake::AsksNoZ => change_z(&mut seen, |[_, _, z]| z.clamp(-FAR, FAR)),
                Mistake::LeavesOutZ if Fast.open(image).is_ok() => change_z(&mut seen, |_| 0),
                Mistake::ReadsYForZ if Fast.open(image).is_ok() => {
                    change_z(&mut seen, |[_, y, _]| y)
                }
                _ => {}
            }
            Ok(seen)
        }

        /// The writer's questions that are put too early, or have another limit.
        fn ask_numbers(&self, parameters: Parameters, room: usize) -> Result<(), Refusal> {
            let Parameters { handsets, ties, gamma_squared, .. } = parameters;
            let counts_fit = handsets <= MOST_HANDSETS as u64 && ties <= MOST_TIES as u64;
            let refused = match self {
                Mistake::AsksRoomFirst if room < HEADER => 20,
                Mistake::WritesUpToTheOldLimit if counts_fit => {
                    5 * u64::from(gamma_squared > OLD_GAMMA_SQUARED)
                }
                _ => 0,
            };
            if refused > 0 {
                Err(Refusal { number: refused, place: 0 })
            } else {
                Ok(())
            }
        }

        /// What becomes of an image that is written, and of the bytes past it.
        fn spoil(&self, image: &mut [u8], past: &mut [u8]) {
            let (handsets, last_tie) = (Tables::of(image).handset_bytes(), image.len() - TIE_BYTES);
            match self {
                Mistake::WritesPastTheImage => past.iter_mut().take(1).for_each(|byte| *byte = 0),
                Mistake::SwapsTheEndsOfATie => image[last_tie..].swap(0, 2),
                Mistake::ForgetsTheLastTie => image[last_tie..].fill(0),
                Mistake::WritesTheMeaningOfMu if image[28] == 0 => image[28] = 4,
                Mistake::WritesNoWidth => image[sites::WIDTH_AT] = 0,
                Mistake::WritesZBeforeY => {
                    let records = image[handsets].chunks_mut(HANDSET_BYTES);
                    records.for_each(|r| r[COORDINATE_BYTES..].rotate_left(COORDINATE_BYTES));
                }
                _ => {}
            }
        }

        /// What the writer takes its arguments for. `grounded` is the coordinate table as one of x and y
        /// alone, with a z of 0 after each two.
        fn taken<'a>(&self, contents: Contents<'a>, grounded: &'a [i32]) -> Contents<'a> {
            let Contents { parameters, coordinates, ends } = contents;
            let Parameters { handsets, ties, .. } = parameters;
            let (n, m) = (handsets as usize, ties as usize);
            let longer = coordinates.len() / COORDINATES >= n && ends.len() / 2 >= m;
            match self {
                Mistake::TakesLongerTables if longer => Contents {
                    coordinates: &coordinates[..COORDINATES * n],
                    ends: &ends[..2 * m],
                    ..contents
                },
                Mistake::TakesTwoCoordinates if coordinates.len() == 2 * n => {
                    Contents { coordinates: grounded, ..contents }
                }
                Mistake::CutsCounts => {
                    let parameters = Parameters { handsets: handsets % 65_536, ..parameters };
                    Contents { parameters, ..contents }
                }
                Mistake::CutsLengths => {
                    let coordinates = &coordinates[..coordinates.len() % 65_536];
                    Contents { coordinates, ..contents }
                }
                _ => contents,
            }
        }
    }

    /// Another z for each handset of an image that has its tables.
    fn change_z(image: &mut [u8], changed: fn(Point) -> i32) {
        if matches!(Fast.open(image), Ok(_) | Err(Refusal { number: 7.., .. })) {
            let (positions, handsets) = (positions(image), Tables::of(image).handset_bytes());
            let records = image[handsets].chunks_mut(HANDSET_BYTES);
            for (record, position) in records.zip(positions) {
                record[2 * COORDINATE_BYTES..].copy_from_slice(&changed(position).to_le_bytes());
            }
        }
    }

    /// The report with each reach found in a wrong way.
    fn report_with(wrong: WrongReach, image: &[u8], text: &mut [u8]) -> Result<u64, u64> {
        let mut right = vec![0; 65_536];
        let length = Fast.report(image, &mut right)?;
        let right = String::from_utf8_lossy(&right[..length as usize]);
        let found = Findings::of(reference::open(image).expect("accepted"));
        let mut communities = found.communities().iter();
        let mut lines = String::new();
        for line in right.lines() {
            match (line.split_once(" reach "), line.split_once(':')) {
                (Some((scores, _)), Some((_, members))) => {
                    let community = communities.next().expect("a community for each line");
                    let reach = wrong.reach(&found, community);
                    let reach = reach.map_or("-".to_string(), |reach| reach.to_string());
                    lines += &format!("{scores} reach {reach}:{members}\n");
                }
                _ => lines += &format!("{line}\n"),
            }
        }
        text.get_mut(..lines.len()).ok_or(16_u64)?.copy_from_slice(lines.as_bytes());
        Ok(lines.len() as u64)
    }

    /// Site S, the same with its last tie repeated, with faults, and as it was before; sites with
    /// reaches of every kind, times, and numbers.
    fn outcome(planner: Mistake) -> Outcome {
        let mut rng = Rng::new(8);
        let good = site_s(4).image(Layout::any(&mut rng), &mut rng);
        let mut repeated = site_s(4);
        repeated.ties.push((6, 5));
        image(&planner, &good, &mut rng)?;
        renumbering(&planner, &good, &mut rng)?;
        image(&planner, &repeated.plain_image(), &mut rng)?;
        let (plain, edits) = (site_s(4).plain_image(), damage::edits(&good, &mut rng));
        for edit in edits {
            similar_image(&planner, &damage::apply(&good, &[edit]), &mut rng)?;
        }
        for old in damage::before(&plain).iter().chain(&damage::before_with_the_width(&plain)) {
            image(&planner, old, &mut rng)?;
        }
        for site in sites::reaching() {
            image(&planner, &site.plain_image(), &mut rng)?;
        }
        hostile_times(&planner, &mut rng)?;
        every_date(&planner)?;
        writing(&planner, &site_s(0), &mut rng)?;
        hostile_numbers(&planner, &mut rng)
    }

    #[test]
    fn every_mistake_is_noticed() {
        use Mistake::*;
        assert_eq!(outcome(None), Ok(()));
        let mistakes = [
            WritesBeforeRefusing,
            WritesPastTheEnd,
            LosesPlace,
            OneGroupForABorder,
            ReportsTooShort,
            CountsNoMultiple,
            IgnoresRepeats,
            TestsNumberItself,
            TakesLastOfEquals,
            RefusesTheLimit,
            TestsPointBeforeImage,
            SwapsPlans,
            AsksBothPlans,
            LosesALeapDay,
            CutsYears,
            CapsTheFirstGroup,
            WritesAHeaderFirst,
            WritesPastTheImage,
            WritesTheMeaningOfMu,
            SwapsTheEndsOfATie,
            AsksRoomFirst,
            TakesLongerTables,
            CutsCounts,
            CutsLengths,
            ForgetsTheLastTie,
            TakesNoWidth,
            TakesHalfAWidth,
            KeepsTheOldLimit,
            AsksNoZ,
            AsksNoZOfThePoint,
            LeavesOutZ,
            ReadsYForZ,
            WritesNoWidth,
            WritesUpToTheOldLimit,
            TakesTwoCoordinates,
            WritesZBeforeY,
        ];
        for mistake in mistakes.into_iter().chain(WrongReach::ALL.map(Reaches)) {
            assert!(outcome(mistake).is_err(), "{mistake:?} was not noticed");
        }
    }

    /// Without the reference: a planner that gives z another weight than x and y is noticed by turning
    /// the axes.
    #[test]
    fn turning_notices_what_is_wrong_with_z() {
        let noticed = |planner: &dyn Planner| {
            let sites = [sites::tower(), sites::corners(), sites::porters(sites::PORTERS_APART)];
            let mut turned = sites.iter().map(Site::plain_image);
            turned.any(|image| turning(planner, &image, &mut Rng::new(8)).is_err())
        };
        assert!(!noticed(&Fast) && !noticed(&Mistake::None));
        assert!(noticed(&Mistake::LeavesOutZ) && noticed(&Mistake::ReadsYForZ));
        for wrong in [WrongReach::WithoutZ, WrongReach::YForZ, WrongReach::UnsignedZ] {
            assert!(noticed(&Mistake::Reaches(wrong)), "{wrong:?} was not noticed");
        }
    }

    /// Each has a mistake that it notices and the other two do not.
    #[test]
    fn each_comparison_of_times_notices_a_mistake() {
        let mut rng = Rng::new(8);
        let good = site_s(4).image(Layout::any(&mut rng), &mut rng);
        assert!(every_date(&Mistake::LosesALeapDay).is_err());
        assert!(hostile_times(&Mistake::CutsYears, &mut rng).is_err());
        assert!(image(&Mistake::CapsTheFirstGroup, &good, &mut rng).is_err());
        for mistake in [Mistake::CutsYears, Mistake::CapsTheFirstGroup] {
            assert_eq!(every_date(&mistake), Ok(()));
        }
        for mistake in [Mistake::LosesALeapDay, Mistake::CapsTheFirstGroup] {
            assert_eq!(hostile_times(&mistake, &mut rng), Ok(()));
        }
        for mistake in [Mistake::LosesALeapDay, Mistake::CutsYears] {
            assert_eq!(image(&mistake, &good, &mut rng), Ok(()));
        }
    }

    /// By the ties and positions of the image alone, without the reference.
    #[test]
    fn every_wrong_reach_is_noticed() {
        let noticed = |planner: &dyn Planner| {
            sites::reaching().iter().any(|site| reaches(planner, &site.plain_image()).is_err())
        };
        assert!(!noticed(&Fast) && !noticed(&Mistake::None));
        for wrong in WrongReach::ALL {
            assert!(noticed(&Mistake::Reaches(wrong)), "{wrong:?} was not noticed");
        }
    }

    #[test]
    fn reaches_of_a_few_members() {
        let near_tie = |u, v, squared_distance| NearTie { ends: (u, v), squared_distance };
        let ties = [near_tie(0, 1, 0), near_tie(2, 1, 9), near_tie(1, 3, 4), near_tie(4, 5, 25)];
        let right = |members: &[u16], reach| is_reach(members, &ties, reach);
        assert!(right(&[0, 1, 2, 3], Some(9)) && right(&[0, 1, 3], Some(4)));
        assert!(right(&[0, 1], Some(0)) && right(&[0, 2, 3, 4], None) && right(&[5], None));
        // Another tie of theirs, none of theirs, one that leaves, none for 0, 0 for none.
        assert!(!right(&[0, 1, 2, 3], Some(4)) && !right(&[0, 1, 2, 3], Some(10)));
        assert!(!right(&[0, 1, 2, 3], Some(25)) && !right(&[0, 1, 2, 3, 4], Some(25)));
        assert!(!right(&[0, 1], None) && !right(&[5], Some(0)));
    }

    #[test]
    fn lines_of_groups() {
        let line = |reach, members: &[u16]| {
            let (density, conductance) = ("2/6".to_string(), "-".to_string());
            Some(GroupLine { members: members.to_vec(), density, conductance, reach })
        };
        let read = GroupLine::read;
        assert_eq!(
            read("group 0 density 2/6 conductance - reach 50: 1 20"),
            line(Some(50), &[1, 20])
        );
        assert_eq!(read("group 7 density 2/6 conductance - reach -: 3"), line(None, &[3]));
        assert_eq!(read("group 0 density 2/6 conductance -: 1 20"), None);
        assert_eq!(read("group 0 density 2/6 conductance - reach : 1"), None);
        assert_eq!(read("group 0 density 2/6 conductance -  reach 50: 1"), None);
    }

    #[test]
    fn nearest_of_a_few_sets() {
        let sets = [vec![2, 3], vec![0, 1, 2]];
        let far = 1_000_000;
        let positions = [[-far, far, -far], [0, 1, 0], [3, 1, 0], [3, 7, 0], [3, 2, 0]];
        let right = |point, community, squared_distance| {
            is_nearest(&sets, &positions, point, Some(Nearest { community, squared_distance }))
        };
        assert!(right([3, 3, 0], 0, 4) && right([3, 1, 0], 0, 0) && right([1, 1, 0], 1, 1));
        assert!(
            right([-far, far, -far], 1, 0) && right([3, 3, 7], 0, 53) && right([1, 1, -2], 1, 5)
        );
        // The other group, another distance, a member that is not the nearest, no group of that number.
        assert!(!right([3, 3, 0], 1, 4) && !right([3, 3, 0], 0, 5) && !right([3, 3, 0], 0, 16));
        assert!(!right([1, 1, 0], 0, 4) && !right([1, 1, 0], 1, 0) && !right([1, 1, 0], 2, 1));
        assert!(!right([3, 3, 7], 0, 4) && !right([1, 1, -2], 1, 1));
        // Handset 4 is in no group.
        assert!(!right([3, 2, 0], 0, 0) && right([3, 2, 0], 0, 1));
        assert!(!is_nearest(&sets, &positions, [3, 3, 0], None));
        assert!(is_nearest(&[], &positions, [3, 3, 0], None));
    }
}
