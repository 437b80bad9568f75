//! An independent planner, written from the specification and from Yao, Papadias and Bakiras,
//! "Density-based Community Detection in Geo-Social Networks" (2019). It is meant to be read beside
//! them: hash sets and a breadth-first search as in the article's Algorithm 1, and nothing clever.
//! Definition numbers are the article's.

use std::collections::{BTreeSet, HashMap, HashSet, VecDeque};

use crate::calendar::{self, SATURDAY};
use crate::calls::{
    Contents, Counts, Nearest, Opened, Parameters, Planner, Point, Query, Record, Refusal, Role,
    Scheduled, Scores,
};

const HEADER: usize = 32;
/// x, y and z, four bytes each.
const COORDINATES: usize = 3;
const HANDSET_WIDTH: usize = 12;
/// Two ends, two bytes each.
const TIE_WIDTH: usize = 4;
const MOST_HANDSETS: usize = 512;
const MOST_TIES: usize = 4096;
const MOST_GAMMA_SQUARED: u64 = 12_000_000_000_000;
const MOST_COORDINATE: i64 = 1_000_000;
const MOST_DENOMINATOR: u64 = 1000;
const MOST_MU: usize = 512;
const MU_FOR_ZERO: usize = 4;
const DAY_MINUTES: u32 = 1440;
const PROGRAM_INPUT: usize = 65_536;
const PROGRAM_TEXT: usize = 65_536;

/// Where a handset stands: x, y and z.
pub type Position = [i64; COORDINATES];

/// An accepted image.
#[derive(Clone, Debug, PartialEq, Eq)]
pub struct Site {
    pub positions: Vec<Position>,
    pub ties: Vec<(usize, usize)>,
    pub gamma_squared: u64,
    /// Numerator and denominator.
    pub epsilon: (u64, u64),
    /// Never 0: what a 0 means is already put in its place.
    pub mu: usize,
}

// ---------------------------------------------------------------- the questions put to an image

/// The site, or the first question of 1 to 10 that gets a no.
pub fn open(image: &[u8]) -> Result<Site, Refusal> {
    ask(1, image.len() >= HEADER)?;
    let header = Header::read(image);
    ask(2, header.length == image.len())?;
    ask(3, header.handsets <= MOST_HANDSETS && header.ties <= MOST_TIES)?;
    ask(4, header.handset_width == HANDSET_WIDTH)?;
    ask(5, header.limits_hold())?;
    ask(6, header.tables_fit())?;
    let (positions, ties) = (header.positions(image), header.tie_records(image));
    ask_records(&positions, &ties)?;
    Ok(Site {
        positions,
        ties,
        gamma_squared: header.gamma_squared,
        epsilon: (header.p, header.q),
        mu: if header.mu == 0 { MU_FOR_ZERO } else { header.mu },
    })
}

/// One question that is put to the whole; its place is 0.
fn ask(number: u64, yes: bool) -> Result<(), Refusal> {
    ask_each(number, [yes].into_iter())
}

/// One question that is put to each of several in turn; its place is that of the first no.
fn ask_each(number: u64, mut answers: impl Iterator<Item = bool>) -> Result<(), Refusal> {
    match answers.position(|yes| !yes) {
        None => Ok(()),
        Some(place) => Err(Refusal { number, place: place as u64 }),
    }
}

/// Questions 7 to 10.
fn ask_records(positions: &[Position], ties: &[(usize, usize)]) -> Result<(), Refusal> {
    ask_each(7, positions.iter().map(|&position| in_space(position)))?;
    let known = |handset| handset < positions.len();
    ask_each(8, ties.iter().map(|&(u, v)| known(u) && known(v)))?;
    ask_each(9, ties.iter().map(|&(u, v)| u != v))?;
    let mut seen = HashSet::new();
    ask_each(10, ties.iter().map(|&(u, v)| seen.insert(pair(u, v))))
}

fn in_space([x, y, z]: Position) -> bool {
    let fits = |coordinate: i64| (-MOST_COORDINATE..=MOST_COORDINATE).contains(&coordinate);
    fits(x) && fits(y) && fits(z)
}

/// The two ends of a tie without direction.
fn pair(u: usize, v: usize) -> (usize, usize) {
    (u.min(v), u.max(v))
}

/// The header's fields as they stand.
struct Header {
    handsets: usize,
    ties: usize,
    handsets_at: usize,
    ties_at: usize,
    length: usize,
    gamma_squared: u64,
    p: u64,
    q: u64,
    mu: usize,
    handset_width: usize,
}

impl Header {
    fn read(image: &[u8]) -> Header {
        let field = |at: usize, width: usize| unsigned(&image[at..at + width]);
        Header {
            handsets: field(0, 2) as usize,
            ties: field(2, 2) as usize,
            handsets_at: field(4, 4) as usize,
            ties_at: field(8, 4) as usize,
            length: field(12, 4) as usize,
            gamma_squared: field(16, 8),
            p: field(24, 2),
            q: field(26, 2),
            mu: field(28, 2) as usize,
            handset_width: field(30, 2) as usize,
        }
    }

    fn limits_hold(&self) -> bool {
        self.gamma_squared <= MOST_GAMMA_SQUARED
            && 1 <= self.p
            && self.p <= self.q
            && self.q <= MOST_DENOMINATOR
            && self.mu <= MOST_MU
    }

    fn handsets_end(&self) -> usize {
        self.handsets_at + HANDSET_WIDTH * self.handsets
    }

    fn ties_end(&self) -> usize {
        self.ties_at + TIE_WIDTH * self.ties
    }

    fn tables_fit(&self) -> bool {
        self.handsets_at >= HEADER
            && self.ties_at >= HEADER
            && self.handsets_end() <= self.length
            && self.ties_end() <= self.length
            && (self.handsets_end() <= self.ties_at || self.ties_end() <= self.handsets_at)
    }

    fn positions(&self, image: &[u8]) -> Vec<Position> {
        image[self.handsets_at..self.handsets_end()]
            .chunks(HANDSET_WIDTH)
            .map(|record| [signed(&record[..4]), signed(&record[4..8]), signed(&record[8..])])
            .collect()
    }

    fn tie_records(&self, image: &[u8]) -> Vec<(usize, usize)> {
        image[self.ties_at..self.ties_end()]
            .chunks(TIE_WIDTH)
            .map(|record| (unsigned(&record[..2]) as usize, unsigned(&record[2..]) as usize))
            .collect()
    }
}

/// Little-endian.
fn unsigned(bytes: &[u8]) -> u64 {
    bytes.iter().rev().fold(0, |value, &byte| 256 * value + u64::from(byte))
}

/// Two's complement in four bytes, little-endian.
fn signed(bytes: &[u8]) -> i64 {
    let value = unsigned(bytes) as i64;
    if value < 1 << 31 {
        value
    } else {
        value - (1 << 32)
    }
}

// ---------------------------------------------------------------- communities and roles

/// A community: its cores, and all its members, the cores among them.
#[derive(Clone, Debug, Default, PartialEq, Eq)]
pub struct Community {
    pub cores: BTreeSet<usize>,
    pub members: BTreeSet<usize>,
}

/// A site with everything that the calls ask of it.
pub struct Findings {
    site: Site,
    tied: HashSet<(usize, usize)>,
    near: Vec<HashSet<usize>>,
    communities: Vec<Community>,
}

impl Findings {
    pub fn of(site: Site) -> Findings {
        let near = near_sets(&site);
        let communities = communities(&site, &near);
        let tied = site.ties.iter().map(|&(u, v)| pair(u, v)).collect();
        Findings { site, tied, near, communities }
    }

    pub fn site(&self) -> &Site {
        &self.site
    }

    /// By smallest core.
    pub fn communities(&self) -> &[Community] {
        &self.communities
    }

    pub fn start_table(&self) -> Vec<u32> {
        let mut table = vec![0];
        for community in &self.communities {
            table.push(table[table.len() - 1] + community.members.len() as u32);
        }
        table
    }

    pub fn member_table(&self) -> Vec<u16> {
        let members = self.communities.iter().flat_map(|community| &community.members);
        members.map(|&handset| handset as u16).collect()
    }

    /// The near count and the role of a handset (3.2, 3.5, 3.11, 3.12), or refusal 13.
    pub fn record(&self, handset: u64) -> Result<Record, Refusal> {
        ask(13, handset < self.near.len() as u64)?;
        let handset = handset as usize;
        let core_in = self.communities.iter().position(|c| c.cores.contains(&handset));
        let count = self.communities.iter().filter(|c| c.members.contains(&handset)).count();
        let role = match core_in {
            Some(number) => Role::Core(number as u64),
            None if count > 0 => Role::Border(count as u64),
            None => Role::Outlier,
        };
        Ok(Record { near: self.near[handset].len() as u64, role })
    }

    /// The counts behind the scores of a list (section 5.3), or refusal 13.
    pub fn scores(&self, list: &[u16]) -> Result<Scores, Refusal> {
        let known = |handset: u16| usize::from(handset) < self.near.len();
        ask_each(13, list.iter().enumerate().map(|(i, &h)| known(h) && i < MOST_HANDSETS))?;
        let mut scores = Scores { pairs: 0, tied_pairs: 0, leaving: 0 };
        for (i, &u) in list.iter().enumerate() {
            for &v in &list[i + 1..] {
                scores.pairs += 1;
                scores.tied_pairs += u64::from(self.tied.contains(&pair(u.into(), v.into())));
            }
        }
        let named: HashSet<usize> = list.iter().map(|&handset| handset.into()).collect();
        let leaving = |&&(u, v): &&(usize, usize)| named.contains(&u) != named.contains(&v);
        scores.leaving = self.site.ties.iter().filter(leaving).count() as u64;
        Ok(scores)
    }

    /// The reach of a community: the largest squared distance of a near tie between two members, where
    /// there is one.
    pub fn reach(&self, community: &Community) -> Option<u64> {
        let inside = |u: usize, v: usize| [u, v].iter().all(|end| community.members.contains(end));
        let ties = self.site.ties.iter().filter(|&&(u, v)| inside(u, v));
        ties.filter_map(|&(u, v)| near_test(&self.site, u, v)).max()
    }

    /// Whether two handsets that are near are alike (3.4).
    #[cfg(test)]
    pub fn are_alike(&self, u: usize, v: usize) -> bool {
        is_similar(self.site.epsilon, &self.near[u], &self.near[v])
    }

    /// The least of all pairs of a member's squared distance and its community's number, or refusal 17.
    pub fn nearest(&self, point: Point) -> Result<Option<Nearest>, Refusal> {
        let point = point.map(i64::from);
        ask(17, in_space(point))?;
        let mut pairs = Vec::new();
        for (number, community) in self.communities.iter().enumerate() {
            for &member in &community.members {
                pairs.push((squared_distance(point, self.site.positions[member]), number as u64));
            }
        }
        let least = pairs.into_iter().min();
        Ok(least.map(|(squared_distance, community)| Nearest { community, squared_distance }))
    }
}

/// The near test of two handsets that are tied: near with their squared distance, or not near.
fn near_test(site: &Site, u: usize, v: usize) -> Option<u64> {
    let distance = squared_distance(site.positions[u], site.positions[v]);
    (distance <= site.gamma_squared).then_some(distance)
}

/// The geo-social neighbourhood of each handset, itself included (3.2).
fn near_sets(site: &Site) -> Vec<HashSet<usize>> {
    let mut near: Vec<HashSet<usize>> =
        (0..site.positions.len()).map(|handset| HashSet::from([handset])).collect();
    for &(u, v) in &site.ties {
        if near_test(site, u, v).is_some() {
            near[u].insert(v);
            near[v].insert(u);
        }
    }
    near
}

fn squared_distance([x, y, z]: Position, [other_x, other_y, other_z]: Position) -> u64 {
    x.abs_diff(other_x).pow(2) + y.abs_diff(other_y).pow(2) + z.abs_diff(other_z).pow(2)
}

/// Algorithm 1. A border that an earlier community took is taken by a later one as well.
fn communities(site: &Site, near: &[HashSet<usize>]) -> Vec<Community> {
    let mut known = HashMap::new();
    let mut processed = HashSet::new();
    let mut found = Vec::new();
    for first in 0..near.len() {
        let mut community = Community::default();
        let mut queue = VecDeque::from([first]);
        while let Some(handset) = queue.pop_front() {
            if !processed.insert(handset) {
                continue;
            }
            let alike = epsilon_neighbourhood(site, near, handset, &mut known);
            if alike.len() >= site.mu {
                community.cores.insert(handset);
                community.members.extend(&alike);
                queue.extend(alike.iter().filter(|other| !processed.contains(other)));
            }
        }
        if !community.cores.is_empty() {
            found.push(community);
        }
    }
    found.sort_by_key(|community| community.cores.first().copied());
    found
}

/// Algorithm 2: those near to `handset` and alike to it, itself among them (3.4). `known` keeps the
/// likeness of each two handsets that were tested.
fn epsilon_neighbourhood(
    site: &Site,
    near: &[HashSet<usize>],
    handset: usize,
    known: &mut HashMap<(usize, usize), bool>,
) -> Vec<usize> {
    let mut alike = |other: usize| {
        let test = || is_similar(site.epsilon, &near[handset], &near[other]);
        *known.entry(pair(handset, other)).or_insert_with(test)
    };
    near[handset].iter().copied().filter(|&other| alike(other)).collect()
}

/// Similarity at least epsilon (3.3), c / sqrt(a b) >= p / q, without the root.
fn is_similar((p, q): (u64, u64), one: &HashSet<usize>, other: &HashSet<usize>) -> bool {
    let common = one.intersection(other).count() as u64;
    let (a, b) = (one.len() as u64, other.len() as u64);
    common.pow(2) * q.pow(2) >= p.pow(2) * a * b
}

// ---------------------------------------------------------------- the other calls

/// The plan's questions 11 and 12, put to the lengths of the lent tables.
pub fn ask_tables(
    findings: &Findings,
    starts_len: usize,
    members_len: usize,
) -> Result<Counts, Refusal> {
    let (starts, members) = (findings.start_table(), findings.member_table());
    ask(11, starts_len >= starts.len())?;
    ask(12, members_len >= members.len())?;
    Ok(Counts { communities: starts.len() as u64 - 1, memberships: members.len() as u64 })
}

/// The part of the member table that holds a community, or refusal 14.
pub fn members<'a>(
    starts: &[u32],
    members: &'a [u16],
    community: u64,
) -> Result<&'a [u16], Refusal> {
    let place = |number: u64| {
        let number = usize::try_from(number).ok()?;
        starts.get(number).map(|&start| start as usize)
    };
    let first = place(community);
    let end = community.checked_add(1).and_then(place);
    let part = first.zip(end).and_then(|(first, end)| members.get(first..end));
    part.ok_or(Refusal { number: 14, place: 0 })
}

/// The count of members of a community in the plan for a time, or refusal 18, 19 or 14.
pub fn members_at(query: Query) -> Result<Scheduled, Refusal> {
    let Query { time, window, community, plans } = query;
    ask(18, calendar::exists(time.date))?;
    let window_fits = window.closing <= DAY_MINUTES && window.opening <= window.closing;
    ask(19, time.minute < DAY_MINUTES && window_fits)?;
    let in_window = (window.opening..window.closing).contains(&time.minute);
    let working = in_window && calendar::weekday(time.date) < SATURDAY;
    let plan = if working { plans.workday } else { plans.restday };
    let count = members(plan.starts, plan.members, community)?.len() as u64;
    Ok(if working { Scheduled::Workday(count) } else { Scheduled::Restday(count) })
}

/// The image of the numbers that the writer gets, or the first question of 3, 5, 6, 7 to 10 and 20 that
/// gets a no. `room` is the buffer's length.
pub fn written(contents: Contents, room: usize) -> Result<Vec<u8>, Refusal> {
    let Contents { parameters, coordinates, ends } = contents;
    let Parameters { handsets, ties, gamma_squared, p, q, mu } = parameters;
    ask(3, handsets <= MOST_HANDSETS as u64 && ties <= MOST_TIES as u64)?;
    let epsilon_fits = 1 <= p && p <= q && q <= MOST_DENOMINATOR;
    ask(5, gamma_squared <= MOST_GAMMA_SQUARED && epsilon_fits && mu <= MOST_MU as u64)?;
    let coordinates_fit = coordinates.len() as u64 == COORDINATES as u64 * handsets;
    ask(6, coordinates_fit && ends.len() as u64 == 2 * ties)?;
    let positions: Vec<Position> = coordinates
        .chunks(COORDINATES)
        .map(|three| [three[0].into(), three[1].into(), three[2].into()])
        .collect();
    let pairs: Vec<(usize, usize)> =
        ends.chunks(2).map(|two| (two[0].into(), two[1].into())).collect();
    ask_records(&positions, &pairs)?;
    let image = image_of(contents);
    ask(20, room >= image.len())?;
    Ok(image)
}

/// The header, the handsets directly after it, the ties directly after them.
fn image_of(Contents { parameters, coordinates, ends }: Contents) -> Vec<u8> {
    let Parameters { handsets, ties, gamma_squared, p, q, mu } = parameters;
    let handsets_at = HEADER as u64;
    let ties_at = handsets_at + HANDSET_WIDTH as u64 * handsets;
    let length = ties_at + TIE_WIDTH as u64 * ties;
    let mut image = Vec::new();
    image.extend([handsets, ties].into_iter().flat_map(|count| little_endian(2, count)));
    image.extend([handsets_at, ties_at, length].into_iter().flat_map(|at| little_endian(4, at)));
    image.extend(little_endian(8, gamma_squared));
    let handset_width = HANDSET_WIDTH as u64;
    image.extend([p, q, mu, handset_width].into_iter().flat_map(|field| little_endian(2, field)));
    image.extend(coordinates.iter().flat_map(|&coordinate| twos_complement(coordinate.into())));
    image.extend(ends.iter().flat_map(|&end| little_endian(2, end.into())));
    image
}

/// The bytes of a number, the lowest first.
fn little_endian(width: usize, value: u64) -> impl Iterator<Item = u8> {
    (0..width).map(move |place| (value >> (8 * place)) as u8)
}

/// The four bytes of a number with a sign.
fn twos_complement(value: i64) -> impl Iterator<Item = u8> {
    let word = if value < 0 { value + (1 << 32) } else { value };
    little_endian(4, word as u64)
}

/// The report on an accepted image.
pub fn text(findings: &Findings) -> Vec<u8> {
    let site = findings.site();
    let mut text = format!(
        "handsets {} ties {} groups {} memberships {}\n",
        site.positions.len(),
        site.ties.len(),
        findings.communities().len(),
        findings.member_table().len()
    );
    for (number, community) in findings.communities().iter().enumerate() {
        let list: Vec<u16> = community.members.iter().map(|&handset| handset as u16).collect();
        let scores = findings.scores(&list).expect("members are handsets of the site");
        let Scores { pairs: s, tied_pairs: t, leaving: o } = scores;
        let density = score(s - t, s);
        let conductance = score(o, 2 * t + o);
        let reach = findings.reach(community).map_or("-".to_string(), |reach| reach.to_string());
        text +=
            &format!("group {number} density {density} conductance {conductance} reach {reach}:");
        text += &numbers(community.members.iter().copied());
    }
    text += &role_lines(findings);
    text.into_bytes()
}

/// The report's last three lines: the cores, the outliers, and how many handsets have each role.
fn role_lines(findings: &Findings) -> String {
    let role = |handset: usize| findings.record(handset as u64).expect("a handset").role;
    let roles: Vec<Role> = (0..findings.site().positions.len()).map(role).collect();
    let with_role = |wanted: fn(Role) -> bool| -> Vec<usize> {
        (0..roles.len()).filter(|&handset| wanted(roles[handset])).collect()
    };
    let cores = with_role(|role| matches!(role, Role::Core(_)));
    let borders = with_role(|role| matches!(role, Role::Border(_)));
    let outliers = with_role(|role| role == Role::Outlier);
    let multiple = with_role(|role| matches!(role, Role::Border(groups) if groups >= 2));
    let totals = format!(
        "cores {} borders {} outliers {} multiple {}\n",
        cores.len(),
        borders.len(),
        outliers.len(),
        multiple.len()
    );
    let (cores, outliers) = (numbers(cores.into_iter()), numbers(outliers.into_iter()));
    format!("cores:{cores}outliers:{outliers}{totals}")
}

/// A score that is not reduced; none where the divisor is 0.
fn score(dividend: u64, divisor: u64) -> String {
    if divisor == 0 {
        "-".to_string()
    } else {
        format!("{dividend}/{divisor}")
    }
}

/// Each number with a space before it, and the end of the line.
fn numbers(handsets: impl Iterator<Item = usize>) -> String {
    let mut line: String = handsets.map(|handset| format!(" {handset}")).collect();
    line.push('\n');
    line
}

/// The report with its own refusals: 1 to 10, and 16 where the text is longer than the buffer.
pub fn report(image: &[u8], buffer: usize) -> Result<Vec<u8>, Refusal> {
    let text = text(&Findings::of(open(image)?));
    ask(16, text.len() <= buffer)?;
    Ok(text)
}

/// What the report program prints for its standard input.
pub fn program(input: &[u8]) -> Vec<u8> {
    let report = ask(15, input.len() <= PROGRAM_INPUT).and_then(|()| report(input, PROGRAM_TEXT));
    report.unwrap_or_else(|Refusal { number, place }| {
        format!("refused {number} {place}\n").into_bytes()
    })
}

/// The reference behind the trait, for the benchmark.
pub struct Reference;

impl Planner for Reference {
    fn name(&self) -> &'static str {
        "reference"
    }

    fn open(&self, image: &[u8]) -> Result<Opened, Refusal> {
        let site = open(image)?;
        Ok(Opened { handsets: site.positions.len() as u64, ties: site.ties.len() as u64 })
    }

    fn plan(
        &self,
        image: &[u8],
        starts: &mut [u32],
        members: &mut [u16],
    ) -> Result<Counts, Refusal> {
        let findings = Findings::of(open(image)?);
        let counts = ask_tables(&findings, starts.len(), members.len())?;
        let (start_table, member_table) = (findings.start_table(), findings.member_table());
        starts[..start_table.len()].copy_from_slice(&start_table);
        members[..member_table.len()].copy_from_slice(&member_table);
        Ok(counts)
    }

    fn role(&self, image: &[u8], handset: u64) -> Result<Record, Refusal> {
        Findings::of(open(image)?).record(handset)
    }

    fn scores(&self, image: &[u8], list: &[u16]) -> Result<Scores, Refusal> {
        Findings::of(open(image)?).scores(list)
    }

    fn members(&self, starts: &[u32], table: &[u16], community: u64) -> Result<u64, Refusal> {
        members(starts, table, community).map(|part| part.len() as u64)
    }

    fn nearest(&self, image: &[u8], point: Point) -> Result<Option<Nearest>, Refusal> {
        Findings::of(open(image)?).nearest(point)
    }

    fn members_at(&self, query: Query) -> Result<Scheduled, Refusal> {
        members_at(query)
    }

    fn write(&self, contents: Contents, buffer: &mut [u8]) -> Result<u64, Refusal> {
        let image = written(contents, buffer.len())?;
        buffer[..image.len()].copy_from_slice(&image);
        Ok(image.len() as u64)
    }

    fn report(&self, image: &[u8], text: &mut [u8]) -> Result<u64, u64> {
        let whole = report(image, text.len()).map_err(|refusal| refusal.number)?;
        text[..whole.len()].copy_from_slice(&whole);
        Ok(whole.len() as u64)
    }
}

#[cfg(test)]
mod tests {
    use super::*;
    use crate::calls::{Date, Plan, Plans, Time, Window};
    use crate::damage;
    use crate::numbers;
    use crate::sites::{self, Rng};

    fn findings(site: &sites::Site) -> Findings {
        Findings::of(open(&site.plain_image()).expect("an accepted site"))
    }

    fn groups(site: &sites::Site) -> Vec<Vec<usize>> {
        let members = |community: &Community| community.members.iter().copied().collect();
        findings(site).communities().iter().map(members).collect()
    }

    fn refusal(number: u64, place: u64) -> Refusal {
        Refusal { number, place }
    }

    const S_REPORT: &str = "\
handsets 7 ties 8 groups 2 memberships 8
group 0 density 2/6 conductance 1/9 reach 0: 0 1 2 3
group 1 density 2/6 conductance 1/9 reach 0: 3 4 5 6
cores: 2 4
outliers:
cores 2 borders 5 outliers 0 multiple 1
";

    #[test]
    fn site_s_byte_by_byte() {
        let mut image = vec![7, 0, 8, 0, 32, 0, 0, 0, 116, 0, 0, 0, 148, 0, 0, 0];
        image.extend([0; 8]);
        image.extend([1, 0, 2, 0, 4, 0, 12, 0]);
        image.extend([0; 84]);
        for end in [0, 1, 0, 2, 1, 2, 2, 3, 3, 4, 4, 5, 4, 6, 5, 6] {
            image.extend([end, 0]);
        }
        assert_eq!(image, sites::site_s(4).plain_image());
        assert_eq!(program(&image), S_REPORT.as_bytes());
    }

    #[test]
    fn site_s_with_mu_4_or_a_blank_one_has_two_groups_and_a_shared_border() {
        for mu in [4, 0] {
            let found = findings(&sites::site_s(mu));
            assert_eq!(groups(&sites::site_s(mu)), [[0, 1, 2, 3], [3, 4, 5, 6]]);
            assert_eq!(found.start_table(), [0, 4, 8]);
            assert_eq!(found.member_table(), [0, 1, 2, 3, 3, 4, 5, 6]);
            let record = |near, role| Ok(Record { near, role });
            assert_eq!(found.record(0), record(3, Role::Border(1)));
            assert_eq!(found.record(2), record(4, Role::Core(0)));
            assert_eq!(found.record(3), record(3, Role::Border(2)));
            assert_eq!(found.record(4), record(4, Role::Core(1)));
            assert_eq!(found.record(7), Err(refusal(13, 0)));
            assert_eq!(found.record(u64::MAX), Err(refusal(13, 0)));
        }
    }

    #[test]
    fn site_s_with_mu_1_to_3_is_one_group() {
        for mu in 1..=3 {
            assert_eq!(groups(&sites::site_s(mu)), [[0, 1, 2, 3, 4, 5, 6]]);
            let found = findings(&sites::site_s(mu));
            assert_eq!(found.communities()[0].cores.len(), 7);
        }
    }

    #[test]
    fn site_s_with_epsilon_3_5_leaves_an_outlier() {
        let site = sites::Site { epsilon: (3, 5), ..sites::site_s(3) };
        assert_eq!(groups(&site), [[0, 1, 2], [4, 5, 6]]);
        let record = Record { near: 3, role: Role::Outlier };
        assert_eq!(findings(&site).record(3), Ok(record));
    }

    #[test]
    fn similarity_at_its_limit() {
        let near = findings(&sites::site_s(4)).near;
        let (a, b) = (&near[2], &near[3]);
        assert_eq!((a.intersection(b).count(), a.len(), b.len()), (2, 4, 3));
        assert!(is_similar((577, 1000), a, b));
        assert!(!is_similar((578, 1000), a, b));
    }

    #[test]
    fn nearness_at_its_limit() {
        let near_count = |one: [i32; 3], other: [i32; 3], gamma_squared| {
            let (positions, ties) = (vec![one, other], vec![(1, 0)]);
            let site = sites::Site { positions, ties, gamma_squared, ..sites::site_s(1) };
            findings(&site).record(0).expect("a handset").near
        };
        assert_eq!(near_count([0, 0, 0], [1, 2, 0], 5), 2);
        assert_eq!(near_count([0, 0, 0], [1, 2, 0], 4), 1);
        assert_eq!(near_count([4, 5, -1], [4, 5, 2], 9), 2);
        assert_eq!(near_count([4, 5, -1], [4, 5, 2], 8), 1);
        assert_eq!(near_count([0, 0, 0], [1, 2, -3], 14), 2);
        assert_eq!(near_count([0, 0, 0], [1, 2, -3], 13), 1);
        let far = 1_000_000;
        assert_eq!(near_count([-far, far, -far], [far, -far, far], 12_000_000_000_000), 2);
        assert_eq!(near_count([-far, far, -far], [far, -far, far], 11_999_999_999_999), 1);
    }

    /// Floors 1 and 9: z alone tells whether the two are near.
    #[test]
    fn nearness_of_one_above_the_other() {
        let near_count = |site: &sites::Site| findings(site).record(0).expect("a handset").near;
        assert_eq!(near_count(&sites::porters(1024)), 2);
        assert_eq!(near_count(&sites::porters(1023)), 1);
        assert_eq!(groups(&sites::porters(1024)), [[0, 1]]);
        assert!(groups(&sites::porters(1023)).is_empty());
        for site in sites::shafts() {
            let dz = site.positions[0][2].abs_diff(site.positions[1][2]);
            let near = u64::from(dz).pow(2) <= site.gamma_squared;
            assert_eq!(near_count(&site), 1 + u64::from(near), "{site:?}");
        }
    }

    /// The near test of before, of the ends of a tie: dx² + dy² ≤ G.
    fn near_test_before(site: &Site, &(u, v): &(usize, usize)) -> Option<u64> {
        let ([x, y, _], [other_x, other_y, _]) = (site.positions[u], site.positions[v]);
        let (dx, dy) = (x - other_x, y - other_y);
        let distance = (dx * dx + dy * dy) as u64;
        (distance <= site.gamma_squared).then_some(distance)
    }

    /// The near sets by that test.
    fn near_sets_before(site: &Site) -> Vec<HashSet<usize>> {
        let mut near: Vec<HashSet<usize>> =
            (0..site.positions.len()).map(|handset| HashSet::from([handset])).collect();
        for &(u, v) in site.ties.iter().filter(|tie| near_test_before(site, tie).is_some()) {
            near[u].insert(v);
            near[v].insert(u);
        }
        near
    }

    /// The end of a group's line by that test: its reach and its members.
    fn line_end_before(site: &Site, members: &BTreeSet<usize>) -> String {
        let inside = |&&(u, v): &&(usize, usize)| members.contains(&u) && members.contains(&v);
        let near = site.ties.iter().filter(inside).filter_map(|tie| near_test_before(site, tie));
        let reach = near.max().map_or("-".to_string(), |reach| reach.to_string());
        format!(" reach {reach}:{}", numbers(members.iter().copied()).trim_end())
    }

    /// Where every z is 0, near tests, near sets, groups and the report are those of the near test of before.
    #[test]
    fn sites_on_the_ground_are_planned_as_before() {
        let mut rng = Rng::new(10);
        let (mut near, mut far) = (0, 0);
        for _ in 0..400 {
            let mut drawn = sites::any(&mut rng);
            drawn.positions.iter_mut().for_each(|position| position[2] = 0);
            let found = findings(&drawn);
            let site = found.site();
            for tie in &site.ties {
                let before = near_test_before(site, tie);
                assert_eq!(near_test(site, tie.0, tie.1), before);
                *(if before.is_some() { &mut near } else { &mut far }) += 1;
            }
            assert_eq!(found.near, near_sets_before(site));
            let groups = communities(site, &near_sets_before(site));
            assert_eq!(found.communities(), groups);
            let text = String::from_utf8(text(&found)).expect("text");
            let lines: Vec<&str> = text.lines().filter(|line| line.starts_with("group ")).collect();
            assert_eq!(lines.len(), groups.len());
            for (line, group) in lines.iter().zip(&groups) {
                assert!(line.ends_with(&line_end_before(site, &group.members)), "{line}");
            }
        }
        assert!(near > 1000 && far > 1000, "{near} {far}");
    }

    /// The reaches of a site's groups.
    fn reaches(site: &sites::Site) -> Vec<Option<u64>> {
        let found = findings(site);
        found.communities().iter().map(|community| found.reach(community)).collect()
    }

    #[test]
    fn reaches_of_small_sites() {
        assert_eq!(reaches(&sites::site_s(4)), [Some(0), Some(0)]);
        assert_eq!(reaches(&sites::alone()), [None]);
        assert_eq!(reaches(&sites::apart()), [None, None]);
        assert_eq!(reaches(&sites::beyond()), [Some(1625)]);
        assert_eq!(reaches(&sites::paired_borders()), [Some(50), Some(50)]);
        assert_eq!(reaches(&sites::unlike_members()), [Some(100)]);
        assert_eq!(reaches(&sites::two_reaches()), [Some(2500), Some(100)]);
        // Two handsets, tied, with mu 1: a group while they are near, and else a group each.
        let two = |gamma_squared| {
            let positions = vec![[0, 0, 0], [1, 2, 0]];
            reaches(&sites::Site {
                positions,
                ties: vec![(1, 0)],
                gamma_squared,
                ..sites::site_s(1)
            })
        };
        assert_eq!((two(6), two(5), two(4)), (vec![Some(5)], vec![Some(5)], vec![None, None]));
        assert_eq!(reaches(&sites::porters(1024)), [Some(1024)]);
        assert_eq!(reaches(&sites::tower()), [Some(225)]);
    }

    /// The longest tie of four that are tied each to each: at gamma exactly, one below, one beyond.
    #[test]
    fn reaches_at_the_limit() {
        let limit = |gamma_squared| sites::Site { gamma_squared, ..sites::at_limit() };
        assert_eq!(reaches(&limit(2500)), [Some(2500)]);
        assert_eq!(reaches(&limit(2501)), [Some(2500)]);
        assert_eq!(reaches(&limit(2499)), [Some(1000)]);
        let corners = |gamma_squared| sites::Site { gamma_squared, ..sites::corners() };
        assert_eq!(reaches(&corners(12_000_000_000_000)), [Some(12_000_000_000_000)]);
        assert_eq!(reaches(&corners(11_999_999_999_999)), [Some(8_000_000_000_000)]);
        assert_eq!(reaches(&corners(7_999_999_999_999)), [Some(4_000_000_000_000)]);
    }

    #[test]
    fn sites_without_ties() {
        let found = findings(&sites::untied(0, 0));
        assert_eq!((found.start_table(), found.member_table()), (vec![0], vec![]));
        let empty = "handsets 0 ties 0 groups 0 memberships 0\ncores:\noutliers:\n\
                     cores 0 borders 0 outliers 0 multiple 0\n";
        assert_eq!(program(&sites::untied(0, 0).plain_image()), empty.as_bytes());
        assert_eq!(groups(&sites::untied(1, 1)), [[0]]);
        assert!(groups(&sites::untied(1, 2)).is_empty());
        let one = "handsets 1 ties 0 groups 1 memberships 1\n\
                   group 0 density - conductance - reach -: 0\ncores: 0\noutliers:\n\
                   cores 1 borders 0 outliers 0 multiple 0\n";
        assert_eq!(program(&sites::untied(1, 1).plain_image()), one.as_bytes());
    }

    #[test]
    fn counts_at_their_limits() {
        let handsets = |count| open(&sites::untied(count, 1).plain_image()).map(|_| ());
        assert_eq!(handsets(512), Ok(()));
        assert_eq!(handsets(513), Err(refusal(3, 0)));
        let mut site = sites::shared_borders();
        assert!(open(&site.plain_image()).is_ok());
        site.ties.push((0, 1));
        assert_eq!(open(&site.plain_image()), Err(refusal(3, 0)));
    }

    /// The eleven users of the article's figure 4, as its text describes them, numbered from 0:
    /// gamma squared 5, epsilon 0.7, mu 3. User 5 is far from its friends, user 11 unlike its own.
    #[test]
    fn the_articles_example() {
        let clique = [(7, 8), (7, 9), (7, 10), (8, 9), (8, 10), (9, 10)];
        let others = [(1, 2), (1, 4), (2, 3), (2, 4), (3, 4), (3, 6), (1, 5), (4, 5), (10, 11)];
        let ties = others.iter().chain(&clique).map(|&(u, v)| (u - 1, v - 1)).collect();
        let mut positions = vec![[0; 3]; 11];
        positions[4] = [3, 0, 0];
        let site = sites::Site { positions, ties, gamma_squared: 5, epsilon: (7, 10), mu: 3 };
        assert_eq!(groups(&site), [vec![0, 1, 2, 3, 5], vec![6, 7, 8, 9]]);
        let outlier = |user: u64| findings(&site).record(user - 1).map(|record| record.role);
        assert_eq!((outlier(5), outlier(11)), (Ok(Role::Outlier), Ok(Role::Outlier)));
    }

    #[test]
    fn groups_are_ordered_by_smallest_core() {
        let found = findings(&sites::hub());
        assert_eq!(found.record(0), Ok(Record { near: 6, role: Role::Border(5) }));
        assert_eq!(found.record(9), Ok(Record { near: 8, role: Role::Core(1) }));
        assert_eq!(found.record(36), Ok(Record { near: 1, role: Role::Outlier }));
        assert_eq!(found.start_table(), [0, 8, 16, 24, 32, 40]);
        // Handset 0 is a border of the second group only; the first has the smaller core.
        let mut site = sites::site_s(4);
        let swap = |handset: u16| [6, 1, 2, 3, 4, 5, 0][usize::from(handset)];
        site.ties = site.ties.iter().map(|&(u, v)| (swap(u), swap(v))).collect();
        assert_eq!(groups(&site), [[1, 2, 3, 6], [0, 3, 4, 5]]);
    }

    /// Each handset of a site with every role, and the last line of its report.
    #[test]
    fn totals_are_those_of_the_roles() {
        use Role::{Border, Core, Outlier};
        let roles = [
            [Border(2), Border(1), Core(0), Border(1), Border(1), Core(1)].as_slice(),
            &[Border(1), Border(3), Core(2), Core(2), Outlier, Border(2)],
            &[Border(1), Border(1), Border(1), Core(3), Border(1), Border(1), Outlier],
        ]
        .concat();
        let found = findings(&sites::totals());
        let role = |handset| found.record(handset).map(|record| record.role);
        assert_eq!((0..19).map(role).collect::<Result<Vec<Role>, Refusal>>(), Ok(roles));
        assert_eq!(last_line(&found), "cores 5 borders 12 outliers 2 multiple 3");
        assert_eq!(5 + 12 + 2, found.site().positions.len());
    }

    /// The last line says what the lines before it say, whatever the site.
    #[test]
    fn totals_are_those_of_the_other_lines() {
        let mut rng = Rng::new(4);
        for _ in 0..500 {
            let site = sites::any(&mut rng);
            let found = findings(&site);
            let text = String::from_utf8(text(&found)).expect("text");
            let listed = |label: &str| {
                let lines = text.lines().filter(|line| line.starts_with(label));
                let lists = lines.filter_map(|line| line.split_once(':'));
                lists.flat_map(|(_, list)| list.split_whitespace()).collect::<Vec<&str>>()
            };
            let mut once = HashSet::new();
            let (members, again): (Vec<&str>, Vec<&str>) =
                listed("group ").into_iter().partition(|&member| once.insert(member));
            let multiple = again.into_iter().collect::<HashSet<&str>>().len();
            let (cores, outliers) = (listed("cores:").len(), listed("outliers:").len());
            let borders = members.len() - cores;
            assert_eq!(cores + borders + outliers, site.positions.len());
            let expected =
                format!("cores {cores} borders {borders} outliers {outliers} multiple {multiple}");
            assert_eq!(last_line(&found), expected);
        }
    }

    fn last_line(found: &Findings) -> String {
        let text = String::from_utf8(text(found)).expect("text");
        text.lines().last().expect("a line").to_string()
    }

    #[test]
    fn scores_of_lists() {
        let found = findings(&sites::site_s(4));
        let scores = |pairs, tied_pairs, leaving| Ok(Scores { pairs, tied_pairs, leaving });
        assert_eq!(found.scores(&[]), scores(0, 0, 0));
        assert_eq!(found.scores(&[3]), scores(0, 0, 2));
        assert_eq!(found.scores(&[0, 1, 2, 3]), scores(6, 4, 1));
        assert_eq!(found.scores(&[1, 0, 1]), scores(3, 2, 2));
        assert_eq!(found.scores(&[0; 512]), scores(130_816, 0, 2));
        assert_eq!(found.scores(&[0; 513]), Err(refusal(13, 512)));
        assert_eq!(found.scores(&[0, 7, 8]), Err(refusal(13, 1)));
    }

    #[test]
    fn nearest_group_of_a_point() {
        let nearest =
            |community, squared_distance| Ok(Some(Nearest { community, squared_distance }));
        let s = findings(&sites::site_s(4));
        assert_eq!(s.nearest([3, -4, 0]), nearest(0, 25));
        assert_eq!(s.nearest([3, -4, 12]), nearest(0, 169));
        let apart = findings(&sites::apart());
        assert_eq!(apart.nearest([0, 0, 0]), nearest(0, 2));
        assert_eq!(apart.nearest([1, 0, 0]), nearest(1, 1));
        assert_eq!(apart.nearest([1, 0, -2]), nearest(1, 5));
        assert_eq!(apart.nearest([1_000_000, -1_000_000, 0]), nearest(0, 2_000_000_000_002));
        assert_eq!(apart.nearest([-1_000_000, 1_000_000, 0]), nearest(0, 2_000_000_000_002));
        let limits = [1_000_000, -1_000_000, 1_000_000];
        assert_eq!(apart.nearest(limits), nearest(0, 3_000_000_000_002));
        // The shared border of two groups; a border that is nearer than every core; an outlier.
        let mut site = sites::site_s(4);
        site.gamma_squared = 100;
        site.positions[3] = [0, 5, 0];
        site.positions[6] = [0, 9, 0];
        assert_eq!(findings(&site).nearest([0, 6, 0]), nearest(0, 1));
        assert_eq!(findings(&site).nearest([0, 8, 0]), nearest(1, 1));
        let site = sites::Site { epsilon: (3, 5), mu: 3, ..site };
        assert_eq!(findings(&site).nearest([0, 5, 0]), nearest(1, 16));
    }

    /// Two groups of one, one above the other on floors 1 and 9: z alone tells which is nearer, and
    /// halfway the first is named.
    #[test]
    fn nearest_group_by_z_alone() {
        let site = sites::Site { ties: Vec::new(), mu: 1, ..sites::porters(0) };
        let found = findings(&site);
        let at = |z| found.nearest([25, -70, z]).map(|found| found.expect("a group").community);
        assert_eq!((at(4), at(19), at(20)), (Ok(0), Ok(0), Ok(0)));
        assert_eq!((at(21), at(36), at(1_000_000)), (Ok(1), Ok(1), Ok(1)));
        assert_eq!((at(-1_000_000), at(1_000_001)), (Ok(0), Err(refusal(17, 0))));
    }

    #[test]
    fn nearest_where_there_are_no_groups_or_limits_are_passed() {
        for site in [sites::untied(0, 0), sites::untied(1, 2)] {
            let found = findings(&site);
            assert_eq!(found.nearest([0, -1_000_000, 1_000_000]), Ok(None));
            for beyond in [1_000_001, -1_000_001, i32::MAX, i32::MIN] {
                assert_eq!(found.nearest([beyond, 0, 0]), Err(refusal(17, 0)));
                assert_eq!(found.nearest([0, beyond, 0]), Err(refusal(17, 0)));
                assert_eq!(found.nearest([0, 0, beyond]), Err(refusal(17, 0)));
            }
        }
        assert_eq!(Reference.nearest(&[], [0, 0, 1_000_001]), Err(refusal(1, 0)));
    }

    #[test]
    fn members_of_a_group() {
        let (starts, table) = ([0, 2, 2, 5, 4], [10, 11, 12, 13, 14]);
        let none = Err(refusal(14, 0));
        assert_eq!(members(&starts, &table, 0), Ok(&table[..2]));
        assert_eq!(members(&starts, &table, 1), Ok(&table[..0]));
        assert_eq!(members(&starts, &table, 2), Ok(&table[2..]));
        assert_eq!(members(&starts, &table[..4], 2), none);
        assert_eq!(members(&starts, &table, 3), none);
        assert_eq!(members(&starts, &table, 4), none);
        assert_eq!(members(&starts, &table, u64::MAX), none);
        assert_eq!(members(&[], &table, 0), none);
        assert_eq!(members(&[0], &table, 0), none);
    }

    /// Group 0 has two members in the plan for working hours and three in the other; group 1 is in the
    /// other alone.
    #[test]
    fn members_at_a_time() {
        use Scheduled::{Restday, Workday};
        let plans = Plans {
            workday: Plan { starts: &[0, 2], members: &[10, 11] },
            restday: Plan { starts: &[0, 3, 3], members: &[20, 21, 22] },
        };
        let at = |(year, month, day), minute, (opening, closing), community| {
            let time = Time { date: Date { year, month, day }, minute };
            members_at(Query { time, window: Window { opening, closing }, community, plans })
        };
        let (thursday, saturday) = ((2024, 2, 29), (2000, 1, 1));
        let hours = (480, 1020);
        assert_eq!(at(thursday, 480, hours, 0), Ok(Workday(2)));
        assert_eq!(at(thursday, 1019, hours, 0), Ok(Workday(2)));
        assert_eq!(at(thursday, 479, hours, 0), Ok(Restday(3)));
        assert_eq!(at(thursday, 1020, hours, 0), Ok(Restday(3)));
        assert_eq!(at(saturday, 480, hours, 0), Ok(Restday(3)));
        assert_eq!(at(thursday, 480, (480, 480), 0), Ok(Restday(3)));
        assert_eq!(at(thursday, 1439, (0, 1440), 0), Ok(Workday(2)));
        assert_eq!(at(thursday, 1439, (1440, 1440), 0), Ok(Restday(3)));
        // 14 of the chosen plan alone.
        assert_eq!(at(thursday, 480, hours, 1), Err(refusal(14, 0)));
        assert_eq!(at(saturday, 480, hours, 1), Ok(Restday(0)));
        // 18 before 19 before 14.
        assert_eq!(at((1900, 2, 29), 1440, hours, 9), Err(refusal(18, 0)));
        assert_eq!(at((1599, 12, 31), 480, hours, 0), Err(refusal(18, 0)));
        assert_eq!(at((10_000, 1, 1), 480, hours, 0), Err(refusal(18, 0)));
        assert_eq!(at(thursday, 1440, hours, 9), Err(refusal(19, 0)));
        assert_eq!(at(saturday, 0, (481, 480), 0), Err(refusal(19, 0)));
        assert_eq!(at(saturday, 0, (480, 1441), 0), Err(refusal(19, 0)));
    }

    /// Site S with mu 4, byte by byte.
    const S_IMAGE: [u8; 148] = [
        7, 0, 8, 0, 32, 0, 0, 0, 116, 0, 0, 0, 148, 0, 0, 0, // n, m, both offsets, L
        0, 0, 0, 0, 0, 0, 0, 0, 1, 0, 2, 0, 4, 0, 12, 0, // G, p, q, mu, a record's width
        0, 0, 0, 0, 0, 0, 0, 0, 0, 0, 0, 0, // handset 0
        0, 0, 0, 0, 0, 0, 0, 0, 0, 0, 0, 0, // handset 1
        0, 0, 0, 0, 0, 0, 0, 0, 0, 0, 0, 0, // handset 2
        0, 0, 0, 0, 0, 0, 0, 0, 0, 0, 0, 0, // handset 3
        0, 0, 0, 0, 0, 0, 0, 0, 0, 0, 0, 0, // handset 4
        0, 0, 0, 0, 0, 0, 0, 0, 0, 0, 0, 0, // handset 5
        0, 0, 0, 0, 0, 0, 0, 0, 0, 0, 0, 0, // handset 6
        0, 0, 1, 0, 0, 0, 2, 0, 1, 0, 2, 0, 2, 0, 3, 0, // ties 0 to 3
        3, 0, 4, 0, 4, 0, 5, 0, 4, 0, 6, 0, 5, 0, 6, 0, // ties 4 to 7
    ];

    const S_NUMBERS: Contents = Contents {
        parameters: Parameters { handsets: 7, ties: 8, gamma_squared: 0, p: 1, q: 2, mu: 4 },
        coordinates: &[0; 21],
        ends: &[0, 1, 0, 2, 1, 2, 2, 3, 3, 4, 4, 5, 4, 6, 5, 6],
    };

    /// Three handsets, some at the limits; the largest G; a blank mu.
    const FAR_IMAGE: [u8; 72] = [
        3, 0, 1, 0, 32, 0, 0, 0, 68, 0, 0, 0, 72, 0, 0, 0, // n, m, both offsets, L
        0, 0xc0, 0xbc, 0xf7, 0xe9, 0x0a, 0, 0, // G
        0x41, 2, 0xe8, 3, 0, 0, 12, 0, // p, q, mu, a record's width
        0xfd, 0xff, 0xff, 0xff, 2, 1, 0, 0, 5, 0, 0, 0, // handset 0 at (-3, 258, 5)
        0x40, 0x42, 0x0f, 0, 0xc0, 0xbd, 0xf0, 0xff, 0x40, 0x42, 0x0f,
        0, // handset 1 at limits
        0, 0, 0, 0, 0xff, 0xff, 0xff, 0xff, 0xfe, 0xff, 0xff,
        0xff, // handset 2 at (0, -1, -2)
        2, 0, 1, 0, // tie 0
    ];

    const FAR_NUMBERS: Contents = Contents {
        parameters: Parameters {
            handsets: 3,
            ties: 1,
            gamma_squared: 12_000_000_000_000,
            p: 577,
            q: 1000,
            mu: 0,
        },
        coordinates: &[-3, 258, 5, 1_000_000, -1_000_000, 1_000_000, 0, -1, -2],
        ends: &[2, 1],
    };

    #[test]
    fn images_byte_by_byte() {
        for (numbers, image) in [(S_NUMBERS, &S_IMAGE[..]), (FAR_NUMBERS, &FAR_IMAGE)] {
            assert_eq!(written(numbers, image.len()), Ok(image.to_vec()));
            assert_eq!(written(numbers, image.len() - 1), Err(refusal(20, 0)));
            assert!(open(image).is_ok());
        }
        assert_eq!(sites::site_s(4).plain_image(), S_IMAGE);
        let mut longer = [9; 74];
        assert_eq!(Reference.write(FAR_NUMBERS, &mut longer), Ok(72));
        assert_eq!(longer, [&FAR_IMAGE[..], &[9, 9]].concat()[..]);
    }

    /// The writer's questions at their limits.
    #[test]
    fn numbers_that_are_refused() {
        let with = |change: fn(&mut Parameters)| {
            let mut parameters = S_NUMBERS.parameters;
            change(&mut parameters);
            written(Contents { parameters, ..S_NUMBERS }, 0)
        };
        let number = |change| with(change).expect_err("no room").number;
        assert_eq!((number(|x| x.handsets = 512), number(|x| x.handsets = 513)), (6, 3));
        assert_eq!((number(|x| x.ties = 4096), number(|x| x.ties = 4097)), (6, 3));
        assert_eq!((number(|x| x.handsets += 1 << 16), number(|x| x.ties += 1 << 63)), (3, 3));
        let most = |x: &mut Parameters| x.gamma_squared = 12_000_000_000_000;
        let more = |x: &mut Parameters| x.gamma_squared = 12_000_000_000_001;
        assert_eq!((number(most), number(more)), (20, 5));
        assert_eq!((number(|x| x.p = 2), number(|x| x.p = 3), number(|x| x.p = 0)), (20, 5, 5));
        assert_eq!((number(|x| x.q = 1000), number(|x| x.q = 1001)), (20, 5));
        assert_eq!((number(|x| x.mu = 512), number(|x| x.mu = 513)), (20, 5));
        assert_eq!((number(|x| x.mu = 0), number(|x| x.mu += 1 << 32)), (20, 5));
        for coordinates in [&[0; 20][..], &[0; 22], &[0; 24], &[0; 14], &[]] {
            let contents = Contents { coordinates, ..S_NUMBERS };
            assert_eq!(written(contents, 0), Err(refusal(6, 0)));
        }
        for ends in [&[0; 15][..], &[0; 17], &[0; 32], &[]] {
            assert_eq!(written(Contents { ends, ..S_NUMBERS }, 0), Err(refusal(6, 0)));
        }
    }

    #[test]
    fn tables_that_are_refused() {
        let coordinate = |at: usize, value| {
            let mut coordinates = [0; 21];
            coordinates[at] = value;
            written(Contents { coordinates: &coordinates, ..S_NUMBERS }, 148).map(|_| ())
        };
        assert_eq!((coordinate(0, 1_000_000), coordinate(20, -1_000_000)), (Ok(()), Ok(())));
        assert_eq!(coordinate(0, 1_000_001), Err(refusal(7, 0)));
        assert_eq!(coordinate(1, 1_000_001), Err(refusal(7, 0)));
        assert_eq!(coordinate(2, 1_000_001), Err(refusal(7, 0)));
        assert_eq!(coordinate(20, -1_000_001), Err(refusal(7, 6)));
        assert_eq!(coordinate(6, i32::MIN), Err(refusal(7, 2)));
        let tie = |number: usize, ends: [u16; 2]| {
            let mut table = S_NUMBERS.ends.to_vec();
            table[2 * number..2 * number + 2].copy_from_slice(&ends);
            written(Contents { ends: &table, ..S_NUMBERS }, 148).map(|_| ())
        };
        assert_eq!(tie(7, [6, 0]), Ok(()));
        assert_eq!((tie(7, [6, 7]), tie(0, [65_535, 1])), (Err(refusal(8, 7)), Err(refusal(8, 0))));
        assert_eq!((tie(3, [6, 6]), tie(3, [7, 7])), (Err(refusal(9, 3)), Err(refusal(8, 3))));
        assert_eq!((tie(5, [2, 3]), tie(5, [3, 2])), (Err(refusal(10, 5)), Err(refusal(10, 5))));
        assert_eq!(tie(0, [6, 5]), Err(refusal(10, 7)));
    }

    /// Every choice of faults of the writer's numbers: the first question decides.
    #[test]
    fn the_writers_questions_are_put_in_order() {
        let refusals = [(3, 0), (5, 0), (6, 0), (7, 6), (8, 7), (9, 1), (10, 2), (20, 0)];
        for choice in 1..1_u32 << refusals.len() {
            let (number, place) = refusals[choice.trailing_zeros() as usize];
            for (numbers, room) in numbers::with_faults(choice) {
                let got = written(numbers.contents(), room);
                assert_eq!(got, Err(refusal(number, place)), "{numbers:?}");
            }
        }
    }

    /// A report never fills the program's buffer. A group has a core of its own, and each further
    /// membership of a border a tie to a core of that group, so that memberships are at most n + m.
    #[test]
    fn every_report_fits_the_programs_buffer() {
        let head = "handsets 512 ties 4096 groups 512 memberships 4608\n".len();
        let group = "group 511 density 130816/130816 conductance 4096/8192 reach 12000000000000:\n";
        let roles = "cores:\noutliers:\n".len() + 4 * MOST_HANDSETS;
        let totals = "cores 512 borders 512 outliers 512 multiple 512\n".len();
        let members = 4 * (MOST_HANDSETS + MOST_TIES);
        let most = head + MOST_HANDSETS * group.len() + members + roles + totals;
        assert!(most < PROGRAM_TEXT, "{most}");
        let mut rng = Rng::new(9);
        let named = [sites::stretched_borders(), sites::untied(512, 1), sites::two_hubs()];
        for site in named.into_iter().chain((0..300).map(|_| sites::any(&mut rng))) {
            let found = findings(&site);
            let (n, m) = (site.positions.len(), site.ties.len());
            assert!(found.member_table().len() <= n + m);
            assert!(text(&found).len() <= most);
        }
    }

    #[test]
    fn table_and_buffer_lengths() {
        let found = findings(&sites::site_s(4));
        let counts = Counts { communities: 2, memberships: 8 };
        assert_eq!(ask_tables(&found, 3, 8), Ok(counts));
        assert_eq!(ask_tables(&found, 2, 8), Err(refusal(11, 0)));
        assert_eq!(ask_tables(&found, 2, 0), Err(refusal(11, 0)));
        assert_eq!(ask_tables(&found, 3, 7), Err(refusal(12, 0)));
        let image = sites::site_s(4).plain_image();
        assert_eq!(report(&image, S_REPORT.len()), Ok(S_REPORT.into()));
        assert_eq!(report(&image, S_REPORT.len() - 1), Err(refusal(16, 0)));
    }

    #[test]
    fn the_programs_input() {
        let with_length = |length: usize| {
            let gap = length - sites::untied(0, 0).plain_image().len();
            let layout = sites::Layout { ties_first: false, gaps: [0, 0, gap] };
            program(&sites::untied(0, 0).image(layout, &mut Rng::new(1)))
        };
        assert!(with_length(65_536).starts_with(b"handsets 0 "));
        assert_eq!(with_length(65_537), b"refused 15 0\n");
        assert_eq!(program(b""), b"refused 1 0\n");
        let positions = vec![[0, 0, 0], [0, 0, -1_000_001]];
        let beyond = sites::Site { positions, ..sites::untied(2, 1) };
        assert_eq!(program(&beyond.plain_image()), b"refused 7 1\n");
    }

    /// Bytes 30 and 31 together hold 12, and nothing else.
    #[test]
    fn the_width_of_a_record() {
        let image = sites::site_s(4).plain_image();
        let opened = |value| {
            open(&damage::apply(&image, &[damage::Edit::Set { at: 30, width: 2, value }]))
                .map(|_| ())
        };
        assert_eq!(opened(12), Ok(()));
        for width in [0, 1, 4, 8, 11, 13, 16, 0x0c00, 0x0c0c, 0x010c, 0xff0c, 0xffff] {
            assert_eq!(opened(width), Err(refusal(4, 0)), "{width}");
        }
    }

    /// Images of before are refused with 4, whatever follows their records, and no gap is read as a z.
    #[test]
    fn images_of_before() {
        let mut rng = Rng::new(11);
        for _ in 0..300 {
            let site = sites::any(&mut rng);
            let image = site.image(sites::Layout::any(&mut rng), &mut rng);
            for old in damage::before(&image) {
                assert_eq!(open(&old), Err(refusal(4, 0)));
            }
            let [plain, gapped] = damage::before_with_the_width(&image);
            match site.positions.len() {
                // Without records their width makes no difference.
                0 => assert!(open(&plain).is_ok() && open(&gapped).is_ok()),
                _ => {
                    assert_eq!(open(&plain), Err(refusal(6, 0)));
                    // As long as records of now: read for what the bytes then say.
                    assert_ne!(open(&gapped).map(|_| ()), Err(refusal(4, 0)));
                }
            }
        }
    }

    /// In an image of now: x alone, y alone and z alone beyond the limits, at the place of their handset.
    #[test]
    fn coordinates_beyond_their_limits() {
        for handset in [0, 3, 6] {
            for axis in 0..3 {
                for (value, refused) in
                    [(1_000_000, false), (1_000_001, true), (-1_000_000, false), (-1_000_001, true)]
                {
                    let mut site = sites::site_s(4);
                    site.positions[handset][axis] = value;
                    let opened = open(&site.plain_image()).map(|_| ());
                    let place = handset as u64;
                    assert_eq!(opened, if refused { Err(refusal(7, place)) } else { Ok(()) });
                }
            }
        }
    }

    /// Every choice of faults: the first question decides.
    #[test]
    fn questions_are_put_in_order() {
        let image = sites::site_s(4).plain_image();
        let faults = damage::faults(&image);
        let places = [0, 0, 0, 0, 0, 0, 6, 7, 1, 2];
        for choice in 1..1024_u32 {
            let chosen: Vec<_> =
                (0..10).filter(|bit| choice >> bit & 1 == 1).map(|bit| faults[bit]).collect();
            let first = choice.trailing_zeros() as usize;
            let expected = refusal(first as u64 + 1, places[first]);
            assert_eq!(open(&damage::apply(&image, &chosen)), Err(expected), "{chosen:?}");
        }
    }

    #[test]
    fn table_places() {
        let opened = |handsets_at: u64, ties_at: u64| {
            let set = |at, value| damage::Edit::Set { at, width: 4, value };
            let image = sites::untied(0, 0)
                .image(sites::Layout { ties_first: false, gaps: [8, 0, 0] }, &mut Rng::new(1));
            open(&damage::apply(&image, &[set(4, handsets_at), set(8, ties_at)])).is_ok()
        };
        assert!(opened(32, 40) && opened(40, 32) && opened(36, 36));
        assert!(!opened(31, 40) && !opened(40, 31) && !opened(32, 41) && !opened(41, 32));
        assert!(!opened(0xffff_ffff, 32) && !opened(32, 0xffff_ffff));
        // An empty table may stand at either end of the other, and not inside it.
        let tied_at = |at: u64| {
            let image = sites::untied(2, 1).plain_image();
            let edit = damage::Edit::Set { at: 8, width: 4, value: at };
            open(&damage::apply(&image, &[edit])).is_ok()
        };
        assert!(tied_at(32) && tied_at(56) && !tied_at(33) && !tied_at(48) && !tied_at(57));
    }

    /// Demand 3 by trying every set of handsets of many small sites.
    #[test]
    fn listed_exactly_when() {
        let mut rng = Rng::new(3);
        for _ in 0..2000 {
            check_every_set(&findings(&sites::tiny(&mut rng)));
        }
    }

    fn check_every_set(found: &Findings) {
        let n = found.near.len();
        let reached = reached(found);
        let listed: Vec<u32> = found
            .communities()
            .iter()
            .map(|community| community.members.iter().map(|member| 1 << member).sum())
            .collect();
        for set in 0..1_u32 << n {
            let members: Vec<usize> = (0..n).filter(|u| set >> u & 1 == 1).collect();
            let has_core = members.iter().any(|&u| is_core(found, u));
            let together = |u: usize, v: usize| {
                (0..n).any(|from| reached[from] >> u & 1 == 1 && reached[from] >> v & 1 == 1)
            };
            let connected = members.iter().all(|&u| members.iter().all(|&v| together(u, v)));
            let closed = members.iter().all(|&u| reached[u] & !set == 0);
            let times = listed.iter().filter(|&&other| other == set).count();
            assert_eq!(times, usize::from(has_core && connected && closed));
        }
    }

    fn is_core(found: &Findings, u: usize) -> bool {
        let alike = |v: &&usize| is_similar(found.site.epsilon, &found.near[u], &found.near[**v]);
        found.near[u].iter().filter(alike).count() >= found.site.mu
    }

    /// For each handset the set of those reached from it: the transitive closure of single steps.
    fn reached(found: &Findings) -> Vec<u32> {
        let step = |u: usize| -> u32 {
            let alike =
                |v: &&usize| is_similar(found.site.epsilon, &found.near[u], &found.near[**v]);
            let targets = found.near[u].iter().filter(alike).map(|v| 1 << v).sum();
            if is_core(found, u) {
                targets
            } else {
                0
            }
        };
        let n = found.near.len();
        let mut reached: Vec<u32> = (0..n).map(step).collect();
        for via in 0..n {
            for from in 0..n {
                if reached[from] >> via & 1 == 1 {
                    reached[from] |= reached[via];
                }
            }
        }
        reached
    }
}
