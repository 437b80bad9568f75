//! Wrong ways to find the reach of a community, which the comparison must notice and the generated sites must
//! tell from the right one.

use crate::reference::{Community, Findings};
use crate::sites::COORDINATES;

#[derive(Clone, Copy, Debug, PartialEq)]
pub enum WrongReach {
    /// Of all ties between two members, near or not.
    OverAllTies,
    /// 0 without a near tie between two members.
    ZeroForNone,
    /// None where it is 0.
    NoneForZero,
    /// Of ties shorter than gamma.
    LimitExclusive,
    /// Of the near ties that leave the community, too.
    WithTiesThatLeave,
    /// Of two members no farther apart than gamma, tied or not.
    OverUntied,
    /// Of the near tie that comes first, or last, or of the shortest.
    FirstTie,
    LastTie,
    ShortestTie,
    /// Of the near ties whose ends are alike, or have a core among them, or are cores both.
    OverAlike,
    WithACore,
    BetweenCores,
    /// Of a near tie for the first community alone that it is inside.
    TieOnce,
    /// Of all near ties of the site.
    OfTheSite,
    /// In 32 bits; x alone; the largest side alone; the sum of the sides; with whole metres for a distance.
    In32Bits,
    OnlyX,
    LargestSide,
    SumOfSides,
    NotSquared,
    /// By a near test that leaves z out, as one does that takes the z of one handset for both; that
    /// takes y for z, or z for y; that takes the other handset's z for 0; that takes z for a number
    /// without a sign.
    WithoutZ,
    YForZ,
    ZForY,
    OneZ,
    UnsignedZ,
}

/// A tie, or two handsets, and where they stand.
#[derive(Clone, Copy)]
struct Two {
    u: usize,
    v: usize,
    here: [i64; COORDINATES],
    there: [i64; COORDINATES],
}

impl Two {
    fn of(found: &Findings, u: usize, v: usize) -> Two {
        let positions = &found.site().positions;
        Two { u, v, here: positions[u], there: positions[v] }
    }

    /// How far apart they are in x, in y and in z.
    fn sides(&self) -> [u64; COORDINATES] {
        std::array::from_fn(|axis| self.here[axis].abs_diff(self.there[axis]))
    }

    fn distance(&self) -> u64 {
        sum_of_squares(self.sides())
    }
}

fn sum_of_squares(sides: [u64; COORDINATES]) -> u64 {
    sides.iter().fold(0, |sum, side| side.wrapping_mul(*side).wrapping_add(sum))
}

impl WrongReach {
    pub const ALL: [WrongReach; 24] = {
        use WrongReach::*;
        [
            OverAllTies,
            ZeroForNone,
            NoneForZero,
            LimitExclusive,
            WithTiesThatLeave,
            OverUntied,
            FirstTie,
            LastTie,
            ShortestTie,
            OverAlike,
            WithACore,
            BetweenCores,
            TieOnce,
            OfTheSite,
            In32Bits,
            OnlyX,
            LargestSide,
            SumOfSides,
            NotSquared,
            WithoutZ,
            YForZ,
            ZForY,
            OneZ,
            UnsignedZ,
        ]
    };

    /// The reach of one of the site's communities, found in this way.
    pub fn reach(self, found: &Findings, community: &Community) -> Option<u64> {
        let limit = found.site().gamma_squared;
        let ties: Vec<Two> = found.site().ties.iter().map(|&(u, v)| Two::of(found, u, v)).collect();
        let has = |community: &Community, two: &Two| {
            community.members.contains(&two.u) && community.members.contains(&two.v)
        };
        let is_core = |u: &usize| community.cores.contains(u);
        let near = |two: &&Two| two.distance() <= limit;
        let inside = || ties.iter().filter(near).filter(|two| has(community, two));
        let of = |keep: &dyn Fn(&Two) -> bool| {
            inside().filter(|&two| keep(two)).map(Two::distance).max()
        };
        let by = |length: fn(&Two) -> u64| inside().map(length).max();
        let tested_by = |distance: fn(&Two) -> u64| {
            let distances = ties.iter().filter(|two| has(community, two)).map(distance);
            distances.filter(|&distance| distance <= limit).max()
        };
        match self {
            WrongReach::OverAllTies => {
                ties.iter().filter(|two| has(community, two)).map(Two::distance).max()
            }
            WrongReach::ZeroForNone => Some(of(&|_| true).unwrap_or(0)),
            WrongReach::NoneForZero => of(&|two| two.distance() > 0),
            WrongReach::LimitExclusive => of(&|two| two.distance() < limit),
            WrongReach::WithTiesThatLeave => {
                let member = |end: &usize| community.members.contains(end);
                let touches = |two: &&Two| member(&two.u) || member(&two.v);
                ties.iter().filter(near).filter(touches).map(Two::distance).max()
            }
            WrongReach::OverUntied => {
                let members: Vec<usize> = community.members.iter().copied().collect();
                let pairs = members.iter().enumerate().flat_map(|(i, &u)| {
                    members[i + 1..].iter().map(move |&v| Two::of(found, u, v))
                });
                pairs.map(|two| two.distance()).filter(|&distance| distance <= limit).max()
            }
            WrongReach::FirstTie => inside().map(Two::distance).next(),
            WrongReach::LastTie => inside().map(Two::distance).next_back(),
            WrongReach::ShortestTie => inside().map(Two::distance).min(),
            WrongReach::OverAlike => of(&|two| found.are_alike(two.u, two.v)),
            WrongReach::WithACore => of(&|two| is_core(&two.u) || is_core(&two.v)),
            WrongReach::BetweenCores => of(&|two| is_core(&two.u) && is_core(&two.v)),
            WrongReach::TieOnce => of(&|two| {
                found.communities().iter().find(|&other| has(other, two)) == Some(community)
            }),
            WrongReach::OfTheSite => ties.iter().filter(near).map(Two::distance).max(),
            WrongReach::In32Bits => by(|two| two.distance() % (1 << 32)),
            WrongReach::OnlyX => by(|two| two.sides()[0].pow(2)),
            WrongReach::LargestSide => by(|two| two.sides().into_iter().fold(0, u64::max).pow(2)),
            WrongReach::SumOfSides => by(|two| two.sides().iter().sum::<u64>().pow(2)),
            WrongReach::NotSquared => by(|two| two.distance().isqrt()),
            WrongReach::WithoutZ => tested_by(|two| {
                let [dx, dy, _] = two.sides();
                sum_of_squares([dx, dy, 0])
            }),
            WrongReach::YForZ => tested_by(|two| {
                let [dx, dy, _] = two.sides();
                sum_of_squares([dx, dy, dy])
            }),
            WrongReach::ZForY => tested_by(|two| {
                let [dx, _, dz] = two.sides();
                sum_of_squares([dx, dz, dz])
            }),
            WrongReach::OneZ => tested_by(|two| {
                let [dx, dy, _] = two.sides();
                sum_of_squares([dx, dy, two.here[2].unsigned_abs()])
            }),
            WrongReach::UnsignedZ => tested_by(|two| {
                let [dx, dy, _] = two.sides();
                let dz = (two.here[2] as u32).abs_diff(two.there[2] as u32);
                sum_of_squares([dx, dy, dz.into()])
            }),
        }
    }
}
