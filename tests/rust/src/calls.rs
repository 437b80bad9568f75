//! The planner's calls and their answers, in the specification's terms. Every implementation offers
//! the same trait, so that the differential test and the benchmark treat all of them alike.

/// The number of the question that got a no, and its place.
#[derive(Clone, Copy, Debug, PartialEq, Eq)]
pub struct Refusal {
    pub number: u64,
    pub place: u64,
}

/// An accepted image: its counts of handsets and of ties.
#[derive(Clone, Copy, Debug, PartialEq, Eq)]
pub struct Opened {
    pub handsets: u64,
    pub ties: u64,
}

/// The two counts that a plan answers.
#[derive(Clone, Copy, Debug, PartialEq, Eq)]
pub struct Counts {
    pub communities: u64,
    pub memberships: u64,
}

/// A core carries its community's number, a border the count of its communities.
#[derive(Clone, Copy, Debug, PartialEq, Eq)]
pub enum Role {
    Core(u64),
    Border(u64),
    Outlier,
}

/// What the role call says of a handset: the size of its near set, and its role.
#[derive(Clone, Copy, Debug, PartialEq, Eq)]
pub struct Record {
    pub near: u64,
    pub role: Role,
}

/// The counts behind the two scores of a list: s, t and o of the specification.
#[derive(Clone, Copy, Debug, PartialEq, Eq)]
pub struct Scores {
    pub pairs: u64,
    pub tied_pairs: u64,
    pub leaving: u64,
}

/// The x, the y and the z of a point that the call for the nearest community gets, within the limits or not.
pub type Point = [i32; 3];

/// The community nearest to a point, and the squared distance from the point to its nearest member.
#[derive(Clone, Copy, Debug, PartialEq, Eq)]
pub struct Nearest {
    pub community: u64,
    pub squared_distance: u64,
}

/// A date of the Gregorian calendar, or three numbers that are none.
#[derive(Clone, Copy, Debug, PartialEq, Eq)]
pub struct Date {
    pub year: u32,
    pub month: u32,
    pub day: u32,
}

/// A date and a minute of that day, within the limits or not.
#[derive(Clone, Copy, Debug, PartialEq, Eq)]
pub struct Time {
    pub date: Date,
    pub minute: u32,
}

/// Working hours, from the opening minute up to, not including, the closing one, within the limits or not.
#[derive(Clone, Copy, Debug, PartialEq, Eq)]
pub struct Window {
    pub opening: u32,
    pub closing: u32,
}

/// The two tables of a plan, or of no plan.
#[derive(Clone, Copy, Debug, PartialEq, Eq)]
pub struct Plan<'a> {
    pub starts: &'a [u32],
    pub members: &'a [u16],
}

/// The two plans of a site: one for working hours, one for the rest.
#[derive(Clone, Copy, Debug, PartialEq, Eq)]
pub struct Plans<'a> {
    pub workday: Plan<'a>,
    pub restday: Plan<'a>,
}

/// What the call for the members at a time gets.
#[derive(Clone, Copy, Debug, PartialEq, Eq)]
pub struct Query<'a> {
    pub time: Time,
    pub window: Window,
    pub community: u64,
    pub plans: Plans<'a>,
}

/// The plan for a time, with the count of members that a community has in it.
#[derive(Clone, Copy, Debug, PartialEq, Eq)]
pub enum Scheduled {
    Workday(u64),
    Restday(u64),
}

/// The numbers that the writer of an image gets for its header, within the limits or not. A mu of 0 is
/// blank.
#[derive(Clone, Copy, Debug, PartialEq, Eq)]
pub struct Parameters {
    pub handsets: u64,
    pub ties: u64,
    pub gamma_squared: u64,
    pub p: u64,
    pub q: u64,
    pub mu: u64,
}

/// What the writer of an image gets: x, y and z of each handset in turn, and the two ends of each tie, or
/// tables of any other length.
#[derive(Clone, Copy, Debug, PartialEq, Eq)]
pub struct Contents<'a> {
    pub parameters: Parameters,
    pub coordinates: &'a [i32],
    pub ends: &'a [u16],
}

/// A planner under test.
pub trait Planner {
    fn name(&self) -> &'static str;

    fn open(&self, image: &[u8]) -> Result<Opened, Refusal>;

    fn plan(
        &self,
        image: &[u8],
        starts: &mut [u32],
        members: &mut [u16],
    ) -> Result<Counts, Refusal>;

    fn role(&self, image: &[u8], handset: u64) -> Result<Record, Refusal>;

    fn scores(&self, image: &[u8], list: &[u16]) -> Result<Scores, Refusal>;

    /// The count of members of a community, which stand in `members` from its start on.
    fn members(&self, starts: &[u32], members: &[u16], community: u64) -> Result<u64, Refusal>;

    /// None where there are no communities.
    fn nearest(&self, image: &[u8], point: Point) -> Result<Option<Nearest>, Refusal>;

    /// The members stand in the chosen plan's member table, from the community's start on.
    fn members_at(&self, query: Query) -> Result<Scheduled, Refusal>;

    /// The length of the image, which stands at the front of the buffer.
    fn write(&self, contents: Contents, buffer: &mut [u8]) -> Result<u64, Refusal>;

    /// The text's length, or the number of the refusal alone, as the C call answers.
    fn report(&self, image: &[u8], text: &mut [u8]) -> Result<u64, u64>;
}
