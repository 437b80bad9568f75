//! Damaged images: edits of one accepted image, alone and several at once. An edit may leave an image
//! that is accepted; what is right is for the reference to say.

use crate::sites::{
    Rng, Tables, BLANK_MU, COORDINATES, COORDINATE_BYTES, END_BYTES, HANDSET_BYTES, HEADER,
    MOST_COORDINATE, MOST_GAMMA_SQUARED, TIE_BYTES, WIDTH_AT,
};

/// The bytes that a handset's record had when it was x and y alone.
const HANDSET_BYTES_BEFORE: usize = 2 * COORDINATE_BYTES;

/// One edit of an image.
#[derive(Clone, Copy, Debug, PartialEq, Eq)]
pub enum Edit {
    /// `width` bytes at `at` get `value`, little-endian, as far as the image reaches.
    Set { at: usize, width: usize, value: u64 },
    /// The image gets this length, cut off or with zeros at its end.
    Resize(usize),
    /// The header's length field gets the image's length.
    FixLength,
}

pub fn apply(image: &[u8], edits: &[Edit]) -> Vec<u8> {
    let mut image = image.to_vec();
    for &edit in edits {
        match edit {
            Edit::Set { at, width, value } => set(&mut image, at, width, value),
            Edit::Resize(length) => image.resize(length, 0),
            Edit::FixLength => {
                let length = image.len() as u64;
                set(&mut image, 12, 4, length);
            }
        }
    }
    image
}

fn set(image: &mut [u8], at: usize, width: usize, value: u64) {
    let target = image.iter_mut().skip(at).take(width);
    target.zip(value.to_le_bytes()).for_each(|(byte, new)| *byte = new);
}

/// Two to five edits, so that the order of the questions matters; often of the records of one table
/// alone, so that the first of several bad ones matters.
pub fn several(image: &[u8], rng: &mut Rng) -> Vec<u8> {
    let tables = Tables::of(image);
    let mut pool = match rng.below(4) {
        0 => position_edits(&tables, rng),
        1 => tie_edits(image, &tables, rng),
        _ => Vec::new(),
    };
    if pool.is_empty() {
        pool = edits(image, rng);
    }
    let mut chosen: Vec<Edit> = (0..rng.count(2, 5)).map(|_| rng.pick(&pool)).collect();
    if rng.one_in(2) {
        chosen.push(Edit::FixLength);
    }
    apply(image, &chosen)
}

/// Every single edit: each header field at its limits and one beyond, other lengths, and records at
/// their limits. Records at random places are among them.
pub fn edits(image: &[u8], rng: &mut Rng) -> Vec<Edit> {
    let tables = Tables::of(image);
    let mut edits = header_edits(image, &tables);
    edits.extend(length_edits(image.len(), rng));
    edits.extend(position_edits(&tables, rng));
    edits.extend(tie_edits(image, &tables, rng));
    edits
}

// ---------------------------------------------------------------- images of before

/// The site of an accepted image as images of before had it, which are all refused: records of x and y
/// alone, with zero where the width of a record stands now, and with the width that they have; without a
/// gap, and with one in which a z for each handset would fit. Last the image itself with zero for the
/// width.
pub fn before(image: &[u8]) -> [Vec<u8>; 5] {
    let [plain, gapped] = [false, true].map(|gap| with_old_records(image, gap));
    [
        with_width(&plain, 0),
        with_width(&plain, HANDSET_BYTES_BEFORE),
        with_width(&gapped, 0),
        with_width(&gapped, HANDSET_BYTES_BEFORE),
        with_width(image, 0),
    ]
}

/// The same records, without a gap and with one, in an image that has the width of today.
pub fn before_with_the_width(image: &[u8]) -> [Vec<u8>; 2] {
    [false, true].map(|gap| with_width(&with_old_records(image, gap), HANDSET_BYTES))
}

/// One of those, and one of these.
pub fn some_before(image: &[u8], rng: &mut Rng) -> [Vec<u8>; 2] {
    let (refused, with_the_width) = (before(image), before_with_the_width(image));
    [&refused[..], &with_the_width[..]].map(|images| images[rng.below(images.len())].clone())
}

fn with_width(image: &[u8], width: usize) -> Vec<u8> {
    apply(image, &[Edit::Set { at: WIDTH_AT, width: 2, value: width as u64 }])
}

/// The header, the handsets without their z, the ties; where there is a gap, as many bytes between the
/// two tables as were taken from the first.
fn with_old_records(image: &[u8], gap: bool) -> Vec<u8> {
    let tables = Tables::of(image);
    let mut old = image[..HEADER].to_vec();
    for record in image[tables.handset_bytes()].chunks(HANDSET_BYTES) {
        old.extend(&record[..HANDSET_BYTES_BEFORE]);
    }
    if gap {
        old.resize(HEADER + HANDSET_BYTES * tables.handsets, 0);
    }
    let ties_at = old.len() as u64;
    old.extend(&image[tables.tie_bytes()]);
    let set = |at, value| Edit::Set { at, width: 4, value };
    apply(&old, &[set(4, HEADER as u64), set(8, ties_at), Edit::FixLength])
}

// ---------------------------------------------------------------- single edits

/// One edit for each of the questions 1 to 10, in their order, which makes its answer a no. The image
/// has a handset and four ties at least; the faults are in different records. That of 7 is a z.
pub fn faults(image: &[u8]) -> [Edit; 10] {
    let tables = Tables::of(image);
    let last_z = tables.handset_bytes().end - COORDINATE_BYTES;
    let tie = |number: usize| tables.ties_at + TIE_BYTES * number;
    let (u, v) = pair_at(image, tie(0));
    let set = |at, width, value| Edit::Set { at, width, value };
    [
        Edit::Resize(HEADER - 1),
        set(12, 4, image.len() as u64 + 1),
        set(0, 2, 513),
        set(WIDTH_AT + 1, 1, 1),
        set(24, 2, 0),
        set(4, 4, 31),
        set(last_z, 4, MOST_COORDINATE as u64 + 1),
        set(tie(tables.ties - 1), 2, tables.handsets as u64),
        set(tie(1), 4, 0),
        set(tie(2), 4, record(v, u)),
    ]
}

fn header_edits(image: &[u8], tables: &Tables) -> Vec<Edit> {
    let length = image.len() as u64;
    let ((n, m), (p, q)) = (pair_at(image, 0), pair_at(image, 24));
    let offsets = offset_values(tables, length);
    let (most, width) = (MOST_GAMMA_SQUARED, HANDSET_BYTES as u64);
    let widths =
        [0, HANDSET_BYTES_BEFORE as u64, width, width + 256, 256 * width, 257 * width, 0xffff];
    let values: [(usize, usize, Vec<u64>); 10] = [
        (0, 2, around(&[0, n, 512, 0xffff])),
        (2, 2, around(&[0, m, 4096, 0xffff])),
        (4, 4, offsets.clone()),
        (8, 4, offsets),
        (12, 4, around(&[0, HEADER as u64, length, length + 65_536, 0xffff_ffff])),
        (16, 8, around(&[0, most, most + (1 << 32), 1 << 63, u64::MAX])),
        (24, 2, around(&[0, q, 1000, 0xffff])),
        (26, 2, around(&[0, p, 1000, 0xffff])),
        (28, 2, around(&[0, BLANK_MU.into(), 512, 0xffff])),
        (WIDTH_AT, 2, around(&widths)),
    ];
    let set = |(at, width, values): (usize, usize, Vec<u64>)| {
        values.into_iter().map(move |value| Edit::Set { at, width, value })
    };
    values.into_iter().flat_map(set).collect()
}

/// Each value, one less and one more; what does not fit in the field is cut off when it is set.
fn around(values: &[u64]) -> Vec<u64> {
    let each = |&value: &u64| [value.wrapping_sub(1), value, value.wrapping_add(1)];
    values.iter().flat_map(each).collect()
}

/// Offsets around the ends of both tables, and those that end a table at or beyond the image's end; also
/// with the handset records as long as they were before.
fn offset_values(tables: &Tables, length: u64) -> Vec<u64> {
    let (handsets, ties) = (tables.handset_bytes(), tables.tie_bytes());
    let size_before = HANDSET_BYTES_BEFORE * tables.handsets;
    let end_before = handsets.start + size_before;
    let ends = [HEADER, handsets.start, handsets.end, end_before, ties.start, ties.end];
    let mut values = ends.map(|end| end as u64).to_vec();
    let sizes = [handsets.len(), size_before, ties.len()].map(|size| size as u64);
    values.extend(sizes.map(|size| length - size));
    values.extend(sizes.map(|size| (1 << 32) - size));
    values.extend([length, 1 << 31, 0xffff_ffff]);
    around(&values)
}

fn length_edits(length: usize, rng: &mut Rng) -> Vec<Edit> {
    let lengths =
        [0, 1, 30, 31, 32, length - 1, length + 1, length + HANDSET_BYTES, rng.below(length)];
    lengths.map(Edit::Resize).to_vec()
}

fn position_edits(tables: &Tables, rng: &mut Rng) -> Vec<Edit> {
    let far = MOST_COORDINATE;
    let values = [far, far + 1, -far, -far - 1, i32::MAX, i32::MIN, 0, -1];
    let mut edits = Vec::new();
    for handset in places(tables.handsets, rng) {
        let place = COORDINATES * handset + rng.below(COORDINATES);
        let at = tables.handsets_at + COORDINATE_BYTES * place;
        edits.extend(values.map(|value| Edit::Set { at, width: 4, value: value as u32 as u64 }));
    }
    edits
}

/// Bad ends, ties of a handset with itself, and ties that repeat another one either way round.
fn tie_edits(image: &[u8], tables: &Tables, rng: &mut Rng) -> Vec<Edit> {
    let n = tables.handsets as u64;
    let mut edits = Vec::new();
    for tie in places(tables.ties, rng) {
        let at = tables.ties_at + TIE_BYTES * tie;
        let end = at + END_BYTES * rng.below(2);
        let ends = [n - 1, n, n + 1, 511, 512, 0xffff, 0];
        edits.extend(ends.map(|value| Edit::Set { at: end, width: 2, value }));
        for _ in 0..3 {
            let (u, v) = pair_at(image, tables.ties_at + TIE_BYTES * rng.below(tables.ties));
            let records = [record(u, u), record(u, v), record(v, u)];
            edits.extend(records.map(|value| Edit::Set { at, width: 4, value }));
        }
    }
    edits
}

/// Two numbers of two bytes each: a tie, or two fields of the header.
fn pair_at(image: &[u8], at: usize) -> (u64, u64) {
    let short = |at: usize| u64::from(u16::from_le_bytes([image[at], image[at + 1]]));
    (short(at), short(at + 2))
}

fn record(u: u64, v: u64) -> u64 {
    u + 65_536 * v
}

/// The first, the last and three random places of a table.
fn places(count: usize, rng: &mut Rng) -> Vec<usize> {
    match count {
        0 => Vec::new(),
        _ => vec![0, count - 1, rng.below(count), rng.below(count), rng.below(count)],
    }
}
