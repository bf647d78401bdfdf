//! Tags of an index, all different, in many orders, and records that get the tag of another.

use crate::random::Random;

/// How tags are chosen and stand; none is 1000 or 1004.
pub type Order = (&'static str, fn(&mut Random, usize) -> Vec<u32>);

/// Rising, rising with one record out of its place, falling.
pub const PLAIN: [Order; 6] = [
    ("rising", rising),
    ("rising, the highest first", |random, count| {
        moved(rising(random, count), count - 1, 0)
    }),
    ("rising, the lowest last", |random, count| {
        moved(rising(random, count), 0, count - 1)
    }),
    ("rising, the lowest in the middle", |random, count| {
        moved(rising(random, count), 0, count / 2)
    }),
    ("rising, the highest in the middle", |random, count| {
        moved(rising(random, count), count - 1, count / 2)
    }),
    ("falling", |random, count| reversed(rising(random, count))),
];

/// Any order; tags from 0 to the largest; tags of which most bits are alike; tags around 1000
/// and below it.
pub const OTHERS: [Order; 14] = [
    ("shuffled", |random, count| {
        let tags = rising(random, count);
        shuffled(random, tags)
    }),
    ("two rising runs", |random, count| {
        let mut tags = rising(random, count);
        tags.rotate_left(count / 2);
        tags
    }),
    ("rising from 0 to the largest", over_all),
    ("falling from the largest to 0", |random, count| {
        reversed(over_all(random, count))
    }),
    ("0 last", |random, count| {
        moved(over_all(random, count), 0, count - 1)
    }),
    ("the largest first", |random, count| {
        moved(over_all(random, count), count - 1, 0)
    }),
    ("scattered", |random, count| {
        let tags = over_all(random, count);
        shuffled(random, tags)
    }),
    ("lowest 8 bits alike", |random, count| {
        alike(random, count, 8)
    }),
    ("lowest 12 bits alike", |random, count| {
        alike(random, count, 12)
    }),
    ("lowest 16 bits alike", |random, count| {
        alike(random, count, 16)
    }),
    ("lowest 12 bits alike, falling", |random, count| {
        let mut tags = alike(random, count, 12);
        tags.sort();
        reversed(tags)
    }),
    ("one bit apart", one_bit_apart),
    ("around 1000", |_, count| {
        let tags = 1000 - (count as u32 / 2)..;
        tags.filter(|tag| !OWN.contains(tag)).take(count).collect()
    }),
    ("below 1000", |_, count| {
        (1000 - count as u32..1000).collect()
    }),
];

/// The writer's own tags of the signature.
const OWN: [u32; 2] = [1000, 1004];

pub fn all() -> impl Iterator<Item = Order> {
    PLAIN.into_iter().chain(OTHERS)
}

fn rising(random: &mut Random, count: usize) -> Vec<u32> {
    let mut tag = 2000;
    let mut next = || {
        tag += 1 + random.below(3) as u32;
        tag
    };
    (0..count).map(|_| next()).collect()
}

/// One tag taken out and put elsewhere.
fn moved(mut tags: Vec<u32>, from: usize, to: usize) -> Vec<u32> {
    let tag = tags.remove(from);
    tags.insert(to, tag);
    tags
}

fn reversed(mut tags: Vec<u32>) -> Vec<u32> {
    tags.reverse();
    tags
}

fn shuffled(random: &mut Random, mut tags: Vec<u32>) -> Vec<u32> {
    random.shuffle(&mut tags);
    tags
}

/// Rising, the first 0, the last the largest.
fn over_all(random: &mut Random, count: usize) -> Vec<u32> {
    let step = u32::MAX / count as u32;
    let some = |random: &mut Random| random.below(step as usize / 2) as u32;
    let mut tags: Vec<u32> = (0..count as u32).map(|n| n * step + some(random)).collect();
    tags[0] = 0;
    if count > 1 {
        tags[count - 1] = u32::MAX;
    }
    tags
}

/// Shuffled, the lowest bits the same.
fn alike(random: &mut Random, count: usize, bits: u32) -> Vec<u32> {
    let low = random.number() % (1 << bits);
    let tags = (16..16 + count as u32).map(|n| n << bits | low).collect();
    shuffled(random, tags)
}

/// Shuffled; each two differ in one bit, another for each two.
fn one_bit_apart(random: &mut Random, count: usize) -> Vec<u32> {
    let first = |n: u32| 0x0123_4567u32.wrapping_mul(2 * (n / 2) + 1);
    let tags = (0..count as u32).map(|n| first(n) ^ (n % 2) << (n / 2 % 32));
    shuffled(random, tags.collect())
}

/// Records that get the tag of another.
pub struct Repeat {
    /// Which one gets it, and from which.
    pub gets: Vec<[usize; 2]>,
    /// The first that repeats a tag before it.
    pub first: usize,
}

/// Two records of one tag: that of the earlier, or that of the later.
pub fn pair(earlier: usize, later: usize) -> [Repeat; 2] {
    [[later, earlier], [earlier, later]].map(|gets| Repeat {
        gets: vec![gets],
        first: later,
    })
}

/// Every two of so many.
pub fn pairs(count: usize) -> impl Iterator<Item = Repeat> {
    let pairs = (0..count).flat_map(|later| (0..later).map(move |earlier| [earlier, later]));
    pairs.flat_map(|[earlier, later]| pair(earlier, later))
}

/// The first and another, another and the last: each at every distance.
pub fn distances(count: usize) -> impl Iterator<Item = Repeat> {
    let pairs = (1..count).flat_map(move |far| [[0, far], [count - 1 - far, count - 1]]);
    pairs.flat_map(|[earlier, later]| pair(earlier, later))
}

/// Different positions, rising.
fn positions<const N: usize>(random: &mut Random, count: usize) -> [usize; N] {
    let mut some: Vec<usize> = (0..count).collect();
    random.shuffle(&mut some);
    some.truncate(N);
    some.sort();
    some.try_into().expect("enough records")
}

/// Any two of so many, at least 2.
pub fn any_pair(random: &mut Random, count: usize) -> Repeat {
    let [earlier, later] = positions(random, count);
    let [one, other] = pair(earlier, later);
    if random.one_in(2) {
        one
    } else {
        other
    }
}

/// Two pairs, one behind the other, one within the other, and apart; three of one tag.
pub fn several(random: &mut Random, count: usize) -> Vec<Repeat> {
    let mut made = Vec::new();
    if count >= 3 {
        let [a, b, c] = positions(random, count);
        for gets in [[[b, a], [c, a]], [[a, b], [c, b]], [[a, c], [b, c]]] {
            let gets = gets.to_vec();
            made.push(Repeat { gets, first: b });
        }
    }
    if count >= 4 {
        let [a, b, c, d] = positions(random, count);
        for ([one, other], first) in [
            ([[a, b], [c, d]], b),
            ([[a, d], [b, c]], c),
            ([[a, c], [b, d]], c),
        ] {
            let turned = random.one_in(2);
            let gets = [one, other].map(|[x, y]| if turned { [x, y] } else { [y, x] });
            let gets = gets.to_vec();
            made.push(Repeat { gets, first });
        }
    }
    made
}
