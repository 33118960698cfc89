//! What a random session talks about: few subjects, objects and modes, and a window of instants, so that requests
//! meet.
use crate::random::Random;
use access_base::LAST;

/// Numbers at and beyond the ends of the ranges.
pub const WILD: [u32; 12] = [0, 1, 8, 9, 128, 129, 1_023, 1_024, 65_535, 65_536, LAST - 1, LAST];

/// The subjects, objects, modes and instants of a session.
#[derive(Clone, Debug)]
pub struct World {
    /// One to six.
    pub subjects: Vec<u32>,
    /// One to three, or up to five where rules have starred ones.
    pub objects: Vec<u32>,
    /// One or two.
    pub modes: Vec<u32>,
    /// The window's first instant.
    pub first: u32,
    /// Its last.
    pub last: u32,
    /// How many requests.
    pub length: usize,
    /// How often now rises, in cases of a hundred.
    pub rise: usize,
    /// Whether intervals are short, so that there are many runs.
    pub short: bool,
    /// Whether rules mostly look at rights, and denials mostly meet what rules look at.
    pub in_force: bool,
    /// Whether most rules have starred objects, and administration comes and goes.
    pub all_meters: bool,
    /// How many rules of a hundred have starred objects.
    pub starred: usize,
    /// How often each kind is asked for.
    pub weights: [usize; 12],
    boundaries: Vec<u32>,
}

// So many different numbers: the first ones, or any in the range.
fn pool(random: &mut Random, count: usize, most: u32) -> Vec<u32> {
    if random.percent(60) {
        return (1..=count as u32).collect();
    }
    let mut numbers = Vec::new();
    while numbers.len() < count {
        let number = if random.percent(25) { most } else { random.between(1, most) };
        if !numbers.contains(&number) {
            numbers.push(number);
        }
    }
    numbers
}

//                          NEW GR DE RV RP RN AR DR GA RA GF RF
const FLAVOURS: [[usize; 12]; 6] = [
    [2, 34, 10, 8, 12, 6, 10, 3, 6, 4, 4, 3], // of everything
    [2, 60, 8, 8, 14, 3, 2, 1, 5, 5, 1, 1],   // chains of grants and their withdrawal
    [2, 22, 10, 3, 5, 3, 38, 6, 6, 1, 5, 1],  // rules
    [2, 24, 10, 4, 6, 4, 16, 3, 12, 9, 9, 7], // privileges
    [2, 24, 20, 2, 3, 4, 34, 5, 3, 1, 1, 1],  // denials beside rules
    [4, 26, 9, 2, 3, 2, 26, 4, 12, 8, 3, 1],  // rules for all meters, and administration
];

impl World {
    /// A random world.
    pub fn random(random: &mut Random) -> World {
        let count = random.between(16, 40);
        let first = if random.percent(25) { LAST - (count - 1) } else { 0 };
        let dense = random.percent(4); // many lines about few
        let subjects = 1 + random.weighted(if dense { &[1, 2] } else { &[2, 8, 20, 25, 25, 20] });
        let objects = if dense { 1 } else { random.between(1, 3) as usize };
        let modes = if dense { 1 } else { random.between(1, 2) as usize };
        let length = if dense { random.between(150, 300) } else { random.between(15, 110) };
        World {
            subjects: pool(random, subjects, 1_023),
            objects: pool(random, objects, 128),
            modes: pool(random, modes, 8),
            first,
            last: first + (count - 1),
            length: length as usize,
            rise: (75 * count / length).clamp(10, 60) as usize,
            short: dense || random.percent(30),
            in_force: false,
            all_meters: false,
            starred: 12,
            weights: FLAVOURS[random.weighted(&[40, 25, 25, 10])],
            boundaries: boundaries(first, count),
        }
    }

    /// A random world of few instants and requests, many of them about rules.
    pub fn small(random: &mut Random) -> World {
        let count = random.between(8, 31);
        let (subjects, objects, modes) =
            (random.between(2, 5) as usize, random.between(1, 2) as usize, random.between(1, 2) as usize);
        World {
            subjects: pool(random, subjects, 1_023),
            objects: pool(random, objects, 128),
            modes: pool(random, modes, 8),
            first: 0,
            last: count - 1,
            length: random.between(8, 30) as usize,
            rise: 20,
            short: random.percent(30),
            in_force: false,
            all_meters: false,
            starred: 12,
            weights: FLAVOURS[2],
            boundaries: boundaries(0, count),
        }
    }

    /// That world, with denials beside rules.
    pub fn in_force(self) -> World {
        World { in_force: true, weights: FLAVOURS[4], ..self }
    }

    /// That world, with rules for all meters of their authors, of several owners.
    pub fn all_meters(self, random: &mut Random) -> World {
        let count = random.between(2, 5) as usize;
        let objects = pool(random, count, 128);
        World { all_meters: true, starred: 65, weights: FLAVOURS[5], objects, ..self }
    }

    /// The instants at which a cell of the oracle starts.
    pub fn boundaries(&self) -> &[u32] {
        &self.boundaries
    }

    /// Whether an interval may start there.
    pub fn is_start(&self, instant: u32) -> bool {
        self.boundaries.binary_search(&instant).is_ok()
    }

    /// Whether an interval may end there.
    pub fn is_end(&self, instant: u32) -> bool {
        instant == LAST || self.is_start(instant + 1)
    }
}

/// Each instant of the window, and each wild one, is a cell of its own.
pub fn boundaries(first: u32, count: u32) -> Vec<u32> {
    let window = (0..count).map(|i| first + i);
    let mut all: Vec<u32> = window.chain(WILD).flat_map(|t| [Some(t), t.checked_add(1)]).flatten().collect();
    all.push(0);
    all.sort_unstable();
    all.dedup();
    all
}
