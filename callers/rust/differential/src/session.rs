//! Random sessions, and what is printed when library and oracle differ.
use crate::damage::{composed, crowded, cut, damaged};
use crate::generator::Generator;
use crate::image::{Contents, Image};
use crate::pair::{Difference, Pair, Step};
use crate::random::Random;
use crate::tally::Tally;
use crate::text;
use crate::world::World;
use access_base::BYTES;
use core::fmt;

/// A session in which library and oracle differ.
pub struct Failure {
    name: String,
    steps: Vec<Step>,
    difference: Difference,
    short: Vec<Step>,
}

impl Failure {
    /// The failure of a pair's last step, with a session as short as can be found that fails too.
    pub fn new(name: &str, pair: &Pair, difference: Difference) -> Failure {
        let steps = pair.steps().to_vec();
        let short = if steps.len() > 2_000 { Vec::new() } else { shortened(pair.boundaries(), &steps) };
        Failure { name: name.to_string(), steps, difference, short }
    }
}

impl fmt::Debug for Failure {
    fn fmt(&self, f: &mut fmt::Formatter) -> fmt::Result {
        let lines = |steps: &[Step]| steps.iter().map(text::step).collect::<Vec<_>>().join("\n");
        writeln!(f, "{}: library and oracle differ at step {}", self.name, self.steps.len())?;
        writeln!(f, "library: {}\noracle:  {}", self.difference.library, self.difference.oracle)?;
        let shown = self.steps.len().saturating_sub(2_000);
        writeln!(f, "the session so far, from step {} on:\n{}", shown + 1, lines(&self.steps[shown..]))?;
        write!(f, "a shorter one that differs too:\n{}", lines(&self.short))
    }
}

fn differs(boundaries: &[u32], steps: &[Step]) -> bool {
    let mut pair = Pair::new(boundaries);
    steps.iter().any(|step| pair.take(step.clone()).is_err())
}

// Leaves out steps, many at a time and then one by one, as long as it still differs.
fn shortened(boundaries: &[u32], steps: &[Step]) -> Vec<Step> {
    let mut short = steps.to_vec();
    let mut size = short.len().div_ceil(2);
    while size > 0 {
        let mut at = 0;
        while at < short.len() {
            let mut fewer = short.clone();
            fewer.drain(at..(at + size).min(short.len()));
            if differs(boundaries, &fewer) {
                short = fewer;
            } else {
                at += size;
            }
        }
        size = if size == 1 { 0 } else { size.div_ceil(2) };
    }
    short
}

/// One random session from its seed, with a few damaged bases that come of it.
pub fn session(seed: u64) -> Result<Tally, Box<Failure>> {
    play(seed, |_, generator| generator.random.below(8), |base, _, generator| other_base(base, generator))
}

/// One random session with denials beside rules, with a few damaged bases that come of it.
pub fn in_force_session(seed: u64) -> Result<Tally, Box<Failure>> {
    let world = |random: &mut Random| World::random(random).in_force();
    let count = |_: &[u8], generator: &mut Generator| generator.random.below(8);
    play_in(seed, world, count, |base, _, generator| other_base(base, generator))
}

/// One random session with rules for all meters of their authors, with a few damaged bases that come of it.
pub fn all_meters_session(seed: u64) -> Result<Tally, Box<Failure>> {
    meters_session(seed, World::random)
}

/// The same with few instants and requests.
pub fn small_all_meters_session(seed: u64) -> Result<Tally, Box<Failure>> {
    meters_session(seed, World::small)
}

fn meters_session(seed: u64, world: impl Fn(&mut Random) -> World) -> Result<Tally, Box<Failure>> {
    let world = |random: &mut Random| world(random).all_meters(random);
    let count = |_: &[u8], generator: &mut Generator| generator.random.below(8);
    play_in(seed, world, count, |base, _, generator| other_base(base, generator))
}

/// A random session, and many damaged bases that come of it.
pub fn damaged_session(seed: u64, count: usize) -> Result<Tally, Box<Failure>> {
    play(seed, |_, _| count, |base, _, generator| other_base(base, generator))
}

/// A random session, and its last base with each bit of the records and of some bytes behind them flipped in turn.
pub fn flipped_session(seed: u64) -> Result<Tally, Box<Failure>> {
    let bits = |base: &[u8]| {
        let used = 40 + Image::read(base).bodies.iter().flatten().map(Vec::len).sum::<usize>();
        8 * used.min(BYTES)
    };
    let flipped = |base: &[u8], bit: usize| {
        let mut bytes = base.to_vec();
        bytes[bit / 8] ^= 1 << (bit % 8);
        bytes
    };
    play(seed, |base, _| bits(base), |base, bit, _| flipped(base, bit))
}

/// A random session in lines of text, with a few damaged bases that come of it.
pub fn text_session(seed: u64) -> Result<Tally, Box<Failure>> {
    let mut random = Random::new(seed);
    let world = World::random(&mut random);
    let mut generator = Generator { random: &mut random, world };
    let name = format!("text session {seed}");
    let pair = told(&name, &mut generator)?;
    let mut tally = pair.tally.clone();
    for _ in 0..generator.random.below(4) {
        let bytes = other_base(pair.base(), &mut generator);
        let mut other = Pair::new(pair.boundaries());
        let told = other.take(Step::Lend(bytes)).and_then(|_| tell(&mut other, &mut generator, 8));
        told.map_err(|difference| Box::new(Failure::new(&name, &other, difference)))?;
        tally.add(&other.tally);
    }
    Ok(tally)
}

/// The lines of that session, if it starts with an empty base.
pub fn text_lines(seed: u64) -> Result<Option<Vec<Vec<u8>>>, Box<Failure>> {
    let mut random = Random::new(seed);
    let world = World::random(&mut random);
    let pair = told(&format!("text session {seed}"), &mut Generator { random: &mut random, world })?;
    let line = |step: &Step| match step {
        Step::Text { line, .. } => Some(line.clone()),
        _ => None,
    };
    let is_empty = pair.steps().iter().any(|step| matches!(step, Step::Create));
    Ok(is_empty.then(|| pair.steps().iter().filter_map(line).collect()))
}

// The session itself, on both sides.
fn told(name: &str, generator: &mut Generator) -> Result<Pair, Box<Failure>> {
    let mut pair = Pair::new(generator.world.boundaries());
    let ran = begin(&mut pair, generator).and_then(|length| tell(&mut pair, generator, 2 * length));
    ran.map_err(|difference| Box::new(Failure::new(name, &pair, difference)))?;
    Ok(pair)
}

/// A random session, and rounds of questions over its last base and over damaged bases that come of it.
pub fn round_session(seed: u64, counts: &[usize]) -> Result<Tally, Box<Failure>> {
    let mut random = Random::new(seed);
    let world = World::random(&mut random);
    questioned(
        &format!("round session {seed}"),
        Generator { random: &mut random, world },
        |pair, generator, is_last| rounds(pair, generator, if is_last { counts } else { &[0, 1, 5] }),
    )
}

/// A short random session, every third with denials beside rules and every third with rules for all meters, and questions to the simple engine over its last
/// base and over damaged bases that come of it.
pub fn simple_session(seed: u64) -> Result<Tally, Box<Failure>> {
    let mut random = Random::new(seed);
    let world = World::small(&mut random);
    let world = match seed % 3 {
        0 => world.in_force(),
        1 => world.all_meters(&mut random),
        _ => world,
    };
    questioned(&format!("simple session {seed}"), Generator { random: &mut random, world }, |pair, generator, _| {
        let contents = Contents::read(pair.base());
        for _ in 0..40 {
            pair.take(generator.simple_may(&contents))?;
        }
        Ok(())
    })
}

// A session, and questions over its last base and over damaged bases that come of it.
fn questioned(
    name: &str,
    mut generator: Generator,
    ask: impl Fn(&mut Pair, &mut Generator, bool) -> Result<(), Difference>,
) -> Result<Tally, Box<Failure>> {
    let mut pair = Pair::new(generator.world.boundaries());
    let ran = begin(&mut pair, &mut generator).and_then(|length| run(&mut pair, &mut generator, length));
    let ran = ran.and_then(|()| ask(&mut pair, &mut generator, true));
    ran.map_err(|difference| Box::new(Failure::new(name, &pair, difference)))?;
    let mut tally = pair.tally.clone();
    for _ in 0..4 {
        let bytes = other_base(pair.base(), &mut generator);
        let mut other = Pair::new(pair.boundaries());
        let asked = other.take(Step::Lend(bytes)).and_then(|_| ask(&mut other, &mut generator, false));
        asked.map_err(|difference| Box::new(Failure::new(name, &other, difference)))?;
        tally.add(&other.tally);
    }
    Ok(tally)
}

// A round of each size, whatever the lent bytes are.
fn rounds(pair: &mut Pair, generator: &mut Generator, counts: &[usize]) -> Result<(), Difference> {
    let contents = Contents::read(pair.base());
    for &count in counts {
        for step in generator.round(&contents, count) {
            pair.take(step)?;
        }
    }
    Ok(())
}

// So many lines of text, whatever the lent bytes are.
fn tell(pair: &mut Pair, generator: &mut Generator, count: usize) -> Result<(), Difference> {
    for _ in 0..count {
        let contents = Contents::read(pair.base());
        for step in generator.text(&contents, |line| pair.told(line).0.len()) {
            pair.take(step)?;
        }
    }
    Ok(())
}

// A session, and then what follows from so many bases that are made of its last one.
fn play(
    seed: u64,
    count: impl Fn(&[u8], &mut Generator) -> usize,
    other: impl Fn(&[u8], usize, &mut Generator) -> Vec<u8>,
) -> Result<Tally, Box<Failure>> {
    play_in(seed, World::random, count, other)
}

fn play_in(
    seed: u64,
    world: impl Fn(&mut Random) -> World,
    count: impl Fn(&[u8], &mut Generator) -> usize,
    other: impl Fn(&[u8], usize, &mut Generator) -> Vec<u8>,
) -> Result<Tally, Box<Failure>> {
    let mut random = Random::new(seed);
    let world = world(&mut random);
    let of = match (world.in_force, world.all_meters) {
        (true, _) => " in force",
        (_, true) => " of all meters",
        _ => "",
    };
    let name = format!("session {seed}{of}");
    let mut pair = Pair::new(world.boundaries());
    let mut generator = Generator { random: &mut random, world };
    let ran = begin(&mut pair, &mut generator).and_then(|length| run(&mut pair, &mut generator, length));
    ran.map_err(|difference| Box::new(Failure::new(&name, &pair, difference)))?;
    let mut tally = pair.tally.clone();
    for i in 0..count(pair.base(), &mut generator) {
        let bytes = other(pair.base(), i, &mut generator);
        let mut other = Pair::new(pair.boundaries());
        let lent = lend(&mut other, &mut generator, bytes);
        lent.map_err(|difference| Box::new(Failure::new(&name, &other, difference)))?;
        tally.add(&other.tally);
    }
    Ok(tally)
}

// An empty base in random bytes, or one that is nearly full. How many requests are to follow.
fn begin(pair: &mut Pair, generator: &mut Generator) -> Result<usize, Difference> {
    if generator.random.percent(5) {
        let bytes = crowded(&generator.world, generator.random, 0);
        pair.take(Step::Lend(bytes))?;
        assert!(pair.is_sound(), "a crowded base is sound");
        return Ok(generator.world.length);
    }
    pair.take(Step::Lend(generator.random.bytes(BYTES)))?;
    pair.take(Step::Create)?;
    Ok(generator.world.length)
}

fn run(pair: &mut Pair, generator: &mut Generator, length: usize) -> Result<(), Difference> {
    let mut contents = Contents::read(pair.base());
    for _ in 0..length {
        let request = generator.request(&contents);
        if pair.take(Step::Request(request))? == 0 {
            contents = Contents::read(pair.base());
        }
        if generator.random.percent(30) {
            ask(pair, generator, &contents)?;
        }
    }
    (0..3).try_for_each(|_| ask(pair, generator, &contents))
}

fn ask(pair: &mut Pair, generator: &mut Generator, contents: &Contents) -> Result<(), Difference> {
    for _ in 0..2 {
        pair.take(generator.may(contents))?;
    }
    for step in generator.when(contents, |access| pair.runs(access)) {
        pair.take(step)?;
    }
    for step in generator.report(contents, |object| pair.sheet(object)) {
        pair.take(step)?;
    }
    Ok(())
}

fn other_base(base: &[u8], generator: &mut Generator) -> Vec<u8> {
    match generator.random.below(20) {
        0 => generator.random.bytes(BYTES),
        1 => cut(base, generator.random),
        2 => crowded(&generator.world, generator.random, 1),
        3..=7 => composed(&generator.world, generator.random),
        _ => damaged(base, generator.random),
    }
}

// Lends any bytes. If sound, goes on with them; if not, all functions have to refuse.
fn lend(pair: &mut Pair, generator: &mut Generator, bytes: Vec<u8>) -> Result<(), Difference> {
    let contents = Contents::read(&bytes);
    pair.take(Step::Lend(bytes))?;
    if pair.is_sound() {
        return run(pair, generator, 4);
    }
    let request = generator.request(&contents);
    pair.take(Step::Request(request))?;
    ask(pair, generator, &contents)?;
    pair.take(Step::Create)?;
    Ok(())
}
