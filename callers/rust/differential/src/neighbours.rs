//! Two estates in one base (02, CR 9). Two bases get the same requests on a block of meters and other requests next door;
//! then MAY, WHEN and rounds of questions about the block are put to both, and have to get the same replies and leave the
//! same lists.
use crate::generator::Generator;
use crate::image::{Contents, Rule};
use crate::pair::{in_oracle_words, Step};
use crate::random::Random;
use crate::text;
use crate::world::World;
use access_base::raw::{self, Numbers};
use access_base::{Access, Term, BYTES};
use core::fmt;
use oracle::{Cells, Oracle};

/// One who keeps a base and answers.
pub trait Keeper: Clone {
    /// With an empty base. Intervals start at one of the boundaries and end before one, or at the last instant.
    fn empty(boundaries: &[u32]) -> Self;
    /// The refusal's number, or 0.
    fn request(&mut self, q: &Numbers) -> u32;
    /// The base.
    fn bytes(&self) -> Vec<u8>;
    /// The refusal's number or 0, and 1 for yes.
    fn may(&self, x: Access, instant: u32) -> (u32, u32);
    /// The refusal's number or 0, and how many runs.
    fn when(&self, x: Access, list: &mut [u32]) -> (u32, u32);
    /// The refusal's number, or 0.
    fn round(&self, questions: &[[u32; 4]], replies: &mut [u8]) -> u32;
}

/// The library.
#[derive(Clone)]
pub struct Library(Vec<u8>);

impl Keeper for Library {
    fn empty(_: &[u32]) -> Library {
        let mut base = vec![0; BYTES];
        raw::create(&mut base);
        Library(base)
    }

    fn request(&mut self, q: &Numbers) -> u32 {
        raw::request(&mut self.0, q).refusal
    }

    fn bytes(&self) -> Vec<u8> {
        self.0.clone()
    }

    fn may(&self, x: Access, instant: u32) -> (u32, u32) {
        let reply = raw::may(&self.0, x, instant);
        (reply.refusal, reply.number)
    }

    fn when(&self, x: Access, list: &mut [u32]) -> (u32, u32) {
        let reply = raw::when(&self.0, x, list);
        (reply.refusal, reply.number)
    }

    fn round(&self, questions: &[[u32; 4]], replies: &mut [u8]) -> u32 {
        raw::batch(&self.0, questions.as_flattened(), replies).refusal
    }
}

impl Keeper for Oracle {
    fn empty(boundaries: &[u32]) -> Oracle {
        Oracle::empty(Cells::from_boundaries(boundaries.to_vec()))
    }

    fn request(&mut self, q: &Numbers) -> u32 {
        match Oracle::request(self, &in_oracle_words(q)) {
            oracle::Reply::Done { .. } => 0,
            oracle::Reply::Refused(row) => row,
        }
    }

    fn bytes(&self) -> Vec<u8> {
        self.to_bytes()
    }

    fn may(&self, x: Access, instant: u32) -> (u32, u32) {
        Oracle::may(self, x.subject, x.mode, x.object, instant).map_or_else(|row| (row, 0), |yes| (0, u32::from(yes)))
    }

    fn when(&self, x: Access, list: &mut [u32]) -> (u32, u32) {
        match Oracle::when(self, x.subject, x.mode, x.object, list.len() / 2) {
            Err(row) => (row, 0),
            Ok(runs) => {
                for (pair, run) in list.chunks_exact_mut(2).zip(&runs) {
                    pair.copy_from_slice(&[run.0, run.1]);
                }
                (0, runs.len() as u32)
            }
        }
    }

    fn round(&self, questions: &[[u32; 4]], replies: &mut [u8]) -> u32 {
        match Oracle::round(self, questions, replies) {
            Err(row) => row,
            Ok(bytes) => {
                replies.copy_from_slice(&bytes);
                0
            }
        }
    }
}

/// What was compared.
#[derive(Clone, Debug, Default)]
pub struct Compared {
    /// Pairs of bases: at so many moments questions were put to both.
    pub pairs: u64,
    /// Pairs with other bytes next door.
    pub apart: u64,
    /// Pairs in which the block's lines or rules have other labels.
    pub relabelled: u64,
    /// Pairs with a rule that has starred objects.
    pub starred: u64,
    /// Pairs with other rules with starred objects, by authors who have no meter in the block.
    pub starred_apart: u64,
    /// Pairs with rules next door that look at the block.
    pub watched: u64,
    /// MAY with no, yes, and refused.
    pub may: [u64; 3],
    /// WHEN answered, and refused.
    pub when: [u64; 2],
    /// Runs in the lists.
    pub runs: u64,
    /// Rounds answered, and refused.
    pub rounds: [u64; 2],
    /// Questions in rounds.
    pub questions: u64,
    /// Requests on the block, done in both.
    pub done: u64,
    /// Requests on the block that the two bases answer differently, for 4, 12 or 13, which are common to all, or that make
    /// one an owner or administrator there who has other starred rules in the two: taken back.
    pub parted: u64,
    /// Requests next door that were accepted.
    pub next_door: u64,
}

impl Compared {
    /// Adds what another session compared.
    pub fn add(&mut self, more: &Compared) {
        for (sum, one) in [
            (&mut self.pairs, more.pairs),
            (&mut self.apart, more.apart),
            (&mut self.relabelled, more.relabelled),
            (&mut self.starred, more.starred),
            (&mut self.starred_apart, more.starred_apart),
            (&mut self.watched, more.watched),
            (&mut self.runs, more.runs),
            (&mut self.questions, more.questions),
            (&mut self.done, more.done),
            (&mut self.parted, more.parted),
            (&mut self.next_door, more.next_door),
        ] {
            *sum += one;
        }
        for (sums, ones) in [
            (&mut self.may[..], &more.may[..]),
            (&mut self.when[..], &more.when[..]),
            (&mut self.rounds[..], &more.rounds[..]),
        ] {
            sums.iter_mut().zip(ones).for_each(|(sum, one)| *sum += one);
        }
    }
}

impl fmt::Display for Compared {
    fn fmt(&self, f: &mut fmt::Formatter) -> fmt::Result {
        let Compared { pairs, apart, relabelled, starred, starred_apart, watched, .. } = self;
        let Compared { runs, questions, done, parted, next_door, .. } = self;
        writeln!(
            f,
            "{pairs} pairs of bases: {apart} differ next door, {relabelled} in the block's labels, {starred} have starred \
             objects, {starred_apart} other ones of authors without a meter here, {watched} are looked at from next door"
        )?;
        writeln!(f, "requests: {done} on the block done in both, {parted} taken back, {next_door} next door")?;
        let [no, yes, refused] = self.may;
        writeln!(f, "MAY compared: {no} no, {yes} yes, {refused} refused")?;
        writeln!(f, "WHEN compared: {} answered with {runs} runs, {} refused", self.when[0], self.when[1])?;
        write!(f, "rounds compared: {} of {questions} questions, {} refused", self.rounds[0], self.rounds[1])
    }
}

// What a base says of the block, without labels and times of granting; of the rules with starred objects those whose
// author owns or administers a meter of the block.
#[derive(PartialEq, Eq, Debug)]
struct Share {
    owners: Vec<[u32; 2]>,
    administrators: Vec<[u32; 2]>,
    lines: Vec<[u32; 7]>,
    rules: Vec<[u32; 12]>,
    starred: Vec<[u32; 12]>,
}

fn unlabelled(r: &Rule) -> [u32; 12] {
    let left = [r.left_subject, r.left_mode, r.left_object];
    let right = [r.right_subject, r.right_mode, r.right_object];
    let [a, b, c] = left;
    let [d, e, f] = right;
    [r.author, a, b, c, d, e, f, r.operator, r.grantor, r.flags, r.start, r.end]
}

// Whether the subject owns or administers a meter of the block.
fn has_a_meter(block: &[u32], contents: &Contents, subject: u32) -> bool {
    let mut holders = contents.owners.iter().chain(&contents.administrators);
    holders.any(|x| block.contains(&x.object) && x.subject == subject)
}

fn share(block: &[u32], contents: &Contents) -> Share {
    let inside = |object: u32| block.contains(&object);
    let holders =
        |of: &[crate::image::Holder]| of.iter().filter(|x| inside(x.object)).map(|x| [x.object, x.subject]).collect();
    Share {
        owners: holders(&contents.owners),
        administrators: holders(&contents.administrators),
        lines: contents
            .lines
            .iter()
            .filter(|x| inside(x.object))
            .map(|x| [x.grantor, x.subject, x.object, x.mode, x.flags, x.start, x.end])
            .collect(),
        rules: contents.rules.iter().filter(|r| inside(r.left_object)).map(unlabelled).collect(),
        starred: contents
            .rules
            .iter()
            .filter(|r| r.left_object == 0 && has_a_meter(block, contents, r.author))
            .map(unlabelled)
            .collect(),
    }
}

// Whether a rule bears on the block.
fn bears(block: &[u32], contents: &Contents, rule: &Rule) -> bool {
    block.contains(&rule.left_object) || rule.left_object == 0 && has_a_meter(block, contents, rule.author)
}

// The labels of the block's lines and of the rules that bear on it, in base order.
fn labels(block: &[u32], contents: &Contents) -> (Vec<u32>, Vec<u32>) {
    (
        contents.lines.iter().filter(|x| block.contains(&x.object)).map(|x| x.label).collect(),
        contents.rules.iter().filter(|r| bears(block, contents, r)).map(|r| r.label).collect(),
    )
}

// Whether a request is on the block, or about a rule with starred objects by one who has a meter there.
fn is_ours(block: &[u32], contents: &Contents, q: &Numbers) -> bool {
    match q.kind {
        4 => contents.lines.iter().any(|x| x.label == q.label && block.contains(&x.object)),
        7 => match q.left.object {
            Term::Any => has_a_meter(block, contents, q.requester),
            Term::Number(object) => block.contains(&object),
        },
        8 => contents.rules.iter().any(|r| r.label == q.label && bears(block, contents, r)),
        _ => block.contains(&q.object),
    }
}

struct Estates<K> {
    block: Vec<u32>,
    bases: [K; 2],
    histories: [Vec<Numbers>; 2],
    compared: Compared,
}

impl<K: Keeper> Estates<K> {
    // What is in a base, with the later of the two clocks.
    fn contents(&self, which: usize) -> Contents {
        let [one, other] = [0, 1].map(|i| Contents::read(&self.bases[i].bytes()));
        let clock = one.clock.max(other.clock);
        Contents { clock, ..if which == 0 { one } else { other } }
    }

    // The same request for the other base, where lines and rules of the block have other labels.
    fn translated(&self, q: &Numbers) -> Numbers {
        let [(lines, rules), (other_lines, other_rules)] = [0, 1].map(|i| labels(&self.block, &self.contents(i)));
        let (from, to) = if q.kind == 4 { (lines, other_lines) } else { (rules, other_rules) };
        let place = from.iter().position(|&label| label == q.label);
        let label = place.filter(|_| q.kind == 4 || q.kind == 8).map_or(q.label, |i| to[i]);
        Numbers { label, ..*q }
    }

    // A request on the block goes to both bases, another to one.
    fn request(&mut self, which: usize, generator: &mut Generator) -> Result<(), String> {
        let contents = self.contents(which);
        let mut q = generator.request(&contents);
        if !is_ours(&self.block, &contents, &q) {
            self.next_door(which, &q)?;
            return Ok(());
        }
        if which == 1 {
            return Ok(());
        }
        // no rule leads out of the block
        if let (7, Term::Number(_), Term::Number(right)) = (q.kind, q.left.object, q.right.object) {
            if !self.block.contains(&right) {
                q.right.object = Term::Number(generator.random.pick(&self.block));
            }
        }
        let both = [q, self.translated(&q)];
        let before = self.bases.clone();
        let replies = [0, 1].map(|i| self.bases[i].request(&both[i]));
        if replies[0] != replies[1] {
            if !replies.iter().any(|row| [4, 12, 13].contains(row)) {
                return Err(self.told(&format!("{}: {replies:?}", text::request(&q))));
            }
            self.compared.parted += 1;
            self.bases = before;
            return Ok(());
        }
        if [1, 9].contains(&q.kind) && self.agree().is_err() {
            self.compared.parted += 1;
            self.bases = before;
            return Ok(());
        }
        if replies[0] == 0 {
            self.compared.done += 1;
            (0..2).for_each(|i| self.histories[i].push(both[i]));
        }
        self.agree()
    }

    fn next_door(&mut self, which: usize, q: &Numbers) -> Result<(), String> {
        if self.bases[which].request(q) == 0 {
            self.compared.next_door += 1;
            self.histories[which].push(*q);
        }
        self.agree()
    }

    // What the claim asks for: the two bases agree on the block, and no rule leads out of it.
    fn agree(&self) -> Result<(), String> {
        let both = [0, 1].map(|i| self.contents(i));
        let shares = [0, 1].map(|i| share(&self.block, &both[i]));
        let closed = |r: &Rule| !self.block.contains(&r.left_object) || self.block.contains(&r.right_object);
        if shares[0] != shares[1] || !both[0].rules.iter().all(closed) {
            return Err(self.told(&format!("the bases do not agree on the block: {shares:?}")));
        }
        Ok(())
    }

    fn told(&self, what: &str) -> String {
        let lines = |i: usize| self.histories[i].iter().map(text::request).collect::<Vec<_>>().join("\n");
        format!("{what}\nblock {:?}\none base:\n{}\nthe other:\n{}", self.block, lines(0), lines(1))
    }

    fn same<T: PartialEq + fmt::Debug>(&self, asked: &str, replies: [T; 2]) -> Result<(), String> {
        if replies[0] == replies[1] {
            return Ok(());
        }
        Err(self.told(&format!("{asked}: {replies:?}")))
    }

    // Questions about the block to both.
    fn ask(&mut self, generator: &mut Generator) -> Result<(), String> {
        let both = [0, 1].map(|i| self.contents(i));
        let [one, other] = [0, 1].map(|i| labels(&self.block, &both[i]));
        self.compared.pairs += 1;
        self.compared.apart += u64::from(self.bases[0].bytes() != self.bases[1].bytes());
        self.compared.relabelled += u64::from(one != other);
        self.compared.starred += u64::from(both[0].rules.iter().any(|r| r.left_object == 0));
        let watches = |r: &Rule| !self.block.contains(&r.left_object) && self.block.contains(&r.right_object);
        self.compared.watched += u64::from(both.iter().any(|c| c.rules.iter().any(watches)));
        let elsewhere = |c: &Contents| -> Vec<[u32; 12]> {
            let others = |r: &&Rule| r.left_object == 0 && !bears(&self.block, c, r);
            c.rules.iter().filter(others).map(unlabelled).collect()
        };
        self.compared.starred_apart += u64::from(elsewhere(&both[0]) != elsewhere(&both[1]));
        let contents = &both[generator.random.below(2)];
        for _ in 0..6 {
            let (x, t) = self.question(generator, contents);
            let replies = [0, 1].map(|i| self.bases[i].may(x, t));
            self.same(&format!("MAY {x:?} {t}"), replies)?;
            let (refusal, yes) = replies[0];
            self.compared.may[if refusal == 0 { yes as usize } else { 2 }] += 1;
        }
        for _ in 0..3 {
            let (x, _) = self.question(generator, contents);
            self.when(generator, x)?;
        }
        let count = generator.random.pick(&[0, 1, 7, 20]);
        let questions: Vec<[u32; 4]> = (0..count)
            .map(|_| {
                let (x, t) = self.question(generator, contents);
                [x.subject, x.mode, x.object, t]
            })
            .collect();
        self.round(generator, &questions)
    }

    fn question(&self, generator: &mut Generator, contents: &Contents) -> (Access, u32) {
        let Step::May(x, t) = generator.may(contents) else { unreachable!("a question") };
        let object = if self.block.contains(&x.object) { x.object } else { generator.random.pick(&self.block) };
        (Access { object, ..x }, t)
    }

    fn when(&mut self, generator: &mut Generator, x: Access) -> Result<(), String> {
        let exact = 2 * self.bases[0].when(x, &mut vec![0; 2_200]).1 as usize;
        let length = generator.random.pick(&[exact, exact, exact.saturating_sub(1), exact + 3, 0]);
        let list: Vec<u32> = (0..length).map(|_| generator.random.any() as u32).collect();
        let replies = [0, 1].map(|i| {
            let mut list = list.clone();
            (self.bases[i].when(x, &mut list), list)
        });
        let (refusal, runs) = replies[0].0;
        self.same(&format!("WHEN {x:?}, {length} numbers"), replies)?;
        self.compared.when[usize::from(refusal != 0)] += 1;
        self.compared.runs += u64::from(runs);
        Ok(())
    }

    fn round(&mut self, generator: &mut Generator, questions: &[[u32; 4]]) -> Result<(), String> {
        let count = questions.len();
        let length = generator.random.pick(&[count, count, count + 5, count.saturating_sub(1)]);
        let bytes = generator.random.bytes(length);
        let replies = [0, 1].map(|i| {
            let mut bytes = bytes.clone();
            (self.bases[i].round(questions, &mut bytes), bytes)
        });
        let refusal = replies[0].0;
        self.same(&format!("a round with {length} bytes, {questions:?}"), replies)?;
        self.compared.rounds[usize::from(refusal != 0)] += 1;
        self.compared.questions += if refusal == 0 { count as u64 } else { 0 };
        Ok(())
    }
}

/// Two histories that differ next door alone, from a seed. In every third rules mostly look at rights that are denied now
/// and then, in every third most rules have starred objects.
pub fn estates<K: Keeper>(seed: u64) -> Result<Compared, String> {
    let mut random = Random::new(seed);
    let world = World::random(&mut random);
    let several = world.clone().all_meters(&mut random);
    let objects = several.objects.clone();
    let mut world = match seed % 3 {
        0 => world.in_force(),
        1 => several,
        _ => world,
    };
    world.objects = objects;
    let mut block = world.objects.clone();
    let outside = random.below(block.len() - 1) + 1;
    for _ in 0..outside {
        let at = random.below(block.len());
        block.swap_remove(at);
    }
    let empty = K::empty(world.boundaries());
    let mut generator = Generator { random: &mut random, world };
    let mut estates =
        Estates { block, bases: [empty.clone(), empty], histories: [vec![], vec![]], compared: Compared::default() };
    for _ in 0..2 * generator.world.length.min(110) {
        let which = usize::from(generator.random.percent(35));
        estates.request(which, &mut generator).map_err(|e| format!("seed {seed}: {e}"))?;
        if generator.random.percent(15) {
            estates.ask(&mut generator).map_err(|e| format!("seed {seed}: {e}"))?;
        }
    }
    for _ in 0..3 {
        estates.ask(&mut generator).map_err(|e| format!("seed {seed}: {e}"))?;
    }
    Ok(estates.compared)
}
