//! Runs built by hand: number 14 at each limit, the fence among them, 15, borrowers, and what no started run shows.
use crate::simulator::{self, phase_at, place_at, COMING, HOLDING, RESTING, WITHDRAWN, WORKING};
use crate::calls::{enter, reported, same, same_run, RunBuffer, Checked};
use crate::fences;
use crate::lending::{self, IDLING, LENDING};
use crate::random::withdrawal;
use crate::rng::Rng;
use crate::Counts;
use sivorandra::{Entry, Refusal, Run, RUN_HEAD_WORDS, RUN_PLACE_WORDS, RUN_WORDS};

/// O, v, C, D, T, w, the parity of the job, and the phase: its kind and three numbers.
pub type Place = [u32; RUN_PLACE_WORDS];
pub type Words = [u32; RUN_WORDS];
/// A phase by its kind and two numbers: if it is Working, the ticks had are the reserved ones.
type Phase = [u32; 3];
/// A place of one width whose job is an odd one: O, v, C, D, T, and the phase.
type Odd = [u32; 8];

pub const fn odd([o, v, c, d, t, kind, first, second]: Odd) -> Place {
    place_of([o, v, c, d, t], v, 0, phase_of([kind, first, second]))
}

/// A place of two widths.
pub const fn place_of([o, v, c, d, t]: [u32; 5], w: u32, even: u32, [kind, first, second, third]: [u32; 4]) -> Place {
    [o, v, c, d, t, w, even, kind, first, second, third]
}

/// The kind and the three numbers of a phase.
const fn phase_of([kind, first, second]: Phase) -> [u32; 4] {
    [kind, first, second, if kind == WORKING { second } else { 0 }]
}

/// Where a place has its second width, and the parity of its job.
const SECOND: usize = 5;
const EVEN: usize = 6;

/// A run of these places without a fence; past the count zeros and Resting(0).
pub fn run(rule: u32, cores: u32, places: &[Place]) -> Words {
    fenced(rule, cores, 0, places)
}

/// A run of these places with a fence.
pub fn fenced(rule: u32, cores: u32, fence: u64, places: &[Place]) -> Words {
    let mut words = [0; RUN_WORDS];
    words[..RUN_HEAD_WORDS].copy_from_slice(&[rule, cores, places.len() as u32, fence as u32, (fence >> 32) as u32, 0]);
    for (at, place) in words[RUN_HEAD_WORDS..].chunks_mut(RUN_PLACE_WORDS).enumerate() {
        place.copy_from_slice(places.get(at).unwrap_or(&odd([0, 0, 0, 0, 0, RESTING, 0, 0])));
    }
    words
}

/// Whether the words are no run, or number 14 refuses it (scope, 'The run in the reference').
fn is_not_a_run(words: &Words) -> bool {
    let [rule, cores, count, low, high, withdrawn, ..] = *words;
    let within = |n: u32, low: u32, high: u32| low <= n && n <= high;
    let is_task_state = |place: &[u32]| {
        place[EVEN] <= 1
            && match place[7] {
                COMING | RESTING => place[9] == 0 && place[10] == 0,
                HOLDING => place[10] == 0,
                kind => kind == WORKING,
            }
    };
    let is_fenced = |core: u32| if core < 32 { low >> core & 1 == 1 } else { high >> (core - 32) & 1 == 1 };
    let unfenced = (0..cores.min(64)).filter(|&core| !is_fenced(core)).count() as u32;
    let past = (cores.min(64)..64).any(is_fenced);
    let fits = |place: &[u32]| {
        let [o, v, c, d, t, w, even, kind, z, u, reserved] = place[..] else { unreachable!() };
        within(v, 1, unfenced)
            && within(w, 1, unfenced)
            && o <= 1_000_000
            && within(c, 1, 1_000_000)
            && within(t, 1, 1_000_000)
            && within(d, 1, t)
            && match kind {
                COMING => within(z, 1, o) && even == 0,
                WORKING => z <= d && u < c && u <= z && if rule == LENDING { reserved <= u } else { reserved == u },
                HOLDING => rule >= IDLING && z < d && u < c && u <= z,
                _ => within(z, 1, t - 1),
            }
    };
    let mut used = words[RUN_HEAD_WORDS..].chunks(RUN_PLACE_WORDS).take(count as usize);
    !(within(count, 1, 32) && within(cores, 1, 64) && within(rule, 1, LENDING) && !past && unfenced > 0 && u64::from(withdrawn) >> count == 0 && used.all(|place| is_task_state(place) && fits(place)))
}

pub const NOT_A_RUN: Refusal = Refusal::NotARun;

/// Row, sets and entries of a run, for some ticks, beside 14 and the book.
fn compare(rng: &mut Rng, counts: &mut Counts, words: &Words, ticks: usize) -> Checked<()> {
    let mut buffer = RunBuffer::from(rng, words);
    if is_not_a_run(words) {
        let sets = [0, 1, u32::MAX];
        let asked = rng.pick(&sets);
        counts.answer(&buffer.row(rng, asked, Err(NOT_A_RUN))?);
        counts.asked(0, &buffer.sets(rng, asked, Err(NOT_A_RUN))?);
        for entry in [Entry::Advance { reports: rng.pick(&sets), empties: rng.pick(&sets) }, Entry::Withdraw { position: rng.pick(&sets) }, Entry::WithdrawAll { set: rng.pick(&sets) }] {
            counts.entered(entry, 0, &buffer.enter(rng, entry, Err(NOT_A_RUN))?);
        }
        return Ok(());
    }
    let (out, mut reference) = simulator::built(words);
    same("14 as the simulator reads it", false, out)?;
    let mut now = *words;
    same_run("the simulator's run", &now, &reference.words(&now))?;
    for _ in 0..ticks {
        let mut any_of = |may: u32| match rng.below(8) {
            0 => rng.word(),
            1 => 1 << rng.below(32),
            2 => may,
            _ => rng.word() & may,
        };
        let (asked, given) = (any_of(reference.may_be_empty()), any_of(reference.may_be_empty()));
        let reports = any_of(reference.may_report(given));
        let empties = if rng.once_in(2) { 0 } else { given };
        counts.answer(&buffer.row(rng, asked, reference.row(asked)).map_err(|why| format!("with the empty jobs {asked}: {why}"))?);
        let shown = buffer.sets(rng, asked, reference.sets(asked)).map_err(|why| format!("as sets with the empty jobs {asked}: {why}"))?;
        counts.asked(reference.borrowers(Entry::Advance { reports: 0, empties: asked }), &shown);
        let entry = if rng.once_in(6) { withdrawal(rng, reference.count()) } else { Entry::Advance { reports, empties } };
        let borrowers = reference.borrowers(entry);
        let answer = reference.enter(entry);
        if answer.is_ok() {
            now = reference.words(&now);
        }
        counts.entered(entry, borrowers, &buffer.enter(rng, entry, answer.map(|()| now))?);
    }
    Ok(())
}

/// A number near one of these limits.
fn near(rng: &mut Rng, limits: &[u32]) -> u32 {
    let limit = rng.pick(limits);
    rng.pick(&[limit, limit.wrapping_sub(1), limit.saturating_add(1)])
}

/// A place within its limits where they leave room.
fn place(rng: &mut Rng, rule: u32, cores: u32) -> Place {
    let t = if rng.once_in(30) { rng.pick(&[1_000_000, 999_999]) } else { rng.from(1, 9) };
    let d = if rng.once_in(2) { t } else { rng.from(1, t) };
    let c = if rng.once_in(8) { rng.from(1, 1_000_000) } else { rng.from(1, d.min(12)) };
    let o = rng.pick(&[0, 1, 3, 1_000_000]);
    let v = if rng.once_in(4) { rng.from(1, cores) } else { rng.from(1, cores.min(2)) };
    let w = if rng.once_in(3) { rng.from(1, cores) } else { v };
    let z = |rng: &mut Rng, low: u32, high: u32| if rng.once_in(3) { high } else { rng.from(low, high) };
    let phase = match rng.below(8) {
        0 if o > 0 => phase_of([COMING, rng.pick(&[1, o, o.div_ceil(2)]), 0]),
        1 | 2 if t > 1 => phase_of([RESTING, z(rng, 1, t - 1), 0]),
        3..=5 if rule >= IDLING => {
            let z = z(rng, 0, d - 1);
            phase_of([HOLDING, z, rng.from(0, z.min(c - 1))])
        }
        6 => phase_of([WORKING, 0, 0]),
        _ => {
            let z = if rng.once_in(12) { d } else { rng.from(0, d - 1) };
            let had = rng.from(0, z.min(c - 1));
            [WORKING, z, had, if rule == LENDING { rng.from(0, had) } else { had }]
        }
    };
    let even = if phase[0] == COMING { 0 } else { rng.from(0, 1) };
    place_of([o, v, c, d, t], w, even, phase)
}

/// Anything in the places past the count.
fn fill_past_the_count(rng: &mut Rng, words: &mut Words) {
    let used = RUN_HEAD_WORDS + RUN_PLACE_WORDS * words[2] as usize;
    let ones = rng.once_in(8);
    words[used..].fill_with(|| if ones { u32::MAX } else if rng.once_in(4) { rng.from(0, 4) } else { rng.word() });
}

/// A random run built by hand, at times with a fault, and with anything past the count.
pub fn case(seed: u64, counts: &mut Counts) -> Checked<()> {
    let mut rng = Rng::new(seed);
    let (rule, cores) = (rng.pick(&[1, 2, 3, 3, 4, 4, 4]), rng.pick(&[1, 2, 3, 4, 8, 64]));
    let count = if rng.once_in(8) { rng.from(1, 32) } else { rng.from(1, 5) };
    let (left, fence) = if rng.once_in(2) { (cores, 0) } else { fences::any(&mut rng, cores) };
    let places: Vec<Place> = (0..count).map(|_| place(&mut rng, rule, left)).collect();
    let mut words = fenced(rule, cores, fence, &places);
    words[WITHDRAWN] = if rng.once_in(2) { 0 } else { rng.word() & (u32::MAX >> (32 - count)) };
    fill_past_the_count(&mut rng, &mut words);
    if rng.once_in(3) {
        let place = place_at(rng.below(count as usize));
        let w = words[place..][..RUN_PLACE_WORDS].to_vec();
        match rng.below(9) {
            6 => words[1 + rng.below(5)] ^= 1 << rng.below(7),
            7 => words[rng.pick(&[3, 4, WITHDRAWN])] ^= 1 << rng.below(32),
            0 => words[0] = near(&mut rng, &[1, LENDING, u32::MAX]),
            1 => words[1] = near(&mut rng, &[1, 64, w[1]]),
            2 => words[2] = near(&mut rng, &[1, 32, count, u32::MAX]),
            3 => words[place + rng.below(6)] = near(&mut rng, &[1, cores, left, w[4], w[3], 1_000_000]),
            4 => words[place + 7] = near(&mut rng, &[0, 3, u32::MAX]),
            5 => words[place + EVEN] = near(&mut rng, &[0, 1, u32::MAX]),
            _ => words[place + rng.pick(&[8, 9, 10])] = near(&mut rng, &[1, w[0], w[2], w[3], w[4], w[8], w[9], u32::MAX]),
        }
    }
    let ticks = 1 + rng.below(10);
    compare(&mut rng, counts, &words, ticks).map_err(|why| format!("seed {seed}, run built by hand: {why}\n  run {:?}", &words[..RUN_HEAD_WORDS + RUN_PLACE_WORDS * (count as usize + 1).min(32)]))
}

/// The limits of one place: what is inside, and what is outside by one number.
fn place_limits() -> Vec<(&'static str, Odd, Odd)> {
    const M: u32 = 1_000_000;
    vec![
        ("width at least 1", [5, 1, 4, 6, 8, RESTING, 1, 0], [5, 0, 4, 6, 8, RESTING, 1, 0]),
        ("width at most the cores", [5, 64, 4, 6, 8, RESTING, 1, 0], [5, 65, 4, 6, 8, RESTING, 1, 0]),
        ("O at most 1,000,000", [M, 1, 4, 6, 8, RESTING, 1, 0], [M + 1, 1, 4, 6, 8, RESTING, 1, 0]),
        ("C at least 1", [5, 1, 1, 6, 8, RESTING, 1, 0], [5, 1, 0, 6, 8, RESTING, 1, 0]),
        ("C at most 1,000,000", [5, 1, M, 6, 8, RESTING, 1, 0], [5, 1, M + 1, 6, 8, RESTING, 1, 0]),
        ("D at least 1", [5, 1, 4, 1, 8, RESTING, 1, 0], [5, 1, 4, 0, 8, RESTING, 1, 0]),
        ("D at most T", [5, 1, 4, 8, 8, RESTING, 1, 0], [5, 1, 4, 9, 8, RESTING, 1, 0]),
        ("T at least 1", [5, 1, 4, 1, 1, WORKING, 0, 0], [5, 1, 4, 1, 0, WORKING, 0, 0]),
        ("T at most 1,000,000", [5, 1, 4, 6, M, RESTING, 1, 0], [5, 1, 4, 6, M + 1, RESTING, 1, 0]),
        ("Coming at least 1", [5, 1, 4, 6, 8, COMING, 1, 0], [5, 1, 4, 6, 8, COMING, 0, 0]),
        ("Coming at most O", [5, 1, 4, 6, 8, COMING, 5, 0], [5, 1, 4, 6, 8, COMING, 6, 0]),
        ("Coming at most O, the largest", [M, 1, 4, 6, 8, COMING, M, 0], [M, 1, 4, 6, 8, COMING, M + 1, 0]),
        ("no Coming where O is 0", [1, 1, 4, 6, 8, COMING, 1, 0], [0, 1, 4, 6, 8, COMING, 1, 0]),
        ("Working z at most D", [5, 1, 4, 6, 8, WORKING, 6, 1], [5, 1, 4, 6, 8, WORKING, 7, 1]),
        ("Working z at most D where D is T", [5, 1, 4, 8, 8, WORKING, 8, 1], [5, 1, 4, 8, 8, WORKING, 9, 1]),
        ("Working z at most D, far", [5, 1, 4, 6, 8, WORKING, 0, 0], [5, 1, 4, 6, 8, WORKING, u32::MAX, 0]),
        ("Working u below C", [5, 1, 4, 6, 8, WORKING, 5, 3], [5, 1, 4, 6, 8, WORKING, 5, 4]),
        ("Working u at most z", [5, 1, 4, 6, 8, WORKING, 2, 2], [5, 1, 4, 6, 8, WORKING, 2, 3]),
        ("Working u at most z, at the release", [5, 1, 4, 6, 8, WORKING, 0, 0], [5, 1, 4, 6, 8, WORKING, 0, 1]),
        ("Working u below C where C is above D", [5, 1, 9, 6, 8, WORKING, 5, 5], [5, 1, 5, 6, 8, WORKING, 5, 5]),
        ("Holding from 0 and 0 on", [5, 1, 4, 6, 8, HOLDING, 0, 0], [5, 1, 4, 6, 8, HOLDING, 0, 1]),
        ("Holding where C is 1", [5, 1, 1, 6, 8, HOLDING, 3, 0], [5, 1, 1, 6, 8, HOLDING, 3, 1]),
        ("Holding where D is 1", [5, 1, 4, 1, 8, HOLDING, 0, 0], [5, 1, 4, 1, 8, HOLDING, 1, 0]),
        ("Holding where T is 1", [5, 1, 1, 1, 1, HOLDING, 0, 0], [5, 1, 1, 1, 1, HOLDING, 1, 0]),
        ("Holding z at most D - 1", [5, 1, 4, 6, 8, HOLDING, 5, 1], [5, 1, 4, 6, 8, HOLDING, 6, 1]),
        ("Holding z at most D - 1 where D is T", [5, 1, 4, 8, 8, HOLDING, 7, 1], [5, 1, 4, 8, 8, HOLDING, 8, 1]),
        ("Holding u from 0 on", [5, 1, 4, 6, 8, HOLDING, 3, 0], [5, 1, 4, 6, 8, HOLDING, 3, u32::MAX]),
        ("Holding u at most C - 1", [5, 1, 4, 6, 8, HOLDING, 5, 3], [5, 1, 4, 6, 8, HOLDING, 5, 4]),
        ("Holding u at most z", [5, 1, 4, 6, 8, HOLDING, 2, 2], [5, 1, 4, 6, 8, HOLDING, 2, 3]),
        ("Resting at least 1", [5, 1, 4, 6, 8, RESTING, 1, 0], [5, 1, 4, 6, 8, RESTING, 0, 0]),
        ("Resting at most T - 1", [5, 1, 4, 6, 8, RESTING, 7, 0], [5, 1, 4, 6, 8, RESTING, 8, 0]),
        ("no Resting where T is 1", [5, 1, 1, 1, 2, RESTING, 1, 0], [5, 1, 1, 1, 1, RESTING, 1, 0]),
        ("a kind at most 3", [5, 1, 4, 6, 8, RESTING, 1, 0], [5, 1, 4, 6, 8, 4, 1, 0]),
        ("Coming has no second number", [5, 1, 4, 6, 8, COMING, 1, 0], [5, 1, 4, 6, 8, COMING, 1, 1]),
        ("Resting has no second number", [5, 1, 4, 6, 8, RESTING, 1, 0], [5, 1, 4, 6, 8, RESTING, 1, 1]),
    ]
}

/// The limits of the second width and of the parity.
fn pair_limits() -> Vec<(&'static str, Place, Place)> {
    vec![
        ("second width at least 1", [5, 1, 4, 6, 8, 1, 0, RESTING, 1, 0, 0], [5, 1, 4, 6, 8, 0, 0, RESTING, 1, 0, 0]),
        ("second width at most the cores", [5, 1, 4, 6, 8, 64, 0, RESTING, 1, 0, 0], [5, 1, 4, 6, 8, 65, 0, RESTING, 1, 0, 0]),
        ("first width of an even job at least 1", [5, 1, 4, 6, 8, 2, 1, RESTING, 1, 0, 0], [5, 0, 4, 6, 8, 2, 1, RESTING, 1, 0, 0]),
        ("first width of an even job at most the cores", [5, 64, 4, 6, 8, 2, 1, RESTING, 1, 0, 0], [5, 65, 4, 6, 8, 2, 1, RESTING, 1, 0, 0]),
        ("second width far", [5, 1, 4, 6, 8, 64, 1, WORKING, 1, 0, 0], [5, 1, 4, 6, 8, u32::MAX, 1, WORKING, 1, 0, 0]),
        ("no even job is Coming", [5, 1, 4, 6, 8, 1, 0, COMING, 1, 0, 0], [5, 1, 4, 6, 8, 1, 1, COMING, 1, 0, 0]),
        ("no even job is Coming, of two widths", [5, 1, 4, 6, 8, 2, 0, COMING, 5, 0, 0], [5, 1, 4, 6, 8, 2, 1, COMING, 5, 0, 0]),
        ("an even job Working", [5, 1, 4, 6, 8, 2, 1, WORKING, 0, 0, 0], [5, 1, 4, 6, 8, 2, 2, WORKING, 0, 0, 0]),
        ("an even job Holding", [5, 1, 4, 6, 8, 2, 1, HOLDING, 3, 1, 0], [5, 1, 4, 6, 8, 2, 2, HOLDING, 3, 1, 0]),
        ("an even job Resting", [5, 1, 4, 6, 8, 2, 1, RESTING, 1, 0, 0], [5, 1, 4, 6, 8, 2, 2, RESTING, 1, 0, 0]),
        ("a parity at most 1, far", [5, 1, 4, 6, 8, 1, 1, WORKING, 2, 1, 1], [5, 1, 4, 6, 8, 1, u32::MAX, WORKING, 2, 1, 1]),
        ("a parity at most 1, by its last bits", [5, 1, 4, 6, 8, 1, 0, WORKING, 2, 1, 1], [5, 1, 4, 6, 8, 1, 256, WORKING, 2, 1, 1]),
    ]
}

/// A place that is within its limits whatever the rule.
pub const PLAIN: Place = odd([5, 1, 4, 6, 8, WORKING, 2, 1]);

/// Each limit by name, a run inside and a run outside.
fn limits() -> Vec<(String, Words, Words)> {
    let mut limits = Vec::new();
    let odd_limits = place_limits().into_iter().map(|(name, inside, outside)| (name, odd(inside), odd(outside)));
    let under = odd_limits.chain(pair_limits()).flat_map(|(name, inside, outside)| [IDLING, LENDING].map(|rule| (name, rule, inside, outside)));
    let task = |phase: [u32; 4]| place_of([5, 1, 4, 6, 8], 1, 0, phase);
    let reserved = lending::limits().into_iter().map(|(name, rule, inside, outside)| (name, rule, task(inside), task(outside)));
    for (name, rule, inside, outside) in under.chain(reserved) {
        for (at, count) in [(0, 1), (0, 3), (1, 3), (2, 3), (30, 32), (31, 32)] {
            let with = |place: Place| {
                let mut places = vec![PLAIN; count];
                places[at] = place;
                run(rule, 64, &places)
            };
            limits.push((format!("{name}, rule {rule}, place {} of {count}", at + 1), with(inside), with(outside)));
        }
    }
    let head = |at: usize, number: u32, mut words: Words| {
        words[at] = number;
        words
    };
    let one = run(1, 2, &[PLAIN]);
    let all = run(2, 64, &[PLAIN; 32]);
    let holding = odd([5, 1, 4, 6, 8, HOLDING, 3, 2]);
    let lent = place_of([5, 1, 4, 6, 8], 1, 0, [WORKING, 3, 2, 1]);
    limits.extend(fences::limits());
    for count in [1, 2, 3, 31] {
        let (within, past) = ((1u32 << count) - 1, 1 << count);
        let of = |withdrawn: u32| head(WITHDRAWN, withdrawn, run(2, 4, &vec![PLAIN; count]));
        limits.push((format!("the withdrawn set of {count}"), of(within), of(past)));
        limits.push((format!("the withdrawn set of {count}, far"), of(past >> 1), of(1 << 31)));
        limits.push((format!("the withdrawn set of {count}, and one more"), of(0), of(within | past)));
    }
    limits.push(("the withdrawn set of 32".into(), head(WITHDRAWN, u32::MAX, all), head(2, 31, head(WITHDRAWN, u32::MAX, all))));
    limits.extend([
        ("rule at least 1".into(), one, head(0, 0, one)),
        ("rule at most 4".into(), head(0, 4, one), head(0, 5, one)),
        ("rule far".into(), head(0, 2, one), head(0, u32::MAX, one)),
        ("cores at least 1".into(), head(1, 1, one), head(1, 0, one)),
        ("cores at most 64".into(), all, head(1, 65, all)),
        ("cores far".into(), head(1, 64, one), head(1, u32::MAX, one)),
        ("width at most 1 core".into(), run(1, 1, &[PLAIN]), run(1, 1, &[PLAIN, odd([5, 2, 4, 6, 8, RESTING, 1, 0])])),
        ("count at least 1".into(), one, head(2, 0, one)),
        ("count at most 32".into(), all, head(2, 33, all)),
        ("count far".into(), all, head(2, u32::MAX, all)),
        ("count within what is built".into(), one, head(2, 2, one)),
        ("Holding under rule 3, not 1".into(), run(3, 2, &[PLAIN, holding]), run(1, 2, &[PLAIN, holding])),
        ("Holding under rule 3, not 2".into(), run(3, 2, &[PLAIN, holding]), run(2, 2, &[PLAIN, holding])),
        ("Holding under rule 4, not 1".into(), run(4, 2, &[PLAIN, holding]), run(1, 2, &[PLAIN, holding])),
        ("Holding under rule 4, not 5".into(), run(4, 2, &[PLAIN, holding]), run(5, 2, &[PLAIN, holding])),
        ("fewer reserved than had under rule 4, not 3".into(), run(4, 2, &[lent]), run(3, 2, &[lent])),
        ("kinds below the count alone".into(), head(phase_at(31), 4, one), head(phase_at(0), 4, one)),
        ("second numbers below the count alone".into(), head(phase_at(31) + 2, 1, one), head(phase_at(0), COMING, one)),
        ("third numbers below the count alone".into(), head(phase_at(31) + 3, 1, one), head(phase_at(0) + 3, 2, one)),
        ("parities below the count alone".into(), head(place_at(1) + EVEN, 2, one), head(place_at(0) + EVEN, 2, one)),
        ("second widths below the count alone".into(), head(place_at(1) + SECOND, 99, one), head(place_at(0) + SECOND, 99, one)),
    ]);
    limits
}

/// A run inside is accepted, and one outside gets 14.
fn limit(counts: &mut Counts, inside: &Words, outside: &Words) -> Checked<()> {
    let mut rng = Rng::new(1);
    for (words, out) in [(inside, false), (outside, true)] {
        same("row with 14", out, Run::from_words(*words).row(0) == Err(NOT_A_RUN))?;
        same("sets with 14", out, Run::from_words(*words).sets(0) == Err(NOT_A_RUN))?;
        let mut run = Run::from_words(*words);
        same("advance with 14", out, run.advance(0, 0) == Err(NOT_A_RUN))?;
        same("withdraw with 14", out, run.withdraw(0) == Err(NOT_A_RUN))?;
        same("withdraw_all with 14", out, run.withdraw_all(1 << 31) == Err(NOT_A_RUN))?;
        same("the test's own reading of 14", out, is_not_a_run(words))?;
        compare(&mut rng, counts, words, 3)?;
    }
    Ok(())
}

/// Late positions: 15 with the lowest, after 14 and before 20 and 16, in row, sets and advance.
fn lateness(counts: &mut Counts) -> Checked<()> {
    let late = odd([5, 1, 4, 6, 8, WORKING, 6, 1]);
    for set in 1u32..1 << 6 {
        let mut places = vec![PLAIN; 6];
        (0..6).filter(|place| set & 1 << place != 0).for_each(|place| places[place] = late);
        for rule in 1..=LENDING {
            let mut words = run(rule, 4, &places);
            let expected = Err(Refusal::Late { position: set.trailing_zeros() + 1 });
            let mut held = Run::from_words(words);
            for empties in [0, 1, 63, u32::MAX] {
                same("row", expected, held.row(empties).map(|_| ()))?;
                same("sets", expected, held.sets(empties).map(|_| ()))?;
                for reports in [0, 1, 63, u32::MAX] {
                    let answer = held.advance(reports, empties);
                    counts.answer(&answer);
                    same("advance", expected, answer)?;
                    same_run("the late run", &words, held.words())?;
                }
            }
            words[place_at(5) + if rule == 2 { SECOND } else { 1 }] = 5;
            same("14 before 15", Err(NOT_A_RUN), Run::from_words(words).advance(0, 0))?;
        }
    }
    Ok(())
}

/// One task alone whose job is released in this tick and empty: the rule, the place, and the phase one tick on.
fn empty_moves() -> Vec<(&'static str, u32, Odd, Phase)> {
    vec![
        ("an empty job rests", 1, [5, 1, 4, 6, 8, WORKING, 0, 0], [RESTING, 1, 0]),
        ("an empty job rests", 2, [5, 1, 4, 6, 8, WORKING, 0, 0], [RESTING, 1, 0]),
        ("an empty job holds", 3, [5, 1, 4, 6, 8, WORKING, 0, 0], [HOLDING, 1, 1]),
        ("an empty job holds C ticks", 3, [5, 1, 1, 6, 8, WORKING, 0, 0], [RESTING, 1, 0]),
        ("an empty job holds no longer than D", 3, [5, 1, 4, 1, 8, WORKING, 0, 0], [RESTING, 1, 0]),
        ("an empty job of period 1", 1, [0, 1, 1, 1, 1, WORKING, 0, 0], [WORKING, 0, 0]),
        ("an empty job of period 1", 3, [0, 1, 1, 1, 1, WORKING, 0, 0], [WORKING, 0, 0]),
        ("the largest numbers", 3, [1_000_000, 1, 1_000_000, 1_000_000, 1_000_000, WORKING, 0, 0], [HOLDING, 1, 1]),
        ("an empty job holds", 4, [5, 1, 4, 6, 8, WORKING, 0, 0], [HOLDING, 1, 1]),
        ("an empty job holds C ticks", 4, [5, 1, 1, 6, 8, WORKING, 0, 0], [RESTING, 1, 0]),
        ("an empty job holds no longer than D", 4, [5, 1, 4, 1, 8, WORKING, 0, 0], [RESTING, 1, 0]),
        ("an empty job of period 1", 4, [0, 1, 1, 1, 1, WORKING, 0, 0], [WORKING, 0, 0]),
    ]
}

/// One task alone: the rule, the place, the reports, and the phase one tick on, as in the scope.
fn moves() -> Vec<(&'static str, u32, Odd, u32, Phase)> {
    vec![
        ("a Coming counts down", 1, [5, 1, 4, 6, 8, COMING, 5, 0], 0, [COMING, 4, 0]),
        ("Coming 0 left works", 1, [5, 1, 4, 6, 8, COMING, 1, 0], 0, [WORKING, 0, 0]),
        ("work goes on", 1, [5, 1, 4, 6, 8, WORKING, 2, 1], 0, [WORKING, 3, 2]),
        ("work ends at C", 2, [5, 1, 4, 6, 8, WORKING, 4, 3], 0, [RESTING, 5, 0]),
        ("work ends at C, not held", 3, [5, 1, 4, 6, 8, WORKING, 4, 3], 0, [RESTING, 5, 0]),
        ("reported work rests", 1, [5, 1, 4, 6, 8, WORKING, 0, 0], 1, [RESTING, 1, 0]),
        ("reported work rests", 2, [5, 1, 4, 6, 8, WORKING, 2, 1], 1, [RESTING, 3, 0]),
        ("reported work holds", 3, [5, 1, 4, 6, 8, WORKING, 2, 1], 1, [HOLDING, 3, 2]),
        ("reported work rests at C", 3, [5, 1, 4, 6, 8, WORKING, 4, 3], 1, [RESTING, 5, 0]),
        ("reported work holds no longer than D", 3, [5, 1, 4, 6, 8, WORKING, 5, 1], 1, [RESTING, 6, 0]),
        ("reported work at D and T works again", 3, [5, 1, 4, 6, 6, WORKING, 5, 1], 1, [WORKING, 0, 0]),
        ("ended work with z = T works again", 1, [5, 1, 4, 6, 6, WORKING, 5, 3], 0, [WORKING, 0, 0]),
        ("period 1", 1, [0, 1, 1, 1, 1, WORKING, 0, 0], 0, [WORKING, 0, 0]),
        ("work at D is late", 1, [5, 1, 4, 6, 8, WORKING, 5, 2], 0, [WORKING, 6, 3]),
        ("work at D = T is late", 2, [5, 1, 4, 6, 6, WORKING, 5, 2], 0, [WORKING, 6, 3]),
        ("a hold goes on", 3, [5, 1, 4, 6, 8, HOLDING, 2, 1], 0, [HOLDING, 3, 2]),
        ("a hold goes on from 0 and 0", 3, [5, 1, 4, 6, 8, HOLDING, 0, 0], 0, [HOLDING, 1, 1]),
        ("a hold goes on that has claimed nothing", 3, [5, 1, 4, 6, 8, HOLDING, 2, 0], 0, [HOLDING, 3, 1]),
        ("a hold ends where C is 1", 3, [5, 1, 1, 6, 8, HOLDING, 2, 0], 0, [RESTING, 3, 0]),
        ("a hold ends at C", 3, [5, 1, 4, 6, 8, HOLDING, 3, 3], 0, [RESTING, 4, 0]),
        ("a hold ends at D", 3, [5, 1, 4, 6, 8, HOLDING, 5, 1], 0, [RESTING, 6, 0]),
        ("a hold ends at D = T", 3, [5, 1, 4, 6, 6, HOLDING, 5, 1], 0, [WORKING, 0, 0]),
        ("a rest goes on", 1, [5, 1, 4, 6, 8, RESTING, 6, 0], 0, [RESTING, 7, 0]),
        ("a rest ends at T", 1, [5, 1, 4, 6, 8, RESTING, 7, 0], 0, [WORKING, 0, 0]),
        ("the largest numbers", 2, [1_000_000, 1, 1_000_000, 1_000_000, 1_000_000, WORKING, 999_999, 999_999], 0, [WORKING, 0, 0]),
    ]
}

/// A move of a place on two cores, with one width and with two, of an odd job and, unless it is Coming, of an even one. The parity changes with each release but the first.
fn check_move(rule: u32, task: [u32; 5], before: [u32; 4], entry: Entry, after: [u32; 4]) -> Checked<()> {
    let v = task[1];
    for (w, even) in [(v, 0), (v + 1, 0), (v, 1), (v + 1, 1)] {
        if (before[0], even) == (COMING, 1) {
            continue;
        }
        let mut held = Run::from_words(run(rule, 2, &[place_of(task, w, even, before)]));
        same("advance", Ok(()), enter(&mut held, entry))?;
        let then = if after == FRESH && before[0] != COMING { 1 - even } else { even };
        same_run("one tick on", &run(rule, 2, &[place_of(task, w, then, after)]), held.words())?;
    }
    Ok(())
}

/// O, v, C, D, T of a place, and its phase.
const fn parts([o, v, c, d, t, kind, first, second]: Odd) -> ([u32; 5], [u32; 4]) {
    ([o, v, c, d, t], phase_of([kind, first, second]))
}

/// The phase of a job that is released in this tick.
const FRESH: [u32; 4] = [WORKING, 0, 0, 0];

/// What a row shows of an odd job, of an even one and of one that holds: its own width.
fn widths() -> Checked<()> {
    for (name, even, [kind, first, second], row) in [
        ("an odd job", 0, [WORKING, 1, 1], [1, 1, 1, 0]),
        ("an even job", 1, [WORKING, 1, 1], [1, 1, 2, 2]),
        ("an odd job that holds", 0, [HOLDING, 1, 1], [1, 1, 1, 0]),
        ("an even job that holds", 1, [HOLDING, 1, 1], [1, 1, 2, 2]),
        ("an odd job that has ended", 0, [RESTING, 1, 0], [2, 2, 0, 0]),
        ("an even job that has ended", 1, [RESTING, 1, 0], [2, 2, 0, 0]),
    ] {
        let words = run(3, 4, &[place_of([0, 3, 4, 6, 8], 2, even, phase_of([kind, first, second])), odd([0, 2, 4, 6, 8, WORKING, 1, 1])]);
        same(name, Ok(row), Run::from_words(words).row(0).map(|row| [row[0], row[1], row[2], row[3]]))?;
    }
    Ok(())
}

/// Held cores show the holder's position and are not free; its reports are refused with 16.
fn hold_blocks() -> Checked<()> {
    let mut held = Run::from_words(run(3, 2, &[odd([0, 2, 4, 6, 8, HOLDING, 5, 1]), odd([0, 1, 2, 8, 8, WORKING, 5, 0])]));
    same("the row", Ok([1, 1]), held.row(0).map(|row| [row[0], row[1]]))?;
    same("the holder reported", Err(Refusal::BadReport), held.advance(1, 0))?;
    same("the waiting one reported", Err(Refusal::BadReport), held.advance(2, 0))?;
    same("a position past the count reported", Err(Refusal::BadReport), held.advance(4, 0))?;
    same("advance", Ok(()), held.advance(0, 0))?;
    same("the row after the hold", Ok([2, 0]), held.row(0).map(|row| [row[0], row[1]]))
}

/// An empty job of the first of two wide tasks: under idling it holds its cores, else the second has them, under lending as a borrower, and may be reported. A row changes nothing. A refused
/// advance keeps nothing of its empty jobs, and a report on an empty job is 16.
fn empty_job() -> Checked<()> {
    let wide = odd([0, 2, 4, 6, 8, WORKING, 0, 0]);
    for (rule, row, reported) in [(1, [2, 2], Ok(())), (2, [2, 2], Ok(())), (3, [1, 1], Err(Refusal::BadReport)), (4, [2, 2], Ok(()))] {
        let words = run(rule, 2, &[wide, wide]);
        let mut held = Run::from_words(words);
        let first = |run: &Run, empties: u32| run.row(empties).map(|row| [row[0], row[1]]);
        same("the row", Ok([1, 1]), first(&held, 0))?;
        same("the row with an empty job", Ok(row), first(&held, 1))?;
        same("the row with the other empty", Ok([1, 1]), first(&held, 2))?;
        same("the empty one reported", Err(Refusal::BadReport), held.advance(1, 1))?;
        same("the second reported without it", Err(Refusal::BadReport), held.advance(2, 0))?;
        same_run("after rows and refusals", &words, held.words())?;
        same("the second reported", reported, held.advance(2, 1))?;
    }
    Ok(())
}

/// One task on one core that is withdrawn: the rule, the phase, and the phase one tick on. A job released in this tick is empty, one released before goes on.
fn withdrawn_task() -> Checked<()> {
    let cases = [
        (1, [COMING, 5, 0], [COMING, 4, 0]),
        (1, [COMING, 1, 0], [WORKING, 0, 0]),
        (1, [WORKING, 0, 0], [RESTING, 1, 0]),
        (2, [WORKING, 0, 0], [RESTING, 1, 0]),
        (3, [WORKING, 0, 0], [HOLDING, 1, 1]),
        (4, [WORKING, 0, 0], [HOLDING, 1, 1]),
        (1, [WORKING, 1, 0], [WORKING, 2, 1]),
        (2, [WORKING, 2, 1], [WORKING, 3, 2]),
        (3, [WORKING, 4, 3], [RESTING, 5, 0]),
        (3, [HOLDING, 0, 0], [HOLDING, 1, 1]),
        (3, [HOLDING, 2, 1], [HOLDING, 3, 2]),
        (4, [WORKING, 4, 3], [RESTING, 5, 0]),
        (4, [HOLDING, 2, 1], [HOLDING, 3, 2]),
        (1, [RESTING, 7, 0], [WORKING, 0, 0]),
    ];
    for (rule, phase, next) in cases {
        let of = |even: u32, phase: Phase, withdrawn: u32| {
            let mut words = run(rule, 1, &[place_of([5, 1, 4, 6, 8], 1, even, phase_of(phase))]);
            words[WITHDRAWN] = withdrawn;
            words
        };
        let mut held = Run::from_words(of(0, phase, 0));
        same("withdraw", Ok(()), held.withdraw(1))?;
        same_run("only the set moves", &of(0, phase, 1), held.words())?;
        same("withdraw again", Ok(()), held.withdraw(1))?;
        same_run("once more is the same as once", &of(0, phase, 1), held.words())?;
        if phase == [WORKING, 0, 0] {
            same("a report on it", Err(Refusal::BadReport), held.advance(1, 0))?;
            same("its empty bit changes nothing", held.row(0), held.row(1))?;
            let mut other = held.clone();
            same("its empty bit", Ok(()), other.advance(0, 1))?;
            same_run("with its empty bit", &of(0, next, 1), other.words())?;
        }
        same("advance", Ok(()), held.advance(0, 0))?;
        let even = u32::from(next == [WORKING, 0, 0] && phase[0] != COMING);
        same_run("one tick on", &of(even, next, 1), held.words())?;
    }
    Ok(())
}

/// 14, then 21, then 22; 15 is not checked.
fn no_withdrawal(counts: &mut Counts) -> Checked<()> {
    let (wide, late) = (odd([5, 2, 4, 6, 8, WORKING, 2, 1]), odd([5, 1, 4, 6, 8, WORKING, 6, 1]));
    let of = |v: u32, w: u32, even: u32| place_of([5, v, 4, 6, 8], w, even, phase_of([WORKING, 2, 1]));
    let cases = [
        (1, [PLAIN, wide], true),
        (1, [wide, PLAIN], false),
        (2, [wide, PLAIN], true),
        (3, [wide, PLAIN], true),
        (4, [wide, PLAIN], true),
        (1, [late, wide], true),
        (1, [wide, late], false),
        (1, [of(1, 2, 0), of(2, 3, 0)], true),
        (1, [of(2, 1, 0), of(3, 2, 1)], true),
        (1, [of(1, 3, 0), of(2, 4, 0)], false),
        (1, [of(1, 3, 0), of(2, 4, 1)], false),
        (1, [of(3, 1, 1), of(3, 2, 0)], false),
        (2, [of(1, 3, 0), of(2, 4, 0)], true),
        (3, [of(3, 1, 0), of(1, 2, 1)], true),
    ];
    for (rule, places, firm) in cases {
        let words = run(rule, 4, &places);
        for position in [0, 1, 2, 3, 32, 33, 1 << 31, u32::MAX] {
            let known = (1..=2).contains(&position);
            let expected = if !firm { Err(Refusal::NotFirm) } else if known { Ok(()) } else { Err(Refusal::NoPosition) };
            let mut held = Run::from_words(words);
            let answer = held.withdraw(position);
            counts.answer(&answer);
            same("withdraw", expected, answer)?;
            let mut after = words;
            after[WITHDRAWN] = if expected.is_ok() { 1 << (position - 1) } else { 0 };
            same_run("the run", &after, held.words())?;
            let mut out = words;
            out[0] = LENDING + 1;
            same("14 first", Err(NOT_A_RUN), Run::from_words(out).withdraw(position))?;
        }
        for (set, withdrawn) in [0, 1, 2, 3, 4, 5, 7, 1 << 31, 3 | 1 << 31, u32::MAX].into_iter().flat_map(|set| (0..4).map(move |withdrawn| (set, withdrawn))) {
            let mut before = words;
            before[WITHDRAWN] = withdrawn;
            let expected = if !firm { Err(Refusal::NotFirm) } else if set < 4 { Ok(()) } else { Err(Refusal::NoPosition) };
            let mut held = Run::from_words(before);
            let answer = held.withdraw_all(set);
            counts.answer(&answer);
            same("withdraw_all", expected, answer)?;
            let mut after = before;
            after[WITHDRAWN] = if expected.is_ok() { withdrawn | set } else { withdrawn };
            same_run("the run", &after, held.words())?;
            let mut out = before;
            out[0] = LENDING + 1;
            same("14 first", Err(NOT_A_RUN), Run::from_words(out).withdraw_all(set))?;
        }
    }
    Ok(())
}

/// 20 for a position past the count and for every phase but Working(0, 0), before 16.
fn no_empty_job(counts: &mut Counts) -> Checked<()> {
    let phases = [[COMING, 1, 0], [WORKING, 1, 0], [WORKING, 1, 1], [HOLDING, 0, 0], [HOLDING, 1, 0], [HOLDING, 1, 1], [RESTING, 1, 0], [RESTING, 7, 0]];
    for (rule, [kind, first, second]) in [IDLING, LENDING].into_iter().flat_map(|rule| phases.map(|phase| (rule, phase))) {
        let words = run(rule, 4, &[odd([5, 1, 4, 6, 8, WORKING, 0, 0]), odd([5, 1, 4, 6, 8, kind, first, second])]);
        let mut held = Run::from_words(words);
        for empties in [2, 3, 4, 5, 1 << 31, u32::MAX] {
            same("row", Err(Refusal::BadEmpty), held.row(empties).map(|_| ()))?;
            same("sets", Err(Refusal::BadEmpty), held.sets(empties).map(|_| ()))?;
            for reports in [0, 1, 4, u32::MAX] {
                let answer = held.advance(reports, empties);
                counts.answer(&answer);
                same("advance", Err(Refusal::BadEmpty), answer)?;
                same_run("the run", &words, held.words())?;
            }
        }
        same("advance", Ok(()), held.advance(0, 1))?;
    }
    Ok(())
}

/// Random words past the count, for every count that leaves places there: row, sets and advance answer as with zeros, and these words are unchanged.
fn past_the_count(counts: &mut Counts, count: u32) -> Checked<()> {
    let mut rng = Rng::new(count.into());
    for rule in 1..=LENDING {
        let places: Vec<Place> = (0..count).map(|_| place(&mut rng, rule, 8)).collect();
        let clean = if count % 2 == 0 { run(rule, 8, &places) } else { fenced(rule, 40, 0xff_0f0f_ff0f, &places) };
        let mut filled = clean;
        fill_past_the_count(&mut rng, &mut filled);
        let (mut plain, mut held) = (Run::from_words(clean), Run::from_words(filled));
        for _ in 0..4 {
            let (any, other) = (rng.word(), rng.word());
            let (reports, empties) = (rng.pick(&[0, 1, any]), rng.pick(&[0, 0, 1, other]));
            same("row", plain.row(empties), held.row(empties))?;
            same("sets", plain.sets(empties), held.sets(empties))?;
            let answer = plain.advance(reports, empties);
            counts.answer(&answer);
            same("advance", answer, held.advance(reports, empties))?;
            let place = 1 + rng.below(32) as u32;
            same("withdraw", plain.withdraw(place), held.withdraw(place))?;
            let set = rng.word() & rng.word() & rng.word();
            same("withdraw_all", plain.withdraw_all(set), held.withdraw_all(set))?;
            let used = RUN_HEAD_WORDS + RUN_PLACE_WORDS * count as usize;
            same("the words up to the count", &plain.words()[..used], &held.words()[..used])?;
            same("the words past the count", &filled[used..], &held.words()[used..])?;
        }
        compare(&mut rng, counts, &filled, 4)?;
    }
    Ok(())
}

/// Each fixed run by name, and whether the library handles it right.
pub fn all(counts: &mut Counts) -> Vec<(String, Checked<()>)> {
    let mut done = Vec::new();
    for (name, inside, outside) in limits() {
        let tried = limit(counts, &inside, &outside);
        done.push((name, tried));
    }
    done.push(("the lowest late position".into(), lateness(counts)));
    for (name, rule, place, reports, phase) in moves() {
        let (task, before) = parts(place);
        done.push((format!("{name}, rule {rule}"), check_move(rule, task, before, reported(reports), phase_of(phase))));
    }
    for (name, rule, place, phase) in empty_moves() {
        let (task, before) = parts(place);
        done.push((format!("{name}, rule {rule}"), check_move(rule, task, before, Entry::Advance { reports: 0, empties: 1 }, phase_of(phase))));
    }
    for (name, period, before, reports, after) in lending::moves() {
        done.push((format!("{name}, under lending"), check_move(LENDING, [5, 1, 4, 6, period], before, reported(reports), after)));
    }
    done.push(("a holder lends".into(), lending::one_lends()));
    done.push(("two holders lend".into(), lending::two_lend()));
    done.push(("an empty job beside another".into(), empty_job()));
    done.push(("what cannot be empty".into(), no_empty_job(counts)));
    done.push(("a task taken out".into(), withdrawn_task()));
    done.push(("what cannot be taken out".into(), no_withdrawal(counts)));
    done.push(("a hold holds others back".into(), hold_blocks()));
    done.push(("the width of a job".into(), widths()));
    done.push(("rows with a fence".into(), fences::rows()));
    for count in 1..32 {
        done.push((format!("anything past a count of {count}"), past_the_count(counts, count)));
    }
    done
}
