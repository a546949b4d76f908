//! Runs that lead up to the conductor: to a level rack, or to one that falls short of it in some way.

use crate::numbers::{Sort, ROUNDS};
use crate::orders::Orders;
use crate::random::Random;
use crate::script::{order, Script};

/// Leads a run on.
pub type Lead = fn(&mut Random, &mut Script);

pub const LEADS: [(&str, Lead); 13] = [
    ("orders handed out", hand_out),
    ("orders for several slots", |random, script| {
        (0..4).for_each(|_| hand_out(random, script));
    }),
    ("a quorum lit", |random, script| {
        let left = script.numbers.quorum();
        crash_to(random, script, left);
    }),
    ("one less than a quorum lit", |random, script| {
        let left = script.numbers.quorum() - 1;
        crash_to(random, script, left);
    }),
    ("nobody lit", |random, script| crash_to(random, script, 0)),
    ("one has begun", |random, script| {
        begin_one(random, script);
    }),
    ("one has begun and crashed", |random, script| {
        let begun = begin_one(random, script);
        script.crash(begun);
    }),
    ("all in a round", |random, script| {
        let rounds = random.below(ROUNDS.len());
        go_together(script, rounds);
    }),
    ("a quorum is ahead", |random, script| {
        go_ahead(random, script);
    }),
    ("a quorum went ahead, others caught up by a notice", |random, script| {
        let (ahead, behind) = go_ahead(random, script);
        catch_up(random, script, &ahead, &behind);
    }),
    ("one crashed in the middle of a slot", |random, script| {
        let rounds = random.below(ROUNDS.len());
        go_together(script, rounds);
        let left = script.lit().len().saturating_sub(1);
        crash_to(random, script, left);
        script.go_on(script.lit(), &ROUNDS[rounds..]);
    }),
    ("a slot closed empty", |_, script| {
        script.share_apart();
        script.begin(script.lit());
        script.go_on(script.lit(), &ROUNDS);
    }),
    ("full logs", |_, script| {
        // of a long run only the last slots
        for _ in (script.slot(0)..script.numbers.slots).take(8) {
            script.share(unknown(script), script.lit());
            script.conduct();
        }
    }),
];

/// Leads on a run in which all are idle, and answers how. Before that the conductor closes slots, and replicas crash.
pub fn lead_on(random: &mut Random, mut script: Script) -> (Vec<&'static str>, Script) {
    for _ in 0..random.below(script.numbers.slots.min(4)) {
        hand_out(random, &mut script);
        script.conduct();
    }
    if random.one_in(2) {
        let left = random.between(script.numbers.quorum(), script.numbers.n);
        crash_to(random, &mut script, left);
    }
    // half of the racks stay level, and have an order
    let leads: Vec<(&str, Lead)> = match random.below(6) {
        0..3 => vec![LEADS[0]],
        count => (0..count - 2).map(|_| random.pick(&LEADS)).collect(),
    };
    leads.iter().for_each(|(_, lead)| lead(random, &mut script));
    (leads.into_iter().map(|(name, _)| name).collect(), script)
}

/// One to three orders, each held by one, some or all of the lit replicas.
fn hand_out(random: &mut Random, script: &mut Script) {
    let (lit, orders) = (script.lit(), Orders::draw(random));
    for _ in 0..random.between(1, 3) {
        let number = random.between(1, 12);
        let tag = orders.tag(random, number);
        let holders = match random.below(3) {
            0 => lit.clone(),
            1 => lit.iter().copied().filter(|_| random.one_in(2)).collect(),
            _ => one_of(random, &lit).into_iter().collect(),
        };
        script.share(tag, holders);
    }
}

/// Nobody if nobody is lit.
fn one_of(random: &mut Random, lit: &[usize]) -> Option<usize> {
    (!lit.is_empty()).then(|| random.pick(lit))
}

/// An order that nobody has submitted yet.
fn unknown(script: &Script) -> u64 {
    order(100 + script.memories.known())
}

fn crash_to(random: &mut Random, script: &mut Script, left: usize) {
    let mut lit = script.lit();
    while lit.len() > left {
        script.crash([lit.swap_remove(random.below(lit.len()))]);
    }
}

/// Answers who has begun.
fn begin_one(random: &mut Random, script: &mut Script) -> Option<usize> {
    let who = one_of(random, &script.lit())?;
    script.share(unknown(script), [who]);
    script.begin([who]);
    Some(who)
}

/// All lit ones begin and go through so many rounds.
fn go_together(script: &mut Script, rounds: usize) {
    script.share(unknown(script), script.lit());
    script.begin(script.lit());
    script.go_on(script.lit(), &ROUNDS[..rounds]);
}

/// A quorum closes a slot without the others. Answers both.
fn go_ahead(random: &mut Random, script: &mut Script) -> (Vec<usize>, Vec<usize>) {
    let mut ahead = script.lit();
    if random.one_in(2) {
        ahead.reverse();
    }
    let behind = ahead.split_off(script.numbers.quorum().min(ahead.len()));
    script.share(unknown(script), ahead.clone());
    script.begin(ahead.clone());
    script.go_on(ahead.clone(), &ROUNDS);
    (ahead, behind)
}

/// Those behind hear of the slot's entry, some of them in a round.
fn catch_up(random: &mut Random, script: &mut Script, ahead: &[usize], behind: &[usize]) {
    for &who in behind {
        if random.one_in(2) {
            script.begin([who]);
        }
        script.hear(who, ahead.iter().copied().take(random.between(1, 2)), Sort::Notice);
        script.run_on([who]);
    }
}
