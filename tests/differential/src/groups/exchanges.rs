//! Whole exchanges at random: honest ones, ones over a network that loses, repeats and reorders, and ones in which
//! anything happens. After every line the state and the kept buffers of its end are compared too.

use super::{Group, END_ANSWERS, LATER_STATES, PLAIN, READ_REFUSALS};
use crate::cases::Cases;
use crate::exchange::{
    last_states, random_identities, random_message_id, suiting_given, Followed, Given, Identities, Role, State, ROLES,
};
use crate::policy::Line;
use crate::random::Random;
use crate::wild::Wild;
use Role::{Initiator, Responder};

const HONEST: usize = 3_000;
const WITH_LOSSES_AND_REPEATS: usize = 6_400;
const LOSSY: usize = 4_000;
const TICKING: usize = 600;
const NOT_SUITING: usize = 400;
const CHANGED: usize = 4_500;
const ANYTHING: usize = 4_500;

/// Of so many exchanges, a third must end with both ends open.
const EXCHANGES_MADE: usize = HONEST + WITH_LOSSES_AND_REPEATS + LOSSY + TICKING + NOT_SUITING + CHANGED + ANYTHING;
const _: () = assert!(EXCHANGES_MADE >= 20_000);

pub const GROUP: Group = Group {
    name: "exchanges",
    answers: &[
        END_ANSWERS,
        LATER_STATES,
        READ_REFUSALS,
        &["refused 14", "refused 23", "refused 8192", "refused 8193", "refused 8195", "refused 8196"],
    ],
    at_least: 50,
    occasions: &[
        ("both open", EXCHANGES_MADE / 3, |_, answers| both_open(answers)),
        ("both open with AH and ESP", 1_000, |_, answers| both_open(answers) && transforms(answers) == 2),
        ("both open with ESP alone", 1_000, |_, answers| both_open(answers) && transforms(answers) == 1),
        ("both open with identities", 1_000, |case, answers| both_open(answers) && case.detail.contains(WITH)),
        ("both open without identities", 1_000, |case, answers| both_open(answers) && case.detail.contains(WITHOUT)),
        ("both open after a loss", 1_000, |case, answers| both_open(answers) && case.detail.contains("lost")),
        ("both open after a repeat", 1_000, |case, answers| both_open(answers) && case.detail.contains("repeats")),
        ("initiator open and responder given up", 20, |_, answers| {
            last_states(answers).is_some_and(|[i, r]| i.starts_with("open ") && r.starts_with("given-up "))
        }),
        ("both given up", 50, |_, answers| {
            last_states(answers).is_some_and(|states| states.iter().all(|state| state.starts_with("given-up ")))
        }),
    ],
    kinds: &[
        ("honest exchange", honest),
        ("honest exchange with losses and repeats", honest_with_losses_and_repeats),
        ("network that loses, repeats and reorders", lossy_network),
        ("ticks to the end and beyond", ticks_to_the_end),
        ("policy that does not suit", not_suiting),
        ("messages changed on their way", changed_on_their_way),
        ("anything in any state", anything),
    ],
    ..PLAIN
};

const WITH: &str = "with identities";
const WITHOUT: &str = "without identities";

fn both_open(answers: &[String]) -> bool {
    last_states(answers).is_some_and(|states| states.iter().all(|state| state.starts_with("open ")))
}

/// How many transforms the initiator has agreed on.
fn transforms(answers: &[String]) -> usize {
    let state = last_states(answers).map_or("", |[initiator, _]| initiator.as_str());
    let words = state.split(' ').skip_while(|word| *word != "transforms").skip(1);
    words.take_while(|word| *word != "initiator-spis").count()
}

fn about(identities: &Identities) -> String {
    if identities.is_some() { WITH } else { WITHOUT }.to_string()
}

fn followed(random: &mut Random, cases: &mut Cases, given: [Given; 2]) -> Followed {
    let identities = random_identities(random);
    cases.detail = about(&identities);
    Followed::new(given, random_message_id(random), identities)
}

/// The hash bytes as the phone fills them in, or as they were written.
fn random_hash(random: &mut Random) -> Vec<u8> {
    if random.once_in(3) {
        return vec![0; 32];
    }
    random.bytes(32)
}

fn arrives(random: &mut Random, followed: &mut Followed, number: usize) {
    let hash = random_hash(random);
    followed.arrives(number, &hash);
}

fn honest(random: &mut Random, cases: &mut Cases) {
    for _ in 0..HONEST {
        let given = suiting_given(random);
        let mut followed = followed(random, cases, given);
        followed.begin();
        (1..=3).for_each(|number| arrives(random, &mut followed, number));
        followed.finish(cases);
    }
}

/// One message is lost and sent again, or arrives more than once, or both. While two ends wait, ticks are few.
fn honest_with_losses_and_repeats(random: &mut Random, cases: &mut Cases) {
    for _ in 0..WITH_LOSSES_AND_REPEATS {
        let given = suiting_given(random);
        let mut followed = followed(random, cases, given);
        let lost = [0, random.between(1, 3)][random.below(2)];
        let repeats = random.once_in(2);
        if lost > 0 {
            cases.detail += ", one lost";
        }
        if repeats {
            cases.detail += ", repeats";
        }
        followed.begin();
        for number in 1..=3 {
            if number == lost {
                sent_again(random, &mut followed, number);
            }
            arrives(random, &mut followed, number);
            while repeats && random.once_in(3) {
                let any = random.between(1, number);
                arrives(random, &mut followed, any);
            }
        }
        if repeats {
            arrives(random, &mut followed, 1);
        }
        followed.finish(cases);
    }
}

/// The lost message is sent once more: messages 1 and 2 by a tick of their writer, 2 also by message 1 once more, and 3 by
/// message 2 once more.
fn sent_again(random: &mut Random, followed: &mut Followed, number: usize) {
    match number {
        1 => followed.tick(Initiator),
        2 if random.once_in(2) => {
            followed.tick(Initiator);
            arrives(random, followed, 1);
        }
        2 => followed.tick(Responder),
        _ => {
            followed.tick(Responder);
            arrives(random, followed, 2);
        }
    }
}

fn lossy_network(random: &mut Random, cases: &mut Cases) {
    for _ in 0..LOSSY {
        let given = suiting_given(random);
        let mut followed = followed(random, cases, given);
        let patience = random.between(2, 12);
        if !random.once_in(20) {
            followed.begin();
        }
        for _ in 0..random.between(3, 12) {
            let written = followed.written();
            match random.below(patience) {
                0 => followed.tick(random.one_of(&ROLES)),
                1 if random.once_in(4) => followed.begin(),
                _ if written.is_empty() => followed.tick(Initiator),
                _ => {
                    let number = if random.once_in(2) { written[written.len() - 1] } else { random.one_of(&written) };
                    arrives(random, &mut followed, number);
                }
            }
        }
        followed.finish(cases);
    }
}

/// One end or both tick until they give up, then everything is tried.
fn ticks_to_the_end(random: &mut Random, cases: &mut Cases) {
    for time in 0..TICKING {
        let given = suiting_given(random);
        let mut followed = followed(random, cases, given);
        followed.tick(random.one_of(&ROLES));
        followed.begin();
        arrives(random, &mut followed, 1);
        let patient = [&[Responder][..], &[Initiator], &ROLES][time % 3];
        if time % 9 == 0 {
            arrives(random, &mut followed, 2);
        }
        for _ in 0..6 {
            patient.iter().for_each(|&role| followed.tick(role));
            if random.once_in(3) {
                let written = followed.written();
                let number = random.one_of(&written);
                if followed.states[usize::from(number != 2)] == State::GivenUp {
                    arrives(random, &mut followed, number);
                }
            }
        }
        followed.begin();
        for number in followed.written() {
            arrives(random, &mut followed, number);
        }
        followed.finish(cases);
    }
}

fn not_suiting(random: &mut Random, cases: &mut Cases) {
    for _ in 0..NOT_SUITING {
        let mut given = suiting_given(random);
        let offered = given[0].book.quick.clone();
        let unlike = |line: &Line| offered.iter().all(|other| other.mode != line.mode);
        given[1].book.quick.retain(unlike);
        let mut followed = followed(random, cases, given);
        followed.begin();
        for _ in 0..3 {
            arrives(random, &mut followed, 1);
            followed.tick(random.one_of(&ROLES));
        }
        followed.finish(cases);
    }
}

/// The exchange goes on as an honest one, and in between come changed messages.
fn changed_on_their_way(random: &mut Random, cases: &mut Cases) {
    for _ in 0..CHANGED {
        let mut wild = Wild::new(random);
        cases.detail = about(&wild.identities);
        for _ in 0..random.between(2, 5) {
            if random.once_in(2) {
                wild.changed(random);
            }
            wild.go_on(random);
        }
        wild.exchange.finish(cases);
    }
}

fn anything(random: &mut Random, cases: &mut Cases) {
    for _ in 0..ANYTHING {
        let mut wild = Wild::new(random);
        cases.detail = about(&wild.identities);
        for _ in 0..random.between(3, 8) {
            if random.once_in(2) {
                wild.go_on(random);
            } else {
                wild.anything(random);
            }
        }
        wild.exchange.finish(cases);
    }
}
