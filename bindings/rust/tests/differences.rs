//! What differs first of a reply, with its values, of which the line `lawful` of `bench` prints a number alone: replies to an offer
//! of two sets, AH with ESP and ESP alone.

use tallowbrim::{book, difference, lawful, message, Difference, AH, ESP, QUICK_MODE};

/// A transform: its number, its ID and its attributes.
type Transform<'a> = (u8, u8, &'a [u8]);

/// The IDs that suit.
const AH_ID: u8 = 20;
const ESP_ID: u8 = 129;

/// The attributes that suit, tunnel to 3,600 seconds, with authentication at the end; an ESP that goes with AH has none.
const ALL: &[u8] = &[0x80, 4, 0, 1, 0x80, 1, 0, 1, 0x80, 2, 0x0e, 0x10, 0x80, 5, 0, 20];
const NO_AUTHENTICATION: &[u8] = ALL.split_at(12).0;

/// Books of one line: quick, AH with ESP, tunnel, to 3,600 seconds; main, to 3,600 seconds.
const PAIR: &[u8] = &[0, 1, 2, 1, 0, 0, 0x0e, 0x10];
const MAIN: &[u8] = &[1, 0, 0, 0x0e, 0x10, 0];

/// Parts one behind the other, in front of each what is next, which is 0 at the last, a zero byte and its length.
fn chain(next: u8, parts: &[Vec<u8>]) -> Vec<u8> {
    let headed = |(at, part): (usize, &Vec<u8>)| {
        let [high, low] = (part.len() as u16 + 4).to_be_bytes();
        [&[if at + 1 == parts.len() { 0 } else { next }, 0, high, low], &part[..]].concat()
    };
    parts.iter().enumerate().flat_map(headed).collect()
}

fn proposal(set: u8, protocol: u8, transforms: &[Transform]) -> Vec<u8> {
    let of_each = transforms.iter().map(|&(number, id, attributes)| [&[number, id, 0, 0], attributes].concat());
    let chained = chain(3, &of_each.collect::<Vec<_>>());
    [&[set, protocol, 4, transforms.len() as u8, 0, 0, 1, 0], &chained[..]].concat()
}

/// A quick mode message whose only payload is an SA payload of these proposals.
fn of_proposals(proposals: &[Vec<u8>]) -> Vec<u8> {
    let payload = chain(0, &[[&[0, 0, 0, 1, 0, 0, 0, 1], &chain(2, proposals)[..]].concat()]);
    let cookies = [[1; 8], [2; 8]].concat();
    let length = (28 + payload.len() as u32).to_be_bytes();
    [&cookies, &[1, 0x11, QUICK_MODE, 0, 0, 0, 0, 7][..], &length, &payload].concat()
}

fn ah(set: u8, number: u8) -> Vec<u8> {
    proposal(set, AH, &[(number, AH_ID, ALL)])
}

fn esp(set: u8, number: u8) -> Vec<u8> {
    proposal(set, ESP, &[(number, ESP_ID, NO_AUTHENTICATION)])
}

fn esp_alone(set: u8, number: u8) -> Vec<u8> {
    proposal(set, ESP, &[(number, ESP_ID, ALL)])
}

/// Set 1 with two transforms in each proposal, and set 4.
fn offered() -> [Vec<u8>; 3] {
    [
        proposal(1, AH, &[(1, AH_ID, ALL), (4, AH_ID, ALL)]),
        proposal(1, ESP, &[(2, ESP_ID, NO_AUTHENTICATION), (5, ESP_ID, NO_AUTHENTICATION)]),
        esp_alone(4, 1),
    ]
}

/// What differs first is this, and the reply is lawful or refused with this number.
fn expect(offer: &[u8], reply: &[u8], book: Option<&[u8]>, expected: Difference, number: Option<u32>) {
    assert_eq!(difference(offer, reply, book), expected);
    assert_eq!(lawful(offer, reply, book).err().map(|refusal| refusal.number()), number, "{expected:?}");
}

#[test]
fn a_lawful_reply_differs_in_nothing() {
    let [offer, reply] = [of_proposals(&offered()), of_proposals(&[ah(1, 1), esp(1, 2)])];
    for book in [None, Some(PAIR)] {
        expect(&offer, &reply, book, Difference::Nothing, None);
    }
}

#[test]
fn what_cannot_be_read_first_is_told_with_its_refusal() {
    let offer = of_proposals(&offered());
    let [no_message, no_book] = [message(&[]).unwrap_err(), book(&[]).unwrap_err()];
    expect(&[], &[], Some(&[]), Difference::OfferRefused(no_message), Some(30));
    expect(&offer, &[], Some(&[]), Difference::BookRefused(no_book), Some(8_193));
    for book in [None, Some(PAIR)] {
        expect(&offer, &[], book, Difference::ReplyRefused(no_message), Some(30));
    }
}

#[test]
fn a_reply_that_does_not_repeat_the_offer_is_refused_with_15() {
    let offer = of_proposals(&offered());
    for (proposals, expected) in [
        (offered().to_vec(), Difference::SeveralSets(2)),
        (vec![ah(3, 1), esp(3, 2)], Difference::SetNotOffered(3)),
        (vec![esp(1, 2)], Difference::Protocols),
        (vec![esp(1, 2), ah(1, 1)], Difference::Order),
        (vec![ah(1, 1), offered()[1].clone()], Difference::SeveralTransforms { protocol: ESP, count: 2 }),
        (vec![ah(1, 7), esp(1, 2)], Difference::TransformNotOffered { protocol: AH, number: 7 }),
        (
            vec![ah(1, 1), proposal(1, ESP, &[(5, 12, NO_AUTHENTICATION)])],
            Difference::Id { protocol: ESP, number: 5, found: 12, offered: ESP_ID },
        ),
        (
            vec![proposal(1, AH, &[(4, AH_ID, NO_AUTHENTICATION)]), esp(1, 2)],
            Difference::Attributes { protocol: AH, number: 4 },
        ),
    ] {
        for book in [None, Some(PAIR)] {
            expect(&offer, &of_proposals(&proposals), book, expected, Some(15));
        }
    }
}

#[test]
fn a_reply_that_is_not_the_choice_of_the_book_is_refused_with_14() {
    let offer = of_proposals(&offered());
    for (proposals, book, expected) in [
        (vec![esp_alone(4, 1)], PAIR, Difference::OtherSet { found: 4, chosen: 1 }),
        (vec![ah(1, 1), esp(1, 5)], PAIR, Difference::OtherTransform { protocol: ESP, found: 5, chosen: 2 }),
        (vec![esp_alone(4, 1)], MAIN, Difference::NothingChosen),
    ] {
        let reply = of_proposals(&proposals);
        expect(&offer, &reply, Some(book), expected, Some(14));
        expect(&offer, &reply, None, Difference::Nothing, None);
    }
}
