//! The messages and books, built from the inside out.

const MAIN_MODE: u8 = 2;
const QUICK_MODE: u8 = 32;

const NONE: u8 = 0;
const SA: u8 = 1;
const PROPOSAL: u8 = 2;
const TRANSFORM: u8 = 3;
const IDENTIFICATION: u8 = 5;
const HASH: u8 = 8;
const NONCE: u8 = 10;

const ISAKMP: u8 = 1;
const AH: u8 = 2;
const ESP: u8 = 3;

const LIFE: u32 = 3_600;

const HEADER_SIZE: usize = 28;
const BLOCK_SIZE: usize = 16;

/// Hash, SA with four sets, nonce and two identities, padded to whole blocks.
pub fn quick_mode() -> Vec<u8> {
    let esp_alone = [fixed(4, 1), fixed(1, 1), seconds(2, 3_600), fixed(5, 20), fixed(6, 128)];
    let ah = [fixed(4, 1), fixed(1, 1), seconds(2, 3_600), fixed(5, 20)];
    let esp_after_ah = [fixed(4, 1), fixed(1, 1), seconds(2, 3_600), fixed(6, 128)];
    let offer = sa(&[
        (1, ESP, 129, &esp_alone),
        (2, AH, 20, &ah),
        (2, ESP, 129, &esp_after_ah),
        (3, ESP, 129, &esp_alone),
        (4, AH, 20, &ah),
        (4, ESP, 129, &esp_after_ah),
    ]);
    quick_mode_with(offer)
}

/// What `compare` gives where only the last set suits, and it only the last line; it is asked of the first set and line too.
pub fn over_choices(compare: fn(&str, &[u8], &[u8]) -> f64) -> f64 {
    let [last, _first] = choices().map(|(name, book, message)| compare(name, &book, &message));
    last
}

/// A book of eight lines and an offer of eight sets, AH with ESP each, that differ in their seconds alone: twice, by what is chosen.
fn choices() -> [(&'static str, Vec<u8>, Vec<u8>); 2] {
    let [mut lives, mut longest] = [[LIFE + 1; 8], [LIFE - 1; 8]];
    (lives[7], longest[7]) = (LIFE, LIFE);
    [
        ("last set, last line", lines(&longest), eight_sets(lives)),
        ("first set, first line", lines(&[LIFE; 8]), eight_sets([LIFE; 8])),
    ]
}

/// The quick mode message with eight sets of AH with ESP, each with its life in seconds.
fn eight_sets(lives: [u32; 8]) -> Vec<u8> {
    let sets = lives.map(|life| {
        let esp = [fixed(4, 1), fixed(1, 1), seconds(2, life)];
        let ah = [&esp[..], &[fixed(5, 20)]].concat();
        (ah, esp)
    });
    let proposals: Vec<(u8, u8, u8, &[Vec<u8>])> = (1..)
        .zip(&sets)
        .flat_map(|(number, (ah, esp))| [(number, AH, 20, &ah[..]), (number, ESP, 129, &esp[..])])
        .collect();
    quick_mode_with(sa(&proposals))
}

/// A book of quick lines of AH with ESP in mode 1, each with its longest seconds.
pub fn lines(longest: &[u32]) -> Vec<u8> {
    let mut book = vec![0, longest.len() as u8];
    for seconds in longest {
        book.extend([2, 1]);
        book.extend(seconds.to_be_bytes());
    }
    book
}

fn quick_mode_with(offer: Vec<u8>) -> Vec<u8> {
    let subnet = [&[4, 0, 0, 0][..], &[192, 0, 2, 0], &[255, 255, 255, 0]].concat();
    let bodies = [
        (HASH, vec![0x5a; 32]),
        (SA, offer),
        (NONCE, vec![0xa5; 16]),
        (IDENTIFICATION, subnet.clone()),
        (IDENTIFICATION, subnet),
    ];
    message(QUICK_MODE, 1, 0x0102_0304, &bodies)
}

/// An SA payload with one proposal.
pub fn main_mode() -> Vec<u8> {
    let attributes = [fixed(1, 129), fixed(2, 20), fixed(3, 10), fixed(20, 2), fixed(11, 1), seconds(12, 86_400)];
    message(MAIN_MODE, 0, 0, &[(SA, sa(&[(1, ISAKMP, 1, &attributes)]))])
}

/// The quick mode message with a last byte that is no padding.
pub fn refused_at_its_last_byte() -> Vec<u8> {
    let mut message = quick_mode();
    *message.last_mut().expect("a message has bytes") = 1;
    message
}

fn message(exchange: u8, flags: u8, id: u32, bodies: &[(u8, Vec<u8>)]) -> Vec<u8> {
    let types: Vec<u8> = bodies.iter().map(|(kind, _)| *kind).chain([NONE]).collect();
    let mut payloads = Vec::new();
    for ((_, body), next) in bodies.iter().zip(&types[1..]) {
        payloads.extend(item(*next, body));
    }
    if flags == 1 {
        payloads.resize(payloads.len().next_multiple_of(BLOCK_SIZE), 0);
    }
    let length = (HEADER_SIZE + payloads.len()) as u32;
    let cookies = [[0x11; 8], [if exchange == QUICK_MODE { 0x22 } else { 0 }; 8]].concat();
    [&cookies[..], &[types[0], 0x11, exchange, flags], &id.to_be_bytes(), &length.to_be_bytes(), &payloads].concat()
}

/// The body of an SA payload: of each proposal its number, protocol, transform ID and attributes. Each has two transforms.
fn sa(proposals: &[(u8, u8, u8, &[Vec<u8>])]) -> Vec<u8> {
    let mut body = [1u32.to_be_bytes(), 1u32.to_be_bytes()].concat();
    for (place, &(number, protocol, id, attributes)) in proposals.iter().enumerate() {
        let next = if place + 1 == proposals.len() { NONE } else { PROPOSAL };
        let spi: &[u8] = if protocol == ISAKMP { &[] } else { &[0x10, 0, 0, number] };
        let first = transform(TRANSFORM, 1, id, attributes);
        let last = transform(NONE, 2, id, attributes);
        body.extend(item(next, &[&[number, protocol, spi.len() as u8, 2], spi, &first, &last].concat()));
    }
    body
}

fn transform(next: u8, number: u8, id: u8, attributes: &[Vec<u8>]) -> Vec<u8> {
    item(next, &[&[number, id, 0, 0], &attributes.concat()[..]].concat())
}

/// Payloads, proposals and transforms begin alike: next, reserved, length.
fn item(next: u8, rest: &[u8]) -> Vec<u8> {
    let [high, low] = (4 + rest.len() as u16).to_be_bytes();
    [&[next, 0, high, low], rest].concat()
}

fn fixed(kind: u16, value: u16) -> Vec<u8> {
    [(0x8000 | kind).to_be_bytes(), value.to_be_bytes()].concat()
}

/// A duration, in the variable form.
fn seconds(kind: u16, value: u32) -> Vec<u8> {
    [&kind.to_be_bytes()[..], &4u16.to_be_bytes(), &value.to_be_bytes()].concat()
}
