//! `sample N [--seed S]` writes the lines of N cases of the differential run, for programs that answer the lines of `bench`: as
//! many of each group as of the others, and in a group of each kind. What tries the reading of lines alone is left out.

use differential::cases::{Case, ProgramsOf};
use differential::groups::{self, Group};
use differential::DEFAULT_SEED;
use std::io::{self, BufWriter, Write};

/// The groups that try how `bench` takes its lines in.
const OF_THE_LINE_READER: [&str; 2] = ["lines", "sequence-lines"];
/// The groups that are put to other programs; some of their cases are lines of other groups once more.
const OF_OTHER_PROGRAMS: [&str; 4] = ["verdicts", "why-words", "lawful-words", "captures"];

fn main() {
    let Some((count, seed)) = request(std::env::args().skip(1)) else {
        eprintln!("usage: sample N [--seed S]");
        std::process::exit(2)
    };
    let mut output = BufWriter::new(io::stdout().lock());
    if let Err(error) = write_sample(count, seed, &mut output).and_then(|()| output.flush()) {
        eprintln!("sample: cannot write the lines: {error}");
        std::process::exit(1);
    }
}

fn request(mut arguments: impl Iterator<Item = String>) -> Option<(usize, u64)> {
    let count = arguments.next()?.parse().ok()?;
    let seed = match (arguments.next(), arguments.next()) {
        (None, _) => DEFAULT_SEED,
        (Some(option), Some(seed)) if option == "--seed" => seed.parse().ok()?,
        _ => return None,
    };
    arguments.next().is_none().then_some((count, seed))
}

/// What a group lacks is taken from those behind it.
fn write_sample(count: usize, seed: u64, output: &mut impl Write) -> io::Result<()> {
    let is_of_lines = |group: &&Group| ![&OF_THE_LINE_READER[..], &OF_OTHER_PROGRAMS].concat().contains(&group.name);
    let groups: Vec<_> = groups::ALL.iter().filter(is_of_lines).collect();
    let mut left = count;
    for (place, group) in groups.iter().enumerate() {
        let written = write_group(left / (groups.len() - place), group, &group.cases(seed), output)?;
        left -= written;
    }
    Ok(())
}

/// Writes so many cases of a group, or all that there are; how many that were.
fn write_group(count: usize, group: &Group, cases: &[Case], output: &mut impl Write) -> io::Result<usize> {
    let of_kind = |kind| cases.iter().filter(|case| case.kind == kind && is_good(case)).collect::<Vec<_>>();
    let kinds: Vec<_> = group.kinds.iter().map(|&(kind, _)| of_kind(kind)).collect();
    let shares = shares(count, &kinds.iter().map(Vec::len).collect::<Vec<_>>());
    for (cases, &share) in kinds.iter().zip(&shares) {
        let chosen = if group.in_order { cases[..share].to_vec() } else { spread(cases, share) };
        for case in &chosen {
            output.write_all(&case.input)?;
        }
        // A kind begins with an empty table, and what is cut off would have emptied it.
        if group.in_order {
            chosen.iter().filter_map(|case| key(case)).try_for_each(|key| writeln!(output, "remove {key}"))?;
        }
    }
    Ok(shares.iter().sum())
}

/// Whether its lines can go among others, and none of them is known to be a bad one.
fn is_good(case: &Case) -> bool {
    case.programs == ProgramsOf::Lines && !case.answers.iter().flatten().any(|answer| answer == "bad line")
}

/// As many of each as of the others, as far as there are so many.
fn shares(total: usize, counts: &[usize]) -> Vec<usize> {
    let mut from_the_fewest: Vec<_> = (0..counts.len()).collect();
    from_the_fewest.sort_by_key(|&at| counts[at]);
    let mut shares = vec![0; counts.len()];
    let mut left = total;
    for (place, at) in from_the_fewest.into_iter().enumerate() {
        shares[at] = counts[at].min(left / (counts.len() - place));
        left -= shares[at];
    }
    shares
}

/// So many of them, from the first on at equal distances.
fn spread<T: Copy>(all: &[T], count: usize) -> Vec<T> {
    (0..count).map(|place| all[place * all.len() / count]).collect()
}

/// The words `DST PROTOCOL SPI` of the life that a line may have begun: one that is added, or a packet's of a frame.
fn key(case: &Case) -> Option<String> {
    let line = std::str::from_utf8(&case.input).ok()?.trim_end();
    if let Some(key) = line.strip_prefix("add ") {
        return Some(key.to_string());
    }
    let answer = case.answers.first()?.as_ref()?;
    match answer.split(' ').collect::<Vec<_>>()[..] {
        [_, ">", destination, name @ ("AH" | "ESP"), spi, "number", ..] => {
            let destination: u32 = destination.parse::<std::net::Ipv4Addr>().ok()?.into();
            Some(format!("{destination:08x} {} {spi}", if name == "AH" { 2 } else { 3 }))
        }
        _ => None,
    }
}

#[cfg(test)]
mod tests {
    use super::*;
    use std::collections::BTreeSet;

    #[test]
    fn shares_are_equal_as_far_as_there_are_so_many() {
        assert_eq!(shares(10, &[100, 100]), [5, 5]);
        assert_eq!(shares(10, &[100, 1, 3]), [6, 1, 3]);
        assert_eq!(shares(11, &[4, 4]), [4, 4]);
        assert_eq!(shares(0, &[4]), [0]);
        assert_eq!(spread(&[0, 1, 2, 3, 4, 5, 6], 3), [0, 2, 4]);
    }

    #[test]
    fn every_verb_occurs() {
        let mut sample = Vec::new();
        write_sample(1_000, DEFAULT_SEED, &mut sample).expect("memory takes all");
        let text = String::from_utf8(sample).expect("good lines are ASCII");
        let verbs: BTreeSet<_> = text.lines().filter_map(|line| line.split(' ').next()).collect();
        #[rustfmt::skip]
        let all = [
            "add", "begin", "book", "choose", "deliver", "der", "frame", "fresh", "identity", "kept", "lawful", "lent",
            "loss", "nonce", "packet", "plain", "port", "read", "remove", "reply", "room", "send", "state", "tick", "why",
        ];
        assert_eq!(verbs, BTreeSet::from(all));
    }
}
