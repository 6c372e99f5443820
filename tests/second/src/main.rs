//! The second program: answers the lines of `bench`. `second verdict` is a verdict program instead, `second capture` lists
//! a capture, with a book whose path is given, `second why` says what the words of `why` must tell, of a book of so many
//! bytes if a size is given, and `second lawful` prints what `lawful` does, of an offer and a reply of so many bytes, and of a
//! book if its size is given.

use second::lawful::Sizes;
use second::{bench, capture, lawful, verdict, why};
use std::fs;
use std::io::{self, BufWriter};
use std::str::FromStr;

fn main() {
    let arguments: Vec<String> = std::env::args().skip(1).collect();
    let input = io::stdin().lock();
    let mut output = BufWriter::new(io::stdout().lock());
    let outcome = match arguments.iter().map(String::as_str).collect::<Vec<_>>()[..] {
        [] => bench::answer_all(input, &mut output),
        ["verdict"] => verdict::answer(input, &mut output),
        ["capture"] => capture::answer(input, None, &mut output),
        ["capture", book] => fs::read(book).and_then(|book| capture::answer(input, Some(&book), &mut output)),
        ["why"] => why::tell(input, None, &mut output),
        ["why", book] => why::tell(input, Some(size(book)), &mut output),
        ["lawful", offer, reply] => {
            lawful::tell(input, Sizes { offer: size(offer), reply: size(reply), book: None }, &mut output)
        }
        ["lawful", offer, reply, book] => {
            lawful::tell(input, Sizes { offer: size(offer), reply: size(reply), book: Some(size(book)) }, &mut output)
        }
        _ => usage(),
    };
    if let Err(error) = outcome {
        eprintln!("second: cannot read its input or write its answers: {error}");
        std::process::exit(1);
    }
}

fn size<Number: FromStr>(word: &str) -> Number {
    word.parse().unwrap_or_else(|_| usage())
}

fn usage() -> ! {
    eprintln!("usage: second [verdict | capture [BOOK] | why [SIZE] | lawful SIZE SIZE [SIZE]]");
    std::process::exit(2)
}
