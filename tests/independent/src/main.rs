//! The independent reference program. It computes everything the literal way
//! of document 01; FORMATS.md describes its streams.

mod change;
mod checksum;
mod construction;
mod examples;
mod hex;
mod live;
mod make;
mod number;
mod page;
mod place;
mod questions;
mod random;
mod record;
mod refusal;
mod script;
mod seats;
mod stream;
mod views;

use make::{calls, edges, records, scripts};
use random::Random;
use std::io::{stdin, stdout, BufWriter, Read, Result, Write};
use std::process::exit;
use stream::records as record_stream;
use stream::scripts as script_stream;

const USAGE: &str = "usage: independent page | pages | play | edges | calls
       independent make SEED COUNT
       independent scripts SEED COUNT";

const OUTPUT_ROOM: usize = 1 << 16;

fn main() -> Result<()> {
    let arguments: Vec<String> = std::env::args().skip(1).collect();
    let words: Vec<&str> = arguments.iter().map(String::as_str).collect();
    let input = stdin().lock();
    let output = &mut BufWriter::with_capacity(OUTPUT_ROOM, stdout().lock());
    match words[..] {
        ["page"] => print_page(input, output),
        ["pages"] => record_stream::print_pages(input, output),
        ["play"] => script_stream::print_answers(input, output),
        ["edges"] => record_stream::write(output, edges::records().into_iter()),
        ["calls"] => output.write_all(calls::stream().as_bytes()),
        ["make", seed, count] => {
            record_stream::write(output, several(records::record, seed, count))
        }
        ["scripts", seed, count] => {
            script_stream::write(output, several(scripts::script, seed, count))
        }
        _ => refuse_arguments(),
    }?;
    output.flush()
}

fn print_page(input: impl Read, output: &mut impl Write) -> Result<()> {
    let mut bytes = Vec::new();
    input.take(page::TAKEN as u64).read_to_end(&mut bytes)?;
    page::print(&bytes, output)
}

/// So many things made one after the other from one seed.
fn several<Thing>(
    make: impl Fn(&mut Random) -> Thing,
    seed: &str,
    count: &str,
) -> impl Iterator<Item = Thing> {
    let mut random = Random::new(number(seed));
    (0..number(count)).map(move |_| make(&mut random))
}

fn number(word: &str) -> u64 {
    word.parse().unwrap_or_else(|_| refuse_arguments())
}

fn refuse_arguments() -> ! {
    eprintln!("{USAGE}");
    exit(2)
}
