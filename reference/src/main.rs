//! The reference lister: it reads a file from standard input and writes a text about it. The library says which texts
//! there are, and how it is built up.

use std::env;
use std::io::{self, Read, Write};

use reference::{domains, listing, purge, rules, slices, trace, visits};

/// Standard input, to its end. Of a file longer than the largest one that stands, one byte too many is kept: enough for
/// its length to be refused, however long it is.
fn read_file() -> io::Result<Vec<u8>> {
    let mut input = io::stdin().lock();
    let mut file = Vec::with_capacity(trace::LARGEST_FILE + 1);
    input.by_ref().take(trace::LARGEST_FILE as u64 + 1).read_to_end(&mut file)?;
    io::copy(&mut input, &mut io::sink())?;
    Ok(file)
}

/// What is to be written about a file.
type TextOf = Box<dyn Fn(&[u8]) -> String>;

/// What is wanted, by the arguments of the program.
fn text_wanted(arguments: &[String]) -> Option<TextOf> {
    let words: Vec<&str> = arguments.iter().map(String::as_str).collect();
    match words[..] {
        [] => Some(Box::new(listing::of_file)),
        ["rules"] => Some(Box::new(rules::of_file)),
        ["visits"] => Some(Box::new(visits::of_file)),
        ["slices"] => Some(Box::new(slices::of_file)),
        ["purge", domain] => {
            let domain = (0..domains::DOMAINS as u8).find(|number| number.to_string() == domain)?;
            Some(Box::new(move |file| purge::of_file(domain, file)))
        }
        _ => None,
    }
}

fn main() -> io::Result<()> {
    let arguments: Vec<String> = env::args_os().skip(1).map(|word| word.to_string_lossy().into_owned()).collect();
    let usage = "usage: reference [rules | visits | slices | purge DOMAIN] < FILE, where DOMAIN is 0 to 15";
    let text_of = text_wanted(&arguments).ok_or(io::Error::other(usage))?;
    let file = read_file()?;
    io::stdout().lock().write_all(text_of(&file).as_bytes())
}
