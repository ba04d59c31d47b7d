//! Compares the block of the C library with the reference's, call by call, to the byte.
//!
//!     cargo run --release --manifest-path tests/block/Cargo.toml [STEPS [SEED]]
//!
//! Runs of steps are drawn from a seed: on fresh blocks, on blocks with any bytes behind the head, and on blocks with
//! damaged heads or wrong lengths. After every call the number returned, the answer and the whole block must be those
//! of the reference. The first difference ends the program with status 1; a census says what came up.

mod census;
mod draws;
mod library;
mod pair;
mod random;

use std::env;
use std::process::ExitCode;

use census::Census;
use draws::Geometry;
use pair::{Call, Pair, SHIFTS};
use random::Random;

/// Steps of a run. Blocks of many sets have fewer: they are compared whole after every step.
const RUN: u64 = 160;
const LONG_BLOCK: usize = 4096;
const LONG_RUN: u64 = 16;

/// A block of a drawn geometry: fresh, with any bytes behind its head, or not of its length.
fn lent(random: &mut Random, geometry: &Geometry, census: &mut Census) -> Result<Pair, String> {
    let Geometry { sets, ways, rule } = *geometry;
    let shift = random.below(SHIFTS as u64) as usize;
    let mut block = draws::any_block(random, geometry);
    if random.once_in(8) {
        block.resize(draws::wrong_length(random, block.len()), 0);
    }
    let mut pair = Pair::new(&block, shift);
    if random.once_in(4) {
        let mut numbers = [sets, ways, rule];
        numbers[random.below(3) as usize] = draws::odd_number(random);
        let [sets, ways, rule] = numbers;
        pair.call(Call::Fresh { sets, ways, rule }, census)?;
        // If that stood, the block's geometry is another one; the head is put back.
        pair = Pair::new(&block, shift);
    }
    if !random.once_in(3) {
        pair.call(Call::Fresh { sets, ways, rule }, census)?;
    }
    for call in draws::division(random, geometry) {
        pair.call(call, census)?;
    }
    Ok(pair)
}

/// One step, on the block as it is, or with another head that is put back.
fn one_step(random: &mut Random, geometry: &Geometry, pair: &mut Pair, census: &mut Census) -> Result<(), String> {
    let head = geometry.head();
    let damaged = pair.bytes().len() >= head.len() && random.once_in(64);
    if damaged {
        pair.write(0, &draws::another_head(random, geometry));
    }
    let step = draws::step(random, geometry, pair.bytes());
    pair.call(step, census)?;
    if damaged {
        pair.write(0, &head);
    }
    Ok(())
}

/// One block and its steps.
fn run(random: &mut Random, census: &mut Census) -> Result<(), String> {
    let geometry = Geometry::drawn(random);
    let mut pair = lent(random, &geometry, census)?;
    let stands = pair.bytes().len() == geometry.length();
    let steps = if stands && pair.bytes().len() <= LONG_BLOCK { RUN } else { LONG_RUN };
    for _ in 0..steps {
        if stands && random.once_in(32) {
            draws::poke(random, &mut pair);
        }
        one_step(random, &geometry, &mut pair, census)?;
    }
    Ok(())
}

/// The number in an argument, or the one that is meant without it.
fn number(place: usize, meant: u64) -> Result<u64, String> {
    let word = env::args().nth(place);
    word.map_or(Ok(meant), |word| word.parse().map_err(|_| format!("usage: block [STEPS [SEED]], not {word}")))
}

fn compare() -> Result<Census, String> {
    let (steps, seed) = (number(1, 1_000_000)?, number(2, 1)?);
    let (mut random, mut census) = (Random::new(seed), Census::default());
    while census.steps < steps {
        run(&mut random, &mut census).map_err(|said| {
            format!(
                "a difference after {} fresh calls and {} steps of seed {seed}:\n{said}",
                census.fresh, census.steps
            )
        })?;
    }
    Ok(census)
}

fn main() -> ExitCode {
    match compare() {
        Ok(census) => {
            print!("{census}");
            println!("no difference");
            ExitCode::SUCCESS
        }
        Err(said) => {
            eprintln!("{said}");
            ExitCode::FAILURE
        }
    }
}
