//! Runs the commands of a script by calls from Rust, again and again: `replay SCRIPT ROUNDS`.
//!
//! It prints a sum of all answers, and the nanoseconds of the fastest round. Reading the script is no part of a round.

use std::time::Instant;
use std::{env, error, fs};

use etagere::{size2, AllocId, Allocation, AllocatorOptions, AtlasAllocator, Rectangle, Size};

/// A command, with the sides that it asks for or the number of an earlier one.
enum Command {
    Allocate(Size),
    Look(usize),
    GiveBack(usize),
}

/// What an `a` got, or an `l` saw; zeros where it got nothing.
fn nothing() -> Allocation {
    Allocation { id: AllocId::deserialize(0), rectangle: Rectangle::default() }
}

// The calls as a caller makes them, each under a name that is counted.

#[no_mangle]
#[inline(never)]
fn allocate(atlas: &mut AtlasAllocator, size: Size) -> Option<Allocation> {
    atlas.allocate(size)
}

#[no_mangle]
#[inline(never)]
fn get(atlas: &AtlasAllocator, id: AllocId) -> Rectangle {
    atlas.get(id)
}

#[no_mangle]
#[inline(never)]
fn deallocate(atlas: &mut AtlasAllocator, id: AllocId) {
    atlas.deallocate(id);
}

/// The work: nothing but calls, and notes of what they answer.
#[no_mangle]
#[inline(never)]
fn replay(atlas: &mut AtlasAllocator, commands: &[Command], answers: &mut [Allocation]) {
    for (number, command) in commands.iter().enumerate() {
        match *command {
            Command::Allocate(size) => {
                if let Some(allocation) = allocate(atlas, size) {
                    answers[number] = allocation;
                }
            }
            Command::Look(of) => answers[number].rectangle = get(atlas, answers[of].id),
            Command::GiveBack(of) => deallocate(atlas, answers[of].id),
        }
    }
}

fn command(line: &str) -> Option<Command> {
    let mut words = line.split(' ');
    let name = words.next()?;
    let mut number = || words.next()?.parse::<usize>().ok();
    Some(match name {
        "a" => Command::Allocate(size2(number()?.try_into().ok()?, number()?.try_into().ok()?)),
        "l" => Command::Look(number()?),
        "r" => Command::GiveBack(number()?),
        _ => return None,
    })
}

/// The size and the options that the first line of a script says.
fn header(line: &str) -> Option<(Size, AllocatorOptions)> {
    let words: Vec<&str> = line.split(' ').collect();
    let ["atlas", width, height, x, y, num_columns, direction] = words[..] else { return None };
    let pair = |one: &str, two: &str| Some(size2(one.parse().ok()?, two.parse().ok()?));
    let options = AllocatorOptions {
        alignment: pair(x, y)?,
        num_columns: num_columns.parse().ok()?,
        vertical_shelves: direction == "v",
    };
    Some((pair(width, height)?, options))
}

fn sum(answers: &[Allocation]) -> u64 {
    let numbers = answers.iter().flat_map(|answer| {
        let Rectangle { min, max } = answer.rectangle;
        let corners = [min.x, min.y, max.x, max.y].map(|number| u64::from(number.unsigned_abs()));
        [u64::from(answer.id.serialize())].into_iter().chain(corners)
    });
    numbers.fold(0, |sum: u64, number| sum.wrapping_mul(31).wrapping_add(number))
}

fn main() -> Result<(), Box<dyn error::Error>> {
    let words: Vec<String> = env::args().collect();
    let [_, script, rounds] = &words[..] else { return Err("usage: replay SCRIPT ROUNDS".into()) };
    let text = fs::read_to_string(script)?;
    let mut lines = text.lines();
    let (size, options) = lines.next().and_then(header).ok_or("the first line isn't that of a script")?;
    let commands: Vec<Command> = lines.map(command).collect::<Option<_>>().ok_or("a line isn't a command")?;

    let mut answers = vec![nothing(); commands.len()];
    let mut fastest = u128::MAX;
    for _ in 0..rounds.parse()? {
        let mut atlas = AtlasAllocator::with_options(size, &options);
        let start = Instant::now();
        replay(&mut atlas, &commands, &mut answers);
        fastest = fastest.min(start.elapsed().as_nanos());
    }
    println!("{} {fastest}", sum(&answers));
    Ok(())
}
