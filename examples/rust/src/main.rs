//! Writes the transform of the numbers in the input.

use std::io::{read_to_string, stdin, Error};

fn main() -> Result<(), Error> {
    let numbers: Vec<u64> = read_to_string(stdin())?.split_whitespace().filter_map(|word| word.parse().ok()).collect();
    let given = numbers.try_into().map_err(|_| Error::other(format!("not {} numbers", transform::SIZE)))?;
    let words: Vec<String> = transform::transform(&given).iter().map(u64::to_string).collect();
    println!("{}", words.join(" "));
    Ok(())
}
