//! Prints a random day: `days SEED [STEPS] [ledger] [ill]`.
#![forbid(unsafe_code)]

use std::io::{stdout, BufWriter, Write};

use second::days::{Day, Options};

fn main() -> Result<(), String> {
    let mut numbers = vec![];
    let mut options = Options { steps: 300, ledger: false, ill: false };
    for word in std::env::args().skip(1) {
        match word.as_str() {
            "ledger" => options.ledger = true,
            "ill" => options.ill = true,
            word => numbers.push(word.parse::<u64>().map_err(|e| format!("{word}: {e}"))?),
        }
    }
    let seed = match numbers[..] {
        [seed] => seed,
        [seed, steps] => {
            options.steps = steps as usize;
            seed
        }
        _ => return Err("days SEED [STEPS] [ledger] [ill]".into()),
    };
    let mut out = BufWriter::new(stdout());
    for line in Day::new(seed, options) {
        writeln!(out, "{line}").map_err(|e| e.to_string())?;
    }
    out.flush().map_err(|e| e.to_string())
}
