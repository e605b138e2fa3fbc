//! `generate SEED LINES` prints the script of a seed; `generate exhausted` the one that uses all numbers up.

use reference::generate::{exhausted, Generator};
use std::io::{self, BufWriter, Write};
use std::process::ExitCode;

fn main() -> ExitCode {
    let arguments: Vec<String> = std::env::args().skip(1).collect();
    let mut output = BufWriter::with_capacity(1 << 16, io::stdout().lock());
    let written = match arguments.iter().map(String::as_str).collect::<Vec<_>>()[..] {
        ["exhausted"] => exhausted(&mut output),
        [seed, lines] => match (seed.parse(), lines.parse()) {
            (Ok(seed), Ok(lines)) => script(seed, lines, &mut output),
            _ => return usage(),
        },
        _ => return usage(),
    };
    match written.and_then(|()| output.flush()) {
        Ok(()) => ExitCode::SUCCESS,
        Err(error) => {
            eprintln!("generate: {error}");
            ExitCode::FAILURE
        }
    }
}

fn script(seed: u64, lines: u64, output: &mut impl Write) -> io::Result<()> {
    let mut generator = Generator::new(seed);
    for _ in 0..lines {
        output.write_all(&generator.line())?;
        output.write_all(b"\n")?;
    }
    Ok(())
}

fn usage() -> ExitCode {
    eprintln!("usage: generate SEED LINES | generate exhausted");
    ExitCode::from(2)
}
