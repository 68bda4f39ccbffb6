//! The script program on the model: a script on standard input, its printed
//! lines on standard output. The status is 0 whatever it printed.

use std::io::{self, Read, Write};

fn main() -> io::Result<()> {
    let mut script = Vec::new();
    io::stdin().read_to_end(&mut script)?;
    io::stdout().write_all(&model::script::run(&script))
}
