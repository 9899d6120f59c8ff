//! lines < CAPTURE: the lines that the bench program owes for a capture, by the unchanged Rust.

use cases::receiver::capture;
use std::io::{stdin, stdout, BufWriter, Read, Write};

fn main() -> std::io::Result<()> {
    let mut file = Vec::new();
    stdin().read_to_end(&mut file)?;
    let mut out = BufWriter::with_capacity(1 << 20, stdout().lock());
    capture::lines(&file, &mut out)?;
    out.flush()
}
