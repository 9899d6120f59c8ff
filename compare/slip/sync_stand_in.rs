//! A replay program made of the model, with one slip planted by name (environment variable SLIP): shows that the
//! comparison finds it. Without SLIP the stand-in is right.

use cases::sync::calls::Call;
use cases::sync::desk::Desk;
use cases::sync::slips;
use std::io::{stdin, stdout, BufReader, BufWriter, Read, Write};

fn main() -> std::io::Result<()> {
    let mut desk = Desk::alone(slips::of_stand_in());
    let (mut calls, mut answers) = (BufReader::new(stdin()), BufWriter::new(stdout()));
    let mut bytes = [0; 8];
    while calls.read_exact(&mut bytes).is_ok() {
        match Call::of_bytes(bytes) {
            Some(Call::Tell) => desk.told.iter().try_for_each(|n| answers.write_all(&n.to_le_bytes()))?,
            Some(call) => desk.call(call),
            None => desk.unknown(),
        }
    }
    answers.flush()
}
