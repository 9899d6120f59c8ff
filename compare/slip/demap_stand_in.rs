//! A replay program of learning made of the model, with one slip planted by name (environment variable SLIP): shows that
//! the comparison finds it. Without SLIP the stand-in is right.

use cases::demap::calls::Call;
use cases::demap::desk::Desk;
use cases::demap::slips;
use cases::stage::serve;

fn main() -> std::io::Result<()> {
    let mut desk = Desk::new(slips::of_stand_in());
    serve(|n| desk.answer(Call::of_numbers(n)))
}
