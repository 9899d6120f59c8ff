//! A replay program of carrier and slot phase made of the model, with one slip planted by name (environment variable SLIP):
//! shows that the comparison finds it. Without SLIP the stand-in is right.

use cases::phase::calls::Call;
use cases::phase::desk::Desk;
use cases::phase::slips;
use cases::stage::serve;

fn main() -> std::io::Result<()> {
    let mut desk = Desk::new(slips::of_stand_in());
    serve(|n| desk.answer(Call::of_numbers(n)).numbers())
}
