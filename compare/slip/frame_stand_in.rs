//! A replay program of the alignment made of the model, with one slip planted by name (environment variable SLIP): shows that
//! the comparison finds it. Without SLIP the stand-in is right.

use cases::frame::calls::Call;
use cases::frame::desk::Desk;
use cases::frame::slips;
use cases::stage::serve;

fn main() -> std::io::Result<()> {
    let mut desk = Desk::new(slips::of_stand_in());
    serve(|n| desk.answer(Call::of_numbers(n).as_ref()).numbers)
}
