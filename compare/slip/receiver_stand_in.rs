//! A replay program of the receiver made of the model, with one slip planted by name (environment variable SLIP): shows that
//! the comparison finds it. Without SLIP the stand-in is right.

use cases::receiver::calls::Call;
use cases::receiver::desk::Desk;
use cases::receiver::slips;
use cases::stage::serve;

fn main() -> std::io::Result<()> {
    let mut desk = Desk::new(slips::of_stand_in());
    serve(|n| desk.answer(Call::of_numbers(n).as_ref()))
}
