//! Plays calls to a replay program, which runs beside, and holds all that it answers to what is owed.

use std::io::{Read, Write};
use std::panic::{catch_unwind, resume_unwind, AssertUnwindSafe};
use std::path::{Path, PathBuf};
use std::process::{Child, Command, Stdio};
use std::sync::mpsc::{sync_channel, Receiver};
use std::thread;

/// An answer of N numbers that is owed, with where it stands.
pub trait Owes<const N: usize>: Send + 'static {
    fn told(&self) -> &[u64; N];
}

/// An answer that is not the owed one, and the last right one before it.
pub struct Difference<O, const N: usize> {
    pub before: Option<O>,
    pub owed: O,
    pub given: Option<[u64; N]>,
}

/// The program that an environment variable names, else the one that rt made.
pub fn program(variable: &str, name: &str) -> PathBuf {
    std::env::var_os(variable).map_or_else(|| Path::new("target/bin").join(name), PathBuf::from)
}

/// Reads what the program answers, up to the first difference.
fn listen<O: Owes<N>, const N: usize>(mut from: impl Read, owed: Receiver<Vec<O>>) -> Option<Difference<O, N>> {
    let mut before = None;
    let mut bytes = vec![0; 8 * N];
    for owed in owed.iter().flatten() {
        let whole = from.read_exact(&mut bytes).is_ok();
        let number = |k: usize| u64::from_le_bytes(std::array::from_fn(|j| bytes[8 * k + j]));
        let given = whole.then(|| std::array::from_fn(number));
        if given.as_ref() != Some(owed.told()) {
            return Some(Difference { before, owed, given });
        }
        before = Some(owed);
    }
    assert_eq!(from.read(&mut bytes).ok(), Some(0), "the replay program tells more than it was asked");
    None
}

fn spawn(program: &Path) -> Child {
    let child = Command::new(program).stdin(Stdio::piped()).stdout(Stdio::piped()).stderr(Stdio::piped()).spawn();
    child.unwrap_or_else(|e| panic!("{}: {e}", program.display()))
}

/// One process of the program. `calls` makes blocks of calls with what they owe, and gives both away.
pub fn play<O: Owes<N>, T, const N: usize>(
    program: &Path,
    calls: impl for<'a> FnOnce(&'a mut (dyn FnMut(Vec<u8>, Vec<O>) + 'a)) -> T,
) -> Result<T, Difference<O, N>> {
    let mut child = spawn(program);
    let mut stdin = child.stdin.take().expect("a pipe");
    let stdout = std::io::BufReader::with_capacity(1 << 16, child.stdout.take().expect("a pipe"));
    let mut stderr = child.stderr.take().expect("a pipe");
    let (blocks, to_write) = sync_channel::<Vec<u8>>(16);
    let (owed, to_compare) = sync_channel(16);
    let feeder = thread::spawn(move || to_write.iter().all(|block| stdin.write_all(&block).is_ok()));
    let listener = thread::spawn(move || listen(stdout, to_compare));
    let mut sink = |block, list| {
        // nobody listens after a difference: the rest is left out
        if blocks.send(block).is_err() || owed.send(list).is_err() {
            resume_unwind(Box::new("a difference"));
        }
    };
    let made = catch_unwind(AssertUnwindSafe(|| calls(&mut sink)));
    drop((blocks, owed));
    let found = listener.join().expect("the listener");
    let fed = feeder.join().expect("the feeder");
    let status = child.wait().expect("the replay program");
    let mut said = String::new();
    let _ = stderr.read_to_string(&mut said);
    match (found, made) {
        (Some(difference), _) => Err(difference),
        (None, Err(panic)) => resume_unwind(panic),
        (None, Ok(made)) => {
            assert!(fed && status.success() && said.is_empty(), "the replay program: {status}: {said}");
            Ok(made)
        }
    }
}
