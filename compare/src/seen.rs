//! What a state of the Rust shows by `Debug`, field by field, so that every number of it is held to the model's, in the unchanged files and in
//! the opened ones alike.

/// What a field has to show: a text, or a list whose numbers are these, however they are grouped.
pub enum Owed<'a> {
    Text(String),
    Numbers(Box<dyn Iterator<Item = i64> + 'a>),
}

/// A field with its text.
pub fn text(name: &'static str, value: impl std::fmt::Debug) -> (&'static str, Owed<'static>) {
    (name, Owed::Text(format!("{value:?}")))
}

/// A field with a list.
pub fn numbers<'a, N: Copy + Into<i64> + 'a>(
    name: &'static str,
    list: impl IntoIterator<Item = &'a N, IntoIter: 'a>,
) -> (&'static str, Owed<'a>) {
    (name, Owed::Numbers(Box::new(list.into_iter().map(|&n| n.into()))))
}

/// The fields of a struct as `{:?}` writes them, each with its text.
fn fields(text: &str) -> Vec<(&str, &str)> {
    let inner = text.split_once(" { ").and_then(|(_, rest)| rest.strip_suffix(" }")).expect("a struct with fields");
    let (mut all, mut depth, mut from) = (Vec::new(), 0, 0);
    for (at, c) in inner.bytes().enumerate().chain([(inner.len(), b',')]) {
        match c {
            b'{' | b'[' | b'(' => depth += 1,
            b'}' | b']' | b')' => depth -= 1,
            b',' if depth == 0 => {
                all.push(inner[from..at].trim_start().split_once(": ").expect("a field"));
                from = at + 1;
            }
            _ => {}
        }
    }
    all
}

/// The whole numbers of a text, in their order.
fn numbers_of(text: &str) -> impl Iterator<Item = i64> + '_ {
    let words = text.split(|c: char| !c.is_ascii_digit() && c != '-').filter(|word| !word.is_empty());
    words.map(|word| word.parse().expect("a whole number"))
}

impl Owed<'_> {
    #[track_caller]
    pub fn held_to(self, name: &str, shown: &str) {
        match self {
            Owed::Text(owed) => assert!(shown == owed, "THE MODEL IS WRONG: {name}: {owed}\nthe Rust: {shown}"),
            Owed::Numbers(mut owed) => {
                for (k, n) in numbers_of(shown).enumerate() {
                    let owed = owed.next();
                    assert!(owed == Some(n), "THE MODEL IS WRONG: number {k} of {name}: {owed:?}\nthe Rust: {n}");
                }
                let more = owed.next();
                assert!(more.is_none(), "THE MODEL IS WRONG: {name} goes on: {more:?}\nthe Rust: no more");
            }
        }
    }
}

/// Every field that the Rust's state shows is the model's; those named in `apart` are given back, in that order. A field that is held to
/// nothing is a mistake, as is one of the model's that the Rust does not show.
#[track_caller]
pub fn agree<'a, const N: usize>(rust: &'a str, model: Vec<(&str, Owed)>, apart: [&str; N]) -> [&'a str; N] {
    let fields = fields(rust);
    let shown = |name: &str| {
        let field = fields.iter().find(|(n, _)| *n == name);
        field.unwrap_or_else(|| panic!("the Rust shows no {name}")).1
    };
    let known: Vec<&str> = model.iter().map(|(name, _)| *name).chain(apart).collect();
    let unheld = fields.iter().find(|(name, _)| !known.contains(name));
    assert!(unheld.is_none(), "the Rust shows {unheld:?}, and it is held to nothing");
    for (name, owed) in model {
        owed.held_to(name, shown(name));
    }
    apart.map(shown)
}
