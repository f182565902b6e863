//! Prints each constant of the bindings with its value, and each refusal by the name that the header gives its number, for tests/outside/library.
use sivorandra::Refusal;

macro_rules! print {
    ($($name:ident)*) => { $(println!("{} {}", stringify!($name), sivorandra::$name);)* };
}

/// A variant's name as a C constant: words of capitals.
fn in_capitals(refusal: Refusal) -> String {
    let shown = format!("{refusal:?}");
    let mut name = String::new();
    for letter in shown.chars().take_while(char::is_ascii_alphanumeric) {
        if letter.is_ascii_uppercase() && !name.is_empty() {
            name.push('_');
        }
        name.push(letter.to_ascii_uppercase());
    }
    name
}

fn main() {
    print!(VERSION MOST_TASKS MOST_CORES MOST_OFFSET MOST_LENGTH MOST_PERIOD MOST_HORIZON GREEDY LIMITED IDLING LENDING);
    print!(TABLE_HEAD_WORDS TABLE_RECORD_WORDS TABLE_WORDS RUN_HEAD_WORDS RUN_PLACE_WORDS RUN_WORDS NOTE_WORDS PLAN_WORDS ROW_BYTES FENCED SETS SENTENCE_BYTES);
    for refusal in (0..=255).map(|number| Refusal::new(number, 0)).filter(|refusal| !matches!(refusal, Refusal::Other { .. })) {
        println!("{} {}", in_capitals(refusal), refusal.number());
    }
}
