//! One call of the archive beside the second program's.

use crate::lent::{Kind, Lent};
use crate::{archive, own};
use second::forms::MemoryElement;
use second::memory::Element;

/// Makes the call with both programs. The answer on which they agree, the buffers then being as the archive left them;
/// an error says where they differ, or what a refused call wrote.
pub fn call(kind: Kind, lent: &mut Lent) -> Result<u16, String> {
    // Memory as the form that is lent can hold it.
    lent.memory = MemoryElement::numbers(&MemoryElement::memory(&lent.memory));
    let before = lent.clone();
    let mut expected = lent.clone();
    let own = own::answer(kind, &mut expected);
    let answer = archive::answer(kind, lent)?;
    if answer != own {
        return Err(format!("answer {} instead of {}", words(kind, answer), words(kind, own)));
    }
    if kind.refusal(answer) != 0 {
        if let Some(place) = lent.difference(&before) {
            return Err(format!("refused by {}, but changed: {place}", words(kind, answer)));
        }
    }
    match lent.difference(&expected) {
        Some(place) => Err(format!("answer {}, but {place}", words(kind, answer))),
        None => Ok(answer),
    }
}

/// An answer, with the block in one of Read.
fn words(kind: Kind, answer: u16) -> String {
    match kind {
        Kind::Read if answer >= 256 => format!("{answer} (refusal {}, block {})", answer / 256, answer % 256),
        Kind::Read => format!("{answer} (finished frames)"),
        _ => answer.to_string(),
    }
}
