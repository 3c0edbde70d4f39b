//! How the functions with types ask those on words.

use crate::refusal::Refusal;
use crate::words::{self, ANSWER_WORDS};

/// Lends answer words, and gives them back unless the number is a refusal's.
pub(crate) fn ask(function: impl FnOnce(&mut [u64]) -> u64) -> Result<[u64; ANSWER_WORDS], Refusal> {
    let mut answer = [0; ANSWER_WORDS];
    match function(&mut answer) {
        words::OK => Ok(answer),
        number => Err(promised(Refusal::from_answer(number, &answer))),
    }
}

/// What the library's contract promises is there. It could be missing only with another archive than the header's.
pub(crate) fn promised<T>(value: Option<T>) -> T {
    value.expect("the archive answers as include/zonefs.h says")
}
