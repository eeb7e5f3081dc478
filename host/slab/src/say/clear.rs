//! Yes or no, in one line.

use super::refusal;
use crate::judge::Clear;

const YES: &str = "yes, the floor is clear";

/// The library stops at the first broken limit, and does not say which it is.
const NO: &str = "no, a limit of the Direct Design Method is broken or the slab is too thin; \
                  `slab check` names each";

pub fn line(clear: &Clear) -> String {
    match clear {
        Clear::Yes => format!("{YES}\n"),
        Clear::No => format!("{NO}\n"),
        Clear::Refused(number) => format!("no, {}\n", refusal::sentence(*number)),
    }
}
