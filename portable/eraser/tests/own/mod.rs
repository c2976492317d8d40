//! A file `own.rt` of a crate `own`, which may name `rules` and not `other`.

use eraser::erase::{erase, Erased, Place};
use eraser::scan::Refusal;

pub fn erased(text: &str) -> Result<Erased, Refusal> {
    let uses = ["rules".to_string()];
    let crates = ["rules", "own", "other"].map(str::to_string);
    let place = Place {
        file: "own.rt",
        krate: "own",
        uses: &uses,
        crates: &crates,
    };
    erase(&place, text)
}
