//! Boxes that are wrong with the code of a placing.

use crate::wrong_boxes::{every_is_found, Fault};

const FAULTS: [(&str, Fault); 7] = [
    (
        "the code is cut to 16 bits",
        Fault::LooksUp(|code| code % 65_536),
    ),
    (
        "the code is cut to 17 bits",
        Fault::LooksUp(|code| code % 131_072),
    ),
    (
        "the first train is left out",
        Fault::LooksUp(|code| code / 8 * 8),
    ),
    (
        "the sixth train is left out",
        Fault::LooksUp(|code| code % 32_768),
    ),
    (
        "the first train's posts are counted twice",
        Fault::LooksUp(|code| code + code % 8),
    ),
    ("the sum begins at one", Fault::LooksUp(|code| code + 1)),
    (
        "a train has seven digits",
        Fault::LooksUp(|code| {
            (0..6)
                .rev()
                .fold(0, |sum, t| 7 * sum + (code >> (3 * t)) % 8)
        }),
    ),
];

#[test]
fn every_box_wrong_with_codes_is_found() {
    every_is_found(&FAULTS);
}
