// A refusal is told in document 01's words, with its place as what it is.

use skwarzyna::{Refusal, Stopped};

#[test]
fn refusals_are_told() {
    let told = |number: u8, place: usize| Refusal { number, place }.to_string();
    for (number, place, text) in [
        (1, 0, "refusal 1: side or product outside its range"),
        (2, 0, "refusal 2: a lent slice isn't of its exact length"),
        (3, 0, "refusal 3: a setting, origin or point coordinate out of range"),
        (4, 12, "refusal 4: flag above 3, or outer cell not wall, at cell 12"),
        (5, 17, "refusal 5: fluid beside empty, at cell 17"),
        (
            6,
            27,
            "refusal 6: another rule of a good state broken, at cell 27 (the carry, poured or taken, where that is the number of cells)",
        ),
        (7, 13, "refusal 7: streamed density or speed out of range, at cell 13"),
        (
            8,
            13,
            "refusal 8: next state breaks a rule of number 6, at cell 13 (the carry, poured or taken, where that is the number of cells)",
        ),
        (9, 0, "refusal 9: steps above 1,000"),
        (10, 119, "refusal 10: record ends early or has bytes left over, at byte 119"),
        (11, 5, "refusal 11: a section's count is wrong, in section 5"),
        (12, 199, "refusal 12: room for the record or the depth map too small, 199 bytes needed"),
        (13, 0, "refusal 13: column, cell or point outside"),
        (14, 0, "refusal 14: a word is not the one that the flags make, or the stored count is wrong"),
        (3, 4, "refusal 3: a setting, origin or point coordinate out of range, at point 4"),
        (17, 22, "refusal 17: outer cell, or the cell is already as asked, at cell 22"),
        (18, 23, "refusal 18: water is in the way, at cell 23"),
        (19, 3, "refusal 19: a header line of a height grid is unreadable, at line 3"),
        (20, 11, "refusal 20: a row is unreadable, or something follows the rows, at line 11"),
        (21, 2, "refusal 21: the list has room for fewer pools than there are, which are 2"),
        (22, 0, "refusal 22: the list has not 1 to 2,000 points"),
        (23, 3, "refusal 23: a chainage is not above the one before, at point 3"),
        (0, 0, "refusal 0: no number of document 01"),
    ] {
        assert_eq!(told(number, place), text);
    }
    let refusal = Refusal { number: Refusal::FLOW, place: 13 };
    let stopped = Stopped { count: 41, refusal };
    assert_eq!(stopped.to_string(), format!("stopped after 41 steps by {refusal}"));
    assert_eq!(Refusal::from(stopped), refusal);
}
