//! The numbers and the ends in words: those of the header's `cmt_explain` and `cmt_explain_end`.

/// What a number of the header means.
pub fn explain(number: u64) -> &'static str {
    match number {
        0 => "done, or accepted",
        1 => "the depth is not 1 to 9",
        2 => "a length is wrong",
        3 => "the table breaks a rule",
        4 => "a mark is neither 0 nor 1",
        5 => "the base has no page of this number",
        6 => "the proof's head has a wrong kind, layer or equation, or the equation has no such member",
        7 => "a hash doesn't lead to the root",
        8 => "the withheld hash fits: the proof shows no fault",
        9 => "a needed page is absent",
        10 => "a data page stands in fewer than two equations of its layer",
        11 => {
            "the record's head, or what is to be coded, has a wrong kind; or the head has a length that is too large, or \
             another depth than the call's"
        }
        12 => "the table is not the one that the record names",
        14 => "the tree is not whole as it is, so it is not recoded",
        _ => "a number that no call gives",
    }
}

/// What an end of a repair means.
pub fn explain_end(end: u64) -> &'static str {
    match end {
        0 => "whole: every page is held, and the tree agrees with the record and the table",
        1 => "fault: the volume was not coded as the table says",
        2 => "unavailable: no equation gives another page of the layer",
        3 => "twins: two different pages of equal hash were found",
        13 => {
            "misfilled: every page is held, and the tree agrees with the root and the table, but what fills up the \
             volume isn't zero"
        }
        NO_END => "no end: the repair stopped",
        _ => "an end that no repair has",
    }
}

/// What the header's `cmt_repair_end` answers of a repair that stopped.
pub const NO_END: u64 = 1 << 24;
