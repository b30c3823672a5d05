//! Request E3: what the signed operations give, on 32-bit two's complement.

// By the request's numbers, not by the reference's names: these could be mixed up.
pub const SIGNED_LESS: u8 = 9;
pub const SHIFT: u8 = 10;
pub const DIVIDE: u8 = 11;

pub struct Operation {
    pub sentence: &'static str,
    pub kind: u8,
    /// Left, right and the value.
    pub results: &'static [(i32, i32, i32)],
}

const LOWEST: i32 = i32::MIN;
const HIGHEST: i32 = i32::MAX;

pub const SIGNED: [Operation; 9] = [
    Operation {
        sentence: "signed less around zero",
        kind: SIGNED_LESS,
        results: &[
            (-1, 0, 1),
            (0, -1, 0),
            (-1, -1, 0),
            (0, 0, 0),
            (-1, 1, 1),
            (1, -1, 0),
            (-2, -1, 1),
            (-1, -2, 0),
            (5, 6, 1),
            (6, 5, 0),
        ],
    },
    Operation {
        sentence: "signed less at both ends",
        kind: SIGNED_LESS,
        results: &[
            (HIGHEST, LOWEST, 0),
            (LOWEST, HIGHEST, 1),
            (LOWEST, LOWEST, 0),
            (HIGHEST, HIGHEST, 0),
            (LOWEST, LOWEST + 1, 1),
            (LOWEST + 1, LOWEST, 0),
            (LOWEST, 0, 1),
            (0, LOWEST, 0),
            (-1, LOWEST, 0),
            (-1, HIGHEST, 1),
        ],
    },
    Operation {
        sentence: "a shift keeps the sign",
        kind: SHIFT,
        results: &[
            (LOWEST, 0, LOWEST),
            (LOWEST, 1, -1_073_741_824),
            (LOWEST, 30, -2),
            (LOWEST, 31, -1),
            (-1, 5, -1),
            (-1, 31, -1),
            (-7, 1, -4),
            (-8, 2, -2),
            (-1_024, 3, -128),
        ],
    },
    Operation {
        sentence: "a shift of what is not below zero",
        kind: SHIFT,
        results: &[
            (5, 0, 5),
            (5, 1, 2),
            (5, 3, 0),
            (0, 7, 0),
            (HIGHEST, 30, 1),
            (HIGHEST, 31, 0),
            (0x1234_5678, 8, 0x0012_3456),
        ],
    },
    Operation {
        sentence: "the shift count is the low five bits",
        kind: SHIFT,
        results: &[
            (LOWEST, 32, LOWEST),
            (LOWEST, 33, -1_073_741_824),
            (LOWEST, 63, -1),
            (LOWEST, 64, LOWEST),
            (LOWEST, LOWEST, LOWEST),
            (LOWEST, -1, -1),
            (5, 32, 5),
            (5, 33, 2),
            (5, -1, 0),
            (-8, -31, -4),
            (-8, -32, -8),
            (HIGHEST, 259, 268_435_455),
            (5, 65_537, 2),
        ],
    },
    Operation {
        sentence: "division rounds toward zero",
        kind: DIVIDE,
        results: &[
            (7, 2, 3),
            (-7, 2, -3),
            (7, -2, -3),
            (-7, -2, 3),
            (1, 2, 0),
            (-1, 2, 0),
            (1, -2, 0),
            (-1, -2, 0),
            (-8, 2, -4),
            (8, -2, -4),
            (0, 5, 0),
            (0, -5, 0),
            (-1_000_000, 7, -142_857),
            (1_000_000, -7, -142_857),
        ],
    },
    Operation {
        sentence: "a zero divisor gives 0",
        kind: DIVIDE,
        results: &[
            (0, 0, 0),
            (1, 0, 0),
            (-1, 0, 0),
            (7, 0, 0),
            (-7, 0, 0),
            (HIGHEST, 0, 0),
            (LOWEST, 0, 0),
        ],
    },
    Operation {
        sentence: "the lowest value divided by minus one, and by others",
        kind: DIVIDE,
        results: &[
            (LOWEST, -1, LOWEST),
            (LOWEST + 1, -1, HIGHEST),
            (HIGHEST, -1, LOWEST + 1),
            (LOWEST, 1, LOWEST),
            (LOWEST, 2, -1_073_741_824),
            (LOWEST, -2, 1_073_741_824),
            (LOWEST, 3, -715_827_882),
            (LOWEST, -3, 715_827_882),
            (LOWEST, 10, -214_748_364),
            (LOWEST, HIGHEST, -1),
        ],
    },
    Operation {
        sentence: "divided by one, by minus one and by the lowest value",
        kind: DIVIDE,
        results: &[
            (5, 1, 5),
            (-5, 1, -5),
            (5, -1, -5),
            (-5, -1, 5),
            (1, LOWEST, 0),
            (-1, LOWEST, 0),
            (HIGHEST, LOWEST, 0),
            (LOWEST + 1, LOWEST, 0),
            (LOWEST, LOWEST, 1),
            (HIGHEST, HIGHEST, 1),
        ],
    },
];
