//! R6.28 as a person wrote it down, a line for each predicate: what it says of a first half that is
//! less than the second, equal, greater, and unordered, and whether it signals a quiet NaN. The
//! second program has its predicates by name instead, so the two are held against each other.

pub struct Row {
    pub name: &'static str,
    /// Of less, equal, greater, unordered.
    pub holds: [bool; 4],
    pub signals: bool,
}

/// By their numbers: the name, and a letter where the predicate holds (L less, E equal, G greater,
/// U unordered) and where it signals (S).
const TABLE: [(&str, &str); 32] = [
    ("EQ_OQ", " E   "),
    ("LT_OS", "L   S"),
    ("LE_OS", "LE  S"),
    ("UNORD_Q", "   U "),
    ("NEQ_UQ", "L GU "),
    ("NLT_US", " EGUS"),
    ("NLE_US", "  GUS"),
    ("ORD_Q", "LEG  "),
    ("EQ_UQ", " E U "),
    ("NGE_US", "L  US"),
    ("NGT_US", "LE US"),
    ("FALSE_OQ", "     "),
    ("NEQ_OQ", "L G  "),
    ("GE_OS", " EG S"),
    ("GT_OS", "  G S"),
    ("TRUE_UQ", "LEGU "),
    ("EQ_OS", " E  S"),
    ("LT_OQ", "L    "),
    ("LE_OQ", "LE   "),
    ("UNORD_S", "   US"),
    ("NEQ_US", "L GUS"),
    ("NLT_UQ", " EGU "),
    ("NLE_UQ", "  GU "),
    ("ORD_S", "LEG S"),
    ("EQ_US", " E US"),
    ("NGE_UQ", "L  U "),
    ("NGT_UQ", "LE U "),
    ("FALSE_OS", "    S"),
    ("NEQ_OS", "L G S"),
    ("GE_OQ", " EG  "),
    ("GT_OQ", "  G  "),
    ("TRUE_US", "LEGUS"),
];

pub fn predicate(number: usize) -> Row {
    let (name, letters) = TABLE[number];
    let mut letters = letters.chars();
    Row {
        name,
        holds: [(); 4].map(|_| letters.next().expect("five letters") != ' '),
        signals: letters.next().expect("five letters") == 'S',
    }
}

/// Halves of each relation: less, equal, greater, unordered by a quiet NaN alone, and unordered by
/// a signalling one.
pub const PAIRS: [&[(u16, u16)]; 5] = [
    &[
        (0x3C00, 0x4000),
        (0xC000, 0xBC00),
        (0xBC00, 0x0000),
        (0x8000, 0x0400),
        (0xFC00, 0xFBFF),
        (0xFC00, 0x7C00),
        (0x7BFF, 0x7C00),
        (0x8001, 0x0001),
        (0x03FF, 0x0400),
    ],
    &[
        (0x3C00, 0x3C00),
        (0xFBFF, 0xFBFF),
        (0x0000, 0x8000),
        (0x8000, 0x0000),
        (0x8000, 0x8000),
        (0x7C00, 0x7C00),
        (0xFC00, 0xFC00),
        (0x0001, 0x0001),
    ],
    &[
        (0x4000, 0x3C00),
        (0xBC00, 0xC000),
        (0x0000, 0xBC00),
        (0x0400, 0x8000),
        (0xFBFF, 0xFC00),
        (0x7C00, 0xFC00),
        (0x7C00, 0x7BFF),
        (0x0001, 0x8001),
        (0x0000, 0x8001),
    ],
    &[
        (0x7E00, 0x3C00),
        (0x3C00, 0xFE00),
        (0x7FFF, 0x7E00),
        (0xFFFF, 0xFC00),
        (0x0001, 0x7E01),
        (0x7E00, 0x8001),
    ],
    &[
        (0x7C01, 0x3C00),
        (0x3C00, 0xFC01),
        (0x7DFF, 0x7D00),
        (0xFDFF, 0xFE00),
        (0x7E00, 0x7C01),
        (0x0001, 0x7C01),
        (0xFC01, 0x83FF),
    ],
];

/// The place of a signalling NaN among the pairs; it is unordered too.
pub const SIGNALLING: usize = 4;
