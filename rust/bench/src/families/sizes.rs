//! The sizes of the families: about 10, 30, 100, 1,000, 10,000, 100,000 and 1,000,000 situations, where there are such.

use super::{counters, locks, messages, Family, Size};

/// All families.
pub const ALL: &[Family] = &[
    Family { name: "ticket-2", sizes: TICKET_2, text: locks::ticket },
    Family { name: "ticket-3", sizes: TICKET_3, text: locks::ticket },
    Family { name: "ticket-4", sizes: TICKET_4, text: locks::ticket },
    Family { name: "ticket-5", sizes: TICKET_5, text: locks::ticket },
    Family { name: "spin-2", sizes: SPIN_2, text: locks::spin },
    Family { name: "spin-3", sizes: SPIN_3, text: locks::spin },
    Family { name: "spin-4", sizes: SPIN_4, text: locks::spin },
    Family { name: "spin-5", sizes: SPIN_5, text: locks::spin },
    Family { name: "seqlock-2", sizes: SEQLOCK_2, text: locks::sequence },
    Family { name: "seqlock-3", sizes: SEQLOCK_3, text: locks::sequence },
    Family { name: "fenced-2", sizes: FENCED_2, text: messages::fenced },
    Family { name: "fenced-3", sizes: FENCED_3, text: messages::fenced },
    Family { name: "fenced-4", sizes: FENCED_4, text: messages::fenced },
    Family { name: "fence-2", sizes: FENCED_2, text: messages::fence },
    Family { name: "fence-3", sizes: FENCED_3, text: messages::fence },
    Family { name: "fence-4", sizes: FENCED_4, text: messages::fence },
    Family { name: "news-2", sizes: NEWS_2, text: messages::news },
    Family { name: "news-3", sizes: NEWS_3, text: messages::news },
    Family { name: "chain-3", sizes: CHAIN_3, text: messages::chain },
    Family { name: "chain-4", sizes: CHAIN_4, text: messages::chain },
    Family { name: "chain-5", sizes: CHAIN_5, text: messages::chain },
    Family { name: "counters-2", sizes: COUNTERS_2, text: counters::counters },
    Family { name: "counters-3", sizes: COUNTERS_3, text: counters::counters },
    Family { name: "counters-4", sizes: COUNTERS_4, text: counters::counters },
];

const fn size(rounds: &'static [usize], situations: usize) -> Size {
    Size { rounds, situations }
}

const TICKET_2: &[Size] = &[
    size(&[1, 0], 11),
    size(&[3, 0], 31),
    size(&[1, 1], 113),
    size(&[3, 2], 967),
    size(&[6, 6], 10_683),
    size(&[13, 13], 97_217),
    size(&[28, 28], 1_026_163),
];

const TICKET_3: &[Size] = &[
    size(&[1, 0, 0], 11),
    size(&[3, 0, 0], 31),
    size(&[1, 1, 0], 113),
    size(&[1, 1, 1], 1_447),
    size(&[2, 2, 1], 10_191),
    size(&[3, 3, 2], 87_961),
    size(&[5, 4, 4], 849_251),
];

const TICKET_4: &[Size] = &[
    size(&[1, 0, 0, 0], 11),
    size(&[3, 0, 0, 0], 31),
    size(&[1, 1, 0, 0], 113),
    size(&[1, 1, 1, 0], 1_447),
    size(&[2, 2, 1, 0], 10_191),
    size(&[2, 1, 1, 1], 75_267),
    size(&[3, 3, 1, 1], 1_004_913),
];

const TICKET_5: &[Size] = &[
    size(&[1, 0, 0, 0, 0], 11),
    size(&[3, 0, 0, 0, 0], 31),
    size(&[1, 1, 0, 0, 0], 113),
    size(&[1, 1, 1, 0, 0], 1_447),
    size(&[2, 2, 1, 0, 0], 10_191),
    size(&[2, 1, 1, 1, 0], 75_267),
    size(&[2, 1, 1, 1, 1], 1_749_525),
];

const SPIN_2: &[Size] = &[
    size(&[1, 0], 11),
    size(&[3, 0], 31),
    size(&[1, 1], 156),
    size(&[2, 2], 880),
    size(&[5, 5], 11_260),
    size(&[11, 10], 97_571),
    size(&[24, 24], 1_134_480),
];

const SPIN_3: &[Size] = &[
    size(&[1, 0, 0], 11),
    size(&[3, 0, 0], 31),
    size(&[1, 1, 0], 156),
    size(&[2, 2, 0], 880),
    size(&[2, 1, 1], 8_804),
    size(&[3, 2, 2], 129_222),
    size(&[4, 4, 3], 1_169_698),
];

const SPIN_4: &[Size] = &[
    size(&[1, 0, 0, 0], 11),
    size(&[3, 0, 0, 0], 31),
    size(&[1, 1, 0, 0], 156),
    size(&[2, 2, 0, 0], 880),
    size(&[2, 1, 1, 0], 8_804),
    size(&[1, 1, 1, 1], 77_264),
    size(&[2, 2, 1, 1], 852_666),
];

const SPIN_5: &[Size] = &[
    size(&[1, 0, 0, 0, 0], 11),
    size(&[3, 0, 0, 0, 0], 31),
    size(&[1, 1, 0, 0, 0], 156),
    size(&[2, 2, 0, 0, 0], 880),
    size(&[2, 1, 1, 0, 0], 8_804),
    size(&[1, 1, 1, 1, 0], 77_264),
    size(&[1, 1, 1, 1, 1], 2_470_372),
];

const SEQLOCK_2: &[Size] = &[
    size(&[1, 0], 10),
    size(&[3, 0], 28),
    size(&[1, 1], 473),
    size(&[1, 2], 943),
    size(&[3, 3], 9_107),
    size(&[6, 6], 85_301),
    size(&[12, 12], 914_791),
];

const SEQLOCK_3: &[Size] = &[
    size(&[1, 0, 0], 10),
    size(&[3, 0, 0], 28),
    size(&[1, 1, 0], 473),
    size(&[1, 2, 0], 943),
    size(&[3, 3, 0], 9_107),
    size(&[2, 1, 1], 125_000),
    size(&[3, 2, 2], 1_729_443),
];

// A fence has as many situations as the update that it stands for.
const FENCED_2: &[Size] = &[
    size(&[1, 0], 8),
    size(&[4, 0], 29),
    size(&[1, 1], 137),
    size(&[2, 2], 1_531),
    size(&[4, 3], 10_374),
    size(&[7, 7], 112_781),
    size(&[13, 13], 939_193),
];

const FENCED_3: &[Size] = &[
    size(&[1, 0, 0], 8),
    size(&[4, 0, 0], 29),
    size(&[1, 1, 0], 113),
    size(&[2, 2, 0], 1_121),
    size(&[2, 1, 1], 11_729),
    size(&[2, 2, 1], 60_269),
    size(&[3, 2, 2], 1_019_057),
];

const FENCED_4: &[Size] = &[
    size(&[1, 0, 0, 0], 8),
    size(&[4, 0, 0, 0], 29),
    size(&[1, 1, 0, 0], 113),
    size(&[2, 2, 0, 0], 1_121),
    size(&[2, 1, 1, 0], 7_973),
    size(&[1, 1, 1, 1], 78_617),
    size(&[3, 1, 1, 1], 1_071_172),
];

const NEWS_2: &[Size] = &[
    size(&[2, 0], 13),
    size(&[5, 0], 31),
    size(&[1, 1], 82),
    size(&[3, 2], 1_000),
    size(&[6, 5], 10_804),
    size(&[11, 11], 101_752),
    size(&[20, 20], 906_091),
];

const NEWS_3: &[Size] = &[
    size(&[2, 0, 0], 13),
    size(&[5, 0, 0], 31),
    size(&[1, 1, 0], 82),
    size(&[1, 1, 1], 1_072),
    size(&[2, 2, 1], 10_330),
    size(&[3, 3, 2], 101_214),
    size(&[5, 4, 4], 1_471_346),
];

const CHAIN_3: &[Size] = &[
    size(&[1, 0, 0], 8),
    size(&[1, 1, 0], 44),
    size(&[1, 1, 1], 140),
    size(&[3, 2, 2], 1_066),
    size(&[14, 14, 14], 10_131),
    size(&[105, 105, 105], 96_647),
];

const CHAIN_4: &[Size] = &[
    size(&[1, 0, 0, 0], 8),
    size(&[1, 1, 0, 0], 44),
    size(&[1, 1, 1, 0], 188),
    size(&[1, 1, 1, 1], 572),
    size(&[2, 1, 1, 1], 1_548),
    size(&[3, 3, 3, 3], 11_251),
    size(&[11, 11, 11, 11], 97_677),
    size(&[75, 75, 75, 75], 972_845),
];

/// No million: places have 500 bytes.
const CHAIN_5: &[Size] = &[
    size(&[1, 0, 0, 0, 0], 8),
    size(&[1, 1, 0, 0, 0], 44),
    size(&[1, 1, 1, 0, 0], 188),
    size(&[1, 1, 1, 1, 0], 764),
    size(&[1, 1, 1, 1, 1], 2_300),
    size(&[2, 2, 1, 1, 1], 11_340),
    size(&[3, 3, 3, 3, 3], 79_255),
    size(&[5, 5, 5, 5, 5], 326_967),
];

const COUNTERS_2: &[Size] = &[
    size(&[2, 0], 11),
    size(&[6, 0], 31),
    size(&[1, 1], 93),
    size(&[3, 2], 948),
    size(&[6, 5], 9_141),
    size(&[13, 12], 101_898),
    size(&[26, 26], 952_793),
];

const COUNTERS_3: &[Size] = &[
    size(&[2, 0, 0], 11),
    size(&[6, 0, 0], 31),
    size(&[1, 1, 0], 93),
    size(&[3, 2, 0], 948),
    size(&[2, 1, 1], 8_403),
    size(&[3, 2, 2], 132_324),
    size(&[4, 4, 3], 1_250_236),
];

const COUNTERS_4: &[Size] = &[
    size(&[2, 0, 0, 0], 11),
    size(&[6, 0, 0, 0], 31),
    size(&[1, 1, 0, 0], 93),
    size(&[3, 2, 0, 0], 948),
    size(&[2, 1, 1, 0], 8_403),
    size(&[1, 1, 1, 1], 132_561),
    size(&[2, 2, 1, 1], 1_548_987),
];
