//! The codes of a refusal by name (SPECIFICATION 13.1).

pub const TEXT_TOO_LONG: usize = 1;
pub const MISFIT: usize = 2;
pub const NAME_TOO_LONG: usize = 3;
pub const DECLARED_BEFORE: usize = 4;
pub const UNKNOWN_NAME: usize = 5;
pub const CONSTANT_TOO_LARGE: usize = 6;
pub const TOO_MANY_ITEMS: usize = 7;
pub const OTHER_MARK: usize = 8;
pub const TOO_MANY_STATES: usize = 9;
pub const INPUT_WITHOUT_MOVE: usize = 10;
pub const TWO_EDGES: usize = 11;
pub const UNMATCHED_CHANNEL: usize = 12;
pub const KEEP_TOO_SHORT: usize = 13;
pub const TABLE_TOO_SHORT: usize = 14;
pub const QUEUE_TOO_SHORT: usize = 15;
pub const OTHER_TABLE: usize = 16;
pub const START_NOT_SAFE: usize = 17;
pub const START_PAIR_NOT_SET: usize = 18;
pub const PAIR_NOT_ALLOWED: usize = 19;
pub const RULE_BROKEN: usize = 20;
pub const RUN_TOO_SHORT: usize = 21;
pub const OUTPUT_BESIDE_TICK: usize = 22;
pub const NEITHER_POSSIBLE: usize = 23;
pub const TICK_OUT_OF_RANGE: usize = 24;
pub const LIMIT_EXCEEDED: usize = 25;
pub const OUT_TOO_SHORT: usize = 26;

/// Every code with its name.
pub const ALL: [(&str, usize); 26] = [
    ("TEXT_TOO_LONG", TEXT_TOO_LONG),
    ("MISFIT", MISFIT),
    ("NAME_TOO_LONG", NAME_TOO_LONG),
    ("DECLARED_BEFORE", DECLARED_BEFORE),
    ("UNKNOWN_NAME", UNKNOWN_NAME),
    ("CONSTANT_TOO_LARGE", CONSTANT_TOO_LARGE),
    ("TOO_MANY_ITEMS", TOO_MANY_ITEMS),
    ("OTHER_MARK", OTHER_MARK),
    ("TOO_MANY_STATES", TOO_MANY_STATES),
    ("INPUT_WITHOUT_MOVE", INPUT_WITHOUT_MOVE),
    ("TWO_EDGES", TWO_EDGES),
    ("UNMATCHED_CHANNEL", UNMATCHED_CHANNEL),
    ("KEEP_TOO_SHORT", KEEP_TOO_SHORT),
    ("TABLE_TOO_SHORT", TABLE_TOO_SHORT),
    ("QUEUE_TOO_SHORT", QUEUE_TOO_SHORT),
    ("OTHER_TABLE", OTHER_TABLE),
    ("START_NOT_SAFE", START_NOT_SAFE),
    ("START_PAIR_NOT_SET", START_PAIR_NOT_SET),
    ("PAIR_NOT_ALLOWED", PAIR_NOT_ALLOWED),
    ("RULE_BROKEN", RULE_BROKEN),
    ("RUN_TOO_SHORT", RUN_TOO_SHORT),
    ("OUTPUT_BESIDE_TICK", OUTPUT_BESIDE_TICK),
    ("NEITHER_POSSIBLE", NEITHER_POSSIBLE),
    ("TICK_OUT_OF_RANGE", TICK_OUT_OF_RANGE),
    ("LIMIT_EXCEEDED", LIMIT_EXCEEDED),
    ("OUT_TOO_SHORT", OUT_TOO_SHORT),
];
