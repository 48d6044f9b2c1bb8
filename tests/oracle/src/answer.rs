//! The answer to one frame as plain numbers: what is dumped, stored and compared.

/// Whose reading a frame is given. The parser's record has no mode.
#[derive(Clone, Copy, Debug, PartialEq, Eq)]
pub enum Mode {
    Rust,
    Standard,
}

/// Both, in the order in which they are told.
pub const MODES: [Mode; 2] = [Mode::Rust, Mode::Standard];

impl Mode {
    // In the slips nobody asks.
    #[allow(dead_code)]
    pub fn other(self) -> Mode {
        MODES[1 - self as usize]
    }
}

impl std::fmt::Display for Mode {
    fn fmt(&self, f: &mut std::fmt::Formatter) -> std::fmt::Result {
        f.write_str(match self {
            Mode::Rust => "the Rust's mode",
            Mode::Standard => "the standard's mode",
        })
    }
}

pub const KEPT: usize = 1126;
pub const PROBS: usize = 1101;
pub const COEFFS: usize = 1056;
pub const MOTION: usize = 38;

/// The header's numbers in the order of the dump line, with their bytes in the list of frames.
pub const NUMBERS: [(&str, usize); 51] = [
    ("key", 1), ("ver", 1), ("show", 1), ("chunk", 1), ("first", 4), ("w", 2), ("h", 2),
    ("hs", 1), ("vs", 1), ("cs", 1), ("ct", 1), ("ft", 1), ("lvl", 1), ("sharp", 1), ("n", 1), ("log2", 1),
    ("part0", 4), ("part1", 4), ("part2", 4), ("part3", 4), ("part4", 4), ("part5", 4), ("part6", 4), ("part7", 4),
    ("q0", 1), ("q1", 1), ("q2", 1), ("q3", 1), ("q4", 1), ("q5", 1),
    ("rep", 1), ("rl", 1), ("rg", 1), ("ra", 1), ("cg", 1), ("ca", 1), ("sg", 1), ("sa", 1),
    ("skip", 1), ("psf", 1), ("pi", 1), ("pl", 1), ("pg", 1),
    ("range", 1), ("value", 1), ("count", 1), ("hsize", 4), ("bools", 4), ("cols", 2), ("rows", 2),
    ("past", 4),
];

pub const BOOLS: usize = 47;
pub const PAST: usize = 50;

/// Macroblock columns of a width, or rows of a height, which the Rust does not tell: rounded up.
pub fn blocks(n: i64) -> i64 {
    n / 16 + (n % 16 != 0) as i64
}

/// Where a number of that name stands.
pub fn at(name: &str) -> usize {
    NUMBERS.iter().position(|(n, _)| *n == name).unwrap_or_else(|| panic!("no header number {name}"))
}

#[derive(Clone, Debug, Default, PartialEq, Eq)]
pub struct Answer {
    /// 0 where the frame is accepted.
    pub refusal: u8,
    pub a: u32,
    pub b: u32,
    /// Empty in a refusal.
    pub numbers: Vec<i64>,
    /// 1,056 coefficients, 38 motion and 7 modes of the header; empty in a refusal.
    pub probs: Vec<u8>,
    /// The parser's kept numbers after the call.
    pub kept: Vec<u8>,
    /// How many bytes of the frame the answer shows.
    pub view: usize,
}

impl Answer {
    pub fn get(&self, name: &str) -> i64 {
        self.numbers[at(name)]
    }
}

/// What a look at the first bytes tells, by the names of the dump line.
pub const SEEN: [&str; 8] = ["key", "ver", "show", "first", "w", "h", "hs", "vs"];

/// Those numbers; or the refusal, with its code or 0.
pub type Look = Result<[i64; 8], (u8, u32)>;
