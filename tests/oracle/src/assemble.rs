//! Reads the Rust as given, edits it and lays it out as modules; used by build.rs and by the slips.

use std::path::Path;
use Edit::{Put, Swap};
use In::{Decoder, Parser};

/// What is taken from the given folder: each file with the digest of its text, that of cros-codecs 0.0.6. Places in these texts are
/// named by line, here and in slips.rs, so another text is refused.
pub const FILES: [(&str, u64); 4] = [
    ("src/bitstream_utils.rs", 0x158e_7a6b_5a2c_16c0),
    ("src/codec/vp8/bool_decoder.rs", 0x1f43_ee2f_aced_e89c),
    ("src/codec/vp8/probs.rs", 0x6938_88b4_9dbf_5b90),
    ("src/codec/vp8/parser.rs", 0x6291_e155_d624_6e0f),
];

/// How many lines of bitstream_utils.rs we need: the bit reader, and what reads and writes recordings.
const READER: usize = 418;

/// The line of bool_decoder.rs that begins the function by which every coded bool is read.
const READ: usize = 109;

/// The line that begins the one that tells the position, which the parser asks for after the header.
const POSITION: usize = 199;

/// Which text an edit alters.
#[derive(Clone, Copy, PartialEq, Eq, PartialOrd, Ord)]
pub enum In {
    Parser,
    Decoder,
}

/// Names its place by line and column, so that no text of the Rust stands here.
#[derive(Clone, Copy)]
pub enum Edit {
    /// At this line and column, both counted from 1, so many characters are cut and these are put.
    Put(In, usize, usize, usize, &'static str),
    /// This line and the next change places.
    Swap(In, usize),
}

impl Edit {
    /// Where it begins: the text, the line and the column.
    fn place(&self) -> (In, usize, usize) {
        match *self {
            Put(which, line, column, ..) => (which, line, column),
            Swap(which, line) => (which, line, 1),
        }
    }

    /// The place after it.
    fn end(&self) -> (In, usize, usize) {
        match *self {
            Put(which, line, column, cut, _) => (which, line, column + cut),
            Swap(which, line) => (which, line + 2, 1),
        }
    }
}

/// A name and the edits that make it.
pub type Change = (&'static str, &'static [Edit]);

/// What the standard's reader has otherwise than the Rust.
pub const STANDARD: [Change; 2] = [
    ("segment probabilities with the map flag alone", &[Put(Parser, 466, 1, 0, "        }\n        {\n")]),
    ("decoder held to the first partition", &[Put(Parser, 602, 39, 0, "&"), Put(Parser, 602, 43, 0, "[..frame.first_part_size as usize]")]),
];

/// Where a line, counted from 1, begins.
pub fn start(text: &str, line: usize) -> usize {
    text.split_inclusive('\n').take(line - 1).map(str::len).sum()
}

/// The text of a line without its end.
pub fn line(text: &str, number: usize) -> &str {
    text.lines().nth(number - 1).expect("a line of the text that its digest names")
}

/// The lines in which two texts differ, the old ones and the new ones.
fn changed(old: &str, new: &str) -> String {
    let (a, b): (Vec<&str>, Vec<&str>) = (old.lines().collect(), new.lines().collect());
    let head = a.iter().zip(&b).take_while(|(x, y)| x == y).count();
    let tail = a[head..].iter().rev().zip(b[head..].iter().rev()).take_while(|(x, y)| x == y).count();
    let told = |sign: char, lines: &[&str]| lines[head..lines.len() - tail].iter().map(|l| format!("{sign} {l}\n")).collect::<String>();
    told('-', &a) + &told('+', &b)
}

/// A digest of 64 bits (FNV-1a): to tell one text from another, and not to withstand anybody.
fn digest(text: &str) -> u64 {
    text.bytes().fold(0xcbf2_9ce4_8422_2325, |sum, byte| (sum ^ byte as u64).wrapping_mul(0x0100_0000_01b3))
}

/// A module of ours. It stands inside one of the Rust's, since a child may read its parent's private fields.
fn inside(name: &str, file: &Path) -> String {
    format!("pub mod {name} {{ include!({file:?}); }}\n")
}

#[derive(Clone)]
pub struct Given {
    pub reader: String,
    pub decoder: String,
    pub probs: String,
    pub parser: String,
}

impl Given {
    pub fn read(folder: &Path) -> Result<Given, String> {
        let text = |(name, known): (&str, u64)| {
            let path = folder.join(name);
            let text = std::fs::read_to_string(&path).map_err(|why| format!("{}: {why}", path.display()))?;
            match digest(&text) == known {
                true => Ok(text),
                false => Err(format!("{}: this is not the text of cros-codecs 0.0.6", path.display())),
            }
        };
        let whole = text(FILES[0])?;
        // The rest of the folder is not built, so its names are not imported.
        let needed = whole.lines().take(READER).filter(|l| !l.starts_with("use crate::"));
        let reader = needed.map(|l| format!("{l}\n")).collect();
        Ok(Given { reader, decoder: text(FILES[1])?, probs: text(FILES[2])?, parser: text(FILES[3])? })
    }

    /// The Rust of the folder that tests/oracle/run found.
    pub fn found() -> Result<Given, String> {
        Given::read(Path::new(&std::env::var("SILLBROOK_RUST_SRC").unwrap_or_default()))
    }

    /// The same with these edits.
    pub fn edited(&self, edits: &[Edit]) -> Given {
        let mut edits = edits.to_vec();
        edits.sort_by_key(Edit::place);
        assert!(edits.windows(2).all(|e| e[0].place() < e[1].place() && e[0].end() <= e[1].place()), "edits that overlap");
        let mut out = self.clone();
        // From the last place to the first, so that each still stands where it is told.
        for edit in edits.iter().rev() {
            let (Put(which, ..) | Swap(which, ..)) = edit;
            let text = match which {
                Parser => &mut out.parser,
                Decoder => &mut out.decoder,
            };
            match edit {
                Put(_, line, column, cut, put) => {
                    let at = start(text, *line) + column - 1;
                    text.replace_range(at..at + cut, put);
                }
                Swap(_, number) => {
                    let (at, end) = (start(text, *number), start(text, number + 2));
                    let both = format!("{}\n{}\n", line(text, number + 1), line(text, *number));
                    text.replace_range(at..end, &both);
                }
            }
        }
        out
    }

    /// The standard's reader, with these edits too. One at a place of the standard's own stands instead of that.
    pub fn standard(&self, edits: &[Edit]) -> Given {
        let own = STANDARD.iter().flat_map(|(_, own)| own.iter());
        let left = own.filter(|o| edits.iter().all(|e| e.place() != o.place()));
        self.edited(&edits.iter().chain(left).copied().collect::<Vec<_>>())
    }

    /// The lines in which another differs from this one.
    pub fn changes(&self, other: &Given) -> String {
        changed(&self.decoder, &other.decoder) + &changed(&self.parser, &other.parser)
    }

    /// The same with our module `beyond`, of that file, inside the decoder's.
    pub fn telling(&self, beyond: &Path) -> Given {
        Given { decoder: format!("{}{}", self.decoder, inside("beyond", beyond)), ..self.clone() }
    }

    /// Such a one with two lines more: one counts the bools read, one tells how far past its bytes the decoder is.
    pub fn counted(&self) -> Given {
        let mut decoder = self.decoder.clone();
        // The later place first, so that the other still stands where it is told.
        decoder.insert_str(start(&decoder, POSITION + 1), "crate::tally::reach(beyond::past(self));\n");
        decoder.insert_str(start(&decoder, READ + 1), "crate::tally::bump();\n");
        Given { decoder, ..self.clone() }
    }

    /// All four as modules, `access` inside the parser's; `root` is what `crate::` becomes, so that several copies fit in one program.
    pub fn modules(&self, root: &str, access: &Path) -> String {
        let moved = |text: &str| text.replace("use crate::", &format!("use {root}"));
        let mut out = String::new();
        out += "#[allow(dead_code, unused)]\npub mod bitstream_utils {\n";
        out += &moved(&self.reader);
        out += "}\n#[allow(dead_code, unused)]\npub mod codec { pub mod vp8 {\npub mod bool_decoder {\n";
        out += &moved(&self.decoder);
        out += "}\npub mod probs {\n";
        out += &moved(&self.probs);
        out += "}\npub mod parser {\n";
        out += &moved(&self.parser);
        out += &inside("access", access);
        out + "}\n} }\n"
    }
}
