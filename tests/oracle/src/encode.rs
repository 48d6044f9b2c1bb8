//! The boolean encoder.

pub struct BoolWriter {
    out: Vec<u8>,
    /// The low end, with `held` bits above its eight that are not written yet, and a carry above those.
    low: u32,
    range: u32,
    held: u32,
    pub bools: u32,
}

impl BoolWriter {
    pub fn new() -> BoolWriter {
        BoolWriter { out: Vec::new(), low: 0, range: 255, held: 0, bools: 0 }
    }

    pub fn bool(&mut self, p: u8, bit: bool) {
        self.bools += 1;
        let split = 1 + (((self.range - 1) * p as u32) >> 8);
        if bit {
            self.low += split;
            self.range -= split;
        } else {
            self.range = split;
        }
        while self.range < 128 {
            self.range *= 2;
            self.double();
        }
    }

    pub fn flag(&mut self, bit: bool) {
        self.bool(128, bit);
    }

    pub fn literal(&mut self, width: u32, value: u32) {
        assert!(value >> width == 0, "a value wider than its field");
        for i in (0..width).rev() {
            self.flag(value >> i & 1 == 1);
        }
    }

    fn double(&mut self) {
        self.low *= 2;
        self.held += 1;
        if self.held == 8 {
            if self.low >> 16 != 0 {
                // The carry runs up through bytes that are FF.
                for byte in self.out.iter_mut().rev() {
                    *byte = byte.wrapping_add(1);
                    if *byte != 0 {
                        break;
                    }
                }
            }
            self.out.push((self.low >> 8) as u8);
            self.low &= 0xff;
            self.held = 0;
        }
    }

    /// Writes what is held, so that the decoder is left with `end` as its value; nothing after these bytes has a say.
    pub fn finish(mut self, end: u8) -> Vec<u8> {
        assert!((end as u32) < self.range, "a value that the range does not hold");
        self.low += end as u32;
        while self.held != 7 {
            self.double();
        }
        self.double();
        self.out.push(self.low as u8);
        self.out
    }
}
