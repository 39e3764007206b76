//! Stands in for the crate `crc` 3: what uf-crsf's commands.rs uses of it, for 8 bits, highest bit first. Like the real crate by
//! default it works with a table of 256 entries.
#![no_std]

pub struct Algorithm<W> {
    pub width: u8,
    pub poly: W,
    pub init: W,
    pub refin: bool,
    pub refout: bool,
    pub xorout: W,
    pub check: W,
    pub residue: W,
}

pub struct Crc<W> {
    table: [W; 256],
}

pub struct Digest<'a, W> {
    crc: &'a Crc<W>,
    value: W,
}

impl Crc<u8> {
    /// Refuses at compile time what it does not stand in for.
    pub const fn new(algorithm: &'static Algorithm<u8>) -> Self {
        assert!(algorithm.width == 8 && !algorithm.refin && !algorithm.refout);
        assert!(algorithm.init == 0 && algorithm.xorout == 0);
        let mut table = [0; 256];
        let mut i = 0;
        while i < 256 {
            let mut value = i as u8;
            let mut bit = 0;
            while bit < 8 {
                let carry = value >> 7;
                value = (value << 1) ^ (carry * algorithm.poly);
                bit += 1;
            }
            table[i] = value;
            i += 1;
        }
        Self { table }
    }

    pub const fn digest(&self) -> Digest<'_, u8> {
        Digest {
            crc: self,
            value: 0,
        }
    }
}

impl Digest<'_, u8> {
    pub fn update(&mut self, bytes: &[u8]) {
        for byte in bytes {
            self.value = self.crc.table[usize::from(self.value ^ byte)];
        }
    }

    pub const fn finalize(self) -> u8 {
        self.value
    }
}
