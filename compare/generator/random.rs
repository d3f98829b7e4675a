//! Numbers drawn from a seed (splitmix64), and the draws that every kind of case shares.

pub struct Random(u64);

/// Numbers at which something may change: powers of two and the limits of document 01.
const EDGES: [u64; 30] = [
    0,
    1,
    2,
    7,
    8,
    9,
    35,
    36,
    37,
    43,
    44,
    45,
    255,
    256,
    1023,
    1024,
    1025,
    65_535,
    65_536,
    65_537,
    5_242_880,
    5_242_881,
    1 << 24,
    (1 << 24) + 1,
    1 << 28,
    1 << 30,
    u32::MAX as u64,
    1 << 32,
    u64::MAX - 1,
    u64::MAX,
];

impl Random {
    pub fn new(seed: u64) -> Self {
        Random(seed.wrapping_mul(0xd134_2543_de82_ef95) ^ 0x6361_626c_6566_696e)
    }

    pub fn next(&mut self) -> u64 {
        self.0 = self.0.wrapping_add(0x9e37_79b9_7f4a_7c15);
        let mut mixed = self.0;
        mixed = (mixed ^ (mixed >> 30)).wrapping_mul(0xbf58_476d_1ce4_e5b9);
        mixed = (mixed ^ (mixed >> 27)).wrapping_mul(0x94d0_49bb_1331_11eb);
        mixed ^ (mixed >> 31)
    }

    /// A number below the bound, 0 for the bound 0.
    pub fn below(&mut self, bound: u64) -> u64 {
        if bound == 0 { 0 } else { self.next() % bound }
    }

    /// A number below the bound, small ones more often.
    pub fn small(&mut self, bound: u64) -> u64 {
        let most = self.below(bound) + 1;
        self.below(most)
    }

    /// True once in so many draws.
    pub fn once_in(&mut self, draws: u64) -> bool {
        self.below(draws) == 0
    }

    pub fn byte(&mut self) -> u8 {
        self.next() as u8
    }

    pub fn pick<'a, T>(&mut self, list: &'a [T]) -> &'a T {
        &list[self.below(list.len() as u64) as usize]
    }

    pub fn edge(&mut self) -> u64 {
        *self.pick(&EDGES)
    }

    /// A number at or beside the given one.
    pub fn around(&mut self, number: u64) -> u64 {
        match self.below(4) {
            0 => number.wrapping_sub(1),
            1 => number.wrapping_add(1),
            _ => number,
        }
    }

    pub fn around_one_of(&mut self, list: &[u64]) -> u64 {
        let number = *self.pick(list);
        self.around(number)
    }

    /// A value's id.
    pub fn column(&mut self) -> u16 {
        match self.below(3) {
            0 => self.next() as u16,
            _ => *self.pick(&[0, 1, 255, 256, 0xffff]),
        }
    }

    pub fn word(&mut self) -> u64 {
        match self.below(6) {
            0 => self.edge(),
            1 => 1 << self.below(64),
            2 => self.below(256),
            // Doubles: infinities and NaNs of both kinds, with and without a payload.
            3 => {
                let sign = self.below(2) << 63;
                let payload = *self.pick(&[0, 1, 1 << 51, (1 << 51) + 1, (1 << 52) - 1, 12345]);
                sign | 0x7ff0_0000_0000_0000 | payload
            }
            _ => self.next(),
        }
    }

    pub fn word32(&mut self) -> u32 {
        match self.below(4) {
            0 => *self.pick(&[
                0,
                1,
                15,
                16,
                255,
                256,
                0x0fff_ffff,
                0x1000_0000,
                0x7fff_ffff,
                u32::MAX,
            ]),
            1 => self.next() as u32 >> self.below(32),
            _ => self.next() as u32,
        }
    }

    pub fn id(&mut self) -> [u8; 16] {
        let mut bytes = [0; 16];
        if self.once_in(12) {
            return bytes;
        }
        for at in 0..4 {
            let word = self.word32();
            bytes[4 * at..4 * at + 4].copy_from_slice(&word.to_le_bytes());
        }
        bytes
    }

    pub fn flags(&mut self) -> u16 {
        match self.below(4) {
            0 => 0,
            1 => 1,
            2 => 1 << self.below(16),
            _ => self.next() as u16,
        }
    }

    /// So many bytes: random, all alike, zeros with one other, or the polynomial's own bytes, which
    /// have checksum 0 without being zero.
    pub fn content(&mut self, length: usize) -> Vec<u8> {
        match self.below(10) {
            0 => vec![0; length],
            1 => vec![self.byte(); length],
            2 => {
                let mut bytes = vec![0; length];
                if length > 0 {
                    let at = self.below(length as u64) as usize;
                    bytes[at] = 1 << self.below(8);
                }
                bytes
            }
            3 => {
                const FULL: [u8; 9] = [0x01, 0xe5, 0x43, 0x27, 0x97, 0x65, 0x92, 0x78, 0x81];
                FULL.iter().copied().cycle().take(length).collect()
            }
            _ => {
                let mut bytes = Vec::with_capacity(length + 8);
                while bytes.len() < length {
                    bytes.extend_from_slice(&self.next().to_le_bytes());
                }
                bytes.truncate(length);
                bytes
            }
        }
    }

    /// In four of eight cases a change: damage, a cut, or one of the marks put in or over a byte.
    pub fn spoil(&mut self, bytes: &mut Vec<u8>, marks: &[u8]) {
        match self.below(8) {
            0 => self.damage(bytes),
            1 => {
                let keep = self.below(bytes.len() as u64 + 1) as usize;
                bytes.truncate(keep);
            }
            2 => {
                let at = self.below(bytes.len() as u64 + 1) as usize;
                bytes.insert(at, *self.pick(marks));
            }
            3 => {
                let at = self.below(bytes.len() as u64) as usize;
                if let Some(byte) = bytes.get_mut(at) {
                    *byte = *self.pick(marks);
                }
            }
            _ => {}
        }
    }

    /// One small change: a bit, a byte, a byte more, a byte less, a cut or a burst.
    pub fn damage(&mut self, bytes: &mut Vec<u8>) {
        let length = bytes.len() as u64;
        let at = self.below(length) as usize;
        match self.below(8) {
            _ if length == 0 => bytes.push(self.byte()),
            0 => bytes[at] = self.byte(),
            1 => bytes.insert(at, self.byte()),
            2 => {
                bytes.remove(at);
            }
            3 => bytes.truncate(at),
            4 => {
                let end = (at + 1 + self.below(8) as usize).min(bytes.len());
                for byte in &mut bytes[at..end] {
                    *byte = self.byte();
                }
            }
            _ => bytes[at] ^= 1 << self.below(8),
        }
    }
}
