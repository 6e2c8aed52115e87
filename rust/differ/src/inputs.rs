//! Where the inputs come from: all of a small alphabet, or random ones around the edges.

use wotskrale::Limits;

use crate::model::{total, valid, Parts};

/// The bytes at both ends of a byte's range.
pub const ALPHABET: [u8; 4] = [0x00, 0x01, 0xfe, 0xff];

/// All byte strings of the alphabet with at most so many bytes.
pub fn strings(most: usize) -> Vec<Vec<u8>> {
    let mut all = vec![Vec::new()];
    let mut from = 0;
    for _ in 0..most {
        let to = all.len();
        for i in from..to {
            for byte in ALPHABET {
                let mut longer = all[i].clone();
                longer.push(byte);
                all.push(longer);
            }
        }
        from = to;
    }
    all
}

/// All lists of at most `mcc` components of at most `mcl` bytes, `mpl` in all.
pub fn lists(mcl: usize, mcc: usize, mpl: usize) -> Vec<Parts> {
    let components = strings(mcl.min(mpl));
    let mut all = vec![Parts::new()];
    let mut from = 0;
    for _ in 0..mcc {
        let to = all.len();
        for i in from..to {
            let left = mpl - total(&all[i]);
            for component in components.iter().filter(|c| c.len() <= left) {
                let mut longer = all[i].clone();
                longer.push(component.clone());
                all.push(longer);
            }
        }
        from = to;
    }
    all
}

/// Random numbers from a seed (splitmix64).
pub struct Random(u64);

impl Random {
    /// The numbers of a seed.
    pub fn new(seed: u64) -> Self {
        Random(seed)
    }

    /// The next number.
    pub fn next(&mut self) -> u64 {
        self.0 = self.0.wrapping_add(0x9e37_79b9_7f4a_7c15);
        let mut z = self.0;
        z = (z ^ (z >> 30)).wrapping_mul(0xbf58_476d_1ce4_e5b9);
        z = (z ^ (z >> 27)).wrapping_mul(0x94d0_49bb_1331_11eb);
        z ^ (z >> 31)
    }

    /// A number below another that is above 0.
    pub fn below(&mut self, n: usize) -> usize {
        (self.next() % n.max(1) as u64) as usize
    }

    fn near(&mut self, most: usize) -> usize {
        match self.below(6) {
            0 => most,
            1 => most.saturating_sub(1),
            2 => most.min(1),
            3 => self.below(most.min(5) + 1),
            _ => self.below(most + 1),
        }
    }

    fn byte(&mut self, style: usize) -> u8 {
        match style {
            0 => 0xff,
            1 => ALPHABET[self.below(4)],
            2 if self.below(12) > 0 => 0xff,
            3 => 0,
            _ => self.next() as u8,
        }
    }

    /// A path within the limits, near their edges.
    pub fn path(&mut self, limits: Limits) -> Parts {
        let (mcl, mcc, mpl) = (
            limits.mcl as usize,
            limits.mcc as usize,
            limits.mpl as usize,
        );
        let count = self.near(mcc);
        let mut left = self.near(mpl);
        let (spread, style) = (self.below(3), self.below(6));
        let even = left.checked_div(count).unwrap_or(0);
        let mut parts = Parts::new();
        for _ in 0..count {
            let length = match spread {
                0 => mcl,
                1 => even,
                _ => self.near(mcl),
            };
            let length = length.min(left).min(mcl);
            left -= length;
            parts.push((0..length).map(|_| self.byte(style)).collect());
        }
        if self.below(4) == 0 {
            if let Some(byte) = parts.iter_mut().find_map(|p| p.first_mut()) {
                *byte = self.byte(1);
            }
        }
        parts
    }

    /// A path that is nearly another: a prefix of it, longer by something, or changed in one place.
    pub fn beside(&mut self, limits: Limits, path: &Parts) -> Parts {
        let mut other = path.clone();
        let at = self.below(path.len());
        match self.below(7) {
            0 => {}
            1 => other.truncate(at),
            2 => other.push(strings(1)[self.below(5)].clone()),
            3 if !path.is_empty() => other[at].push(self.byte(1)),
            4 if !path.is_empty() => {
                other[at].pop();
            }
            5 if at + 1 < path.len() => {
                if let Some(byte) = other[at].pop() {
                    other[at + 1].insert(0, byte);
                }
            }
            _ => {
                if let Some(part) = other.get_mut(at).filter(|p| !p.is_empty()) {
                    let place = [0, part.len() - 1, self.below(part.len())][self.below(3)];
                    part[place] = self.byte(1);
                }
            }
        }
        if valid(limits, &other) {
            other
        } else {
            path.clone()
        }
    }

    /// Components that pass a limit by a little, or do not.
    pub fn around(&mut self, limits: Limits) -> Parts {
        let mut parts = self.path(limits);
        let mcl = limits.mcl as usize;
        match self.below(5) {
            0 => parts.push(Vec::new()),
            1 => parts.push(vec![self.byte(1); mcl + 1]),
            2 => parts.push(vec![self.byte(1); mcl]),
            3 if !parts.is_empty() => {
                let at = self.below(parts.len());
                parts[at].resize(mcl + 1, 7);
            }
            _ => {
                let short = (limits.mpl as usize + 1).saturating_sub(total(&parts));
                parts.extend(vec![vec![1]; short.min(3)]);
            }
        }
        parts
    }
}
