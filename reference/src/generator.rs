//! The bytes of `random SEED COUNT`, as `docs/GENERATOR.md` has them: a linear
//! congruential generator with the multiplier and the increment of Knuth's MMIX.

const MULTIPLIER: u64 = 6_364_136_223_846_793_005;
const INCREMENT: u64 = 1_442_695_040_888_963_407;

/// Bytes without end.
pub struct Generator {
    number: u64,
}

impl Generator {
    pub fn new(seed: u64) -> Self {
        Generator { number: seed }
    }
}

impl Iterator for Generator {
    type Item = u8;

    #[inline]
    fn next(&mut self) -> Option<u8> {
        self.number = self.number.wrapping_mul(MULTIPLIER).wrapping_add(INCREMENT);
        Some(self.number.to_be_bytes()[0])
    }
}

#[cfg(test)]
mod tests {
    use super::*;

    fn bytes(seed: u64, count: usize) -> Vec<u8> {
        Generator::new(seed).take(count).collect()
    }

    #[test]
    fn first_bytes() {
        assert_eq!(bytes(1, 4), [0x6c, 0x82, 0xa5, 0x62]);
        assert_eq!(bytes(1, 0), []);
        // 1,442,695,040,888,963,407 is 0x14057b7ef767814f.
        assert_eq!(bytes(0, 1), [0x14]);
    }

    #[test]
    fn every_byte_occurs() {
        let mut seen = [false; 256];
        for byte in bytes(7, 10_000) {
            seen[usize::from(byte)] = true;
        }
        assert!(seen.iter().all(|&seen| seen));
    }
}
