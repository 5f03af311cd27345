//! FNV-1a, 64 bits: two runs gave the same answers if this number is the same.

#[derive(Clone, Copy)]
pub struct Digest(pub u64);

impl Digest {
    pub fn new() -> Digest {
        Digest(0xCBF2_9CE4_8422_2325)
    }

    pub fn add(&mut self, bytes: &[u8]) {
        for &byte in bytes {
            self.0 = (self.0 ^ byte as u64).wrapping_mul(0x0000_0100_0000_01B3);
        }
    }
}

#[cfg(test)]
mod tests {
    use super::*;

    #[test]
    fn known_values() {
        let mut digest = Digest::new();
        assert_eq!(digest.0, 0xCBF2_9CE4_8422_2325);
        digest.add(b"a");
        assert_eq!(digest.0, 0xAF63_DC4C_8601_EC8C);
    }
}
