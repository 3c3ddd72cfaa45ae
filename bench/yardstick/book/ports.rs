//! The server's pairs of UDP ports, of which some are held.

const FIRST: u16 = 5_000;
const PAIRS: usize = 128;
const BITS: usize = u64::BITS as usize;

/// A bit for each pair, which is on where the pair is held. A pair is named by its first port.
pub struct Ports {
    held: [u64; PAIRS / BITS],
}

impl Ports {
    pub fn new() -> Ports {
        Ports {
            held: [0; PAIRS / BITS],
        }
    }

    pub fn least_free(&self) -> Option<u16> {
        let word = self.held.iter().position(|word| *word != u64::MAX)?;
        let pair = word * BITS + self.held[word].trailing_ones() as usize;
        Some(FIRST + 2 * pair as u16)
    }

    fn bit(&mut self, first: u16) -> (&mut u64, u64) {
        let pair = usize::from(first - FIRST) / 2;
        (&mut self.held[pair / BITS], 1 << (pair % BITS))
    }

    pub fn take(&mut self, first: u16) {
        let (word, bit) = self.bit(first);
        *word |= bit;
    }

    pub fn give(&mut self, first: u16) {
        let (word, bit) = self.bit(first);
        *word &= !bit;
    }
}
