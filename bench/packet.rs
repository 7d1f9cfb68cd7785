//! Packets in Rust, by the same rules, for the programs that are compared with the proved ones.

/// As many inputs as a packet has at most, and as many bytes.
pub const MOST_INPUTS: usize = 120;
pub const MOST_LENGTH: usize = 10 + MOST_INPUTS;

pub struct Packet<'a> {
    pub first: u32,
    pub ack: u32,
    pub inputs: &'a [u8],
}

#[allow(dead_code)]
pub enum Fault {
    NoMark,
    CutShort(usize),
    TooLong(usize),
    TooMany,
    BadInput(usize),
    PastEnd,
    Unmade,
}

impl<'a> Packet<'a> {
    pub fn read(packet: &'a [u8], own: u32) -> Result<Packet<'a>, Fault> {
        let number = |at: usize| u32::from_le_bytes(packet[at..at + 4].try_into().unwrap());
        match packet.first() {
            None => return Err(Fault::CutShort(0)),
            Some(b'H') => {}
            Some(_) => return Err(Fault::NoMark),
        }
        if packet.len() < 6 {
            return Err(Fault::CutShort(packet.len()));
        }
        let (first, count) = (number(1), packet[5]);
        if u64::from(first) + u64::from(count) > 1_000_000 {
            return Err(Fault::PastEnd);
        }
        if usize::from(count) > MOST_INPUTS {
            return Err(Fault::TooMany);
        }
        if packet.len() < 10 {
            return Err(Fault::CutShort(packet.len()));
        }
        let ack = number(6);
        if ack > own {
            return Err(Fault::Unmade);
        }
        let end = 10 + usize::from(count);
        let inputs = &packet[10..end.min(packet.len())];
        if let Some(at) = inputs.iter().position(|i| *i > 15) {
            return Err(Fault::BadInput(10 + at));
        }
        if packet.len() < end {
            return Err(Fault::CutShort(packet.len()));
        }
        if packet.len() > end {
            return Err(Fault::TooLong(end));
        }
        Ok(Packet { first, ack, inputs })
    }

    /// Writes the packet's bytes, and hands back how many they are; none where it has too many inputs.
    #[allow(dead_code)]
    pub fn write(&self, out: &mut [u8; MOST_LENGTH]) -> Option<usize> {
        let count = u8::try_from(self.inputs.len()).ok().filter(|n| usize::from(*n) <= MOST_INPUTS)?;
        let end = 10 + self.inputs.len();
        out[0] = b'H';
        out[1..5].copy_from_slice(&self.first.to_le_bytes());
        out[5] = count;
        out[6..10].copy_from_slice(&self.ack.to_le_bytes());
        out[10..end].copy_from_slice(self.inputs);
        Some(end)
    }
}
