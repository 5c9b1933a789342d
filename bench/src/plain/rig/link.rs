//! The link: what becomes of the packets that are sent.

use super::action::{RigFault, Segment, Transmission};
use crate::plain::store::Store;

const MOST_FATES: usize = 4_096;

/// The bit of a fate that asks for two copies; the bits below it are the delay.
const TWICE: u16 = 0x8000;

/// What one end of a channel sends to the other.
#[derive(Clone, Copy)]
pub enum Packet {
    Data(Segment),
    Acknowledgement { sequence: u32 },
    Keepalive { sequence: u32 },
}

impl Packet {
    /// What fills a vacant row.
    pub const NONE: Packet = Packet::Keepalive { sequence: 0 };
}

/// The fates of the first packets.
#[derive(Default)]
pub struct Fates(Vec<u16>);

impl Fates {
    /// Adds the fate of the next packet.
    pub fn add(&mut self, fate: u16) -> Result<(), RigFault> {
        if self.0.len() >= MOST_FATES {
            return Err(RigFault::Fates);
        }
        self.0.push(fate);
        Ok(())
    }
}

/// Gives every packet its number and its fate.
pub struct Link {
    fates: Fates,
    default_delay: u16,
    sent: u32,
}

impl Link {
    /// A link that has carried nothing.
    pub fn new(fates: Fates, default_delay: u16) -> Link {
        Link {
            fates,
            default_delay,
            sent: 0,
        }
    }

    /// Whether every packet number is spent.
    pub fn is_spent(&self) -> bool {
        self.sent == u32::MAX
    }

    /// Puts a packet on the wire, as its fate says.
    pub fn send<W: Store<Packet>>(
        &mut self,
        wire: &mut W,
        owner: u8,
        packet: Packet,
    ) -> Transmission {
        let number = self.sent;
        self.sent = number.saturating_add(1);
        let fate = self.fates.0.get(number as usize);
        let fate = *fate.unwrap_or(&self.default_delay);
        let delay = fate % TWICE;
        let asked = match (delay, fate < TWICE) {
            (0, _) => 0,
            (_, true) => 1,
            (_, false) => 2,
        };
        let deadline = wire.now().saturating_add(u32::from(delay));
        let mut copies = 0;
        for _ in 0..asked {
            copies += u8::from(wire.start(deadline, owner, packet).is_ok());
        }
        Transmission {
            packet: number,
            delay,
            copies,
        }
    }
}
