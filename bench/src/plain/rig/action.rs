//! What the rig's calls answer.

use crate::plain::store::Fault;

/// A word with its number on its channel.
#[derive(Clone, Copy, PartialEq, Eq, Debug)]
pub struct Segment {
    pub sequence: u32,
    pub word: u32,
}

/// A packet that was handed to the link, and what the link made of it.
#[derive(Clone, Copy, PartialEq, Eq, Debug)]
pub struct Transmission {
    /// The packet's number.
    pub packet: u32,
    /// After how many ticks it arrives, or 0 if it is lost.
    pub delay: u16,
    /// How many copies the wire accepted.
    pub copies: u8,
}

/// What an accepted call did.
#[derive(Clone, Copy, PartialEq, Eq, Debug)]
pub enum Action {
    Opened {
        channel: u8,
    },
    Sent {
        channel: u8,
        segment: Segment,
        transmission: Transmission,
    },
    Taken {
        channel: u8,
        segment: Option<Segment>,
    },
    DataArrived {
        channel: u8,
        segment: Segment,
        acknowledgement: Option<Transmission>,
    },
    AcknowledgementArrived {
        channel: u8,
        sequence: u32,
    },
    KeepaliveArrived {
        channel: u8,
        sequence: u32,
    },
    Resent {
        channel: u8,
        segment: Segment,
        transmission: Option<Transmission>,
    },
    KeepaliveSent {
        channel: u8,
        heartbeat: Option<(u32, Transmission)>,
    },
    Advanced,
}

/// One of the rig's timer stores.
#[derive(Clone, Copy, PartialEq, Eq, Debug)]
pub enum Queue {
    Wire,
    Resend,
    Keepalive,
}

/// Why a call is refused.
#[derive(Clone, Copy, PartialEq, Eq, Debug)]
pub enum RigFault {
    /// 11: the channel is above 63.
    Channel,
    /// 12: the channel is not in the state that the call asks for.
    State,
    /// 13: as many words wait for an acknowledgement as the window has places.
    Window,
    /// 14: a store refuses.
    Store(Queue, Fault),
    /// 15: tickets, packet numbers or sequence numbers run out.
    Spent,
    /// 16: nothing is due and the last tick is too near.
    Ending,
    /// 21: the default delay or the interval is out of its range.
    Setting,
    /// 22: the stores differ in their tick or their last tick.
    Clocks,
    /// 23: a store has pending entries or gave tickets before.
    Used,
    /// 24: the last tick is too near to begin.
    Span,
    /// 25: the table has fewer than 64 records.
    Table,
    /// 36: the list of fates has no room.
    Fates,
}
