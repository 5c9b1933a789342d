//! The round-trip time of a channel and its retransmission timeout, after RFC 6298, in whole ticks.

const LEAST_TIMEOUT: u32 = 1_000;
const MOST_TIMEOUT: u32 = 60_000;
const MOST_SAMPLE: u32 = 60_000;
const MOST_WAIT: u32 = 60_000;
const MOST_DOUBLINGS: u32 = 6;

/// What the samples so far say of the round-trip time.
#[derive(Clone, Copy)]
struct RoundTrip {
    /// Eight times the smoothed time.
    smoothed: u32,
    /// Four times its variation.
    variation: u32,
}

impl RoundTrip {
    fn first(sample: u32) -> RoundTrip {
        RoundTrip {
            smoothed: 8 * sample,
            variation: 2 * sample,
        }
    }

    fn next(self, sample: u32) -> RoundTrip {
        let error = (self.smoothed / 8).abs_diff(sample);
        RoundTrip {
            smoothed: (self.smoothed - self.smoothed / 8).saturating_add(sample),
            variation: (self.variation - self.variation / 4).saturating_add(error),
        }
    }

    fn timeout(self) -> u32 {
        (self.smoothed / 8)
            .saturating_add(self.variation.max(1))
            .clamp(LEAST_TIMEOUT, MOST_TIMEOUT)
    }
}

/// Follows the round-trip time of a channel.
#[derive(Clone, Copy)]
pub struct Estimator {
    round_trip: Option<RoundTrip>,
    timeout: u32,
}

impl Estimator {
    /// The estimator before any sample.
    pub fn new() -> Estimator {
        Estimator {
            round_trip: None,
            timeout: LEAST_TIMEOUT,
        }
    }

    /// Takes one sample.
    pub fn sample(&mut self, ticks: u32) {
        let sample = ticks.min(MOST_SAMPLE);
        let round_trip = match self.round_trip {
            None => RoundTrip::first(sample),
            Some(round_trip) => round_trip.next(sample),
        };
        self.round_trip = Some(round_trip);
        self.timeout = round_trip.timeout();
    }

    /// How long a packet that was resent so often waits for its acknowledgement.
    pub fn wait(&self, resends: u32) -> u32 {
        (self.timeout << resends.min(MOST_DOUBLINGS)).min(MOST_WAIT)
    }
}
