//! The state of a run and its 58 bytes (include/spokeshaver.h tells them for C).

use crate::answers::{require, Refusal};
use crate::locations::A0_ELEMENTS;
use crate::rules::Program;

/// Bytes of a lent state.
pub const STATE_BYTES: usize = 58;
/// The number of channels.
pub const CHANNELS: usize = 16;

/// Flags, place, channels and a0. A channel is awake (its awake bit alone), waiting (its waiting
/// bit alone, at its place) or off (neither bit). One that doesn't wait has place 0. The numbers
/// of a0 may be any.
#[derive(Clone, Copy, PartialEq, Eq, Debug)]
pub struct State {
    pub flags: [u16; 2],
    pub place: u16,
    pub awake: u16,
    pub waiting: u16,
    pub waiting_places: [u16; CHANNELS],
    pub a0: [u16; A0_ELEMENTS],
}

impl State {
    /// The state before the first step: channels of the mask awake, the others off for good, a0
    /// zero.
    pub fn start(mask: u16, flag0: u16, flag1: u16) -> State {
        State {
            flags: [flag0, flag1],
            place: 0,
            awake: mask,
            waiting: 0,
            waiting_places: [0; CHANNELS],
            a0: [0; A0_ELEMENTS],
        }
    }

    /// Reads 58 bytes, legal or not.
    pub fn from_bytes(bytes: &[u8]) -> State {
        let number = |index: usize| u16::from_le_bytes([bytes[2 * index], bytes[2 * index + 1]]);
        State {
            flags: [number(0), number(1)],
            place: number(2),
            awake: number(3),
            waiting: number(4),
            waiting_places: std::array::from_fn(|channel| number(5 + channel)),
            a0: std::array::from_fn(|element| number(5 + CHANNELS + element)),
        }
    }

    pub fn to_bytes(&self) -> [u8; STATE_BYTES] {
        let [flag0, flag1] = self.flags;
        let front = [flag0, flag1, self.place, self.awake, self.waiting];
        let mut bytes = [0; STATE_BYTES];
        let numbers = front.iter().chain(&self.waiting_places).chain(&self.a0);
        for (pair, number) in bytes.chunks_exact_mut(2).zip(numbers) {
            pair.copy_from_slice(&number.to_le_bytes());
        }
        bytes
    }

    /// Rule 15: every place is an instruction's start or the end, every channel is awake,
    /// waiting or off.
    pub fn judge(&self, program: &Program) -> Result<(), Refusal> {
        let place_is_good = program.is_start_or_end(self.place as usize);
        let channels_are_good = (0..CHANNELS).all(|channel| self.channel_is_good(channel, program));
        require(place_is_good && channels_are_good, 15)
    }

    fn channel_is_good(&self, channel: usize, program: &Program) -> bool {
        let place = self.waiting_places[channel];
        match (self.is_awake(channel), self.is_waiting(channel)) {
            (true, true) => false,
            (false, true) => program.is_start_or_end(place as usize),
            (_, false) => place == 0,
        }
    }

    pub fn is_awake(&self, channel: usize) -> bool {
        (self.awake >> channel) & 1 == 1
    }

    pub fn is_waiting(&self, channel: usize) -> bool {
        (self.waiting >> channel) & 1 == 1
    }

    /// Puts an awake channel to wait at a place.
    pub fn put_to_wait(&mut self, channel: usize, place: usize) {
        self.awake &= !(1 << channel);
        self.waiting |= 1 << channel;
        self.waiting_places[channel] = place as u16;
    }

    /// Wakes every channel that waits at a place.
    pub fn wake_at(&mut self, place: usize) {
        for channel in 0..CHANNELS {
            if self.is_waiting(channel) && self.waiting_places[channel] as usize == place {
                self.waiting &= !(1 << channel);
                self.awake |= 1 << channel;
                self.waiting_places[channel] = 0;
            }
        }
    }

    /// Whether some channel waits at a place.
    pub fn waits_at(&self, place: usize) -> bool {
        (0..CHANNELS).any(|channel| {
            self.is_waiting(channel) && self.waiting_places[channel] as usize == place
        })
    }
}
