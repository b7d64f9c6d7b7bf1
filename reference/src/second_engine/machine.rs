//! What a run works on: registers, flags, a0 and channels, the waiting ones by where they wait.

use crate::channels::Registers;
use crate::decoded::{number_of, Origin, Predicate, Vote};
use crate::locations::A0_ELEMENTS;
use crate::rules::Program;
use crate::state::{State, CHANNELS};

/// Registers, flags, a0 and channels during a run. A channel is in the awake mask, in one waiting
/// mask, or off.
pub struct Machine<'a> {
    pub registers: &'a mut Registers,
    pub flags: [u16; 2],
    pub a0: [u16; A0_ELEMENTS],
    pub awake: u16,
    /// The channels that wait at each instruction number, the end being the last.
    waiting_at: Vec<u16>,
}

impl Machine<'_> {
    /// The machine of a judged state, and the instruction number to begin with.
    pub fn begin<'a>(
        program: &Program,
        registers: &'a mut Registers,
        state: &State,
    ) -> (Machine<'a>, usize) {
        let mut waiting_at = vec![0; program.instructions.len() + 1];
        for channel in (0..CHANNELS).filter(|&channel| state.is_waiting(channel)) {
            let place = state.waiting_places[channel] as usize;
            waiting_at[number_of(program, place) as usize] |= 1 << channel;
        }
        let State { flags, a0, awake, .. } = *state;
        let machine = Machine { registers, flags, a0, awake, waiting_at };
        (machine, number_of(program, state.place as usize) as usize)
    }

    /// The state at an instruction number.
    pub fn end(&self, program: &Program, number: usize) -> State {
        let mut state = State::start(self.awake, self.flags[0], self.flags[1]);
        state.place = program.place_of(number) as u16;
        state.a0 = self.a0;
        for (number, &channels) in self.waiting_at.iter().enumerate().filter(|(_, &at)| at != 0) {
            for channel in (0..CHANNELS).filter(|channel| (channels >> channel) & 1 == 1) {
                state.put_to_wait(channel, program.place_of(number));
            }
        }
        state
    }

    /// Where an operand begins now: a byte of the register file, or an element of a0.
    #[inline]
    pub fn start(&self, origin: &Origin) -> usize {
        match origin {
            Origin::Register(start) => *start as usize,
            Origin::Address(address) => address.start(&self.a0) as usize,
            Origin::A0(first) => *first as usize,
        }
    }

    /// Wakes the channels that wait at an instruction number.
    #[inline]
    pub fn wake(&mut self, number: usize) {
        self.awake |= std::mem::take(&mut self.waiting_at[number]);
    }

    /// Puts awake channels to wait at an instruction number.
    #[inline]
    pub fn put_to_wait(&mut self, channels: u16, number: usize) {
        self.awake &= !channels;
        self.waiting_at[number] |= channels;
    }

    /// Whether some channel waits at an instruction number.
    #[inline]
    pub fn waits_at(&self, number: usize) -> bool {
        self.waiting_at[number] != 0
    }
}

/// A predicate made ready: its flag's votes, inverted or not, or all ones where none is used.
#[derive(Clone, Copy)]
pub struct Holding {
    flag: usize,
    vote: Vote,
    inversion: u16,
    always: u16,
}

impl Holding {
    pub fn of(predicate: &Predicate) -> Holding {
        let always = if predicate.is_used { 0 } else { u16::MAX };
        let Predicate { flag, vote, inversion, .. } = *predicate;
        Holding { flag, vote, inversion, always }
    }

    /// The channels whose predicate holds, whether awake or not.
    #[inline]
    pub fn mask(&self, machine: &Machine) -> u16 {
        (self.vote.mask(machine.flags[self.flag]) ^ self.inversion) | self.always
    }
}
