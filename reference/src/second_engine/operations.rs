//! The operations that read and write operands (paper: "Operations").

use super::lanes::Lane;
use super::machine::{Holding, Machine};
use super::sources::Source;
use super::targets::Target;
use super::Step;
use crate::decoded::{self, Condition, Decoded, Modifier};
use crate::floats;
use crate::operations::Operation;

/// The function of a decoded operation, given the number of the instruction behind it.
pub fn step_of(decoded: &Decoded, next: usize) -> Step {
    match decoded.channels {
        16 => step_of_channels::<16>(decoded, next),
        8 => step_of_channels::<8>(decoded, next),
        4 => step_of_channels::<4>(decoded, next),
        2 => step_of_channels::<2>(decoded, next),
        _ => step_of_channels::<1>(decoded, next),
    }
}

fn step_of_channels<const N: usize>(decoded: &Decoded, next: usize) -> Step {
    if decoded.on_floats {
        step_on_floats::<N>(decoded, next)
    } else if narrow_lanes_serve(decoded) {
        step_of_lanes::<N, i32>(decoded, next)
    } else {
        step_of_lanes::<N, i64>(decoded, next)
    }
}

fn step_of_lanes<const N: usize, L: Lane>(decoded: &Decoded, next: usize) -> Step {
    let work = Work::<N, L>::of(decoded, next);
    match decoded.operation {
        Operation::Mov => work.on_one(|a| a),
        Operation::Not => work.on_one(|a| !a),
        Operation::And => work.on_two(|a, b| a & b),
        Operation::Or => work.on_two(|a, b| a | b),
        Operation::Xor => work.on_two(|a, b| a ^ b),
        Operation::Shl => work.on_two(L::shifted_up),
        Operation::Shr => work.on_two(L::shifted_down),
        Operation::Asr => work.on_two(L::signed_shifted_down),
        Operation::Add => work.on_two(L::plus),
        Operation::Mul => work.on_two(L::times),
        Operation::Avg => work.on_two(L::average),
        Operation::Sel => work.select(),
        Operation::Cmp => match decoded.condition {
            Condition::Zero => work.compare(|a, b| a == b),
            Condition::NotZero => work.compare(|a, b| a != b),
            Condition::Greater => work.compare(|a, b| a > b),
            Condition::GreaterOrEqual => work.compare(|a, b| a >= b),
            Condition::Less => work.compare(|a, b| a < b),
            Condition::LessOrEqual => work.compare(|a, b| a <= b),
        },
        other => unreachable!("{other:?} has no operands"),
    }
}

/// The function of an operation on floats, whose lanes hold patterns.
fn step_on_floats<const N: usize>(decoded: &Decoded, next: usize) -> Step {
    let work = Work::<N, i64>::of(decoded, next);
    let condition = match decoded.condition {
        Condition::Zero => 1,
        Condition::NotZero => 2,
        Condition::Greater => 3,
        Condition::GreaterOrEqual => 4,
        Condition::Less => 5,
        Condition::LessOrEqual => 6,
    };
    match decoded.operation {
        Operation::Mov => work.on_one(|a| a),
        Operation::Add => work.on_two(|a, b| floats::sum(a as u32, b as u32) as i64),
        Operation::Mul => work.on_two(|a, b| floats::product(a as u32, b as u32) as i64),
        Operation::Cmp => work.compare(move |a, b| floats::compare(condition, a as u32, b as u32)),
        other => unreachable!("{other:?} takes no floats"),
    }
}

/// All that an operation on `N` channels needs but what it does with its values. Masks are
/// counted from the operation's own first channel.
struct Work<const N: usize, L> {
    holding: Holding,
    /// All ones if all channels count as awake (WECtrl).
    woken: u16,
    first_channel: usize,
    flag: usize,
    sources: [Source<N, L>; 2],
    target: Target<N, L>,
    next: usize,
}

impl<const N: usize, L: Lane> Work<N, L> {
    /// The mask of all channels.
    const ALL: u16 = u16::MAX >> (16 - N);

    fn of(decoded: &Decoded, next: usize) -> Work<N, L> {
        Work {
            holding: Holding::of(&decoded.predicate),
            woken: if decoded.ignores_mask { u16::MAX } else { 0 },
            first_channel: decoded.first_channel,
            flag: decoded.predicate.flag,
            sources: [Source::of(&decoded.sources[0]), Source::of(&decoded.sources[1])],
            target: Target::of(&decoded.destination),
            next,
        }
    }

    /// The channels that are awake or count as awake.
    #[inline]
    fn awake(&self, machine: &Machine) -> u16 {
        ((machine.awake | self.woken) >> self.first_channel) & Self::ALL
    }

    /// The channels whose predicate holds.
    #[inline]
    fn holding(&self, machine: &Machine) -> u16 {
        self.holding.mask(machine) >> self.first_channel
    }

    /// An operation on src0 alone.
    fn on_one(self, operation: impl Fn(L) -> L + 'static) -> Step {
        Box::new(move |machine| {
            let enabled = self.awake(machine) & self.holding(machine);
            if enabled != 0 {
                let results = self.sources[0].values(machine).map(&operation);
                self.target.write(machine, results, enabled);
            }
            self.next
        })
    }

    /// An operation on both sources.
    fn on_two(self, operation: impl Fn(L, L) -> L + 'static) -> Step {
        Box::new(move |machine| {
            let enabled = self.awake(machine) & self.holding(machine);
            if enabled != 0 {
                let left = self.sources[0].values(machine);
                let right = self.sources[1].values(machine);
                let results = std::array::from_fn(|n| operation(left[n], right[n]));
                self.target.write(machine, results, enabled);
            }
            self.next
        })
    }

    /// sel: src0 where the predicate holds, else src1. The predicate masks nothing.
    fn select(self) -> Step {
        Box::new(move |machine| {
            let enabled = self.awake(machine);
            if enabled != 0 {
                let holding = self.holding(machine);
                let left = self.sources[0].values(machine);
                let right = self.sources[1].values(machine);
                let choose = |n| if (holding >> n) & 1 == 1 { left[n] } else { right[n] };
                self.target.write(machine, std::array::from_fn(choose), enabled);
            }
            self.next
        })
    }

    /// cmp: 1 or 0 to enabled channels and to their flag bits; all other flag bits stay.
    fn compare(self, condition: impl Fn(L, L) -> bool + 'static) -> Step {
        Box::new(move |machine| {
            let enabled = self.awake(machine) & self.holding(machine);
            let left = self.sources[0].values(machine);
            let right = self.sources[1].values(machine);
            let found: [bool; N] = std::array::from_fn(|n| condition(left[n], right[n]));
            let bits = (0..N).fold(0, |bits, n| bits | (found[n] as u16) << n) & enabled;
            let kept = machine.flags[self.flag] & !(enabled << self.first_channel);
            machine.flags[self.flag] = kept | bits << self.first_channel;
            self.target.write(machine, found.map(|bit| L::of(bit as i64)), enabled);
            self.next
        })
    }
}

/// Whether 32-bit lanes give what exact values give: where the result modulo 2^32 hangs on the
/// sources modulo 2^32 alone, or where all values fit.
fn narrow_lanes_serve(decoded: &Decoded) -> bool {
    let saturates = decoded.destination.is_some_and(|destination| destination.saturates);
    let [left, right] = [0, 1].map(|which| Span::of(&decoded.sources[which]));
    match decoded.operation {
        Operation::Mov | Operation::Sel | Operation::Add | Operation::Mul if !saturates => true,
        Operation::Mov | Operation::Sel | Operation::Cmp => left.fits() && right.fits(),
        Operation::Add | Operation::Avg => left.fits() && right.fits() && left.plus(right).fits(),
        Operation::Mul => left.times(right).fits(),
        _ => true,
    }
}

/// The least and the greatest value that a source can have.
#[derive(Clone, Copy)]
struct Span(i64, i64);

impl Span {
    fn of(source: &decoded::Source) -> Span {
        let (element, modifier) = match source {
            decoded::Source::Immediate(value) => return Span(*value, *value),
            decoded::Source::Four(_) => return Span(0, u32::MAX as i64),
            decoded::Source::Elements { element, modifier, .. } => (element, modifier),
        };
        let (least, greatest) = (element.minimum() as i64, element.maximum() as i64);
        let farthest = greatest.max(-least);
        match modifier {
            Modifier::None => Span(least, greatest),
            Modifier::Absolute => Span(0, farthest),
            Modifier::Negated => Span(-greatest, -least),
            Modifier::NegatedAbsolute => Span(-farthest, 0),
        }
    }

    /// Whether 32 signed bits hold all values.
    fn fits(self) -> bool {
        self.0 >= i32::MIN as i64 && self.1 <= i32::MAX as i64
    }

    /// The sums, and what lies one above.
    fn plus(self, other: Span) -> Span {
        Span(self.0 + other.0, self.1 + other.1 + 1)
    }

    fn times(self, other: Span) -> Span {
        let corners = [self.0 * other.0, self.0 * other.1, self.1 * other.0, self.1 * other.1];
        Span(corners.into_iter().fold(0, i64::min), corners.into_iter().fold(0, i64::max))
    }
}
