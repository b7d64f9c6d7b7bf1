//! Reading a source into lanes.

use super::lanes::{Element, Lane};
use super::machine::Machine;
use crate::channels::Registers;
use crate::decoded::{self, Layout, Modifier, Origin};
use crate::floats;
use crate::operations::ElementType;

/// Reads a source whose first element lies at this byte.
type Load<const N: usize, L> = fn(&Source<N, L>, &Machine, usize) -> [L; N];
type Modify<const N: usize, L> = Option<fn([L; N]) -> [L; N]>;

/// A source of `N` channels with the functions that read it.
pub struct Source<const N: usize, L> {
    load: Load<N, L>,
    modify: Modify<N, L>,
    /// The value of an immediate for each channel.
    immediate: [L; N],
    origin: Origin,
    /// How many bytes each channel's element lies behind the first.
    offsets: [u16; N],
}

impl<const N: usize, L: Lane> Source<N, L> {
    pub fn of(source: &decoded::Source) -> Source<N, L> {
        match source {
            decoded::Source::Immediate(value) => Source::of_immediate([L::of(*value); N]),
            decoded::Source::Four(values) => {
                Source::of_immediate(std::array::from_fn(|n| L::of(values[n])))
            }
            decoded::Source::Elements { origin, layout, element, modifier } => Source {
                load: match origin {
                    Origin::A0(_) => of_a0,
                    _ => load_of(*element, layout),
                },
                modify: modify_of(*element, *modifier),
                immediate: [L::of(0); N],
                origin: *origin,
                offsets: std::array::from_fn(|n| layout.distance(n, element.size()) as u16),
            },
        }
    }

    fn of_immediate(values: [L; N]) -> Source<N, L> {
        Source {
            load: immediate,
            modify: None,
            immediate: values,
            origin: Origin::Register(0),
            offsets: [0; N],
        }
    }

    /// The values of the source's channels.
    #[inline]
    pub fn values(&self, machine: &Machine) -> [L; N] {
        let start = machine.start(&self.origin);
        let values = (self.load)(self, machine, start);
        match self.modify {
            Some(modify) => modify(values),
            None => values,
        }
    }
}

fn load_of<const N: usize, L: Lane>(element: ElementType, layout: &Layout) -> Load<N, L> {
    match element {
        ElementType::Ud | ElementType::F => load_of_element::<u32, N, L>(layout),
        ElementType::D => load_of_element::<i32, N, L>(layout),
        ElementType::Uw => load_of_element::<u16, N, L>(layout),
        ElementType::W => load_of_element::<i16, N, L>(layout),
        ElementType::Ub => load_of_element::<u8, N, L>(layout),
        ElementType::B => load_of_element::<i8, N, L>(layout),
    }
}

fn load_of_element<E: Element, const N: usize, L: Lane>(layout: &Layout) -> Load<N, L> {
    match layout {
        Layout::Single => single::<E, N, L>,
        Layout::Packed => side_by_side::<E, N, L>,
        Layout::Rows { .. } => here_and_there::<E, N, L>,
    }
}

fn immediate<const N: usize, L: Lane>(source: &Source<N, L>, _: &Machine, _: usize) -> [L; N] {
    source.immediate
}

/// Elements of a0, which are uw. The start is one of them, too.
fn of_a0<const N: usize, L: Lane>(
    source: &Source<N, L>,
    machine: &Machine,
    start: usize,
) -> [L; N] {
    source.offsets.map(|offset| L::of(machine.a0[start + offset as usize / 2] as i64))
}

/// One element for all channels.
fn single<E: Element, const N: usize, L: Lane>(
    _: &Source<N, L>,
    machine: &Machine,
    start: usize,
) -> [L; N] {
    [element_at::<E, L>(machine.registers, start); N]
}

/// Elements that lie side by side.
fn side_by_side<E: Element, const N: usize, L: Lane>(
    _: &Source<N, L>,
    machine: &Machine,
    start: usize,
) -> [L; N] {
    let bytes = &machine.registers[start..start + N * E::SIZE];
    std::array::from_fn(|n| L::of(E::value(&bytes[n * E::SIZE..(n + 1) * E::SIZE])))
}

/// Elements that lie anywhere.
fn here_and_there<E: Element, const N: usize, L: Lane>(
    source: &Source<N, L>,
    machine: &Machine,
    start: usize,
) -> [L; N] {
    source.offsets.map(|offset| element_at::<E, L>(machine.registers, start + offset as usize))
}

#[inline]
fn element_at<E: Element, L: Lane>(registers: &Registers, start: usize) -> L {
    L::of(E::value(&registers[start..start + E::SIZE]))
}

/// The function of a modifier, none if it changes nothing. Unsigned elements are their own
/// absolute values, which a 32-bit lane would not know of a ud.
fn modify_of<const N: usize, L: Lane>(element: ElementType, modifier: Modifier) -> Modify<N, L> {
    if element == ElementType::F {
        return match modifier {
            Modifier::None => None,
            Modifier::Absolute => Some(|values| values.map(|value| float::<1, L>(value))),
            Modifier::Negated => Some(|values| values.map(|value| float::<2, L>(value))),
            Modifier::NegatedAbsolute => Some(|values| values.map(|value| float::<3, L>(value))),
        };
    }
    match (modifier, element.is_signed()) {
        (Modifier::None, _) | (Modifier::Absolute, false) => None,
        (Modifier::Absolute, true) => Some(|values| values.map(L::absolute)),
        (Modifier::Negated, _) | (Modifier::NegatedAbsolute, false) => {
            Some(|values| values.map(L::negated))
        }
        (Modifier::NegatedAbsolute, true) => {
            Some(|values| values.map(|value| value.absolute().negated()))
        }
    }
}

/// A float under a modifier.
fn float<const MODIFIER: u32, L: Lane>(value: L) -> L {
    let pattern: i64 = value.into();
    L::of(floats::modified(MODIFIER, pattern as u32) as i64)
}
