//! Writing results to a destination.

use super::lanes::{Element, Lane};
use super::machine::Machine;
use crate::decoded::{Destination, Origin};
use crate::operations::ElementType;

/// A destination of `N` channels with the function that writes it.
pub struct Target<const N: usize, L> {
    store: Store<N, L>,
    origin: Origin,
    /// Bytes from one element to the next.
    step: usize,
}

/// Writes the enabled ones of the results, the first where the destination begins.
type Store<const N: usize, L> = fn(&Target<N, L>, &mut Machine, usize, [L; N], u16);

impl<const N: usize, L: Lane> Target<N, L> {
    /// The target of a destination, none being null.
    pub fn of(destination: &Option<Destination>) -> Target<N, L> {
        match destination {
            None => Target { store: |_, _, _, _, _| (), origin: Origin::Register(0), step: 0 },
            Some(destination) => Target {
                store: match destination.origin {
                    Origin::A0(_) => store_of_a0(destination),
                    _ => store_of(destination),
                },
                origin: destination.origin,
                step: destination.step,
            },
        }
    }

    /// Writes the enabled ones of the results.
    #[inline]
    pub fn write(&self, machine: &mut Machine, results: [L; N], enabled: u16) {
        let start = machine.start(&self.origin);
        (self.store)(self, machine, start, results, enabled)
    }
}

/// The function that writes a0, whose elements are uw.
fn store_of_a0<const N: usize, L: Lane>(destination: &Destination) -> Store<N, L> {
    match destination.saturates {
        false => in_a0,
        true => |target, machine, start, results, enabled| {
            in_a0(target, machine, start, clamped::<u16, N, L>(results), enabled)
        },
    }
}

/// Elements of a0, from one on.
fn in_a0<const N: usize, L: Lane>(
    target: &Target<N, L>,
    machine: &mut Machine,
    start: usize,
    results: [L; N],
    enabled: u16,
) {
    for (n, value) in results.into_iter().enumerate() {
        if (enabled >> n) & 1 == 1 {
            let value: i64 = value.into();
            machine.a0[start + n * target.step / 2] = value as u16;
        }
    }
}

fn store_of<const N: usize, L: Lane>(destination: &Destination) -> Store<N, L> {
    match destination.element {
        ElementType::Ud | ElementType::F => store_of_element::<u32, N, L>(destination),
        ElementType::D => store_of_element::<i32, N, L>(destination),
        ElementType::Uw => store_of_element::<u16, N, L>(destination),
        ElementType::W => store_of_element::<i16, N, L>(destination),
        ElementType::Ub => store_of_element::<u8, N, L>(destination),
        ElementType::B => store_of_element::<i8, N, L>(destination),
    }
}

fn store_of_element<E: Element, const N: usize, L: Lane>(destination: &Destination) -> Store<N, L> {
    match (destination.step == E::SIZE, destination.saturates) {
        (true, false) => side_by_side::<E, N, L>,
        (false, false) => here_and_there::<E, N, L>,
        (true, true) => |target, machine, start, results, enabled| {
            side_by_side::<E, N, L>(target, machine, start, clamped::<E, N, L>(results), enabled)
        },
        (false, true) => |target, machine, start, results, enabled| {
            here_and_there::<E, N, L>(target, machine, start, clamped::<E, N, L>(results), enabled)
        },
    }
}

/// The results clamped to the element's type.
#[inline]
fn clamped<E: Element, const N: usize, L: Lane>(results: [L; N]) -> [L; N] {
    let (least, greatest) = (L::nearest(E::LEAST), L::nearest(E::GREATEST));
    results.map(|value| value.clamp(least, greatest))
}

/// Elements that lie side by side, each modulo its type's width.
fn side_by_side<E: Element, const N: usize, L: Lane>(
    target: &Target<N, L>,
    machine: &mut Machine,
    start: usize,
    results: [L; N],
    enabled: u16,
) {
    if enabled != u16::MAX >> (16 - N) {
        return here_and_there::<E, N, L>(target, machine, start, results, enabled);
    }
    let bytes = &mut machine.registers[start..start + N * E::SIZE];
    for (bytes, value) in bytes.chunks_exact_mut(E::SIZE).zip(results) {
        E::put(value.into(), bytes);
    }
}

/// Elements that lie apart or are not all enabled, each modulo its type's width.
fn here_and_there<E: Element, const N: usize, L: Lane>(
    target: &Target<N, L>,
    machine: &mut Machine,
    start: usize,
    results: [L; N],
    enabled: u16,
) {
    for (n, value) in results.into_iter().enumerate() {
        if (enabled >> n) & 1 == 1 {
            let start = start + n * target.step;
            E::put(value.into(), &mut machine.registers[start..start + E::SIZE]);
        }
    }
}
