//! The generated cases reach every way in which an address or a0 can matter.

use spokeshaver_reference::answers::Answer;
use spokeshaver_reference::calls;
use spokeshaver_reference::dictionary::Dictionary;
use spokeshaver_reference::generate::{case, perform, Call, Case, Reference, CALLS};
use spokeshaver_reference::locations::{Kind, Location};
use spokeshaver_reference::machine::{step, Stepped};
use spokeshaver_reference::operations::Operation;
use spokeshaver_reference::regions::Region;
use spokeshaver_reference::rules::{read_kernel, Accepts, Instruction, Program};
use spokeshaver_reference::state::State;
use spokeshaver_reference::words::LongWord;
use std::collections::{BTreeMap, BTreeSet};

const ROUNDS: u64 = 16_000;

/// The cases of one call in the rounds of seeds that have addresses.
fn cases(number: u64) -> impl Iterator<Item = Case> {
    (3..ROUNDS).step_by(5).map(move |round| case(round * CALLS + number))
}

/// An operand of an instruction: its name, what it is, and its region as the word has it.
type Operand = (&'static str, Location, Region);

fn operands(made: &Instruction) -> Vec<Operand> {
    let (word, count) = (made.word, made.operation.source_count());
    let mut found = Vec::new();
    for (which, name) in ["src0", "src1"].into_iter().enumerate().take(count) {
        let fields = word.source(which);
        found.extend(Region::of_source(&fields).map(|region| (name, fields.location(), region)));
    }
    let fields = word.destination();
    let region = Region::of_destination(&fields).filter(|_| count > 0);
    found.extend(region.map(|region| ("destination", fields.location(), region)));
    found.retain(|(_, location, _)| location.kind().has_region());
    found
}

fn channels(word: LongWord) -> usize {
    1 << word.execution_size_code()
}

/// The operands by address, where they lie by these numbers in a0.
fn placed(made: &Instruction, a0: &[u16; 8]) -> Vec<(&'static str, Region)> {
    let by_address = |(_, location, _): &Operand| location.kind() == Kind::ByAddress;
    let place = |(name, location, region): Operand| {
        (name, region.moved(a0[location.address_element()] as i64))
    };
    operands(made).into_iter().filter(by_address).map(place).collect()
}

/// What is wrong with the elements of some channels of a region.
fn faults(region: &Region, channels: &[usize]) -> Vec<&'static str> {
    let size = region.element.size() as i64;
    let starts: Vec<i64> = channels.iter().map(|&n| region.byte_of(n)).collect();
    let (Some(first), Some(last)) = (starts.first(), starts.last()) else { return Vec::new() };
    let last = last + size - 1;
    let tests = [
        ("misaligned", first.rem_euclid(size) != 0),
        ("below", *first < 0),
        ("above", last > 4095),
        ("apart", last.div_euclid(32) - first.div_euclid(32) > 1),
    ];
    tests.into_iter().filter(|(_, is_so)| *is_so).map(|(name, _)| name).collect()
}

fn all_of(word: LongWord) -> Vec<usize> {
    (0..channels(word)).collect()
}

/// A kernel that is accepted, with registers and a legal state to run it from.
struct Ready {
    program: Program,
    registers: Vec<u8>,
    state: State,
}

impl Ready {
    /// The instruction at the state's place.
    fn next(&self) -> Option<Instruction> {
        let index = self.program.index_of(self.state.place as usize)?;
        Some(self.program.instructions[index])
    }

    fn step(&mut self) -> Stepped {
        step(&self.program, &mut self.registers, &mut self.state)
    }
}

/// What a case's step or run starts from, if nothing refuses it before the first step.
fn ready(case: &Case) -> Option<Ready> {
    let (kernel, registers, state) = match &case.call {
        Call::Step { kernel, registers, state } => (kernel, registers, state),
        Call::Run { kernel, registers, state, .. } => (kernel, registers, state),
        _ => return None,
    };
    let number = Answer::of(perform(case, &mut Reference).answer).number;
    if (1..20).contains(&number) {
        return None;
    }
    let dictionary = Dictionary::read(&case.dictionary).ok()?;
    let program = read_kernel(kernel, &dictionary, Accepts::LongAndShort).ok()?;
    Some(Ready { program, registers: registers.clone(), state: State::from_bytes(state) })
}

/// The channels of an instruction that are enabled once those that wait there are awake. sel, whose
/// predicate masks nothing, and votes are passed over.
fn enabled(made: &Instruction, state: &State) -> Option<Vec<usize>> {
    let word = made.word;
    if word.predicate_control() > 1 || made.operation == Operation::Sel {
        return None;
    }
    let mut woken = *state;
    woken.wake_at(made.place);
    let awake = if word.write_enable_control() == 1 { 0xFFFF } else { woken.awake };
    let flag = state.flags[word.flag_choice() as usize];
    let holding = match (word.predicate_control(), word.predicate_inverse()) {
        (0, _) => 0xFFFF,
        (_, 0) => flag,
        _ => !flag,
    };
    let mask = (awake & holding) >> (8 * word.quarter_control());
    Some(all_of(word).into_iter().filter(|n| mask >> n & 1 == 1).collect())
}

/// Each operand comes up with each fault alone, from a step and from a run after some steps; and
/// without one, inside, at both edges and across two registers.
#[test]
fn faults_come_up() {
    let mut seen: BTreeMap<(&str, &str, &str), usize> = BTreeMap::new();
    for (call, number) in [("step", 7), ("run", 8)] {
        for mut at in cases(number).filter_map(|case| ready(&case)) {
            let mut steps = 0;
            while call == "run" && steps < 400 && at.step() == Stepped::Made {
                steps += 1;
            }
            let Some(made) = at.next() else { continue };
            let regions = placed(&made, &at.state.a0);
            let found: Vec<_> = regions
                .iter()
                .map(|(name, region)| (*name, faults(region, &all_of(made.word))))
                .collect();
            let all: Vec<_> = found.iter().flat_map(|(_, faults)| faults).collect();
            for (name, faults) in &found {
                match (&faults[..], &all[..]) {
                    ([fault], [_]) if call == "step" || steps > 0 => {
                        *seen.entry((call, name, fault)).or_default() += 1;
                    }
                    _ => {}
                }
            }
            if all.is_empty() && call == "step" {
                for (name, region) in &regions {
                    *seen.entry((call, name, lying(region, channels(made.word)))).or_default() += 1;
                }
            }
        }
    }
    println!("{seen:?}");
    for name in ["src0", "src1", "destination"] {
        for fault in ["misaligned", "below", "above", "apart"] {
            assert!(seen.contains_key(&("step", name, fault)), "step {name} {fault}");
            assert!(seen.contains_key(&("run", name, fault)), "run {name} {fault}");
        }
        for place in ["first byte", "last byte", "two registers", "inside"] {
            assert!(seen.contains_key(&("step", name, place)), "{name} {place}");
        }
    }
}

/// How an operand that lies well does so.
fn lying(region: &Region, channels: usize) -> &'static str {
    let last = region.byte_of(channels - 1) + region.element.size() as i64 - 1;
    match (region.start, last) {
        (0, _) => "first byte",
        (_, 4095) => "last byte",
        (first, last) if first / 32 != last / 32 => "two registers",
        _ => "inside",
    }
}

/// Steps come up that are refused for an element of a disabled channel alone, with no channel
/// enabled, with channels that would wake, and with any numbers in a0; and steps with addresses
/// that are made with no channel enabled, and with some.
#[test]
fn disabled_channels_come_up() {
    let mut seen: BTreeMap<&str, usize> = BTreeMap::new();
    for at in cases(7).filter_map(|case| ready(&case)) {
        let Some(made) = at.next() else { continue };
        let regions = placed(&made, &at.state.a0);
        if regions.is_empty() {
            continue;
        }
        let Some(enabled) = enabled(&made, &at.state) else { continue };
        let refused = regions.iter().any(|(_, it)| !faults(it, &all_of(made.word)).is_empty());
        let by_enabled = regions.iter().any(|(_, it)| !faults(it, &enabled).is_empty());
        let far = at.state.a0.iter().any(|number| *number > 5000);
        let tests = [
            ("refused by disabled alone", refused && !by_enabled && !enabled.is_empty()),
            ("refused, none enabled", refused && enabled.is_empty()),
            ("refused, some would wake", refused && at.state.waits_at(made.place)),
            ("refused, a0 far off", refused && far),
            ("made, a0 far off", !refused && far),
            ("made, none enabled", !refused && enabled.is_empty()),
            ("made, some enabled", !refused && (1..channels(made.word)).contains(&enabled.len())),
            ("made, some wake", !refused && at.state.waits_at(made.place)),
        ];
        for (name, _) in tests.into_iter().filter(|(_, is_so)| *is_so) {
            *seen.entry(name).or_default() += 1;
        }
    }
    println!("{seen:?}");
    assert_eq!(seen.len(), 8, "{seen:?}");
}

/// Runs come up that spend their budget in front of a bad address, and that stop at one with the
/// budget's last step left.
#[test]
fn budgets_before_an_address_come_up() {
    let mut seen: BTreeMap<&str, usize> = BTreeMap::new();
    for case in cases(8) {
        let Call::Run { kernel, budget, .. } = &case.call else { continue };
        let mut after = perform(&case, &mut Reference);
        let given = Answer::of(after.answer);
        let next = match given.number {
            21 => calls::step(&case.dictionary, kernel, &mut after.registers, &mut after.state),
            _ => 0,
        };
        let tests = [
            ("spent in front of it", given.number == 21 && Answer::of(next).number == 22),
            ("spent at once", given.number == 21 && Answer::of(next).number == 22 && *budget == 0),
            ("met with one step left", given.number == 22 && given.count as u64 + 1 == *budget),
            ("met at the first step", given.number == 22 && given.count == 0),
            ("met in a loop", given.number == 22 && given.count > kernel.len() / 8),
        ];
        for (name, _) in tests.into_iter().filter(|(_, is_so)| *is_so) {
            *seen.entry(name).or_default() += 1;
        }
    }
    println!("{seen:?}");
    assert_eq!(seen.len(), 5, "{seen:?}");
}

/// The bytes of an operand, enabled or not.
fn bytes(region: &Region, channels: usize) -> BTreeSet<i64> {
    let size = region.element.size() as i64;
    (0..channels).flat_map(|n| (0..size).map(move |byte| region.byte_of(n) + byte)).collect()
}

/// Elements of a0 that an instruction finds operands by.
fn elements(made: &Instruction) -> Vec<usize> {
    let by_address = |(_, location, _): &Operand| location.kind() == Kind::ByAddress;
    let found = operands(made).into_iter().filter(by_address);
    found.map(|(_, location, _)| location.address_element()).collect()
}

/// In runs a step uses an element of a0 that the one before changed, and the address is good or
/// bad; a0 is moved within itself and changed; a destination by address overlaps a source.
#[test]
fn moves_come_up() {
    let mut seen: BTreeMap<&str, usize> = BTreeMap::new();
    for mut at in cases(8).filter_map(|case| ready(&case)) {
        let mut changed: Vec<usize> = Vec::new();
        for _ in 0..60 {
            let Some(made) = at.next() else { break };
            let before = at.state.a0;
            let uses = elements(&made).iter().any(|element| changed.contains(element));
            let overlaps = overlaps(&made, &before);
            let within = operands(&made).iter().filter(|it| it.1.kind() == Kind::A0).count() == 2;
            let stepped = at.step();
            changed = (0..8).filter(|&n| before[n] != at.state.a0[n]).collect();
            let is_made = stepped == Stepped::Made;
            let tests = [
                ("used at once", uses && is_made),
                ("used at once, bad", uses && stepped == Stepped::BadAddress),
                ("within a0", within && is_made && !changed.is_empty()),
                ("overlaps", overlaps && is_made),
            ];
            for (name, _) in tests.into_iter().filter(|(_, is_so)| *is_so) {
                *seen.entry(name).or_default() += 1;
            }
            if !is_made {
                break;
            }
        }
    }
    println!("{seen:?}");
    assert_eq!(seen.len(), 4, "{seen:?}");
}

/// Whether the destination by address shares some bytes, and not all, with a source.
fn overlaps(made: &Instruction, a0: &[u16; 8]) -> bool {
    let place = |(name, location, region): Operand| match location.kind() {
        Kind::A0 => None,
        Kind::ByAddress => Some((name, region.moved(a0[location.address_element()] as i64), true)),
        _ => Some((name, region, false)),
    };
    let all: Vec<_> = operands(made).into_iter().filter_map(place).collect();
    let Some((_, to, true)) = all.iter().find(|(name, ..)| *name == "destination") else {
        return false;
    };
    let count = channels(made.word);
    let to = bytes(to, count);
    all.iter().filter(|(name, ..)| *name != "destination").any(|(_, from, _)| {
        let from = bytes(from, count);
        from != to && !from.is_disjoint(&to)
    })
}

/// Words with a0 come up that are refused as 7, 8, 9, 10 and 11, and words by address as 7, 8 and
/// 9: never as 10 and 11 for what lies by address.
#[test]
fn refusals_come_up() {
    let mut seen: BTreeMap<(u8, bool, bool), usize> = BTreeMap::new();
    for case in [0, 1, 2].into_iter().flat_map(cases) {
        let (Call::Check { kernel } | Call::Pack { kernel, .. } | Call::Unpack { kernel, .. }) =
            &case.call
        else {
            continue;
        };
        let given = Answer::of(perform(&case, &mut Reference).answer);
        let Some(bytes) = kernel.get(given.at..given.at + 16) else { continue };
        let word = LongWord::from_bytes(bytes);
        let operation = Operation::from_opcode(word.opcode());
        let Some(operation) = operation.filter(|_| word.bit(29) == 0 && given.number >= 7) else {
            continue;
        };
        let mut kinds = vec![word.destination().location().kind()];
        kinds.extend((0..operation.source_count()).map(|n| word.source(n).location().kind()));
        let (a0, address) = (kinds.contains(&Kind::A0), kinds.contains(&Kind::ByAddress));
        *seen.entry((given.number, a0, address)).or_default() += 1;
    }
    println!("{seen:?}");
    for number in 7..=11 {
        assert!(seen.contains_key(&(number, true, false)), "{number} with a0");
        assert!(seen.contains_key(&(number, false, true)), "{number} beside an address");
    }
}

/// A kernel with addresses and what packing makes of it stop at the same step, and leave the same
/// registers, flags, masks and a0.
#[test]
fn packed_kernels_stop_alike() {
    let mut stopped: BTreeMap<u8, usize> = BTreeMap::new();
    for case in cases(8) {
        let Call::Run { kernel, budget, registers, state } = &case.call else { continue };
        let Some(at) = ready(&case).filter(|at| at.state.place == 0 && at.state.waiting == 0)
        else {
            continue;
        };
        let long: Vec<u8> = spokeshaver_reference::packing::unpack(&at.program);
        let dictionary = Dictionary::read(&case.dictionary).expect("judged");
        let program = read_kernel(&long, &dictionary, Accepts::LongOnly).expect("unpacked");
        let packed = spokeshaver_reference::packing::pack(&program, &dictionary);
        let run = |kernel: &[u8]| {
            let (mut registers, mut state) = (registers.clone(), state.clone());
            let given = calls::run(&case.dictionary, kernel, *budget, &mut registers, &mut state);
            let state = State::from_bytes(&state);
            let given = Answer::of(given);
            let masks = (state.flags, state.awake, state.waiting, state.a0);
            (given.number, given.count, registers, masks)
        };
        let first = run(kernel);
        assert!(first == run(&long) && first == run(&packed), "seed {}", case.seed);
        *stopped.entry(first.0).or_default() += 1;
    }
    println!("{stopped:?}");
    assert_eq!(stopped.len(), 3);
}
