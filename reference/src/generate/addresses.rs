//! Kernels with operands by address and with a0 as an operand: mostly such that an address leads
//! where an operand may lie, at times past an edge, misaligned or across three registers.

use super::a0_moves::{broken_word, move_of_a0, set};
use super::instructions::{legal_word, SCALAR};
use super::kernels::{plan, Planned};
use super::makers::Makers;
use crate::assemble::{jmpi, word};
use crate::locations::{Kind, A0_ELEMENTS};
use crate::operations::ElementType::Uw;
use crate::operations::Operation;
use crate::random::Random;
use crate::regions::{Region, FILE_BYTES, REGISTER_BYTES};
use crate::words::LongWord;

/// What the elements of a0 mostly hold while a kernel runs: each lies in another eighth of the
/// register file, so that from one of them every byte can be reached.
pub type Homes = [u16; A0_ELEMENTS];

/// The register at whose front the homes stand before a run.
pub const HOMES_REGISTER: usize = 1;

pub fn homes(random: &mut Random) -> Homes {
    let mut eighths: Vec<usize> = (0..A0_ELEMENTS).collect();
    for last in (1..A0_ELEMENTS).rev() {
        eighths.swap(last, random.below(last + 1));
    }
    std::array::from_fn(|element| {
        (eighths[element] * FILE_BYTES / A0_ELEMENTS + 192 + random.below(128)) as u16
    })
}

/// What makes kernels with addresses.
pub const ADDRESSES: Makers = Makers { legal_word: legal_address_word, legal_plan, broken_word };

/// A plan in which many words have an operand by address, and some move a0.
fn legal_plan(random: &mut Random, homes: &Homes) -> Vec<Planned> {
    if random.once_in(12) {
        return walk(random, homes);
    }
    let length = match random.below(20) {
        0 => 1,
        1 => random.between(40, 200),
        _ => random.between(2, 16),
    };
    let mut plan = plan(random, length);
    let palette: Vec<LongWord> =
        (0..random.pick(&[0, 2, 4])).map(|_| legal_address_word(random, homes)).collect();
    for planned in plan.iter_mut() {
        if let Planned::Plain(word) = planned {
            *word = addressed(random, *word, &palette, homes);
        }
    }
    if random.once_in(2) {
        write_and_use(random, &mut plan, homes);
    }
    plan
}

/// A loop that goes over the register file by address, so many bytes further at each round, until
/// an address leads out of it.
fn walk(random: &mut Random, homes: &Homes) -> Vec<Planned> {
    let counter = random.below(100) as u32;
    let element = random.below(A0_ELEMENTS);
    let counting = |operation| word(operation, 1).write_enabled();
    let first = counting(Operation::Mov).to_register(counter, 0, 1, Uw);
    let further = counting(Operation::Add).to_register(counter, 0, 1, Uw);
    let taken = counting(Operation::Mov).to_a0(2 * element as u32, 1, Uw);
    let from = random.below(FILE_BYTES) as u32 & !3;
    let by = random.pick(&[1, 2, 4, 32, 64, 96]);
    let used = legal_word(random);
    let mut used = by_address(random, used, homes);
    for low in OPERANDS {
        if matches!(operand(used, low), Some((Kind::ByAddress, _))) {
            used = used.with_field(low + 12, low + 10, element as u32);
            used = used.with_field(low + 9, low, 4 * random.below(4) as u32);
        }
    }
    vec![
        Planned::Plain(first.immediate_source(0, Uw, from)),
        Planned::Plain(
            further.register_source(0, counter, 0, SCALAR, Uw).immediate_source(1, Uw, by),
        ),
        Planned::Plain(taken.register_source(0, counter, 0, SCALAR, Uw)),
        Planned::Plain(used),
        Planned::Branch { word: jmpi(0), operation: Operation::Jmpi, targets: vec![1] },
    ]
}

/// The word, the same by address, a mov of a0, or one of a palette of such words.
fn addressed(random: &mut Random, word: LongWord, palette: &[LongWord], homes: &Homes) -> LongWord {
    match random.below(8) {
        0 => move_of_a0(random, homes),
        1..=4 if palette.is_empty() => by_address(random, word, homes),
        1..=4 => random.pick(palette),
        _ => word,
    }
}

/// A legal word with an operand by address, or a mov of a0.
pub fn legal_address_word(random: &mut Random, homes: &Homes) -> LongWord {
    if random.once_in(4) {
        return move_of_a0(random, homes);
    }
    let word = legal_word(random);
    by_address(random, word, homes)
}

/// Where the register bits of an operand begin in a word: of the destination, of src0, of src1.
const OPERANDS: [u32; 3] = [48, 64, 96];

/// What the operand is whose register bits begin there, and its region. None if the operation has
/// no such operand.
fn operand(word: LongWord, low: u32) -> Option<(Kind, Region)> {
    let count = Operation::from_opcode(word.opcode())?.source_count();
    let (location, region) = match low {
        48 if count > 0 => {
            let fields = word.destination();
            (fields.location(), Region::of_destination(&fields))
        }
        64 | 96 if (low as usize - 64) / 32 < count => {
            let fields = word.source((low as usize - 64) / 32);
            (fields.location(), Region::of_source(&fields))
        }
        _ => return None,
    };
    Some((location.kind(), region?))
}

/// The word with operands in the register file found by address, each once in two times; at least
/// one of them if it has any.
pub fn by_address(random: &mut Random, word: LongWord, homes: &Homes) -> LongWord {
    let direct = |low: &u32| matches!(operand(word, *low), Some((Kind::Register, _)));
    let lows: Vec<u32> = OPERANDS.into_iter().filter(direct).collect();
    if lows.is_empty() {
        return word;
    }
    let sure = random.pick(&lows);
    let mut made = word;
    for low in lows {
        if low == sure || random.once_in(2) {
            made = if random.once_in(16) { with_any_region(random, made, low) } else { made };
            let (_, region) = operand(made, low).expect("direct");
            let channels = 1 << word.execution_size_code();
            let start = first_byte(random, &region, channels);
            made = at_byte(random, made, low, start, homes);
        }
    }
    made
}

/// The word with another region for one operand, however far it reaches. The word stays as it is
/// where 9 would refuse that.
fn with_any_region(random: &mut Random, word: LongWord, low: u32) -> LongWord {
    let other = match low {
        48 => word.with_field(62, 61, random.between(1, 3) as u32),
        _ => word
            .with_field(low + 17, low + 16, random.bits(2))
            .with_field(low + 20, low + 18, random.below(5) as u32)
            .with_field(low + 24, low + 21, random.below(7) as u32),
    };
    let channels = 1 << word.execution_size_code();
    let serves = operand(other, low).is_some_and(|(_, region)| region.serves(channels));
    match low == 48 || serves {
        true => other,
        false => word,
    }
}

/// Where an operand by address begins: mostly where it began before, at times at an edge of the
/// register file, seldom where it may not lie.
fn first_byte(random: &mut Random, region: &Region, channels: usize) -> i64 {
    let (size, span) = (region.element.size() as i64, region.span(channels) as i64);
    let highest = (FILE_BYTES as i64 - 1 - span) / size * size;
    let register = (random.below(100) * REGISTER_BYTES) as i64;
    match random.below(60) {
        0..=3 => 0,
        4..=7 => highest,
        8 => -size,
        9 => highest + size,
        10 => region.start + 1,
        11 => region.start + random.below(8) as i64 - 4,
        // The last byte is the first of the register after the next, if the operand is so long.
        12..=14 => (register + 2 * REGISTER_BYTES as i64 - span) / size * size,
        15 => register + random.below(32) as i64,
        _ => region.start,
    }
}

/// The word with the operand found by address, by an element of a0 that reaches the byte from its
/// home; by any if none does.
fn at_byte(random: &mut Random, word: LongWord, low: u32, start: i64, homes: &Homes) -> LongWord {
    let distance = |element: usize| start - homes[element] as i64;
    let reaching: Vec<usize> =
        (0..A0_ELEMENTS).filter(|&element| (-512..512).contains(&distance(element))).collect();
    let element =
        if reaching.is_empty() { random.below(A0_ELEMENTS) } else { random.pick(&reaching) };
    let immediate = distance(element) as u32;
    word.with_field(low + 9, low, immediate)
        .with_field(low + 12, low + 10, element as u32)
        .with_field(low + 15, low + 15, 1)
}

/// One instruction writes an element of a0, and the next one uses it, where two in a row are no
/// branches: the number is such that the address serves, or one more, or any.
fn write_and_use(random: &mut Random, plan: &mut [Planned], homes: &Homes) {
    if plan.len() < 2 {
        return;
    }
    let at = random.below(plan.len() - 1);
    if let [Planned::Plain(first), Planned::Plain(second)] = &mut plan[at..at + 2] {
        let element = random.below(A0_ELEMENTS);
        let near = random.below(200) as u16;
        let number = match random.below(6) {
            0 => random.bits(16) as u16,
            1 => near + 1,
            _ => near,
        };
        let moved: Homes = std::array::from_fn(|n| if n == element { near } else { homes[n] });
        *first = set(element, number);
        *second = legal_address_word(random, &moved);
    }
}
