//! The benchmark kernels are legal and don't end, and stepping them agrees with running them.

use spokeshaver_reference::answers::Answer;
use spokeshaver_reference::bench_kernels::{
    all, by_address, mixed, mixed_loop, mixed_packed, MIXED_INSTRUCTIONS,
};
use spokeshaver_reference::calls;
use spokeshaver_reference::state::State;
use std::collections::BTreeSet;

#[test]
fn all_are_accepted_and_run_on() {
    for mut bench in all() {
        let checked = Answer::of(calls::check(&bench.dictionary, &bench.kernel));
        assert_eq!((checked.number, checked.at), (0, 0), "{}", bench.name);
        let given = calls::run(
            &bench.dictionary,
            &bench.kernel,
            1_000_000,
            &mut bench.registers,
            &mut bench.state,
        );
        let expected = Answer { number: 21, at: 0, count: 1_000_000 };
        assert_eq!(Answer::of(given), expected, "{}", bench.name);
    }
}

#[test]
fn mixed_has_the_length_asked_for_and_packs_well() {
    let (long, packed) = (mixed(), mixed_packed());
    assert_eq!(long.kernel.len(), 16 * MIXED_INSTRUCTIONS);
    let checked = Answer::of(calls::check(&packed.dictionary, &packed.kernel));
    assert_eq!(checked.count, MIXED_INSTRUCTIONS);
    let shortened = (long.kernel.len() - packed.kernel.len()) / 8;
    assert!(shortened >= MIXED_INSTRUCTIONS - 4, "only {shortened} words are short");
}

/// Most words find an operand by address, by every element of a0, and all elements change.
#[test]
fn addresses_are_used() {
    let mut bench = by_address();
    let (mut words, mut elements) = (0, BTreeSet::new());
    for bytes in bench.kernel.chunks_exact(16) {
        let word = u128::from_le_bytes(bytes.try_into().expect("a word"));
        let used: Vec<u32> =
            [48, 64, 96].into_iter().filter(|low| word >> (low + 15) & 1 == 1).collect();
        let is_branch = word & 0x7F == 0x27;
        words += (!used.is_empty() && !is_branch) as usize;
        elements.extend(used.iter().map(|low| word >> (low + 10) & 7));
    }
    assert_eq!((bench.kernel.len() / 16, elements.len()), (MIXED_INSTRUCTIONS, 8));
    assert!(words >= 140, "{words}");
    let before = State::from_bytes(&bench.state).a0;
    let (registers, state) = (&mut bench.registers, &mut bench.state);
    calls::run(&bench.dictionary, &bench.kernel, 2_000, registers, state);
    let after = State::from_bytes(&bench.state).a0;
    assert!((0..8).all(|element| before[element] != after[element]), "{after:?}");
}

#[test]
fn mixed_loops_have_any_length_and_run_on() {
    for instructions in [1, 16, 200, 1_024, 4_096] {
        let mut bench = mixed_loop(instructions);
        let checked = Answer::of(calls::check(&bench.dictionary, &bench.kernel));
        assert_eq!(checked, Answer { number: 0, at: 0, count: instructions });
        let (registers, state) = (&mut bench.registers, &mut bench.state);
        let given = calls::run(&bench.dictionary, &bench.kernel, 5_000, registers, state);
        assert_eq!(Answer::of(given), Answer { number: 21, at: 0, count: 5_000 });
    }
}

#[test]
fn packed_and_long_agree() {
    let (mut long, mut packed) = (mixed(), mixed_packed());
    for bench in [&mut long, &mut packed] {
        let (registers, state) = (&mut bench.registers, &mut bench.state);
        calls::run(&bench.dictionary, &bench.kernel, 12_345, registers, state);
    }
    assert_eq!(long.registers, packed.registers);
    assert_eq!(long.state[..4], packed.state[..4]);
}

#[test]
fn steps_agree_with_runs() {
    for bench in all() {
        let (mut registers, mut state) = (bench.registers.clone(), bench.state.clone());
        for _ in 0..700 {
            calls::step(&bench.dictionary, &bench.kernel, &mut registers, &mut state);
        }
        let (mut ran_registers, mut ran_state) = (bench.registers, bench.state);
        let given =
            calls::run(&bench.dictionary, &bench.kernel, 700, &mut ran_registers, &mut ran_state);
        assert_eq!(Answer::of(given).count, 700);
        assert_eq!((registers, state), (ran_registers, ran_state), "{}", bench.name);
    }
}
