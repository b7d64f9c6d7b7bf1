//! Kernels of which many words are of one kind: with addresses, or with floats.

use super::addresses::Homes;
use super::damage;
use super::kernels::{finish, keep_forward, Laying, Pair, Planned};
use crate::random::Random;
use crate::words::LongWord;

/// What makes such kernels. The homes are what a0 mostly holds while one runs.
pub struct Makers {
    /// A legal word of the kind.
    pub legal_word: fn(&mut Random, &Homes) -> LongWord,
    /// A plan in which many words are of the kind.
    pub legal_plan: fn(&mut Random, &Homes) -> Vec<Planned>,
    /// A word that earns a refusal from 7 to 11 by what is special to the kind.
    pub broken_word: fn(&mut Random, u8, &Homes) -> LongWord,
}

impl Makers {
    /// A kernel, mostly legal, else with a word that breaks a rule, or a bit flipped.
    pub fn any_pair(&self, random: &mut Random, laying: Laying, homes: &Homes) -> Pair {
        match random.below(8) {
            0 | 1 => self.with_broken(random, laying, homes),
            2 => {
                let pair = self.legal_pair(random, laying, homes);
                damage::flip(random, pair)
            }
            _ => self.legal_pair(random, laying, homes),
        }
    }

    pub fn legal_pair(&self, random: &mut Random, laying: Laying, homes: &Homes) -> Pair {
        let plan = (self.legal_plan)(random, homes);
        finish(random, &plan, laying)
    }

    /// A legal kernel whose jumps all go forward.
    pub fn forward_pair(&self, random: &mut Random, laying: Laying, homes: &Homes) -> Pair {
        let mut plan = (self.legal_plan)(random, homes);
        keep_forward(&mut plan);
        finish(random, &plan, laying)
    }

    /// A plan with one instruction that breaks a rule.
    fn with_broken(&self, random: &mut Random, laying: Laying, homes: &Homes) -> Pair {
        let mut plan = (self.legal_plan)(random, homes);
        let number = random.between(7, 11) as u8;
        let at = random.below(plan.len());
        plan[at] = Planned::Plain((self.broken_word)(random, number, homes));
        finish(random, &plan, laying)
    }
}
