//! All calls on one action: the minimal list at several budgets, the greedy list, both lists rebuilt, the fixed space, the list of
//! a self-inverse action, and the shorter of two lists.
use crate::check::Checker;
use crate::fixed;
use crate::library::{Call, Question};
use crate::shorter::{self, reply, Maker};
use crate::source::Listed;
use crate::words::residue_rank;

/// One action to compare: how many output words more than needed are lent, and the budget of the first search.
pub struct Sample<'a> {
    pub family: &'static str,
    pub n: usize,
    pub rows: &'a [u64],
    pub spare: usize,
    pub cap: u64,
}

impl Sample<'_> {
    fn minimal(&self, budget: u64) -> Question {
        Question::of_words(Call::Minimal { budget }, self.n as u64, self.rows, 2 * self.n + 1 + self.spare)
    }

    /// Compares every call on the action; its lists and fixed space, where the search was not spent.
    pub fn compare(&self, check: &mut Checker) -> Option<Listed> {
        let minimal = self.minimal_list(check);
        let question = Question::of_words(Call::Greedy, self.n as u64, self.rows, 4 * self.n + 2 + self.spare);
        let greedy = check.call(self.family, &question).list().to_vec();
        self.rebuild(check, &greedy);
        let fixed = self.fixed_space(check);
        let self_inverse = self.self_inverse(check, minimal.as_ref().map(|(list, _)| list.len()));
        self.shorter(check, minimal.as_ref().map_or(&greedy, |(list, _)| list), &greedy);
        let (minimal, looks) = minimal?;
        Some(Listed { n: self.n, rows: self.rows.to_vec(), minimal, looks, greedy, fixed, self_inverse })
    }

    fn minimal_list(&self, check: &mut Checker) -> Option<(Vec<u64>, u64)> {
        let question = self.minimal(self.cap);
        let before = check.differ;
        let seen = check.call(self.family, &question);
        if check.differ > before {
            return None; // other budgets might search without end
        }
        let tally = check.tally(self.family);
        tally.actions += 1;
        if seen.number != 0 {
            tally.spent += 1;
            for budget in [0, 1, self.cap - 1] {
                check.call(self.family, &self.minimal(budget));
            }
            return None;
        }
        let rank = residue_rank(self.n, self.rows);
        tally.most_looks = tally.most_looks.max(seen.looks);
        tally.extra_turn += u64::from(seen.count == rank as u64 + 1);
        check.require(
            seen.count == rank as u64 || seen.count == rank as u64 + 1,
            &question,
            "neither r nor r + 1 turns",
        );
        self.around(check, seen.looks);
        self.rebuild(check, seen.list());
        Some((seen.list().to_vec(), seen.looks))
    }

    /// The budgets at which the answer begins, and the least and greatest of all.
    fn around(&self, check: &mut Checker, looks: u64) {
        let mut budgets = vec![0, looks.saturating_sub(1), looks, looks.saturating_add(1), u64::MAX];
        budgets.dedup();
        for budget in budgets {
            let question = self.minimal(budget);
            let number = check.call(self.family, &question).number;
            check.require((number == 0) == (budget >= looks), &question, "spent with looks left, or not spent without");
        }
    }

    fn fixed_space(&self, check: &mut Checker) -> Vec<u64> {
        let question = Question::of_words(Call::FixedSpace, self.n as u64, self.rows, 2 * self.n + self.spare);
        let list = check.call(self.family, &question).list().to_vec();
        let wrong = fixed::flaw(self.n, self.rows, &list);
        check.require(wrong.is_none(), &question, wrong.unwrap_or_default());
        list
    }

    /// The list of a self-inverse action, which has as many turns as the minimal one, if that is known; none of any other action.
    fn self_inverse(&self, check: &mut Checker, least: Option<usize>) -> Option<Vec<u64>> {
        let question = Question::of_words(Call::SelfInverse, self.n as u64, self.rows, 2 * self.n + 1 + self.spare);
        let seen = check.call(self.family, &question);
        let list = (seen.number == 0).then(|| seen.list().to_vec())?;
        check.require(least.is_none_or(|least| list.len() == least), &question, "not as long as the minimal list");
        let tally = check.tally(self.family);
        tally.self_inverse += 1;
        tally.without_search += u64::from(least.is_none());
        Some(list)
    }

    /// The choice from lists made of the minimal one (if it is not known, of the greedy one) and the greedy one.
    fn shorter(&self, check: &mut Checker, minimal: &[u64], greedy: &[u64]) {
        let mut maker = Maker::new(self.n, check.tally(self.family).actions);
        for (first, second, wanted) in maker.pairs(minimal, greedy) {
            let question = Question::of_lists(self.n as u64, self.rows, &first, &second);
            let got = reply(&check.call(self.family, &question));
            let wrong = shorter::flaw(&question, got);
            check.require(wrong.is_none(), &question, wrong.unwrap_or_default());
            check.require(got == wanted, &question, "not the reply that the lists are made for");
        }
    }

    fn rebuild(&self, check: &mut Checker, list: &[u64]) {
        let question = Question::of_words(Call::Rebuild, self.n as u64, list, 2 * self.n);
        let rebuilt = check.call(self.family, &question);
        check.require(rebuilt.out == self.rows, &question, "the list's product is not the action");
    }
}
