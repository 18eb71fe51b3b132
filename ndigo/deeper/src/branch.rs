//! Branch and bound: a row is taken or left, and what the bound rules out is not looked at. What is left when nothing is open any
//! more is that no chain is better with this list.
use crate::best::Best;
use crate::bound::{Bound, Open, Raised};
use crate::goal::Goal;
use crate::lists::List;
use crate::problem::Settings;
use crate::table::{places, Table};
use std::rc::Rc;

/// How often a bound is raised at the first node, and at the others, which begin where the one before ended.
const FIRST_ROUNDS: usize = 200;
const ROUNDS: usize = 40;

struct Node {
    open: Open,
    slopes: Rc<Vec<f64>>,
    rounds: usize,
}

pub struct Tree<'a> {
    pub settings: &'a Settings,
    pub table: &'a Table,
    pub list: &'a List,
}

impl Tree<'_> {
    /// The fewest rows too many or too few that a chain of these can have.
    fn gap(&self, open: Open) -> usize {
        let taken = open.taken.count_ones() as usize;
        if self.settings.squish {
            return taken.max(1) - 1;
        }
        let most = taken + self.table.heaviest(open.free, &[1.0; 64]).1.count_ones() as usize;
        let wanted = self.list.positions.len();
        taken.saturating_sub(wanted).max(wanted.saturating_sub(most))
    }

    /// The sizes that chains of these rows can have lie between two.
    fn reaches(&self, open: Open, goal: &Goal) -> bool {
        let taken: i64 = places(open.taken).map(|row| self.table.rows[row].counts.size).sum();
        let sizes: Vec<f64> = self.table.rows.iter().map(|row| row.counts.size as f64).collect();
        let turned: Vec<f64> = sizes.iter().map(|size| -size).collect();
        let most = taken as f64 + self.table.heaviest(open.free, &sizes).0;
        let least = taken as f64 - self.table.heaviest(open.free, &turned).0;
        most >= goal.sizes.0 && least <= goal.sizes.1
    }

    /// The row that is most in doubt: as often in as out.
    fn doubtful(&self, open: Open, raised: &Raised) -> Option<usize> {
        let doubt = |row: usize| (raised.often[row] - 0.5).abs();
        places(open.free).min_by(|&a, &b| doubt(a).total_cmp(&doubt(b)))
    }

    fn offer(&self, best: &mut Best, chain: u64) {
        best.offer(chain, &self.table.sum(chain), self.list);
    }

    /// What is left open below a node, the likelier last.
    fn below(&self, node: Node, best: &mut Best, goes_on: &dyn Fn() -> bool) -> Vec<Node> {
        let open = node.open;
        self.offer(best, open.taken);
        let goal = Goal::of(self.settings, self.list, best.score, self.gap(open)).filter(|goal| self.reaches(open, goal));
        let Some(goal) = goal else { return vec![] };
        let bound = Bound::of(self.table, self.list, self.settings.minkfreq, goal);
        let raised = bound.raise(open, node.slopes.to_vec(), node.rounds, goes_on);
        if bound.rules_out(raised.value) {
            return vec![];
        }
        self.offer(best, raised.chain);
        let likely: Vec<f64> = raised.often.iter().map(|often| often - 0.5).collect();
        self.offer(best, open.taken | self.table.heaviest(open.free, &likely).1);
        let forced = bound.forced(open, &raised);
        let Some(row) = self.doubtful(forced, &raised) else {
            self.offer(best, forced.taken);
            return vec![];
        };
        let slopes = Rc::new(raised.slopes);
        let child = |open: Open| Node { open, slopes: slopes.clone(), rounds: ROUNDS };
        let (with, without) = (child(bound.with(forced, row)), child(Open { free: forced.free & !(1 << row), ..forced }));
        if raised.often[row] > 0.5 { vec![without, with] } else { vec![with, without] }
    }

    /// Whether all of it was looked at before `goes_on` said no.
    pub fn close(&self, best: &mut Best, goes_on: &dyn Fn() -> bool) -> bool {
        let open = Open { taken: 0, free: self.table.all() };
        let mut nodes = vec![Node { open, slopes: Rc::new(vec![0.0; self.table.entries + 1]), rounds: FIRST_ROUNDS }];
        while let Some(node) = nodes.pop() {
            if !goes_on() {
                return false;
            }
            nodes.extend(self.below(node, best, goes_on));
        }
        true
    }
}
