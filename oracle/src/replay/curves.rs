use crate::lent::values;
use crate::mean::shortest;
use crate::outcome::agree;
use crate::{Call, Outcome};
use haspgarnet_changeforest::{lent, owned, Curves, Permutations, Settings};
use protocol::{Curve, Line, Perm};

impl Call for Curve {
    fn call(&self, line: &Line) -> Outcome {
        let mut curve = values(line.lent(1));
        let made = lent::gain_from_likelihoods(&self.l0, &self.l1, curve.slice());
        let told = made.map_or(0, |()| self.l0.len());
        let answer = made.map(|()| Curve::answer(curve.told(told)));
        let owned = owned::gain_from_likelihoods(&self.l0, &self.l1);
        let owned = owned.map(|curve| Curve::answer(&curve));
        Outcome { kept: curve.kept_past(told), agrees: agree(answer.clone(), owned), told: answer }
    }
}

impl Call for Perm {
    /// Of more than three curves the first three are lent.
    fn call(&self, _: &Line) -> Outcome {
        let mut curves = Curves { count: self.k, ..Curves::default() };
        for (lent, deltas) in curves.deltas.iter_mut().zip(&self.deltas) {
            *lent = deltas;
        }
        for (lent, base) in curves.bases.iter_mut().zip(&self.bases) {
            *lent = *base;
        }
        let permutations = Permutations { entries: &self.perms, count: self.p };
        let settings = Settings { alpha: self.alpha, ..shortest(self.shortest) };
        let tested = lent::permutation_test(curves, permutations, self.max, &settings);
        let told =
            tested.map(|found| Perm::answer(found.counter, found.p_value, found.significant));
        Outcome::plain(told)
    }
}
