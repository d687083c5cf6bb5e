use crate::mean::settings;
use crate::{Call, Outcome};
use haspgarnet_changeforest::lent;
use protocol::{Guesses, Line, Pick, Segment};

impl Call for Pick {
    fn call(&self, _: &Line) -> Outcome {
        let Segment { n, start, stop, .. } = self.segment;
        let settings = settings(&self.segment);
        let picked = lent::pick(&self.curve, n, start..stop, self.guess, &settings);
        Outcome::plain(picked.map(|picked| Pick::answer(picked.split, picked.gain)))
    }
}

impl Call for Guesses {
    fn call(&self, _: &Line) -> Outcome {
        let Segment { n, start, stop, .. } = self.segment;
        let guesses = lent::guesses(n, start..stop, &settings(&self.segment));
        Outcome::plain(guesses.map(|guesses| Guesses::answer(guesses.rows())))
    }
}
