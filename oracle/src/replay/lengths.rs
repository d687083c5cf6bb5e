use crate::{Call, Outcome};
use haspgarnet_changeforest::lent;
use protocol::{Line, Rel, F32};

impl Call for Rel {
    fn call(&self, _: &Line) -> Outcome {
        Outcome::plain(lent::minimal_segment_length(self.r, self.n).map(Rel::answer))
    }
}

impl Call for F32 {
    fn call(&self, _: &Line) -> Outcome {
        Outcome::plain(Ok(F32::answer(lent::nearest_f32(self.x))))
    }
}
