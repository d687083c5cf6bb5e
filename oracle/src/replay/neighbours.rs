use crate::lent::{places, values, Lent};
use crate::mean::matrix;
use crate::outcome::agree;
use crate::{Call, Outcome};
use haspgarnet_changeforest::lent::PredictRoom;
use haspgarnet_changeforest::{lent, owned, Matrix};
use protocol::{same, Knn, Line, Order};

/// What `order` and `knn` both fill.
struct Room {
    ordering: Lent<u32>,
    distances: Lent<f64>,
}

impl Room {
    fn of(line: &Line) -> Room {
        Room { ordering: places(line.lent(1)), distances: values(line.lent(2)) }
    }

    fn ordering(&self, rows: usize) -> &[u32] {
        self.ordering.told(rows * rows)
    }

    /// Whether all is as it was past what is told of a matrix of so many rows.
    fn kept_past(&self, rows: usize) -> bool {
        self.ordering.kept_past(rows * rows) && self.distances.kept_past(rows)
    }

    /// Whether it holds what `order` leaves for the same matrix.
    fn as_order_leaves(&self, readings: Matrix) -> bool {
        let rows = readings.rows;
        let (mut ordering, mut distances) = (vec![0; rows * rows], vec![0.0; rows]);
        lent::ordering(readings, &mut ordering, &mut distances).is_ok()
            && self.ordering(rows) == ordering
            && same(self.distances.told(rows), &distances)
    }
}

impl Call for Order {
    fn call(&self, line: &Line) -> Outcome {
        let readings = matrix(&self.matrix);
        let mut room = Room::of(line);
        let ordered = lent::ordering(readings, room.ordering.slice(), room.distances.slice());
        let told = ordered.map_or(0, |()| readings.rows);
        let ordering = ordered.map(|()| room.ordering(told).to_vec());
        Outcome {
            kept: room.kept_past(told),
            agrees: agree(ordering.clone(), owned::ordering(readings)),
            told: ordering.map(|ordering| Order::answer(&ordering, room.distances.told(told))),
        }
    }
}

impl Call for Knn {
    fn call(&self, line: &Line) -> Outcome {
        let (readings, segment) = (matrix(&self.matrix), self.start..self.stop);
        let (mut room, mut predictions) = (Room::of(line), values(line.lent(3)));
        let lending = PredictRoom {
            ordering: room.ordering.slice(),
            distances: room.distances.slice(),
            predictions: predictions.slice(),
        };
        let predicted = lent::predict(readings, segment.clone(), self.split, lending);
        let (rows, told) = predicted.map_or((0, 0), |()| (readings.rows, segment.len()));
        let left = predicted.is_err() || room.as_order_leaves(readings);
        let answer = predicted.map(|()| Knn::answer(predictions.told(told)));
        let owned = owned::predict(readings, segment, self.split);
        let owned = owned.map(|predictions| Knn::answer(&predictions));
        Outcome {
            kept: left && room.kept_past(rows) && predictions.kept_past(told),
            agrees: agree(answer.clone(), owned),
            told: answer,
        }
    }
}
