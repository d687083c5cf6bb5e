use crate::lent::{bytes, values};
use crate::mean::{as_gain_leaves, matrix, sums_of};
use crate::outcome::{agree, no_lower, NO_ROOM};
use crate::segments::{lists, segments, stored, Records};
use crate::tree::{cutting, grown_apart};
use crate::{Call, Outcome};
use haspgarnet_changeforest::lent::WhyRoom;
use haspgarnet_changeforest::{lent, owned, Origin, Refusal};
use protocol::{Grown, Line, Node, Reason, Record, Stored, Told, Why};

const NO_ROW: u32 = 8;

/// What is told; of a cut the text is what is made of its origin and the text's length.
fn told(why: haspgarnet_changeforest::Why, text: impl FnOnce(Origin, usize) -> Vec<u8>) -> Told {
    use haspgarnet_changeforest::Why;
    let (reason, start, stop) = match why {
        Why::Cut { origin, length, start, stop, .. } => {
            let text = text(origin, length).escape_ascii().to_string();
            (Reason::Cut(text), start, stop)
        }
        Why::TooNear { start, stop, .. } => (Reason::Near, start, stop),
        Why::Barred { a, b, start, stop, .. } => (Reason::Barred(a, b), start, stop),
        Why::NoNumber { start, stop, .. } => (Reason::Nan, start, stop),
        Why::NotAbove { gain, start, stop, .. } => (Reason::Below(gain), start, stop),
    };
    Told { reason, start, stop }
}

/// So many bytes of an origin's text, none where it is shorter.
fn shown(origin: Origin, length: usize) -> Vec<u8> {
    let text = origin.to_string().into_bytes();
    text.get(..length).unwrap_or_default().into()
}

/// Whether the call that stores alone leaves the same records in the same room. It takes no threshold, no
/// text and no row: where this one is refused by 3, 7 or 8 it answers, or is refused by no lower number.
fn stores(
    why: &Result<Told, Refusal>,
    records: &Records,
    stored: &Result<Vec<Record>, Refusal>,
) -> bool {
    match (why, stored) {
        (Ok(_), Ok(stored)) => {
            Stored::answer(&records.told(stored.len())) == Stored::answer(stored)
        }
        (Err(why), stored) if matches!(why.number(), 3 | NO_ROOM | NO_ROW) => {
            no_lower(stored, why.number())
        }
        (why, stored) => why.as_ref().err() == stored.as_ref().err(),
    }
}

/// Whether the tree is cut at the row just where that is told, and the segment told is one of its nodes:
/// the one that is cut at the row, by a choice of the origin told, or an uncut one that holds it.
fn stands(told: &Told, row: usize, grown: &Grown) -> bool {
    let text = match &told.reason {
        Reason::Cut(text) => Some(text),
        _ => None,
    };
    let cut_at = |node: &Node, text: &String| {
        node.choice.is_some_and(|choice| choice.split == row && choice.origin.text() == *text)
    };
    let is_told = |node: &Node| {
        let same = (node.start, node.stop, node.significant);
        let holds_row = (node.start..node.stop).contains(&row);
        same == (told.start, told.stop, text.is_some())
            && text.map_or(holds_row, |text| cut_at(node, text))
    };
    text.is_some() == grown.cuts.contains(&row) && grown.nodes.iter().any(is_told)
}

/// Whether what is told is so of the tree, which has room enough and takes no row: where this call is
/// refused by 7 the tree is grown, or refused by a later number, and where by 8, it is grown if there is
/// no such row.
fn is_of_tree(why: &Result<Told, Refusal>, case: &Why, grown: &Result<Grown, Refusal>) -> bool {
    match (why, grown) {
        (Ok(told), Ok(grown)) => stands(told, case.row, grown),
        (Err(why), grown) if why.number() == NO_ROOM => no_lower(grown, NO_ROOM + 1),
        (Err(why), Ok(_)) => why.number() == NO_ROW && case.row >= case.tree.stored.matrix.n,
        (why, grown) => why.as_ref().err() == grown.as_ref().err(),
    }
}

impl Call for Why {
    fn call(&self, line: &Line) -> Outcome {
        let case = &self.tree.stored;
        let (readings, settings) = (matrix(&case.matrix), cutting(&self.tree));
        let (mut sums, mut records) = (values(line.lent(1)), Records::of(line.lent(2)));
        let mut text = bytes(line.lent(3));
        let room = WhyRoom {
            sums: sums.slice(),
            rows: records.rows.slice(),
            gains: records.gains.slice(),
            text: text.slice(),
        };
        let why = lent::why(readings, &settings, lists(case), self.row, room);
        let text_kept = match why {
            Ok(haspgarnet_changeforest::Why::Cut { origin, length, .. }) => {
                text.told(length) == origin.to_string().as_bytes() && text.kept_past(length)
            }
            _ => text.kept_past(0),
        };
        let why = why.map(|why| told(why, |_, length| text.told(length).into()));
        let (stored, stored_kept) = stored(case, line);
        let kept = match &why {
            Err(_) => sums.kept_past(0) && records.kept_past(0),
            Ok(_) => {
                let (told, count) = (sums_of(&readings), stored.as_ref().map_or(0, Vec::len));
                as_gain_leaves(readings, sums.told(told))
                    && sums.kept_past(told)
                    && records.kept_past(count)
            }
        };
        let answer = why.as_ref().map(Why::answer).map_err(|why| *why);
        let owned_agrees = segments(case).is_none_or(|segments| {
            let owned = owned::why(readings, &settings, segments, self.row);
            agree(answer.clone(), owned.map(|why| Why::answer(&told(why, shown))))
        });
        let agrees = owned_agrees
            && stores(&why, &records, &stored)
            && is_of_tree(&why, self, &grown_apart(&self.tree));
        Outcome { kept: kept && text_kept && stored_kept, agrees, told: answer }
    }
}
