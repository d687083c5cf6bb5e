//! Decks: well-formed ones, then changed by lines and by bytes.

use crate::random::Random;

/// Bits of thresholds: 0, -0, 1, -1, 10, 0.5, both infinities, a NaN, the least and the greatest.
const THRESHOLDS: [u64; 11] = [
    0,
    1 << 63,
    0x3ff0_0000_0000_0000,
    0xbff0_0000_0000_0000,
    0x4024_0000_0000_0000,
    0x3fe0_0000_0000_0000,
    0x7ff0_0000_0000_0000,
    0xfff0_0000_0000_0000,
    0x7ff8_0000_0000_0000,
    1,
    0x7fef_ffff_ffff_ffff,
];

/// Numbers at the edges of what fields and sizes admit.
const EDGES: &str =
    "0 1 64 65 256 257 2048 4096 4097 32767 32768 9999999999 4294967296 10000000000 00 01 +1";

/// What bytes are put in: those that the grammar turns on, and some that it has no place for.
const BYTES: &[u8] = b"\t\t\t\n\n\n\r\0 -+0123456789abcdefnorwAF.\xff\x80";

/// How a column runs: all the same, steps at some rows, or anything.
fn cells(random: &mut Random, n: u64, d: u64) -> Vec<i64> {
    let high = random.of(&[0, 1, 2, 8, 100, 32_767]);
    let level = |random: &mut Random| random.between(0, 2 * high) as i64 - high as i64;
    let steps = random.of(&[0, 2, 10, n + 1]);
    let mut levels: Vec<i64> = (0..d).map(|_| level(random)).collect();
    let mut cells = vec![];
    for _ in 0..n {
        if steps > 0 && random.below(n) < steps {
            levels = (0..d).map(|_| level(random)).collect();
        }
        cells.extend(&levels);
    }
    if !cells.is_empty() && random.one_in(20) {
        let at = random.below(cells.len() as u64) as usize;
        cells[at] = random.of(&[-32_768, 32_767, -32_769, 32_768, 9_999_999_999, -9_999_999_999]);
    }
    cells
}

/// The lines of a well-formed deck. Few are refused.
fn lines(random: &mut Random) -> Vec<Vec<u8>> {
    let most = random.of(&[3, 6, 12, 12, 40, 256]);
    let n = random.between(1, most);
    let widest = random.of(&[1, 1, 2, 4, 64]);
    let d = random.between(1, widest.min(2_048 / n));
    let m = random.of(&[1, 1, 1, 2, 3, n / 3 + 1, n]);
    let threshold = match random.one_in(4) {
        true => random.bits(),
        false => random.of(&THRESHOLDS),
    };
    let mut lines = vec![format!("cfg\t{n}\t{d}\t{m}\t{threshold:016x}")];
    let pairs = random.of(&[0, 0, 0, 1, 2, 5, 64, 65]);
    for _ in 0..pairs {
        let a = random.between(0, n);
        let b = a + random.of(&[0, 1, 2, 4, n - a]);
        lines.push(match random.one_in(200) {
            true => format!("no\t{}\t{a}", b + 1),
            false => format!("no\t{a}\t{b}"),
        });
    }
    let mut rest = &cells(random, n, d)[..];
    let even = !random.one_in(4);
    while !rest.is_empty() {
        let long = if even { d } else { random.between(1, 64) };
        let (row, others) = rest.split_at(rest.len().min(long as usize));
        let row: Vec<String> = row.iter().map(i64::to_string).collect();
        lines.push(format!("row\t{}", row.join("\t")));
        rest = others;
    }
    lines.into_iter().map(String::into_bytes).collect()
}

/// A line taken away, put in twice, moved, cut up, or a field of it put otherwise.
fn change_lines(random: &mut Random, lines: &mut Vec<Vec<u8>>) {
    if lines.is_empty() {
        return;
    }
    let at = random.below(lines.len() as u64) as usize;
    let to = random.below(lines.len() as u64) as usize;
    match random.below(8) {
        0 => drop(lines.remove(at)),
        1 => lines.insert(at, lines[at].clone()),
        2 => lines.swap(at, to),
        3 => lines.insert(at, vec![]),
        4 => {
            let tail = random.of(&[1_022, 1_023, 1_024, 1_025, 3_000]);
            let fill = random.of(&[b'0', b'\t', b'7', 0]);
            let long = lines[at].len().max(tail);
            lines[at].resize(long, fill);
        }
        5 => {
            let cells = random.of(&[63, 64, 65]);
            lines[at] = format!("row{}", "\t0".repeat(cells)).into_bytes();
        }
        _ => {
            let mut fields: Vec<Vec<u8>> =
                lines[at].split(|byte| *byte == b'\t').map(<[u8]>::to_vec).collect();
            let field = random.below(fields.len() as u64) as usize;
            match random.below(4) {
                0 => drop(fields.remove(field)),
                1 => fields.insert(field, fields[field].clone()),
                2 => fields[field].insert(0, random.of(b"-0+")),
                _ => {
                    let edges: Vec<&str> = EDGES.split(' ').collect();
                    fields[field] = random.of(&edges).into();
                }
            }
            lines[at] = fields.join(&b'\t');
        }
    }
}

/// A byte put in, taken away, or put otherwise; or the end cut off.
fn change_bytes(random: &mut Random, deck: &mut Vec<u8>) {
    let at = random.below(deck.len() as u64 + 1) as usize;
    match random.below(8) {
        0..=2 => deck.insert(at, random.of(BYTES)),
        _ if at == deck.len() => drop(deck.pop()),
        3..=4 => drop(deck.remove(at)),
        7 if random.one_in(4) => deck.truncate(at),
        _ => deck[at] = random.of(BYTES),
    }
}

pub fn deck(random: &mut Random) -> Vec<u8> {
    let mut lines = lines(random);
    for _ in 0..random.of(&[0, 0, 0, 0, 0, 1, 1, 2, 4]) {
        change_lines(random, &mut lines);
    }
    let mut deck: Vec<u8> =
        lines.iter().flat_map(|line| line.iter().chain(b"\n")).copied().collect();
    for _ in 0..random.of(&[0, 0, 0, 0, 0, 0, 1, 1, 2, 8]) {
        change_bytes(random, &mut deck);
    }
    deck
}
