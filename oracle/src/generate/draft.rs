//! A case before it is written: the fields of every kind, and the line of each.

/// A lot of cells, or the word `close` in its place.
#[derive(Clone)]
pub enum Lot {
    Cells(Vec<f64>),
    Close,
}

#[derive(Default)]
pub struct Draft {
    pub kind: &'static str,
    pub short: Option<(u64, u64)>,
    pub n: u64,
    pub d: u64,
    pub m: u64,
    /// The prefix `closed`.
    pub closed: bool,
    pub start: u64,
    pub stop: u64,
    /// The split, or the guess.
    pub split: u64,
    pub forbidden: Option<Vec<u64>>,
    /// The relative length, the value to narrow, the threshold or alpha.
    pub value: f64,
    pub max: f64,
    pub layers: Vec<f64>,
    /// Flat pairs.
    pub draws: Vec<u64>,
    pub w: u64,
    /// The row that is asked about.
    pub row: u64,
    /// The matrix; of a run that is fed, what its lots or its sums are made of.
    pub cells: Vec<f64>,
    /// How many cells were taken.
    pub count: u64,
    /// The sums as they are found.
    pub sums: Vec<f64>,
    pub lots: Vec<Lot>,
    /// Both likelihood rows, the pick's curve, or the deltas.
    pub curves: Vec<Vec<f64>>,
    pub bases: Vec<f64>,
    pub p: u64,
    pub perms: Vec<u64>,
}

fn bits(value: f64) -> String {
    format!("{:016x}", value.to_bits())
}

fn joined(entries: impl Iterator<Item = String>) -> String {
    entries.collect::<Vec<_>>().join(" ")
}

fn list<T: Copy>(entries: &[T], show: fn(T) -> String) -> String {
    let count = std::iter::once(entries.len().to_string());
    joined(count.chain(entries.iter().map(|entry| show(*entry))))
}

fn numbers(entries: &[u64]) -> String {
    list(entries, |number| number.to_string())
}

fn values(entries: &[f64]) -> String {
    list(entries, bits)
}

fn lot(lot: &Lot) -> String {
    match lot {
        Lot::Cells(cells) => values(cells),
        Lot::Close => "close".into(),
    }
}

impl Draft {
    /// The least m that leaves no candidate in so many rows.
    pub fn refused_m(&self, rows: u64) -> u64 {
        if self.closed {
            rows / 2 + 1
        } else {
            rows.div_ceil(2)
        }
    }

    /// The greatest m that leaves one, or 1 where none does.
    pub fn most_m(&self, rows: u64) -> u64 {
        self.refused_m(rows).saturating_sub(1).max(1)
    }

    fn ends(&self) -> String {
        format!("{} {} {} {}", self.m, self.barred(), self.start, self.stop)
    }

    /// The forbidden list.
    fn barred(&self) -> String {
        self.forbidden.as_deref().map_or("-".into(), numbers)
    }

    /// Layers, draws and W.
    fn lists(&self) -> String {
        format!("{} {} {}", values(&self.layers), numbers(&self.draws), self.w)
    }

    fn fields(&self) -> String {
        let (n, d, m, cells) = (self.n, self.d, self.m, values(&self.cells));
        let (start, stop, split) = (self.start, self.stop, self.split);
        let (value, barred, count) = (bits(self.value), self.barred(), self.count);
        match self.kind {
            "rel" => format!("{value} {n}"),
            "f32" => value,
            "cand" | "guesses" => format!("{n} {}", self.ends()),
            "gain" | "knn" => format!("{n} {d} {start} {stop} {split} {cells}"),
            "search" => format!("{n} {d} {} {cells}", self.ends()),
            "stored" => format!("{n} {d} {m} {barred} {} {cells}", self.lists()),
            "tree" => format!("{n} {d} {m} {value} {barred} {} {cells}", values(&self.layers)),
            "wild" => format!("{n} {d} {m} {value} {barred} {} {cells}", self.lists()),
            "why" => {
                let (lists, row) = (self.lists(), self.row);
                format!("{n} {d} {m} {value} {barred} {lists} {row} {cells}")
            }
            "feed" => self.feed(),
            "lot" => format!("{n} {d} {count} {} {}", values(&self.sums), lot(&self.lots[0])),
            "close" => format!("{n} {d} {count}"),
            "fedtree" => {
                let (lists, sums) = (self.lists(), values(&self.sums));
                format!("{n} {d} {count} {m} {value} {barred} {lists} {sums}")
            }
            "order" => format!("{n} {d} {cells}"),
            "curve" => format!("{} {}", values(&self.curves[0]), values(&self.curves[1])),
            "pick" => format!("{n} {} {split} {}", self.ends(), values(&self.curves[0])),
            "perm" => self.perm(),
            _ => unreachable!(),
        }
    }

    fn feed(&self) -> String {
        let fields = [self.n.to_string(), self.d.to_string(), values(&self.sums)];
        let lots = [self.lots.len().to_string()].into_iter().chain(self.lots.iter().map(lot));
        joined(fields.into_iter().chain(lots))
    }

    fn perm(&self) -> String {
        let (alpha, max, count) = (bits(self.value), bits(self.max), self.curves.len());
        let bases = self.bases.iter().map(|base| bits(*base));
        let deltas = self.curves.iter().map(|curve| values(curve));
        let curves = joined(bases.chain(deltas).chain([numbers(&self.perms)]));
        format!("{} {alpha} {} {max} {count} {curves}", self.m, self.p)
    }

    pub fn line(&self) -> String {
        let short =
            self.short.map_or(String::new(), |(slice, less)| format!("short {slice} {less} "));
        let closed = if self.closed { "closed " } else { "" };
        format!("{short}{closed}{} {}", self.kind, self.fields())
    }
}
