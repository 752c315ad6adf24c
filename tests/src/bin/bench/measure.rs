//! Times of calls: the library's, and plain Rust's where there is such a call, in turn in one process.

use ringlog_tests::processor;
use std::fmt::Debug;

const ROUNDS: usize = 1_500;

/// One of the two that are measured: a call, what is done before each batch of it and is not measured,
/// and the nanoseconds per call of each batch so far.
struct Side {
    prepare: Box<dyn FnMut()>,
    call: Box<dyn FnMut()>,
    times: Vec<f64>,
}

impl Side {
    fn new<A: Copy>(mut call: impl FnMut() -> A + 'static) -> Self {
        Side {
            prepare: Box::new(|| ()),
            call: Box::new(move || {
                black_box(call());
            }),
            times: Vec::new(),
        }
    }

    fn run(&mut self, calls: u32) {
        (self.prepare)();
        let start = processor::nanoseconds();
        for _ in 0..calls {
            (self.call)();
        }
        let time = processor::nanoseconds() - start;
        self.times.push(time as f64 / f64::from(calls));
    }

    fn median(&self) -> f64 {
        let mut sorted = self.times.to_vec();
        sorted.sort_by(f64::total_cmp);
        sorted[sorted.len() / 2]
    }
}

/// How many calls make up a batch, and that there is a batch in each so many rounds.
pub type Batch = (u32, usize);

/// One thing to do, by the library and, where there is such a call, by plain Rust.
pub struct Row {
    pub name: String,
    batch: Batch,
    library: Side,
    plain: Option<Side>,
}

impl Row {
    /// The two give the same answer.
    pub fn beside_plain<A: Copy + PartialEq + Debug>(
        name: String,
        batch: Batch,
        library: impl FnMut() -> A + 'static,
        mut plain: impl FnMut() -> A + 'static,
    ) -> Self {
        let mut row = Row::alone(name, batch, plain(), library);
        row.plain = Some(Side::new(plain));
        row
    }

    /// The library gives the answer.
    pub fn alone<A: Copy + PartialEq + Debug>(
        name: String,
        batch: Batch,
        answer: A,
        mut library: impl FnMut() -> A + 'static,
    ) -> Self {
        assert_eq!(library(), answer, "{name}");
        Row {
            name,
            batch,
            library: Side::new(library),
            plain: None,
        }
    }

    /// The row of a call of the library that undoes what it needs: this is done before each batch, and
    /// is not measured.
    pub fn prepared(mut self, prepare: impl FnMut() + 'static) -> Self {
        self.library.prepare = Box::new(prepare);
        self
    }

    /// Each of the two goes first in every other batch.
    fn run(&mut self, round: usize) {
        let (calls, every) = self.batch;
        if round % every != 0 {
            return;
        }
        let library_first = round / every % 2 == 0;
        if library_first {
            self.library.run(calls);
        }
        if let Some(plain) = &mut self.plain {
            plain.run(calls);
        }
        if !library_first {
            self.library.run(calls);
        }
    }

    /// The median of the library's times, in nanoseconds.
    pub fn library(&self) -> f64 {
        self.library.median()
    }

    /// The median of plain Rust's times, in nanoseconds.
    pub fn plain(&self) -> Option<f64> {
        self.plain.as_ref().map(Side::median)
    }
}

/// Every round has a batch of the library and one of plain Rust for each row: what else the machine
/// does meets all of them alike.
pub fn run<'a>(rows: impl Iterator<Item = &'a mut Row>) {
    let mut rows: Vec<_> = rows.collect();
    for round in 0..ROUNDS {
        rows.iter_mut().for_each(|row| row.run(round));
    }
}

/// Gives back the value, and the compiler cannot tell that it is the same. It stands in for
/// `std::hint::black_box`, which the Rust of Debian 12 does not have.
pub fn black_box<T: Copy>(value: T) -> T {
    // SAFETY: the value is a live local and may be copied.
    unsafe { std::ptr::read_volatile(&value) }
}
