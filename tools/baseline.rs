// The same listing by a fast search in plain Rust: what the speed of `debits` is
// measured against.
//
//     baseline < FILE            prints the listing
//     baseline --steps < FILE    also tells, for each question, steps and time
//                                on standard error
//
// It reads files as `reference.rs` does and searches with a table of cumulative
// sums. Raising and lowering carry the run of neighbouring places along from one
// position to the next, and positions that are settled are not looked at again.

#[allow(dead_code)]
#[path = "reference.rs"]
mod reference;

use reference::{Amounts, OUTPUT, Question, STEPS, run, set_line};
use std::time::Instant;

// A rank and four columns.
type Row = [i64; 5];

// No table of 1,600 values takes more positions than this.
const MOST_POSITIONS: usize = 56;

#[inline(always)]
fn add(total: &mut Row, row: &Row) {
    for part in 0..5 {
        total[part] += row[part];
    }
}

#[inline(always)]
fn take_away(total: &mut Row, row: &Row) {
    for part in 0..5 {
        total[part] -= row[part];
    }
}

// Whether a + b reaches c in every part.
#[inline(always)]
fn reach(a: &Row, b: &Row, c: &Row) -> bool {
    (0..5).all(|part| a[part] + b[part] >= c[part])
}

// Whether a + b keeps to c in every part.
#[inline(always)]
fn keep_to(a: &Row, b: &Row, c: &Row) -> bool {
    (0..5).all(|part| a[part] + b[part] <= c[part])
}

// Totals of neighbouring places; column k holds those of k places.
struct Table {
    rows: Vec<Row>,
    starts: [usize; MOST_POSITIONS + 1],
}

impl Table {
    fn new(places: &[Row], m: usize) -> Table {
        let n = places.len();
        let mut rows = places.to_vec();
        let mut starts = [0; MOST_POSITIONS + 1];
        for k in 2..=m {
            starts[k] = rows.len();
            for first in 0..=n - k {
                let mut total = rows[starts[k - 1] + first];
                add(&mut total, &places[first + k - 1]);
                rows.push(total);
            }
        }
        Table { rows, starts }
    }

    // The total of one place; places count from 1.
    #[inline(always)]
    fn place(&self, p: u8) -> &Row {
        &self.rows[usize::from(p) - 1]
    }

    // The total of the k neighbours whose first is p.
    #[inline(always)]
    fn run(&self, k: usize, p: usize) -> &Row {
        &self.rows[self.starts[k] + p - 1]
    }
}

// A space whose first `settled` positions have one place each, with the total of
// those; `next` is the next place to try at position `settled` once the space is squeezed.
#[derive(Clone, Copy)]
struct Frame {
    lo: [u8; MOST_POSITIONS],
    hi: [u8; MOST_POSITIONS],
    settled: usize,
    total: Row,
    next: u8,
}

// A row for each position, for raising and lowering.
type Scratch = [Row; MOST_POSITIONS];

// A low and a high end.
#[derive(Clone, Copy)]
struct Band {
    low: Row,
    high: Row,
}

// Raises all open positions: none if one has no place, else whether one moved.
#[inline(always)]
fn raise(
    table: &Table,
    m: usize,
    low: &Row,
    frame: &mut Frame,
    needed: &mut Scratch,
) -> Option<bool> {
    let first = frame.settled;
    // what the places up to a position have to reach, with the upper ones behind it
    needed[m - 1] = *low;
    for i in (first + 1..m).rev() {
        needed[i - 1] = needed[i];
        take_away(&mut needed[i - 1], table.place(frame.hi[i]));
    }
    let mut moved = false;
    let mut before = frame.total;
    let mut start = first;
    let mut above = 0;
    for i in first..m {
        let mut v = frame.lo[i].max(above);
        loop {
            if v > frame.hi[i] {
                return None;
            }
            while usize::from(frame.hi[start]) + i < usize::from(v) + start {
                add(&mut before, table.place(frame.hi[start]));
                start += 1;
            }
            if reach(&before, table.run(i - start + 1, usize::from(v) + start - i), &needed[i]) {
                break;
            }
            v += 1;
        }
        moved |= v != frame.lo[i];
        frame.lo[i] = v;
        above = v + 1;
    }
    Some(moved)
}

// Lowers all open positions: none if one has no place, else whether one moved.
#[inline(always)]
fn lower(
    table: &Table,
    m: usize,
    high: &Row,
    frame: &mut Frame,
    room: &mut Scratch,
) -> Option<bool> {
    let first = frame.settled;
    // what the places from a position on have to keep to, with the lower ones before it
    room[first] = *high;
    take_away(&mut room[first], &frame.total);
    for i in first + 1..m {
        room[i] = room[i - 1];
        take_away(&mut room[i], table.place(frame.lo[i - 1]));
    }
    let mut moved = false;
    let mut behind = [0; 5];
    let mut end = m - 1;
    let mut below = u8::MAX;
    for i in (first..m).rev() {
        let mut v = frame.hi[i].min(below);
        loop {
            if v < frame.lo[i] {
                return None;
            }
            while usize::from(v) + end < usize::from(frame.lo[end]) + i {
                add(&mut behind, table.place(frame.lo[end]));
                end -= 1;
            }
            if keep_to(&behind, table.run(end - i + 1, usize::from(v)), &room[i]) {
                break;
            }
            v -= 1;
        }
        moved |= v != frame.hi[i];
        frame.hi[i] = v;
        below = v - 1;
    }
    Some(moved)
}

// Squeezes a space; none if it is empty. Afterwards `settled` and `total` reach to the
// first position with more than one place.
#[inline(always)]
fn squeeze(
    table: &Table,
    m: usize,
    band: &Band,
    frame: &mut Frame,
    scratch: &mut Scratch,
) -> Option<()> {
    if frame.settled == m {
        let (low, total, high) = (&band.low, &frame.total, &band.high);
        let in_band = (0..5).all(|part| low[part] <= total[part] && total[part] <= high[part]);
        return in_band.then_some(());
    }
    loop {
        let raised = raise(table, m, &band.low, frame, scratch)?;
        let lowered = lower(table, m, &band.high, frame, scratch)?;
        if !raised && !lowered {
            break;
        }
    }
    while frame.settled < m && frame.lo[frame.settled] == frame.hi[frame.settled] {
        add(&mut frame.total, table.place(frame.lo[frame.settled]));
        frame.settled += 1;
    }
    Some(())
}

enum Answer {
    Finished,
    Spent,
    Set,
}

// One straight search after another, for each total of ranks.
struct Search {
    n: usize,
    m: usize,
    table: Table,
    falls: Row,
    asked: Band,
    band: Band,
    rank_total: usize,
    last_rank_total: usize,
    // whether the first space of this rank total waits
    fresh: bool,
    // squeezed spaces with children to come, each in the one before it
    frames: Vec<Frame>,
    depth: usize,
    scratch: Scratch,
}

impl Search {
    fn begin(question: &Question) -> Search {
        let (n, m) = (question.entries.len(), question.size);
        let mut falls = [1, 0, 0, 0, 0];
        for c in 0..4 {
            for pair in question.entries.windows(2) {
                let fall = (pair[0].amounts[c] - pair[1].amounts[c]) as i64;
                falls[c + 1] = fall.max(falls[c + 1]);
            }
        }
        let mut places = vec![[0; 5]; n];
        for (p, entry) in question.entries.iter().enumerate() {
            let rank = p as i64 + 1;
            places[p] = beside_rank(&entry.amounts);
            for part in 0..5 {
                places[p][part] += falls[part] * rank;
            }
        }
        let asked = Band { low: beside_rank(&question.low), high: beside_rank(&question.high) };
        let frame = Frame {
            lo: [0; MOST_POSITIONS],
            hi: [0; MOST_POSITIONS],
            settled: 0,
            total: [0; 5],
            next: 0,
        };
        let mut search = Search {
            n,
            m,
            table: Table::new(&places, m),
            falls,
            asked,
            band: asked,
            rank_total: 0,
            last_rank_total: m * (2 * n - m + 1) / 2,
            fresh: false,
            frames: vec![frame; m + 1],
            depth: 0,
            scratch: [[0; 5]; MOST_POSITIONS],
        };
        search.turn_to(m * (m + 1) / 2);
        search
    }

    // Sets up the search for one rank total.
    fn turn_to(&mut self, rank_total: usize) {
        self.rank_total = rank_total;
        for part in 0..5 {
            let more = self.falls[part] * rank_total as i64;
            self.band.low[part] = self.asked.low[part] + more;
            self.band.high[part] = self.asked.high[part] + more;
        }
        self.fresh = true;
    }

    // Whether a space waits; passes on to the next rank total where one is used up.
    #[inline(always)]
    fn waits(&mut self) -> bool {
        loop {
            if self.fresh {
                return true;
            }
            if self.depth > 0 {
                let top = &self.frames[self.depth - 1];
                if top.next <= top.hi[top.settled] {
                    return true;
                }
                self.depth -= 1;
            } else if self.rank_total < self.last_rank_total {
                self.turn_to(self.rank_total + 1);
            } else {
                return false;
            }
        }
    }

    // Writes the space that waits into the frame behind the open ones.
    #[inline(always)]
    fn next_space(&mut self) {
        let (n, m) = (self.n, self.m);
        if self.fresh {
            self.fresh = false;
            let frame = &mut self.frames[0];
            for i in 0..m {
                frame.lo[i] = i as u8 + 1;
                frame.hi[i] = (n - m + i) as u8 + 1;
            }
            frame.settled = 0;
            frame.total = [0; 5];
            return;
        }
        let (open, behind) = self.frames.split_at_mut(self.depth);
        let (parent, child) = (&mut open[self.depth - 1], &mut behind[0]);
        let (i, v) = (parent.settled, parent.next);
        parent.next += 1;
        *child = *parent;
        child.lo[i] = v;
        child.hi[i] = v;
        for j in i + 1..m {
            let least = v + (j - i) as u8;
            if child.lo[j] >= least {
                break;
            }
            child.lo[j] = least;
        }
        child.settled = i + 1;
        add(&mut child.total, self.table.place(v));
    }

    // Goes on to the next set, within an allowance of steps; a set stands at the front of
    // the page afterwards. Tells the steps too.
    fn advance(&mut self, allowance: u32, page: &mut [u16]) -> (Answer, u32) {
        let mut steps = 0;
        while self.waits() {
            if steps == allowance {
                return (Answer::Spent, steps);
            }
            steps += 1;
            self.next_space();
            let frame = &mut self.frames[self.depth];
            if squeeze(&self.table, self.m, &self.band, frame, &mut self.scratch).is_none() {
                continue;
            }
            if frame.settled == self.m {
                for i in 0..self.m {
                    page[i] = u16::from(frame.lo[i]);
                }
                return (Answer::Set, steps);
            }
            frame.next = frame.lo[frame.settled];
            self.depth += 1;
        }
        (Answer::Finished, steps)
    }
}

// Rank 0 and four amounts as a row.
fn beside_rank(amounts: &Amounts) -> Row {
    [0, amounts[0] as i64, amounts[1] as i64, amounts[2] as i64, amounts[3] as i64]
}

// The lines of one question's sets and of its end; it breaks off once they cannot fit
// any more.
fn quick(question: &Question, tell: bool) -> String {
    let begun = Instant::now();
    let mut lines = String::new();
    let mut search = Search::begin(question);
    let mut page = [0; MOST_POSITIONS];
    let mut left = STEPS;
    while lines.len() <= OUTPUT {
        let (answer, steps) = search.advance(left, &mut page);
        left -= steps;
        match answer {
            Answer::Set => {
                let set: Vec<usize> = page[..search.m].iter().map(|&p| usize::from(p)).collect();
                lines += &set_line(question, &set);
            }
            Answer::Finished => lines += "F\n",
            Answer::Spent => lines += "P\n",
        }
        if !matches!(answer, Answer::Set) {
            break;
        }
    }
    if tell {
        let (steps, time) = (STEPS - left, begun.elapsed());
        let (n, m) = (search.n, search.m);
        let each = time.as_nanos() / u128::from(steps);
        eprintln!("N {n} L {m}: {steps} steps in {time:.1?}, {each} ns each");
    }
    lines
}

fn main() {
    let tell = std::env::args().nth(1).is_some_and(|a| a == "--steps");
    run(|question| quick(question, tell));
}
