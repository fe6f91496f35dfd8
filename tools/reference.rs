// The listing of a roll file, written a second time from its rules, plainly and
// with wide integers, to compare the program `debits` with.
//
//     reference < FILE            searches as the rules say
//     reference --brute < FILE    walks all sets instead (small rolls only)
//
// Only the search mode counts steps, so only there a question can end in `P`.

use std::io::{Read, Write};

const MOST_ENTRIES: usize = 120;
const TABLE: i128 = 1_600;
pub const OUTPUT: usize = 65_536;
const FILE: usize = 65_536;
pub const STEPS: u32 = 100_000;
const AMOUNT_LIMIT: i128 = 100_000_000_000;
const END_LIMIT: i128 = 20_000_000_000_000;

// ---- the file -------------------------------------------------------------

// A refusal's number and the place of the record that met it.
type Fault = (u32, usize);

pub type Amounts = [i128; 4];

#[derive(Clone)]
pub struct Entry {
    pub number: u32,
    pub amounts: Amounts,
}

// A question with the entries that stood when it was put, by rising number.
pub struct Question {
    pub columns: usize,
    pub size: usize,
    pub low: Amounts,
    pub high: Amounts,
    pub entries: Vec<Entry>,
}

// The length of a record's body, by its kind.
fn body_length(kind: u8) -> Option<usize> {
    match kind {
        1 => Some(1),
        2 => Some(4 + 4 * 8),
        3 => Some(4),
        4 => Some(1 + 8 * 8),
        _ => None,
    }
}

fn number(bytes: &[u8]) -> u32 {
    bytes.iter().fold(0, |n, &b| n * 256 + u32::from(b))
}

// Eight bytes, the high one first, as a signed number.
fn amount(bytes: &[u8]) -> i128 {
    let unsigned = bytes.iter().fold(0i128, |n, &b| n * 256 + i128::from(b));
    if bytes[0] < 128 { unsigned } else { unsigned - (1 << 64) }
}

fn four_amounts(bytes: &[u8]) -> Amounts {
    [0, 1, 2, 3].map(|c| amount(&bytes[8 * c..8 * c + 8]))
}

fn within(value: i128, limit: i128) -> bool {
    -limit <= value && value <= limit
}

// The refusal that entering meets, if any.
fn entry_refusal(roll: &[Entry], columns: usize, entry: &Entry) -> Option<u32> {
    if entry.amounts[..columns].iter().any(|&a| !within(a, AMOUNT_LIMIT)) {
        Some(1)
    } else if roll.iter().any(|e| e.number == entry.number) {
        Some(2)
    } else if roll.len() == MOST_ENTRIES {
        Some(3)
    } else if entry.amounts[columns..].iter().any(|&a| a != 0) {
        Some(11)
    } else {
        None
    }
}

// The refusal that a question meets, if any.
fn question_refusal(question: &Question) -> Option<u32> {
    let (l, n) = (question.size as i128, question.entries.len() as i128);
    let d = question.columns;
    let (low, high) = (question.low, question.high);
    if l == 0 || l > n {
        Some(6)
    } else if (0..d).any(|c| {
        low[c] > high[c] || !within(low[c], END_LIMIT) || !within(high[c], END_LIMIT)
    }) {
        Some(7)
    } else if TABLE < l * (2 * n - l + 1) / 2 + 2 {
        Some(8)
    } else if (d..4).any(|c| low[c] != 0 || high[c] != 0) {
        Some(11)
    } else {
        None
    }
}

// Goes through the whole file: its questions, or its first fault.
fn read_file(file: &[u8]) -> Result<Vec<Question>, Fault> {
    if file.len() > FILE {
        return Err((15, 0));
    }
    if file.is_empty() {
        return Err((13, 0));
    }
    let mut columns = 0;
    let mut roll: Vec<Entry> = Vec::new();
    let mut questions = Vec::new();
    let mut place = 0;
    while place < file.len() {
        let kind = file[place];
        let length = body_length(kind).ok_or((12, place))?;
        let body = file.get(place + 1..place + 1 + length).ok_or((13, place))?;
        if (place == 0) != (kind == 1) {
            return Err((14, place));
        }
        match kind {
            1 => {
                columns = usize::from(body[0]);
                if columns < 1 || columns > 4 {
                    return Err((10, place));
                }
            }
            2 => {
                let entry = Entry { number: number(&body[..4]), amounts: four_amounts(&body[4..]) };
                if let Some(refusal) = entry_refusal(&roll, columns, &entry) {
                    return Err((refusal, place));
                }
                roll.push(entry);
                roll.sort_by_key(|e| e.number);
            }
            3 => {
                let gone = number(body);
                if roll.iter().all(|e| e.number != gone) {
                    return Err((5, place));
                }
                roll.retain(|e| e.number != gone);
            }
            _ => {
                let question = Question {
                    columns,
                    size: usize::from(body[0]),
                    low: four_amounts(&body[1..33]),
                    high: four_amounts(&body[33..]),
                    entries: roll.clone(),
                };
                if let Some(refusal) = question_refusal(&question) {
                    return Err((refusal, place));
                }
                questions.push(question);
            }
        }
        place += 1 + length;
    }
    Ok(questions)
}

// ---- the search -----------------------------------------------------------

// A rank and four columns.
type Row = [i128; 5];

// Whether every part of `a` is at most that of `b`.
fn not_above(a: &Row, b: &Row) -> bool {
    a.iter().zip(b).all(|(x, y)| x <= y)
}

// The lower and the upper place of each position. Places count from 1; positions
// count from 0 here.
#[derive(Clone)]
struct Space {
    lo: Vec<usize>,
    hi: Vec<usize>,
}

enum Answer {
    Finished,
    Spent,
    Set(Vec<usize>),
}

// One straight search after another, for each total of ranks.
struct Search {
    n: usize,
    m: usize,
    // rank and shadowed columns of each place, the first standing at index 1
    rows: Vec<Row>,
    // what is added to an end of each part for one more of rank total
    falls: Row,
    // the ends as asked, with rank 0
    low_asked: Row,
    high_asked: Row,
    // the rank total whose search is under way, and the last one
    rank_total: usize,
    last_rank_total: usize,
    // the band of the search under way
    low: Row,
    high: Row,
    // spaces that wait, the next one at the end
    waiting: Vec<Space>,
}

impl Search {
    fn begin(question: &Question) -> Search {
        let (n, m) = (question.entries.len(), question.size);
        let mut falls = [1, 0, 0, 0, 0];
        for c in 0..4 {
            for pair in question.entries.windows(2) {
                falls[c + 1] = falls[c + 1].max(pair[0].amounts[c] - pair[1].amounts[c]);
            }
        }
        let mut rows = vec![[0; 5]];
        for (index, entry) in question.entries.iter().enumerate() {
            let place = index as i128 + 1;
            let mut row = [place, 0, 0, 0, 0];
            for c in 0..4 {
                row[c + 1] = entry.amounts[c] + falls[c + 1] * place;
            }
            rows.push(row);
        }
        let beside_rank = |a: &Amounts| [0, a[0], a[1], a[2], a[3]];
        let mut search = Search {
            n,
            m,
            rows,
            falls,
            low_asked: beside_rank(&question.low),
            high_asked: beside_rank(&question.high),
            rank_total: 0,
            last_rank_total: m * (2 * n - m + 1) / 2,
            low: [0; 5],
            high: [0; 5],
            waiting: Vec::new(),
        };
        search.turn_to(m * (m + 1) / 2);
        search
    }

    // Sets up the search for one rank total: its band, and its first space.
    fn turn_to(&mut self, rank_total: usize) {
        self.rank_total = rank_total;
        for part in 0..5 {
            let more = self.falls[part] * rank_total as i128;
            self.low[part] = self.low_asked[part] + more;
            self.high[part] = self.high_asked[part] + more;
        }
        let (n, m) = (self.n, self.m);
        self.waiting.push(Space { lo: (1..=m).collect(), hi: (n - m + 1..=n).collect() });
    }

    fn total(&self, places: impl Iterator<Item = usize>) -> Row {
        let mut total = [0; 5];
        for place in places {
            for part in 0..5 {
                total[part] += self.rows[place][part];
            }
        }
        total
    }

    // The least place for position i with which the band's low end can be reached.
    fn raised(&self, space: &Space, i: usize) -> Option<usize> {
        let first = if i == 0 { space.lo[i] } else { space.lo[i].max(space.lo[i - 1] + 1) };
        (first..=space.hi[i]).find(|&v| {
            let places = (0..self.m).map(|j| {
                if j < i {
                    (v - (i - j)).min(space.hi[j])
                } else if j == i {
                    v
                } else {
                    space.hi[j]
                }
            });
            not_above(&self.low, &self.total(places))
        })
    }

    // The greatest place for position i with which the band's high end can be kept.
    fn lowered(&self, space: &Space, i: usize) -> Option<usize> {
        let last =
            if i + 1 == self.m { space.hi[i] } else { space.hi[i].min(space.hi[i + 1] - 1) };
        (space.lo[i]..=last).rev().find(|&v| {
            let places = (0..self.m).map(|j| {
                if j < i {
                    space.lo[j]
                } else if j == i {
                    v
                } else {
                    space.lo[j].max(v + (j - i))
                }
            });
            not_above(&self.total(places), &self.high)
        })
    }

    // The space with all its places as narrow as passes make them, or none if a
    // position is left without a place.
    fn squeezed(&self, mut space: Space) -> Option<Space> {
        loop {
            let mut moved = false;
            for i in 0..self.m {
                let v = self.raised(&space, i)?;
                moved |= v != space.lo[i];
                space.lo[i] = v;
            }
            for i in (0..self.m).rev() {
                let v = self.lowered(&space, i)?;
                moved |= v != space.hi[i];
                space.hi[i] = v;
            }
            if !moved {
                return Some(space);
            }
        }
    }

    // Examines one space: a set comes back, an open space leaves its children waiting.
    fn examine(&mut self, space: Space) -> Option<Vec<usize>> {
        let space = self.squeezed(space)?;
        let Some(i) = (0..self.m).find(|&i| space.lo[i] < space.hi[i]) else {
            return Some(space.lo);
        };
        for v in (space.lo[i]..=space.hi[i]).rev() {
            let mut child = space.clone();
            child.lo[i] = v;
            child.hi[i] = v;
            for j in i + 1..self.m {
                child.lo[j] = child.lo[j].max(v + (j - i));
            }
            self.waiting.push(child);
        }
        None
    }

    // Goes on to the next set, within an allowance of steps; tells the steps too.
    fn advance(&mut self, allowance: u32) -> (Answer, u32) {
        let mut steps = 0;
        loop {
            if self.waiting.is_empty() {
                if self.rank_total == self.last_rank_total {
                    return (Answer::Finished, steps);
                }
                self.turn_to(self.rank_total + 1);
            }
            if steps == allowance {
                return (Answer::Spent, steps);
            }
            steps += 1;
            let space = self.waiting.pop().unwrap();
            if let Some(set) = self.examine(space) {
                return (Answer::Set(set), steps);
            }
        }
    }
}

// ---- walking all sets -----------------------------------------------------

// The next set of places up to n after this one, in place order.
fn next_set(set: &[usize], n: usize) -> Option<Vec<usize>> {
    let m = set.len();
    let i = (0..m).rev().find(|&i| set[i] < n - (m - 1 - i))?;
    let mut next = set.to_vec();
    for j in i..m {
        next[j] = set[i] + 1 + (j - i);
    }
    Some(next)
}

// Every set of the question's size in its band, by the sum of places, then in place order.
fn all_sets(question: &Question) -> Vec<Vec<usize>> {
    let mut found = Vec::new();
    let mut at = Some((1..=question.size).collect::<Vec<usize>>());
    while let Some(set) = at {
        let in_band = (0..question.columns).all(|c| {
            let total: i128 = set.iter().map(|&p| question.entries[p - 1].amounts[c]).sum();
            question.low[c] <= total && total <= question.high[c]
        });
        at = next_set(&set, question.entries.len());
        if in_band {
            found.push(set);
        }
    }
    found.sort_by_key(|set| (set.iter().sum::<usize>(), set.clone()));
    found
}

// ---- the listing ----------------------------------------------------------

// The line of one set, with the numbers of its entries.
pub fn set_line(question: &Question, set: &[usize]) -> String {
    let numbers: Vec<String> =
        set.iter().map(|&p| question.entries[p - 1].number.to_string()).collect();
    format!("S {}\n", numbers.join(" "))
}

// The lines of one question's sets and of its end, by the search; it breaks off once they
// cannot fit any more.
fn searched(question: &Question) -> String {
    let mut lines = String::new();
    let mut search = Search::begin(question);
    let mut left = STEPS;
    while lines.len() <= OUTPUT {
        let (answer, steps) = search.advance(left);
        left -= steps;
        match answer {
            Answer::Set(set) => lines += &set_line(question, &set),
            Answer::Finished => return lines + "F\n",
            Answer::Spent => return lines + "P\n",
        }
    }
    lines
}

// The same lines by walking all sets, as if there were no end of steps.
fn walked(question: &Question) -> String {
    let lines: Vec<String> =
        all_sets(question).iter().map(|set| set_line(question, set)).collect();
    lines.concat() + "F\n"
}

// The listing, or none if it does not fit the output; `answers` gives a question's lines.
pub fn listing(file: &[u8], answers: impl Fn(&Question) -> String) -> Option<String> {
    let mut text = String::new();
    match read_file(file) {
        Err((refusal, place)) => text = format!("R {refusal} {place}\n"),
        Ok(questions) => {
            for (index, question) in questions.iter().enumerate() {
                text += &format!("Q {} {}\n", index + 1, question.size);
                text += &answers(question);
                if text.len() > OUTPUT {
                    return None;
                }
            }
        }
    }
    Some(text)
}

// Reads the file from standard input and prints its listing.
pub fn run(answers: impl Fn(&Question) -> String) {
    let mut file = Vec::new();
    std::io::stdin().read_to_end(&mut file).expect("standard input cannot be read");
    if let Some(text) = listing(&file, answers) {
        std::io::stdout().write_all(text.as_bytes()).expect("standard output is closed");
    }
}

fn main() {
    if std::env::args().nth(1).is_some_and(|a| a == "--brute") {
        run(walked);
    } else {
        run(searched);
    }
}
