//! Faults on purpose, for who tests a transaction manager: which statement of a store is disturbed, and how. README.md,
//! 'Faults on purpose', has the lines.
use std::fmt;

/// What can be disturbed.
#[derive(Clone, Copy, Debug, PartialEq, Eq)]
pub enum Point {
    Start,
    End,
    Prepare,
    Commit,
    OnePhase,
    Rollback,
    Recover,
    Get,
    Put,
    Del,
    Connect,
    Login,
    Begin,
    LocalCommit,
    LocalRollback,
}

const POINTS: [(Point, &str); 15] = [
    (Point::Start, "XA START"),
    (Point::End, "XA END"),
    (Point::Prepare, "XA PREPARE"),
    (Point::Commit, "XA COMMIT"),
    (Point::OnePhase, "ONE PHASE"),
    (Point::Rollback, "XA ROLLBACK"),
    (Point::Recover, "XA RECOVER"),
    (Point::Get, "GET"),
    (Point::Put, "PUT"),
    (Point::Del, "DEL"),
    (Point::Connect, "CONNECT"),
    (Point::Login, "LOGIN"),
    (Point::Begin, "BEGIN"),
    (Point::LocalCommit, "COMMIT"),
    (Point::LocalRollback, "ROLLBACK"),
];

impl fmt::Display for Point {
    fn fmt(&self, f: &mut fmt::Formatter<'_>) -> fmt::Result {
        f.write_str(POINTS[*self as usize].1)
    }
}

/// Which of the statements at a point, counted over all connections of a store.
#[derive(Clone, Copy, Debug, PartialEq)]
pub enum When {
    Nth(u64),
    Every(u64),
    Chance { of_one: f64, seed: u64 },
}

#[derive(Clone, Copy, Debug, PartialEq)]
pub enum What {
    /// The connection is cut, and the store never hears of the statement.
    CloseBefore,
    /// The statement takes effect, and the connection is cut in place of an answer.
    CloseAfter,
    /// The statement is held for so many seconds; if the client leaves meanwhile, the store never hears of it.
    Stall(f64),
    /// The statement takes effect, and its answer is held for so many seconds.
    StallAfter(f64),
    /// The client is given this error, and the store never hears of the statement.
    Error(u16),
    /// The store refuses connections, and cuts those that it has, for so many seconds. It never hears of the statement.
    Outage(f64),
}

impl fmt::Display for What {
    fn fmt(&self, f: &mut fmt::Formatter<'_>) -> fmt::Result {
        match self {
            What::CloseBefore => write!(f, "close-before"),
            What::CloseAfter => write!(f, "close-after"),
            What::Stall(seconds) => write!(f, "stall {}", seconds),
            What::StallAfter(seconds) => write!(f, "stall-after {}", seconds),
            What::Error(number) => write!(f, "error {}", number),
            What::Outage(seconds) => write!(f, "outage {}", seconds),
        }
    }
}

#[derive(Clone, Copy, Debug, PartialEq)]
pub struct Fault {
    pub point: Point,
    pub when: When,
    pub what: What,
}

impl fmt::Display for Fault {
    fn fmt(&self, f: &mut fmt::Formatter<'_>) -> fmt::Result {
        match self.when {
            When::Nth(nth) => write!(f, "{} {} {}", self.point, nth, self.what),
            When::Every(n) => write!(f, "{} every {} {}", self.point, n, self.what),
            When::Chance { of_one, seed } => write!(f, "{} chance {} seed {} {}", self.point, of_one, seed, self.what),
        }
    }
}

/// What a file of faults says of one store.
#[derive(Clone, Debug, Default, PartialEq)]
pub struct Plan {
    pub faults: Vec<Fault>,
    /// Seconds of an outage that begins when the file is read.
    pub outage: Option<f64>,
}

/// The faults of one store, how many statements it has had at each point, and the state of each fault's generator.
#[derive(Default)]
pub struct Faults {
    armed: Vec<(Fault, u64)>,
    counts: [u64; POINTS.len()],
}

impl Faults {
    /// All counts begin anew.
    pub fn new(plan: &Plan) -> Faults {
        let seed = |fault: &Fault| if let When::Chance { seed, .. } = fault.when { seed } else { 0 };
        Faults { armed: plan.faults.iter().map(|fault| (*fault, seed(fault))).collect(), counts: Default::default() }
    }

    pub fn is_empty(&self) -> bool {
        self.armed.is_empty()
    }

    /// Counts a statement; the first fault that is meant for it.
    pub fn next(&mut self, point: Point) -> Option<Fault> {
        let count = &mut self.counts[point as usize];
        *count += 1;
        let mut found = None;
        for (fault, state) in self.armed.iter_mut().filter(|(fault, _)| fault.point == point) {
            let fires = match fault.when {
                When::Nth(nth) => *count == nth,
                When::Every(n) => *count % n == 0,
                // (each fault draws at each statement, whether an earlier one fires or not, so that a seed tells which)
                When::Chance { of_one, .. } => draw(state) < of_one,
            };
            if fires && found.is_none() {
                found = Some(*fault);
            }
        }
        found
    }
}

/// The next number from 0 to 1, by SplitMix64.
fn draw(state: &mut u64) -> f64 {
    *state = state.wrapping_add(0x9e37_79b9_7f4a_7c15);
    let mut it = *state;
    it = (it ^ (it >> 30)).wrapping_mul(0xbf58_476d_1ce4_e5b9);
    it = (it ^ (it >> 27)).wrapping_mul(0x94d0_49bb_1331_11eb);
    ((it ^ (it >> 31)) >> 11) as f64 / (1u64 << 53) as f64
}

// lines

/// The plans of so many stores. Blank lines, and those that begin with #, say nothing.
pub fn read(text: &str, stores: usize) -> Result<Vec<Plan>, String> {
    let mut plans = vec![Plan::default(); stores];
    for (index, line) in text.lines().enumerate() {
        let line = line.trim();
        if line.is_empty() || line.starts_with('#') {
            continue;
        }
        let (store, said) = read_line(line).map_err(|why| format!("line {}: {}", index + 1, why))?;
        if store.map_or(false, |number| number > stores) {
            return Err(format!("line {}: there is no store {}", index + 1, store.unwrap_or(0)));
        }
        for (number, plan) in plans.iter_mut().enumerate() {
            if store.map_or(true, |it| it == number + 1) {
                match said {
                    Said::Fault(fault) => plan.faults.push(fault),
                    Said::Now(seconds) => plan.outage = Some(seconds),
                }
            }
        }
    }
    Ok(plans)
}

#[derive(Clone, Copy)]
enum Said {
    Fault(Fault),
    Now(f64),
}

const FORM: &str = "not as in `XA PREPARE 3 close-before`, `GET every 10 stall 0.5`, \
                    `XA COMMIT chance 0.01 seed 7 close-after` or `NOW outage 5`";

fn read_line(line: &str) -> Result<(Option<usize>, Said), String> {
    let mut words: Vec<&str> = line.split(' ').collect();
    let mut store = None;
    if words[0] == "STORE" {
        store = Some(words.get(1).and_then(|it| positive(it)).ok_or(FORM)? as usize);
        words.drain(..2);
    }
    if words.first() == Some(&"NOW") {
        return match read_what(&words[1..])? {
            What::Outage(seconds) => Ok((store, Said::Now(seconds))),
            _ => Err("NOW takes an outage".to_string()),
        };
    }
    let (point, length) = point_of(&words).ok_or(FORM)?;
    let (when, used) = read_when(&words[length..]).ok_or(FORM)?;
    let what = read_what(&words[length + used..])?;
    Ok((store, Said::Fault(Fault { point, when, what })))
}

/// The point that the first words name, and how many words these are.
fn point_of(words: &[&str]) -> Option<(Point, usize)> {
    [2, 1].iter().find_map(|length| {
        let name = words.get(..*length)?.join(" ");
        POINTS.iter().find(|(_, it)| *it == name).map(|(point, _)| (*point, *length))
    })
}

fn positive(word: &str) -> Option<u64> {
    let is_number = !word.starts_with('0') && word.bytes().all(|byte| byte.is_ascii_digit());
    word.parse().ok().filter(|_| is_number)
}

/// Seconds.
const LONGEST: f64 = 1e6;

/// Digits, maybe with a point between.
fn decimal(word: &str) -> Option<f64> {
    let is_plain = word.bytes().all(|byte| byte.is_ascii_digit() || byte == b'.')
        && word.starts_with(|it: char| it.is_ascii_digit());
    word.parse().ok().filter(|_| is_plain && !word.ends_with('.'))
}

fn read_when(words: &[&str]) -> Option<(When, usize)> {
    match words {
        ["every", n, ..] => Some((When::Every(positive(n)?), 2)),
        ["chance", of_one, "seed", seed, ..] => {
            Some((When::Chance { of_one: chance(of_one)?, seed: seed.parse().ok()? }, 4))
        }
        ["chance", of_one, ..] => Some((When::Chance { of_one: chance(of_one)?, seed: 1 }, 2)),
        [nth, ..] => Some((When::Nth(positive(nth)?), 1)),
        [] => None,
    }
}

fn chance(word: &str) -> Option<f64> {
    decimal(word).filter(|it| *it <= 1.0)
}

fn read_what(words: &[&str]) -> Result<What, String> {
    let seconds = |word: &str| {
        decimal(word).filter(|it| *it <= LONGEST).ok_or_else(|| format!("{} isn't a number of seconds", word))
    };
    match words {
        ["close-before"] => Ok(What::CloseBefore),
        ["close-after"] => Ok(What::CloseAfter),
        ["stall", it] => Ok(What::Stall(seconds(it)?)),
        ["stall-after", it] => Ok(What::StallAfter(seconds(it)?)),
        ["outage", it] => Ok(What::Outage(seconds(it)?)),
        ["error", it] => it
            .parse()
            .ok()
            .filter(|number| *number > 0)
            .map(What::Error)
            .ok_or_else(|| "an error is a number up to 65535".to_string()),
        [it @ ("close-before" | "close-after"), ..] => Err(format!("{} takes no number", it)),
        [it @ ("stall" | "stall-after" | "outage" | "error"), ..] => Err(format!("{} takes a number", it)),
        _ => Err(FORM.to_string()),
    }
}

#[cfg(test)]
mod tests {
    use super::*;

    fn lines(plan: &Plan) -> Vec<String> {
        plan.faults.iter().map(Fault::to_string).collect()
    }

    #[test]
    fn what_is_read() {
        let text = "# a comment\n\nXA PREPARE 3 close-before\nSTORE 2 XA COMMIT 2 stall 0.5\nGET 1 error 3572\n\
                    STORE 1 ONE PHASE every 4 outage 2\nSTORE 1 BEGIN chance 0.25 seed 9 close-after\n\
                    STORE 2 NOW outage 5\n";
        let plans = read(text, 2).unwrap();
        assert_eq!(
            lines(&plans[0]),
            [
                "XA PREPARE 3 close-before",
                "GET 1 error 3572",
                "ONE PHASE every 4 outage 2",
                "BEGIN chance 0.25 seed 9 close-after"
            ]
        );
        assert_eq!(lines(&plans[1]), ["XA PREPARE 3 close-before", "XA COMMIT 2 stall 0.5", "GET 1 error 3572"]);
        assert_eq!((plans[0].outage, plans[1].outage), (None, Some(5.0)));
    }

    #[test]
    fn points_stand_in_their_order() {
        for (index, (point, _)) in POINTS.iter().enumerate() {
            assert_eq!(*point as usize, index);
        }
    }

    #[test]
    fn what_is_refused() {
        for line in [
            "XA PREPARE close-before",
            "XA PREPARE 0 close-before",
            "XA PREPARE 1 close",
            "XA PREPARE 1 close-after 3",
            "XA COMMIT 1 stall",
            "XA COMMIT 1 error 0",
            "XA COMMIT 1 error 1.5",
            "XA COMMIT 1 error 70000",
            "CUT 1 close-after",
            "STORE 3 GET 1 close-after",
            "xa commit 1 close-after",
            "GET every 0 close-after",
            "GET chance 1.5 close-after",
            "NOW close-after",
            "STORE",
            "STORE 1",
            "GET",
            "GET 1",
            "GET 1 stall -1",
            "GET 1 stall 1.",
            "GET 1 stall inf",
            "GET  1 close-after",
        ] {
            assert!(read(line, 2).is_err(), "{}", line);
        }
        assert!(read("\nGET 1", 1).unwrap_err().starts_with("line 2"));
    }

    #[test]
    fn which_fires() {
        let mut faults =
            Faults::new(&read("GET 2 close-before\nGET every 3 stall 1\nPUT 1 close-after", 1).unwrap()[0]);
        let fired: Vec<_> = (0..6).map(|_| faults.next(Point::Get).map(|it| it.what)).collect();
        assert_eq!(fired, [None, Some(What::CloseBefore), Some(What::Stall(1.0)), None, None, Some(What::Stall(1.0))]);
        assert!(faults.next(Point::Put).is_some());
    }

    #[test]
    fn a_chance_is_drawn_from_its_seed() {
        let fired = |seed: u64| {
            let mut faults = Faults::new(&read(&format!("GET chance 0.1 seed {} close-after", seed), 1).unwrap()[0]);
            (0..10_000).filter(|_| faults.next(Point::Get).is_some()).collect::<Vec<_>>()
        };
        assert_eq!(fired(7), fired(7));
        assert_ne!(fired(7), fired(8));
        assert!((800..1_200).contains(&fired(7).len()));
    }
}
