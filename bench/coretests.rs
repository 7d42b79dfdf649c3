// Counts the moments that the EDF test visits per question, beside a plain scan over all deadlines.
//
// This program does not call the proved crate. It mirrors the algorithm of crates/coretests/src/edf.rt, `last_tight`, the descent of
// `holds` and that of `longest`, adds counters, and compares every answer with that of the plain scan.
// A moment is one evaluation of the demand at one t; the scan visits each moment at which a deadline falls, once, in rising order,
// and stops at the first overrun as the descent does.

#[derive(Clone, Copy)]
struct Entry {
    period: u64,
    deadline: u64,
    load: u64,
}

fn demand(list: &[Entry], t: u64) -> u64 {
    list.iter().map(|e| e.load * ((t + e.period - e.deadline) / e.period)).sum()
}

fn gcd(a: u64, b: u64) -> u64 {
    if b == 0 { a } else { gcd(b, a % b) }
}

fn span(list: &[Entry]) -> u64 {
    list.iter().fold(1, |m, e| m / gcd(m, e.period) * e.period)
}

// As in edf.rt: a moment up to `top` after which, up to `top`, no slack is below `least`.
fn last_tight(list: &[Entry], span: u64, least: u64, top: u64) -> u64 {
    let (mut work, mut lead) = (0, 0);
    for e in list {
        let share = e.load * (span / e.period);
        work += share;
        if work >= span {
            return top;
        }
        lead += share * (e.period - e.deadline);
    }
    top.min((lead + least * span) / (span - work))
}

// Each question gives its answer and the number of moments visited. `line` says whether the descent starts at `last_tight`.
fn holds_descent(list: &[Entry], line: bool) -> (bool, u64) {
    let m = span(list);
    let mut t = if line { last_tight(list, m, 0, m) } else { m };
    let mut visited = 0;
    loop {
        visited += 1;
        let due = demand(list, t);
        if due > t {
            return (false, visited);
        }
        if due == 0 {
            return (true, visited);
        }
        t = due - 1;
    }
}

fn longest_descent(list: &[Entry], d: u64, line: bool) -> (Option<u64>, u64) {
    let m = span(list);
    let Some(first) = list.first().map(|e| e.deadline) else { return (None, 0) };
    let last = d - 1;
    if last < first {
        return (None, 0);
    }
    let mut visited = 1;
    let mut best = first.saturating_sub(demand(list, first));
    let mut t = if line { last_tight(list, m, best, last) } else { last };
    while best > 0 && t >= first {
        visited += 1;
        let slack = t.saturating_sub(demand(list, t));
        best = best.min(slack);
        t = (t - slack + best).saturating_sub(1);
    }
    (Some(best), visited)
}

// The moments in order at which a deadline falls, from `low` to `high`.
fn deadlines(list: &[Entry], low: u64, high: u64) -> Vec<u64> {
    let mut falls = vec![false; high as usize + 1];
    for e in list {
        for t in (e.deadline..=high).step_by(e.period as usize) {
            falls[t as usize] = true;
        }
    }
    (low..=high).filter(|t| falls[*t as usize]).collect()
}

fn holds_scan(list: &[Entry]) -> (bool, u64) {
    let mut visited = 0;
    for t in deadlines(list, 1, span(list)) {
        visited += 1;
        if demand(list, t) > t {
            return (false, visited);
        }
    }
    (true, visited)
}

fn longest_scan(list: &[Entry], d: u64) -> (Option<u64>, u64) {
    let Some(first) = list.first().map(|e| e.deadline) else { return (None, 0) };
    if d - 1 < first {
        return (None, 0);
    }
    let mut visited = 0;
    let mut best = u64::MAX;
    for t in deadlines(list, first, d - 1) {
        visited += 1;
        best = best.min(t.saturating_sub(demand(list, t)));
        if best == 0 {
            break;
        }
    }
    (Some(best), visited)
}

// A generator of numbers that is the same on every machine.
struct Numbers(u64);

impl Numbers {
    fn below(&mut self, n: u64) -> u64 {
        self.0 ^= self.0 << 13;
        self.0 ^= self.0 >> 7;
        self.0 ^= self.0 << 17;
        self.0 % n
    }
}

// 24 entries with periods that divide the span, one of them the span itself, and about `percent` of the core in use.
// Deadlines lie in the last `share` percent of the period.
fn list(numbers: &mut Numbers, span: u64, percent: u64, share: u64) -> Vec<Entry> {
    let divisors: Vec<u64> = (100..span).filter(|p| span % p == 0).collect();
    let mut all: Vec<Entry> = (0..24)
        .map(|k| {
            let period = if k == 0 { span } else { divisors[numbers.below(divisors.len() as u64) as usize] };
            let weight = 1 + numbers.below(100);
            Entry { period, deadline: period - numbers.below(period * share / 100 + 1), load: weight }
        })
        .collect();
    let weights: u64 = all.iter().map(|e| e.load).sum();
    for e in all.iter_mut() {
        e.load = e.period * e.load * percent / (100 * weights);
    }
    all.sort_by_key(|e| e.deadline);
    all
}

struct Count {
    sum: u64,
    most: u64,
}

impl Count {
    fn add(&mut self, n: u64) {
        self.sum += n;
        self.most = self.most.max(n);
    }
}

fn main() {
    const LISTS: u64 = 100;
    const SPANS: [u64; 2] = [997_920, 1_000_000];
    let mut numbers = Numbers(0x9e37_79b9_7f4a_7c15);
    println!("moments visited per question, mean / most, {} lists of 24 entries a row, spans {:?}", LISTS * 2, SPANS);
    println!("{:<9}{:>6}{:>10}  {:>20}{:>20}{:>20}", "question", "use %", "accepted", "all deadlines", "descent", "descent from line");
    for share in [0, 20, 60] {
        println!("deadlines in the last {share} % of the period");
        for percent in [50, 80, 90, 95, 99] {
            let mut counts = [[(); 3]; 2].map(|row| row.map(|_| Count { sum: 0, most: 0 }));
            let mut accepted = 0;
            for k in 0..2 * LISTS {
                let list = list(&mut numbers, SPANS[(k % 2) as usize], percent, share);
                let holds = [holds_scan(&list), holds_descent(&list, false), holds_descent(&list, true)];
                let limits = [longest_scan(&list, 1_000_000), longest_descent(&list, 1_000_000, false), longest_descent(&list, 1_000_000, true)];
                assert!(holds.iter().all(|h| h.0 == holds[0].0) && limits.iter().all(|l| l.0 == limits[0].0));
                accepted += holds[0].0 as u64;
                for way in 0..3 {
                    counts[0][way].add(holds[way].1);
                    counts[1][way].add(limits[way].1);
                }
            }
            for (question, row) in ["holds", "longest"].iter().zip(&counts) {
                let shown: Vec<String> = row.iter().map(|c| format!("{:>20}", format!("{} / {}", c.sum / (2 * LISTS), c.most))).collect();
                println!("{:<9}{:>6}{:>10}  {}", question, percent, accepted, shown.concat());
            }
        }
    }
}
