//! The plain form of the whole program, to measure the proved one against: Rust with only the
//! standard library, one thread, and a `BufWriter` for the report.
//!
//! `report_baseline FILE [--most N]` reads a game as `[q; w1, .., wn]` or as a game file of the
//! plain form that `examples/` has (a key and its value on a line), lists its minimal winning
//! coalitions by a depth-first walk with bounds that leaves aside what has a member too many, and
//! prints the report that `council` prints. It checks little: it is for games that are right.

use std::env;
use std::fs;
use std::io::{self, BufWriter, Write};
use std::process::ExitCode;

/// Each size of a coalition, 1 to 40, divides it.
const COMMON: u128 = 5_342_931_457_063_200;

struct Rule {
    quota: u64,
    weights: Vec<u64>,
}

struct Game {
    title: Option<String>,
    names: Vec<String>,
    rules: Vec<Rule>,
    /// The members, the heaviest by the first rule first.
    ranked: Vec<usize>,
}

impl Game {
    fn new(title: Option<String>, names: Vec<String>, rules: Vec<Rule>) -> Option<Game> {
        let members = names.len();
        let is_game = (1..=40).contains(&members)
            && !rules.is_empty()
            && rules
                .iter()
                .all(|rule| rule.quota > 0 && rule.weights.len() == members);
        if !is_game {
            return None;
        }
        let mut ranked: Vec<usize> = (0..members).collect();
        ranked.sort_by_key(|&member| std::cmp::Reverse(rules[0].weights[member]));
        Some(Game {
            title,
            names,
            rules,
            ranked,
        })
    }

    fn read(text: &str) -> Option<Game> {
        match text.trim().strip_prefix('[') {
            Some(rest) if rest.trim_start().starts_with(|c: char| c.is_ascii_digit()) => {
                Game::from_notation(rest)
            }
            _ => Game::from_file(text),
        }
    }

    fn from_notation(text: &str) -> Option<Game> {
        let (quota, weights) = text.strip_suffix(']')?.split_once(';')?;
        let quota = quota.trim().parse().ok()?;
        let weights: Vec<u64> = numbers(weights)?;
        let names = (1..=weights.len())
            .map(|number| number.to_string())
            .collect();
        Game::new(None, names, vec![Rule { quota, weights }])
    }

    fn from_file(text: &str) -> Option<Game> {
        let mut title = None;
        let mut names = Vec::new();
        let mut rules: Vec<Rule> = Vec::new();
        for line in text.lines().map(str::trim) {
            if line.is_empty() || line.starts_with('#') || line == "[[member]]" {
                continue;
            }
            let (key, value) = line.split_once('=')?;
            let value = value.trim();
            let words = value.trim_start_matches('[').trim_end_matches(']');
            match key.trim() {
                "title" => title = Some(value.trim_matches('"').to_string()),
                "name" => names.push(value.trim_matches('"').to_string()),
                "quota" | "quotas" => {
                    for quota in numbers(words)? {
                        rules.push(Rule {
                            quota,
                            weights: Vec::new(),
                        });
                    }
                }
                "weight" | "weights" => {
                    for (rule, weight) in rules.iter_mut().zip(numbers(words)?) {
                        rule.weights.push(weight);
                    }
                }
                _ => return None,
            }
        }
        Game::new(title, names, rules)
    }
}

fn numbers(words: &str) -> Option<Vec<u64>> {
    words
        .split(',')
        .map(|word| word.trim().parse().ok())
        .collect()
}

/// A number for each rule, and zeros past the last.
type Sums = [u64; 4];

struct Walk {
    rules: usize,
    members: usize,
    quotas: Sums,
    /// The weights at each rank place.
    weights: [Sums; 40],
    /// What the places from each one on weigh together.
    rest: [Sums; 41],
    /// The places without weight under each rule, as a mask.
    weightless: Sums,
    most: usize,
    found: Vec<u64>,
}

impl Walk {
    fn new(game: &Game, most: usize) -> Walk {
        let members = game.names.len();
        let mut walk = Walk {
            rules: game.rules.len(),
            members,
            quotas: [0; 4],
            weights: [[0; 4]; 40],
            rest: [[0; 4]; 41],
            weightless: [0; 4],
            most,
            found: Vec::new(),
        };
        for (r, rule) in game.rules.iter().enumerate() {
            walk.quotas[r] = rule.quota;
            for place in (0..members).rev() {
                walk.weights[place][r] = rule.weights[game.ranked[place]];
                walk.rest[place][r] = walk.rest[place + 1][r] + walk.weights[place][r];
                if walk.weights[place][r] == 0 {
                    walk.weightless[r] |= 1 << (members - 1 - place);
                }
            }
        }
        walk
    }

    fn meets_all(&self, sum: impl Fn(usize) -> u64) -> bool {
        (0..self.rules).all(|r| self.quotas[r] <= sum(r))
    }

    /// Whether some member of a prefix is missed by no rule, with whatever comes to the prefix.
    /// With one rule none is: the last member came in where the quota was not met. Only members
    /// without weight under each rule whose quota is not met are tried.
    fn spares_one(&self, mask: u64, sums: &Sums) -> bool {
        if self.rules == 1 {
            return false;
        }
        let mut few = mask;
        for r in 0..self.rules {
            if sums[r] < self.quotas[r] {
                few &= self.weightless[r];
            }
        }
        places(few, self.members).any(|place| {
            (0..self.rules)
                .all(|r| self.weights[place][r] <= sums[r].saturating_sub(self.quotas[r]))
        })
    }

    /// Lists what stands below the prefix of `place` places that `mask` is, whose last one was just
    /// `taken` in or left out. Answers whether there is still room for more.
    fn decide(&mut self, place: usize, mask: u64, sums: Sums, taken: bool) -> bool {
        if taken && self.spares_one(mask, &sums) {
            return true;
        }
        if self.meets_all(|r| sums[r]) {
            if self.found.len() == self.most {
                return false;
            }
            self.found.push(mask);
            return true;
        }
        if !self.meets_all(|r| sums[r] + self.rest[place][r]) {
            return true;
        }
        let mut more = sums;
        for r in 0..self.rules {
            more[r] += self.weights[place][r];
        }
        self.decide(place + 1, mask | 1 << (self.members - 1 - place), more, true)
            && self.decide(place + 1, mask, sums, false)
    }
}

/// The places that are in, the last first.
fn places(mask: u64, members: usize) -> impl Iterator<Item = usize> {
    let mut left = mask;
    std::iter::from_fn(move || {
        (left != 0).then(|| {
            let digit = left.trailing_zeros() as usize;
            left &= left - 1;
            members - 1 - digit
        })
    })
}

/// How many coalitions of each size contain the member of each rank place.
fn count(list: &[u64], members: usize) -> [[u32; 41]; 40] {
    let mut counts = [[0; 41]; 40];
    for &mask in list {
        let size = mask.count_ones() as usize;
        for place in places(mask, members) {
            counts[place][size] += 1;
        }
    }
    counts
}

fn joined(values: impl Iterator<Item = u64>) -> String {
    values
        .map(|value| value.to_string())
        .collect::<Vec<_>>()
        .join("/")
}

/// A fraction in lowest terms and its six decimals, cut off.
fn fraction(top: u128, bottom: u128) -> String {
    let (mut a, mut b) = (top, bottom);
    while b > 0 {
        (a, b) = (b, a % b);
    }
    let (top, bottom) = (top / a, bottom / a);
    let millionths = top * 1_000_000 / bottom;
    format!(
        "{top}/{bottom}\t{}.{:06}",
        millionths / 1_000_000,
        millionths % 1_000_000
    )
}

fn write_report(game: &Game, list: &[u64], out: &mut impl Write) -> io::Result<()> {
    let members = game.names.len();
    if let Some(title) = &game.title {
        writeln!(out, "title\t{title}")?;
    }
    writeln!(out, "members\t{members}")?;
    writeln!(
        out,
        "quota\t{}",
        joined(game.rules.iter().map(|rule| rule.quota))
    )?;
    writeln!(
        out,
        "total\t{}",
        joined(game.rules.iter().map(|rule| rule.weights.iter().sum()))
    )?;
    writeln!(out, "minimal\t{}", list.len())?;
    let counts = count(list, members);
    let seats: u32 = list.iter().map(|mask| mask.count_ones()).sum();
    for (member, name) in game.names.iter().enumerate() {
        let place = game.ranked.iter().position(|other| *other == member).unwrap_or(0);
        let weight = joined(game.rules.iter().map(|rule| rule.weights[member]));
        let count: u32 = counts[place].iter().sum();
        let shares = (1..=40)
            .map(|size| u128::from(counts[place][size]) * (COMMON / size as u128))
            .sum();
        let deegan_packel = fraction(shares, list.len() as u128 * COMMON);
        let public_good = fraction(u128::from(count), u128::from(seats));
        writeln!(
            out,
            "member\t{name}\t{weight}\t{count}\t{deegan_packel}\t{public_good}"
        )?;
    }
    out.flush()
}

fn main() -> ExitCode {
    let mut file = None;
    let mut most = 1_000_000;
    let mut words = env::args().skip(1);
    while let Some(word) = words.next() {
        match word.as_str() {
            "--most" => most = words.next().and_then(|word| word.parse().ok()).unwrap_or(0),
            _ => file = Some(word),
        }
    }
    let text = file.and_then(|file| fs::read_to_string(file).ok());
    let Some(game) = text.as_deref().and_then(Game::read) else {
        eprintln!("usage: report_baseline FILE [--most N], where FILE is a game of a plain form");
        return ExitCode::from(2);
    };
    let mut walk = Walk::new(&game, most);
    if !walk.decide(0, 0, [0; 4], false) {
        eprintln!("too many minimal winning coalitions");
        return ExitCode::from(4);
    }
    let mut out = BufWriter::with_capacity(1 << 16, io::stdout().lock());
    match write_report(&game, &walk.found, &mut out) {
        Ok(()) => ExitCode::SUCCESS,
        Err(_) => ExitCode::from(5),
    }
}
