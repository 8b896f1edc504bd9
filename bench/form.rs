// The form of a word by the geometric rule, as one would write it by hand in Rust: the bar for the verified code.
// Input: a line `GROUP LETTERS TIMES`; output: the sum of the letter counts.
use std::io::Read;

trait Number: Copy {
    const ONE: Self;
    fn minus(self, c: (i64, i64), by: Self) -> Option<Self>;
    fn negative(self) -> bool;
}

#[derive(Clone, Copy)]
struct Whole(i64);

impl Number for Whole {
    const ONE: Whole = Whole(1);
    fn minus(self, c: (i64, i64), by: Whole) -> Option<Whole> {
        let x = self.0 - c.0 * by.0;
        (-1_000_000_000_000..=1_000_000_000_000).contains(&x).then_some(Whole(x))
    }
    fn negative(self) -> bool {
        self.0 < 0
    }
}

#[derive(Clone, Copy)]
struct Golden(i64, i64);

impl Number for Golden {
    const ONE: Golden = Golden(1, 0);
    fn minus(self, c: (i64, i64), by: Golden) -> Option<Golden> {
        let x = self.0 - (c.0 * by.0 + c.1 * by.1);
        let y = self.1 - (c.0 * by.1 + c.1 * by.0 + c.1 * by.1);
        let limit = -100_000_000..=100_000_000;
        (limit.contains(&x) && limit.contains(&y)).then_some(Golden(x, y))
    }
    fn negative(self) -> bool {
        let (p, q) = (2 * self.0 + self.1, self.1);
        if p < 0 { q <= 0 || 5 * q * q < p * p } else { q < 0 && p * p < 5 * q * q }
    }
}

fn coefficient(exponent: u8, rising: bool) -> (i64, i64) {
    match (exponent, rising) {
        (0, _) => (-2, 0),
        (1, _) => (2, 0),
        (2, _) => (0, 0),
        (3, _) | (4, true) | (6, true) => (-1, 0),
        (4, false) => (-2, 0),
        (5, _) => (0, -1),
        _ => (-3, 0),
    }
}

struct Chamber<N> {
    rank: usize,
    columns: [[(i64, i64); 8]; 8],
    point: [N; 8],
}

impl<N: Number> Chamber<N> {
    fn step(&mut self, s: usize) -> bool {
        let column = &self.columns[s];
        let by = self.point[s];
        let mut fresh = self.point;
        for a in 0..self.rank {
            match self.point[a].minus(column[a], by) {
                Some(x) => fresh[a] = x,
                None => return false,
            }
        }
        self.point = fresh;
        true
    }

    fn form(&mut self, word: &[u8], out: &mut [u8]) -> Option<usize> {
        if word.len() > 4096 || out.len() < word.len() {
            return None;
        }
        if word.iter().any(|s| !(1..=self.rank as u8).contains(s)) {
            return None;
        }
        self.point = [N::ONE; 8];
        for s in word {
            if !self.step(*s as usize - 1) {
                return None;
            }
        }
        let mut letters = [0u8; 4096];
        let mut n = 0;
        while let Some(s) = (0..self.rank).find(|s| self.point[*s].negative()) {
            if !self.step(s) {
                return None;
            }
            letters[n] = s as u8 + 1;
            n += 1;
        }
        for i in 0..n {
            out[i] = letters[n - 1 - i];
        }
        Some(n)
    }
}

fn forms<N: Number>(rank: usize, rows: &[[u8; 8]; 8], word: &[u8], times: u32) -> Option<u64> {
    let mut columns = [[(0, 0); 8]; 8];
    for s in 0..rank {
        for a in 0..rank {
            columns[s][a] = coefficient(rows[a][s], a < s);
        }
    }
    let mut chamber = Chamber { rank, columns, point: [N::ONE; 8] };
    let mut out = [0; 4096];
    let mut sum = 0u64;
    for _ in 0..times {
        sum += std::hint::black_box(chamber.form(std::hint::black_box(word), &mut out))? as u64;
    }
    Some(sum)
}

fn path() -> [[u8; 8]; 8] {
    let mut rows = [[2; 8]; 8];
    for s in 0..8 {
        for t in 0..8 {
            rows[s][t] = match s.abs_diff(t) {
                0 => 1,
                1 => 3,
                _ => 2,
            };
        }
    }
    rows
}

fn main() {
    let mut input = String::new();
    std::io::stdin().read_to_string(&mut input).unwrap();
    let parts: Vec<&str> = input.split_whitespace().collect();
    let (name, letters, times) = (parts[0], parts[1].parse::<usize>().unwrap(), parts[2].parse::<u32>().unwrap());
    let mut rows = path();
    let mut rank = 8;
    match name {
        "A8" => {}
        "E8" => {
            for (s, t) in [(0, 1), (1, 2)] {
                rows[s][t] = 2;
                rows[t][s] = 2;
            }
            for (s, t) in [(0, 2), (1, 3)] {
                rows[s][t] = 3;
                rows[t][s] = 3;
            }
        }
        "H4" => {
            rank = 4;
            rows[0][1] = 5;
            rows[1][0] = 5;
        }
        _ => {
            for s in 0..8 {
                for t in 0..8 {
                    rows[s][t] = (s == t) as u8;
                }
            }
        }
    }
    let mut word = Vec::new();
    let mut state = 1u32;
    for k in 0..letters {
        state = state.wrapping_mul(1_103_515_245).wrapping_add(12_345);
        if name == "F8" {
            let i = k % 16;
            word.push(if i < 8 { i as u8 + 1 } else { 16 - i as u8 });
        } else {
            word.push(((state >> 16) % rank as u32) as u8 + 1);
        }
    }
    let sum = if name == "H4" { forms::<Golden>(rank, &rows, &word, times) } else { forms::<Whole>(rank, &rows, &word, times) };
    match sum {
        Some(sum) => println!("{sum}"),
        None => println!("refused"),
    }
}
