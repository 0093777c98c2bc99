// A plain Rust search for unifiers, in the order and with the trials of mmpa: what `bench/unify/run.py` compares it with.
// Nothing is proved here. Its words are the kind of search, and how often it runs.
#[derive(Clone, Copy, PartialEq, Eq)]
enum Sym {
    Plain(u32),
    Work(u32),
}

const OPENING: Sym = Sym::Plain(1);
const CLOSING: Sym = Sym::Plain(2);
const TRIALS: u32 = 100_000;

type Values = Vec<(u32, Vec<Sym>)>;

fn numbers(a: &[Sym], b: &[Sym]) -> Vec<u32> {
    let mut all: Vec<u32> = a
        .iter()
        .chain(b)
        .filter_map(|s| match s {
            Sym::Work(n) => Some(*n),
            Sym::Plain(_) => None,
        })
        .collect();
    all.sort_unstable();
    all.dedup();
    all
}

/// How many brackets are open after a value; none where one closes too early.
fn depth(value: &[Sym]) -> Option<usize> {
    let mut open = 0usize;
    for s in value {
        if *s == OPENING {
            open += 1;
        } else if *s == CLOSING {
            open = open.checked_sub(1)?;
        }
    }
    Some(open)
}

#[derive(Clone, Copy)]
struct Frame {
    whole: bool,
    depth: usize,
    at: usize,
    number: u32,
    from: usize,
    to: usize,
    total: usize,
    early: bool,
}

/// The search where the target has no work variable.
fn parts(pattern: &[Sym], target: &[Sym], brackets: bool) -> Vec<Values> {
    let keys = numbers(pattern, target);
    let mut found = Vec::new();
    let mut path: Vec<(u32, usize, usize)> = Vec::new();
    let mut frames: Vec<Frame> = Vec::new();
    let mut start = true;
    let mut trials = 0;
    let plain = pattern
        .iter()
        .filter(|s| matches!(s, Sym::Plain(_)))
        .count();
    loop {
        let (mut at, mut to, total, early, mut from);
        if start {
            start = false;
            (at, to, total, early, from) = (0, 0, plain, false, None);
        } else {
            let Some(frame) = frames.pop() else { break };
            if trials == TRIALS {
                break;
            }
            path.truncate(frame.depth);
            (to, total, early) = (frame.to + 1, frame.total, frame.early);
            if frame.whole {
                path.push((frame.number, frame.from, to));
                (at, from) = (frame.at + 1, None);
            } else {
                (at, from) = (frame.at, Some(frame.from));
            }
        }
        trials += 1;
        let mut stuck = false;
        while from.is_none() && at < pattern.len() {
            match pattern[at] {
                Sym::Plain(_) => {
                    if target.get(to) != Some(&pattern[at]) {
                        stuck = true;
                        break;
                    }
                    to += 1;
                }
                Sym::Work(n) => match path.iter().find(|b| b.0 == n) {
                    None => {
                        from = Some(to);
                        break;
                    }
                    Some(b) => {
                        let part = &target[b.1..b.2];
                        if !target[to..].starts_with(part) {
                            stuck = true;
                            break;
                        }
                        to += part.len();
                    }
                },
            }
            at += 1;
        }
        if stuck {
            continue;
        }
        let Some(from) = from else {
            if to == target.len() {
                let part = |n: u32| {
                    let b = path.iter().find(|b| b.0 == n).unwrap();
                    &target[b.1..b.2]
                };
                if !brackets || keys.iter().all(|n| depth(part(*n)) == Some(0)) {
                    found.push(keys.iter().map(|n| (*n, part(*n).to_vec())).collect());
                }
            }
            continue;
        };
        if to == target.len() || total > target.len() || early {
            continue;
        }
        let Sym::Work(number) = pattern[at] else { unreachable!() };
        let more = pattern.iter().filter(|s| **s == pattern[at]).count();
        let frame = Frame {
            whole: false,
            depth: path.len(),
            at,
            number,
            from,
            to,
            total: total + more,
            early: brackets && depth(&target[from..to + 1]).is_none(),
        };
        frames.push(frame);
        frames.push(Frame {
            whole: true,
            ..frame
        });
    }
    found
}

struct Node {
    left: Vec<Sym>,
    right: Vec<Sym>,
    values: Values,
}

fn replaced(s: &[Sym], x: Sym, w: &[Sym]) -> Vec<Sym> {
    let mut out = Vec::with_capacity(s.len() + 8);
    for c in s {
        if *c == x {
            out.extend_from_slice(w);
        } else {
            out.push(*c);
        }
    }
    out
}

fn falls_short(short: &[Sym], long: &[Sym]) -> bool {
    let count = |c: &Sym, s: &[Sym]| s.iter().filter(|d| *d == c).count();
    let plain = |s: &[Sym]| s.iter().filter(|d| matches!(d, Sym::Plain(_))).count();
    short
        .iter()
        .all(|c| matches!(c, Sym::Plain(_)) || count(c, short) <= count(c, long))
        && plain(short) < plain(long)
}

/// The search between any two strings, brackets off.
fn nodes(a: &[Sym], b: &[Sym]) -> Vec<Values> {
    let values = numbers(a, b)
        .into_iter()
        .map(|n| (n, vec![Sym::Work(n)]))
        .collect();
    let mut stack = vec![Node {
        left: a.to_vec(),
        right: b.to_vec(),
        values,
    }];
    let mut found = Vec::new();
    let mut trials = 0;
    while let Some(node) = stack.pop() {
        if trials == TRIALS {
            break;
        }
        trials += 1;
        let k = node
            .left
            .iter()
            .zip(&node.right)
            .take_while(|(x, y)| x == y)
            .count();
        let (l, r) = (&node.left[k..], &node.right[k..]);
        if l.is_empty() && r.is_empty() {
            found.push(node.values);
            continue;
        }
        if l.is_empty() || r.is_empty() || falls_short(l, r) || falls_short(r, l) {
            continue;
        }
        let mut child = |x: Sym, w: &[Sym]| {
            stack.push(Node {
                left: replaced(l, x, w),
                right: replaced(r, x, w),
                values: node
                    .values
                    .iter()
                    .map(|(n, v)| (*n, replaced(v, x, w)))
                    .collect(),
            })
        };
        let (x, y) = (l[0], r[0]);
        match (x, y) {
            (Sym::Work(_), Sym::Work(_)) => {
                child(y, &[x, y]);
                child(x, &[y, x]);
                child(x, &[y]);
            }
            (Sym::Work(_), _) => {
                child(x, &[y, x]);
                child(x, &[y]);
            }
            (_, Sym::Work(_)) => {
                child(y, &[x, y]);
                child(y, &[x]);
            }
            _ => {}
        }
    }
    found
}

fn main() {
    let words: Vec<String> = std::env::args().collect();
    let rounds: u32 = words[2].parse().unwrap();
    let pattern: Vec<Sym> = std::iter::once(Sym::Plain(0))
        .chain((1..=5).map(Sym::Work))
        .collect();
    let target: Vec<Sym> = std::iter::once(Sym::Plain(0))
        .chain((0..74).map(|k| match k % 7 {
            0 | 1 => OPENING,
            3 | 6 => CLOSING,
            _ => Sym::Plain(3 + k % 5),
        }))
        .collect();
    let mut left = vec![Sym::Plain(0), Sym::Work(1), Sym::Plain(4), Sym::Work(2)];
    left.extend((0..36).map(|k| Sym::Plain(3 + (k + 3) % 4)));
    let mut right = vec![
        Sym::Plain(0),
        Sym::Work(3),
        Sym::Plain(5),
        Sym::Work(4),
        Sym::Work(5),
    ];
    right.extend((0..35).map(|k| Sym::Plain(3 + k % 4)));
    let mut found = 0;
    for _ in 0..rounds {
        found = match words[1].as_str() {
            "one side, brackets off" => parts(&pattern, &target, false),
            "one side, brackets on" => parts(&pattern, &target, true),
            _ => nodes(&left, &right),
        }
        .len();
    }
    println!("{found} found");
}
