//! The search of docs/search.md, written by hand in plain Rust: every turn looks at every clause. It shares nothing with the library.

/// Clauses in one list of literals, each from one end to the next.
pub struct Clauses {
    pub variables: usize,
    literals: Vec<i32>,
    ends: Vec<usize>,
}

impl Clauses {
    /// A text in the form that the benchmark's own families have: a problem line, then literals and 0 for each clause.
    pub fn read(text: &str) -> Clauses {
        let mut clauses = Clauses { variables: 0, literals: Vec::new(), ends: vec![0] };
        for line in text.lines() {
            if line.starts_with('c') {
                continue;
            }
            if let Some(counts) = line.strip_prefix("p cnf ") {
                clauses.variables = counts.split_whitespace().next().unwrap().parse().unwrap();
                continue;
            }
            for word in line.split_whitespace() {
                match word.parse().unwrap() {
                    0 => clauses.ends.push(clauses.literals.len()),
                    t => clauses.literals.push(t),
                }
            }
        }
        clauses
    }

    pub fn count(&self) -> usize {
        self.ends.len() - 1
    }

    fn clause(&self, k: usize) -> &[i32] {
        &self.literals[self.ends[k]..self.ends[k + 1]]
    }
}

/// A clause of the text or of an earlier step, each numbered from 1.
#[derive(Clone, Copy)]
pub enum Reference {
    Rule(usize),
    Step(usize),
}

/// A resolution step: the left clause has the variable on, the right one off.
#[derive(Clone, Copy)]
pub struct Step {
    left: Reference,
    right: Reference,
    variable: i32,
}

/// A set of literals, a bit for each.
#[derive(Clone, Copy)]
struct LiteralSet {
    on: [u64; 4],
    off: [u64; 4],
}

impl LiteralSet {
    fn of(clause: &[i32]) -> LiteralSet {
        let mut set = LiteralSet { on: [0; 4], off: [0; 4] };
        for &t in clause {
            let v = t.unsigned_abs() as usize;
            let bits = if t > 0 { &mut set.on } else { &mut set.off };
            bits[v / 64] |= 1 << (v % 64);
        }
        set
    }

    fn is_empty(&self) -> bool {
        self.on == [0; 4] && self.off == [0; 4]
    }

    fn contains(&self, t: i32) -> bool {
        let v = t.unsigned_abs() as usize;
        let bits = if t > 0 { &self.on } else { &self.off };
        bits[v / 64] >> (v % 64) & 1 == 1
    }

    fn remove(&mut self, t: i32) {
        let v = t.unsigned_abs() as usize;
        let bits = if t > 0 { &mut self.on } else { &mut self.off };
        bits[v / 64] &= !(1 << (v % 64));
    }

    /// This set without t, joined with the other without the opposite of t.
    fn resolvent(mut self, mut other: LiteralSet, t: i32) -> LiteralSet {
        self.remove(t);
        other.remove(-t);
        for i in 0..4 {
            self.on[i] |= other.on[i];
            self.off[i] |= other.off[i];
        }
        self
    }
}

/// A clause that a branch failed with, and its reference.
struct Failure {
    by: Reference,
    clause: LiteralSet,
}

enum Test {
    AllFalse,
    Unit(i32),
    SomeTrue,
    Open,
}

enum Scan {
    Conflict(usize),
    Forced(usize, i32),
    Satisfied,
    Undecided,
}

pub struct Search<'a> {
    clauses: &'a Clauses,
    settings: Vec<u8>,
    pub made: usize,
    kept: Option<Vec<Step>>,
}

impl<'a> Search<'a> {
    pub fn new(clauses: &'a Clauses) -> Search<'a> {
        Search { clauses, settings: vec![2; clauses.variables], made: 0, kept: None }
    }

    /// Whether some valuation satisfies every clause.
    pub fn fits(&mut self) -> bool {
        self.branch().is_none()
    }

    /// The steps and the closing reference, where no valuation satisfies the clauses.
    pub fn argument(mut self) -> Option<(Vec<Step>, Reference)> {
        self.kept = Some(Vec::new());
        let failure = self.branch()?;
        Some((self.kept?, failure.by))
    }

    /// The failure of the branch below the present setting, None where it fits.
    fn branch(&mut self) -> Option<Failure> {
        match self.scan() {
            Scan::Conflict(k) => Some(self.rule(k)),
            Scan::Forced(k, t) => {
                let failed = self.below(t)?;
                if !failed.clause.contains(-t) {
                    return Some(failed);
                }
                Some(self.step(self.rule(k), failed, t))
            }
            Scan::Satisfied => None,
            Scan::Undecided => {
                let v = self.settings.iter().position(|&s| s == 2).unwrap() as i32 + 1;
                let on = self.below(v)?;
                if !on.clause.contains(-v) {
                    return Some(on);
                }
                let off = self.below(-v)?;
                if !off.clause.contains(v) {
                    return Some(off);
                }
                Some(self.step(off, on, v))
            }
        }
    }

    /// The branch with a literal set, which is unset again if it fails.
    fn below(&mut self, t: i32) -> Option<Failure> {
        let at = t.unsigned_abs() as usize - 1;
        self.settings[at] = (t > 0) as u8;
        let failed = self.branch()?;
        self.settings[at] = 2;
        Some(failed)
    }

    fn rule(&self, k: usize) -> Failure {
        Failure { by: Reference::Rule(k + 1), clause: LiteralSet::of(self.clauses.clause(k)) }
    }

    /// The step from a clause that holds t and one that holds its opposite.
    fn step(&mut self, with: Failure, without: Failure, t: i32) -> Failure {
        self.made += 1;
        if let Some(kept) = &mut self.kept {
            let (left, right) = if t > 0 { (with.by, without.by) } else { (without.by, with.by) };
            kept.push(Step { left, right, variable: t.abs() });
        }
        Failure { by: Reference::Step(self.made), clause: with.clause.resolvent(without.clause, t) }
    }

    fn test(&self, clause: &[i32]) -> Test {
        let mut so_far = Test::AllFalse;
        for &t in clause {
            let set = self.settings[t.unsigned_abs() as usize - 1];
            if set == 2 {
                so_far = match so_far {
                    Test::AllFalse => Test::Unit(t),
                    _ => Test::Open,
                };
            } else if (set == 1) == (t > 0) {
                return Test::SomeTrue;
            }
        }
        so_far
    }

    fn scan(&self) -> Scan {
        let mut so_far = Scan::Satisfied;
        for k in 0..self.clauses.count() {
            match self.test(self.clauses.clause(k)) {
                Test::AllFalse => return Scan::Conflict(k),
                Test::Unit(t) if !matches!(so_far, Scan::Forced(..)) => so_far = Scan::Forced(k, t),
                Test::Open if matches!(so_far, Scan::Satisfied) => so_far = Scan::Undecided,
                _ => {}
            }
        }
        so_far
    }
}

/// Whether steps are an argument that the clauses cannot be satisfied.
pub fn check(clauses: &Clauses, steps: &[Step], closing: Reference) -> bool {
    let mut derived: Vec<LiteralSet> = Vec::with_capacity(steps.len());
    for step in steps {
        let (Some(left), Some(right)) = (named(clauses, &derived, step.left), named(clauses, &derived, step.right)) else {
            return false;
        };
        if !left.contains(step.variable) || !right.contains(-step.variable) {
            return false;
        }
        derived.push(left.resolvent(right, step.variable));
    }
    named(clauses, &derived, closing).is_some_and(|clause| clause.is_empty())
}

fn named(clauses: &Clauses, derived: &[LiteralSet], reference: Reference) -> Option<LiteralSet> {
    match reference {
        Reference::Rule(k) if 1 <= k && k <= clauses.count() => Some(LiteralSet::of(clauses.clause(k - 1))),
        Reference::Rule(_) => None,
        Reference::Step(k) => derived.get(k.checked_sub(1)?).copied(),
    }
}
