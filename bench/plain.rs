// The plainest interpreter: plain PROGRAM FIELD prints what is told, and on standard error how many steps of lanes were done.
// One lane after the other up to its next barrier; expressions are trees; of each cell the last writer and up to two readers are kept.
// It trusts that the text and the field's bytes are right. Build it with `rustc -O plain.rs`.
use std::collections::HashMap;
use std::fmt::Write;

enum Expr {
    Fixed(u32),
    Own(usize),
    Lane,
    Group,
    Lanes,
    Of(u8, Box<Expr>, Box<Expr>),
}

enum Line {
    Put(usize, Expr),
    Read(bool, usize, Expr),
    Write(bool, Expr, Expr),
    Barrier,
    // goes to the next line, or to this one if the number is 0
    Branch(Expr, usize),
    Jump(usize),
    End,
}

struct Program {
    owns: usize,
    shared: usize,
    lines: Vec<Line>,
}

// ---- the text

struct Text<'a> {
    rest: &'a str,
    names: HashMap<&'a str, usize>,
}

impl<'a> Text<'a> {
    fn word(&mut self) -> &'a str {
        let n = self.rest.find(|c: char| !c.is_ascii_alphanumeric()).unwrap_or(self.rest.len());
        let (w, rest) = self.rest.split_at(n);
        self.rest = rest;
        w
    }

    fn skip(&mut self, s: &str) {
        self.rest = self.rest.strip_prefix(s).expect("a text that is right");
    }

    fn expr(&mut self) -> Expr {
        if self.rest.starts_with('(') {
            self.skip("(");
            let e = self.expr();
            let op = self.rest.as_bytes()[1];
            self.rest = &self.rest[3..];
            let f = self.expr();
            self.skip(")");
            return Expr::Of(op, Box::new(e), Box::new(f));
        }
        match self.word() {
            "lane" => Expr::Lane,
            "group" => Expr::Group,
            "lanes" => Expr::Lanes,
            w => w.parse().map(Expr::Fixed).unwrap_or_else(|_| Expr::Own(self.names[w])),
        }
    }
}

fn read(text: &str) -> Program {
    let mut program = Program { owns: 0, shared: 0, lines: vec![] };
    let mut names = HashMap::new();
    let mut open: Vec<(usize, bool)> = vec![]; // line of the if, else or while; whether it is a while
    for line in text.lines() {
        let mut t = Text { rest: line, names: std::mem::take(&mut names) };
        let here = program.lines.len();
        match t.word() {
            "own" => {
                t.names = t.rest[1..].split(' ').enumerate().map(|(k, w)| (w, k)).collect();
                program.owns = t.names.len();
            }
            "cells" => program.shared = t.rest[1..].parse().unwrap(),
            "barrier" => program.lines.push(Line::Barrier),
            place @ ("cell" | "field") => {
                t.skip(" ");
                let e = t.expr();
                t.skip(" = ");
                let f = t.expr();
                program.lines.push(Line::Write(place == "field", e, f));
            }
            w @ ("if" | "while") => {
                t.skip(" ");
                open.push((here, w == "while"));
                program.lines.push(Line::Branch(t.expr(), 0));
            }
            "else" => {
                let (at, _) = open.pop().unwrap();
                program.lines.push(Line::Jump(0));
                aim(&mut program.lines[at], here + 1);
                open.push((here, false));
            }
            "end" => {
                let (at, loops) = open.pop().unwrap();
                if loops {
                    program.lines.push(Line::Jump(at));
                }
                let behind = program.lines.len();
                aim(&mut program.lines[at], behind);
            }
            name => {
                let k = t.names[name];
                t.skip(" = ");
                let place = if t.rest.starts_with("cell ") { Some(false) } else if t.rest.starts_with("field ") { Some(true) } else { None };
                if let Some(field) = place {
                    t.word();
                    t.skip(" ");
                    program.lines.push(Line::Read(field, k, t.expr()));
                } else {
                    program.lines.push(Line::Put(k, t.expr()));
                }
            }
        }
        names = t.names;
    }
    program.lines.push(Line::End);
    program
}

fn aim(line: &mut Line, to: usize) {
    match line {
        Line::Branch(_, target) | Line::Jump(target) => *target = to,
        _ => unreachable!(),
    }
}

// ---- touches

#[derive(Clone, Copy)]
struct Who {
    group: u32,
    lane: u32,
    phase: u64,
}

#[derive(Clone, Copy, Default)]
struct Kept {
    writer: Option<Who>,
    readers: [Option<Who>; 2],
}

fn unparted(a: Who, b: Who) -> bool {
    a.group != b.group || (a.phase == b.phase && a.lane != b.lane)
}

impl Kept {
    // An earlier touch that races with this one and whether it wrote, or it is kept.
    fn touch(&mut self, t: Who, wrote: bool) -> Option<(Who, bool)> {
        if let Some(a) = self.writer.filter(|a| unparted(*a, t)) {
            return Some((a, true));
        }
        if wrote {
            for a in self.readers.iter().flatten() {
                if unparted(*a, t) {
                    return Some((*a, false));
                }
            }
            self.writer = Some(t);
            return None;
        }
        self.readers = match self.readers {
            [Some(a), Some(b)] if a.group != b.group => self.readers,
            [Some(a), Some(_)] if a.group != t.group => [Some(a), Some(t)],
            [Some(a), Some(_)] if a.phase == t.phase => self.readers,
            [Some(a), None] if a.group != t.group || (a.phase == t.phase && a.lane != t.lane) => [Some(a), Some(t)],
            _ => [Some(t), None],
        };
        None
    }
}

// ---- lanes

struct Grid<'a> {
    program: &'a Program,
    lanes: u32,
    field: Vec<u32>,
    shared: Vec<u32>,
    kept_field: Vec<Kept>,
    kept_shared: Vec<Kept>,
    steps: u64,
    granted: u64,
}

struct Lane {
    own: Vec<u32>,
    line: usize,
}

fn value(e: &Expr, own: &[u32], lane: u32, group: u32, lanes: u32) -> u32 {
    match e {
        Expr::Fixed(n) => *n,
        Expr::Own(k) => own[*k],
        Expr::Lane => lane,
        Expr::Group => group,
        Expr::Lanes => lanes,
        Expr::Of(op, e, f) => {
            let (a, b) = (value(e, own, lane, group, lanes), value(f, own, lane, group, lanes));
            match op {
                b'+' => a.wrapping_add(b),
                b'-' => a.wrapping_sub(b),
                b'*' => a.wrapping_mul(b),
                b'/' => a.checked_div(b).unwrap_or(0),
                b'%' => a.checked_rem(b).unwrap_or(0),
                b'<' => (a < b) as u32,
                _ => (a == b) as u32,
            }
        }
    }
}

fn race(field: bool, cell: u32, a: Who, a_wrote: bool, b: Who, b_wrote: bool) -> String {
    let kind = |w| if w { "wrote" } else { "read" };
    let (x, xw, y, yw) = if (a.group, a.lane) < (b.group, b.lane) { (a, a_wrote, b, b_wrote) } else { (b, b_wrote, a, a_wrote) };
    format!(
        "race {} {cell} group {} lane {} phase {} {} group {} lane {} phase {} {}\n",
        if field { "field" } else { "cell" }, x.group, x.lane, x.phase, kind(xw), y.group, y.lane, y.phase, kind(yw)
    )
}

impl Grid<'_> {
    // The cell is touched; or what is told.
    fn touch(&mut self, field: bool, cell: u32, who: Who, wrote: bool) -> Result<&mut u32, String> {
        let (cells, kept) = if field { (&mut self.field, &mut self.kept_field) } else { (&mut self.shared, &mut self.kept_shared) };
        let Some(k) = kept.get_mut(cell as usize) else {
            return Err(format!("wrong group {} lane {}\n", who.group, who.lane));
        };
        match k.touch(who, wrote) {
            Some((a, a_wrote)) => Err(race(field, cell, a, a_wrote, who, wrote)),
            None => Ok(&mut cells[cell as usize]),
        }
    }

    // The lane up to its next barrier or its end.
    fn run(&mut self, x: &mut Lane, lane: u32, group: u32, phase: u64) -> Result<(), String> {
        let program = self.program;
        let who = Who { group, lane, phase };
        let lanes = self.lanes;
        loop {
            let line = &program.lines[x.line];
            match line {
                Line::Barrier | Line::End => return Ok(()),
                Line::Jump(to) => {
                    x.line = *to;
                    continue;
                }
                _ => {}
            }
            if self.steps == self.granted {
                return Err("too long\n".to_string());
            }
            self.steps += 1;
            x.line += 1;
            match line {
                Line::Put(k, e) => x.own[*k] = value(e, &x.own, lane, group, lanes),
                Line::Read(field, k, e) => {
                    let cell = value(e, &x.own, lane, group, lanes);
                    x.own[*k] = *self.touch(*field, cell, who, false)?;
                }
                Line::Write(field, e, f) => {
                    let (cell, n) = (value(e, &x.own, lane, group, lanes), value(f, &x.own, lane, group, lanes));
                    *self.touch(*field, cell, who, true)? = n;
                }
                Line::Branch(e, to) => {
                    if value(e, &x.own, lane, group, lanes) == 0 {
                        x.line = *to;
                    }
                }
                _ => unreachable!(),
            }
        }
    }

    fn group(&mut self, group: u32) -> Result<bool, String> {
        let program = self.program;
        self.shared = vec![0; program.shared];
        self.kept_shared = vec![Kept::default(); program.shared];
        let mut lanes: Vec<Lane> = (0..self.lanes).map(|_| Lane { own: vec![0; program.owns], line: 0 }).collect();
        for phase in 0.. {
            for (k, x) in lanes.iter_mut().enumerate() {
                self.run(x, k as u32, group, phase)?;
            }
            let waiting = lanes.iter().filter(|x| matches!(program.lines[x.line], Line::Barrier)).count();
            if waiting < lanes.len() {
                return Ok(waiting == 0);
            }
            for x in &mut lanes {
                x.line += 1;
            }
        }
        unreachable!()
    }
}

fn number(b: &[u8]) -> u64 {
    b.iter().rev().fold(0, |n, x| n * 256 + *x as u64)
}

fn told(grid: &mut Grid, groups: u32) -> Result<String, String> {
    let mut stuck = None;
    for g in 0..groups {
        if !grid.group(g)? && stuck.is_none() {
            stuck = Some(g);
        }
    }
    if let Some(g) = stuck {
        return Err(format!("stuck group {g}\n"));
    }
    let mut out = "field\n".to_string();
    for row in grid.field.chunks(8) {
        let cells: Vec<String> = row.iter().map(|c| format!("{c:08x}")).collect();
        writeln!(out, "{}", cells.join(" ")).unwrap();
    }
    Ok(out)
}

fn main() {
    let words: Vec<String> = std::env::args().collect();
    let text = std::fs::read_to_string(&words[1]).unwrap();
    let bytes = std::fs::read(&words[2]).unwrap();
    let program = read(&text);
    let field: Vec<u32> = bytes[16..].chunks(4).map(|b| number(b) as u32).collect();
    let mut grid = Grid {
        program: &program,
        lanes: number(&bytes[2..4]) as u32,
        kept_field: vec![Kept::default(); field.len()],
        field,
        shared: vec![],
        kept_shared: vec![],
        steps: 0,
        granted: number(&bytes[4..12]),
    };
    let (out, status) = match told(&mut grid, number(&bytes[0..2]) as u32) {
        Ok(out) => (out, 0),
        Err(out) => (out, 1),
    };
    print!("{out}");
    eprintln!("steps {}", grid.steps);
    std::process::exit(status);
}
