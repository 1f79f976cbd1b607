// A plain interpreter of the machine's instructions over buckets, with no proof: what the proved one is measured against.
// rustc -O tools/plain.rs -o target/plain && target/plain
use std::time::Instant;

#[derive(Clone, Copy, PartialEq)]
enum Space {
    Texts,
    Made,
}

#[derive(Clone, Copy)]
struct Span {
    space: Space,
    start: u16,
    len: u16,
}

#[derive(Clone, Copy)]
enum Value {
    Int(i32),
    Str(Span),
    Ident(u16),
    Loc(u16),
}

#[derive(Clone, Copy)]
#[allow(dead_code)]
enum Kind {
    Integer,
    Text,
    Table,
}

#[derive(Clone, Copy)]
#[allow(dead_code)]
enum Instruction {
    Const(u8, Value),
    Mov(u8, u8),
    Add(u8, u8, u8),
    Sub(u8, u8, u8),
    Mul(u8, u8, u8),
    Div(u8, u8, u8),
    Eq(u8, u8, u8),
    Lt(u8, u8, u8),
    Leq(u8, u8, u8),
    Is(Kind, u8, u8),
    Jmp(i32),
    IfZero(u8, i32),
    RdGlob(u8, u16),
    WrGlob(u16, u8),
    MkTab(u8),
    RdTab(u8, u8, u8),
    WrTab(u8, u8, u8),
    HasTab(u8, u8, u8),
    Call(u8, u8, u8),
    Ret(u8),
    Halt(u8),
}

use Instruction::*;

const STUCK: u8 = 14;
const REGISTERS: usize = 128;
const FRAMES: usize = 32;

#[derive(Clone, Copy)]
struct Entry {
    table: u16,
    key: Value,
    value: Value,
    next: u32,
}

const NONE: u32 = u32::MAX;

struct Buckets {
    entries: Vec<Entry>,
    first: Vec<u32>,
    last: Vec<u32>,
    tables: u16,
}

fn byte(bytes: &[u8], i: usize) -> u8 {
    bytes.get(i).copied().unwrap_or(0)
}

struct Strings<'a> {
    texts: &'a [u8],
    made: Vec<u8>,
    count: u16,
}

impl Strings<'_> {
    fn of(&self, s: Span) -> &[u8] {
        let all: &[u8] = match s.space {
            Space::Texts => self.texts,
            Space::Made => &self.made,
        };
        &all[s.start as usize..s.start as usize + s.len as usize]
    }

    fn same(&self, a: Value, b: Value) -> bool {
        match (a, b) {
            (Value::Int(x), Value::Int(y)) => x == y,
            (Value::Str(x), Value::Str(y)) => self.of(x) == self.of(y),
            (Value::Ident(x), Value::Ident(y)) => x == y,
            (Value::Loc(x), Value::Loc(y)) => x == y,
            _ => false,
        }
    }

    fn make(&mut self, bytes: &[u8]) -> Result<Value, u8> {
        if self.count >= 2048 || self.made.len() + bytes.len() > 32768 {
            return Err(10);
        }
        let start = self.made.len() as u16;
        self.made.extend_from_slice(bytes);
        self.count += 1;
        Ok(Value::Str(Span { space: Space::Made, start, len: bytes.len() as u16 }))
    }
}

impl Buckets {
    fn new() -> Buckets {
        Buckets { entries: Vec::with_capacity(16384), first: vec![NONE; 16384], last: vec![NONE; 16384], tables: 0 }
    }

    fn bucket(&self, table: u16, key: Value, strings: &Strings) -> usize {
        let n = match key {
            Value::Int(n) => n.unsigned_abs() as usize,
            Value::Str(s) => {
                let b = strings.of(s);
                s.len as usize
                    + byte(b, 0) as usize * 3
                    + byte(b, b.len() / 2) as usize * 5
                    + byte(b, b.len().saturating_sub(1)) as usize * 7
            }
            Value::Ident(i) => i as usize,
            Value::Loc(l) => l as usize,
        };
        (table as usize * 31 + n) % self.first.len()
    }

    fn find(&self, table: u16, key: Value, strings: &Strings) -> Option<usize> {
        let mut i = self.first[self.bucket(table, key, strings)];
        while i != NONE {
            let e = &self.entries[i as usize];
            if e.table == table && strings.same(e.key, key) {
                return Some(i as usize);
            }
            i = e.next;
        }
        None
    }

    fn write(&mut self, table: u16, key: Value, value: Value, strings: &Strings) -> Result<(), u8> {
        if let Some(i) = self.find(table, key, strings) {
            self.entries[i].value = value;
            return Ok(());
        }
        if self.entries.len() >= 16384 {
            return Err(9);
        }
        let bucket = self.bucket(table, key, strings);
        let end = self.entries.len() as u32;
        self.entries.push(Entry { table, key, value, next: NONE });
        if self.first[bucket] == NONE {
            self.first[bucket] = end;
        } else {
            self.entries[self.last[bucket] as usize].next = end;
        }
        self.last[bucket] = end;
        Ok(())
    }
}

#[derive(Clone, Copy)]
struct Frame {
    function: u16,
    pc: u32,
}

struct Machine<'a> {
    code: Vec<Vec<Instruction>>,
    registers: Vec<Option<Value>>,
    callers: Vec<Frame>,
    running: Frame,
    globals: Vec<(u16, Value)>,
    store: Buckets,
    strings: Strings<'a>,
    out: Vec<u8>,
}

impl Machine<'_> {
    fn get(&self, base: usize, a: u8) -> Result<Value, u8> {
        if a as usize >= REGISTERS {
            return Err(STUCK);
        }
        self.registers[base + a as usize].ok_or(STUCK)
    }

    fn set(&mut self, base: usize, a: u8, v: Value) -> Result<(), u8> {
        if a as usize >= REGISTERS {
            return Err(STUCK);
        }
        self.registers[base + a as usize] = Some(v);
        Ok(())
    }

    fn int(&self, base: usize, a: u8) -> Result<i32, u8> {
        match self.get(base, a)? {
            Value::Int(n) => Ok(n),
            _ => Err(STUCK),
        }
    }

    fn table(&self, base: usize, a: u8) -> Result<u16, u8> {
        match self.get(base, a)? {
            Value::Loc(l) if l < self.store.tables => Ok(l),
            _ => Err(STUCK),
        }
    }

    fn call(&mut self, base: usize, a: u8, first: u8, last: u8) -> Result<(), u8> {
        let Value::Ident(f) = self.get(base, a)? else { return Err(STUCK) };
        for i in first..=last {
            self.get(base, i)?;
        }
        match f {
            65280 => {
                let text = match self.get(base, first)? {
                    Value::Int(n) => n.to_string().into_bytes(),
                    Value::Str(s) => self.strings.of(s).to_vec(),
                    _ => return Err(STUCK),
                };
                if self.out.len() + text.len() > 16384 {
                    return Err(12);
                }
                self.out.extend(text);
                self.set(base, first, Value::Int(0))?;
            }
            65281 => {
                let n = self.int(base, first)?;
                let v = self.strings.make(n.to_string().as_bytes())?;
                self.set(base, first, v)?;
            }
            65282 => {
                let (Value::Str(s), Value::Str(t)) = (self.get(base, first)?, self.get(base, last)?) else { return Err(STUCK) };
                let both = [self.strings.of(s), self.strings.of(t)].concat();
                let v = self.strings.make(&both)?;
                self.set(base, first, v)?;
            }
            65283 => {
                let Value::Str(s) = self.get(base, first)? else { return Err(STUCK) };
                self.set(base, first, Value::Int(s.len as i32))?;
            }
            _ => {
                if self.callers.len() + 1 >= FRAMES {
                    return Err(11);
                }
                let n = if last < first { 0 } else { (last - first) as usize + 1 };
                let to = base + REGISTERS;
                self.registers.copy_within(base + first as usize..base + first as usize + n, to);
                self.registers[to + n..to + REGISTERS].fill(None);
                self.callers.push(self.running);
                self.running = Frame { function: f, pc: 0 };
                return Ok(());
            }
        }
        self.running.pc += 1;
        Ok(())
    }

    fn leave(&mut self, v: Value) -> Result<(), u8> {
        let Some(caller) = self.callers.pop() else { return Err(0) };
        let Some(Call(_, first, _)) = self.code.get(caller.function as usize).and_then(|c| c.get(caller.pc as usize)).copied() else { return Err(STUCK) };
        self.set(self.callers.len() * REGISTERS, first, v)?;
        self.running = Frame { function: caller.function, pc: caller.pc + 1 };
        Ok(())
    }

    fn jump(&mut self, n: i32) -> Result<(), u8> {
        let to = self.running.pc as i64 + 1 + n as i64;
        if to < 0 {
            return Err(STUCK);
        }
        self.running.pc = to as u32;
        Ok(())
    }

    fn step(&mut self) -> Result<(), u8> {
        let base = self.callers.len() * REGISTERS;
        let Some(i) = self.code.get(self.running.function as usize).and_then(|c| c.get(self.running.pc as usize)).copied() else { return Err(STUCK) };
        match i {
            Const(a, v) => self.set(base, a, v)?,
            Mov(a, b) => {
                let v = self.get(base, b)?;
                self.set(base, a, v)?
            }
            Add(a, b, c) => {
                let v = self.int(base, b)?.wrapping_add(self.int(base, c)?);
                self.set(base, a, Value::Int(v))?
            }
            Sub(a, b, c) => {
                let v = self.int(base, b)?.wrapping_sub(self.int(base, c)?);
                self.set(base, a, Value::Int(v))?
            }
            Mul(a, b, c) => {
                let v = self.int(base, b)?.wrapping_mul(self.int(base, c)?);
                self.set(base, a, Value::Int(v))?
            }
            Div(a, b, c) => {
                let (x, y) = (self.int(base, b)?, self.int(base, c)?);
                if y == 0 {
                    return Err(8);
                }
                self.set(base, a, Value::Int(x.wrapping_div(y)))?
            }
            Eq(a, b, c) => {
                let same = self.strings.same(self.get(base, b)?, self.get(base, c)?);
                self.set(base, a, Value::Int(same as i32))?
            }
            Lt(a, b, c) => {
                let v = self.int(base, b)? < self.int(base, c)?;
                self.set(base, a, Value::Int(v as i32))?
            }
            Leq(a, b, c) => {
                let v = self.int(base, b)? <= self.int(base, c)?;
                self.set(base, a, Value::Int(v as i32))?
            }
            Is(kind, a, b) => {
                let v = match (kind, self.get(base, b)?) {
                    (Kind::Integer, Value::Int(_)) | (Kind::Text, Value::Str(_)) | (Kind::Table, Value::Loc(_)) => 1,
                    _ => 0,
                };
                self.set(base, a, Value::Int(v))?
            }
            Jmp(n) => return self.jump(n),
            IfZero(a, n) => {
                if let Value::Int(0) = self.get(base, a)? {
                    return self.jump(n);
                }
            }
            RdGlob(a, g) => {
                let v = self.globals.iter().find(|x| x.0 == g).ok_or(STUCK)?.1;
                self.set(base, a, v)?
            }
            WrGlob(g, a) => {
                let v = self.get(base, a)?;
                match self.globals.iter().position(|x| x.0 == g) {
                    Some(i) => self.globals[i].1 = v,
                    None if self.globals.len() < 32 => self.globals.push((g, v)),
                    None => return Err(STUCK),
                }
            }
            MkTab(a) => {
                if self.store.tables >= 4096 {
                    return Err(9);
                }
                self.set(base, a, Value::Loc(self.store.tables))?;
                self.store.tables += 1;
            }
            RdTab(a, b, c) => {
                let (t, k) = (self.table(base, b)?, self.get(base, c)?);
                let i = self.store.find(t, k, &self.strings).ok_or(STUCK)?;
                self.set(base, a, self.store.entries[i].value)?
            }
            WrTab(a, b, c) => {
                let (t, k, v) = (self.table(base, a)?, self.get(base, b)?, self.get(base, c)?);
                self.store.write(t, k, v, &self.strings)?
            }
            HasTab(a, b, c) => {
                let (t, k) = (self.table(base, b)?, self.get(base, c)?);
                let v = self.store.find(t, k, &self.strings).is_some();
                self.set(base, a, Value::Int(v as i32))?
            }
            Call(a, first, last) => return self.call(base, a, first, last),
            Ret(a) => {
                let v = self.get(base, a)?;
                return self.leave(v);
            }
            Halt(a) => {
                return Err(match self.get(base, a)? {
                    Value::Int(n @ 1..=8) => n as u8,
                    _ => STUCK,
                })
            }
        }
        self.running.pc += 1;
        Ok(())
    }
}

fn field() -> Value {
    Value::Str(Span { space: Space::Texts, start: 0, len: 6 })
}

fn small(n: i32) -> Value {
    Value::Int(n)
}

// The three loops; the last instruction of function 0 ends the run with the count in register 0.
fn loops(rounds: i32) -> [(&'static str, Vec<Vec<Instruction>>); 3] {
    let registers = vec![vec![
        Const(0, small(0)), Const(1, small(1)), Const(2, small(rounds)),
        Lt(3, 0, 2), IfZero(3, 2), Add(0, 0, 1), Jmp(-4),
        Ret(0),
    ]];
    let table = vec![vec![
        Const(0, small(0)), Const(1, small(1)), Const(2, small(rounds)),
        MkTab(4), Const(5, field()), WrTab(4, 5, 0),
        RdTab(0, 4, 5), Lt(3, 0, 2), IfZero(3, 3), Add(0, 0, 1), WrTab(4, 5, 0), Jmp(-6),
        Ret(0),
    ]];
    let calls = vec![
        vec![
            Const(0, small(0)), Const(1, Value::Ident(1)), Const(2, small(rounds)),
            Lt(3, 0, 2), IfZero(3, 4), Mov(6, 0), Call(1, 6, 6), Mov(0, 6), Jmp(-6),
            Ret(0),
        ],
        vec![Const(1, small(1)), Add(0, 0, 1), Ret(0)],
    ];
    [("registers", registers), ("table", table), ("calls", calls)]
}

fn main() {
    println!("loop\tsteps\ta second");
    let rounds = 5_000_000;
    for (name, code) in loops(rounds) {
        let mut m = Machine {
            code,
            registers: vec![None; REGISTERS * FRAMES],
            callers: Vec::with_capacity(FRAMES),
            running: Frame { function: 0, pc: 0 },
            globals: Vec::with_capacity(32),
            store: Buckets::new(),
            strings: Strings { texts: b"@count", made: Vec::with_capacity(32768), count: 0 },
            out: Vec::with_capacity(16384),
        };
        let start = Instant::now();
        let mut steps: u64 = 0;
        let ending = loop {
            steps += 1;
            if let Err(ending) = m.step() {
                break ending;
            }
        };
        let micros = start.elapsed().as_micros().max(1) as u64;
        assert!(ending == 0 && matches!(m.registers[0], Some(Value::Int(n)) if n == rounds));
        println!("{name}\t{steps}\t{}", steps * 1_000_000 / micros);
    }
}
