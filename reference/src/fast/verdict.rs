//! The verdict: one pass over the program's bytes, in which each statement is read and judged. What is
//! refused by a flow rule is kept while reading goes on, since a refusal in reading comes first. With
//! `RUN` the pass writes the run's code.

use std::mem::MaybeUninit;

use super::bytes::{bit, take_lowest, u32_at, u64_at};
use super::code::{op, Code, SEVERAL};
use super::expression::{self, Fault, Joined, Variables};
use super::order::{LabelRows, EVERYONE};
use super::policy::Table;
use super::space::*;
use super::transaction::{Around, Flow, Labels};

const MOST_DEPTH: usize = 32;

/// What a call on a program gives.
#[derive(Clone, Copy, Default)]
pub struct Answer {
    pub number: u32,
    pub place: usize,
    /// Of the transaction that was asked for.
    pub body: (usize, usize),
}

impl Answer {
    fn refused(number: u32, place: usize) -> Answer {
        Answer { number, place, body: (0, 0) }
    }
}

pub fn answer(policy: &[u8], program: &[u8], wanted: u32) -> Answer {
    let mut room = MaybeUninit::uninit();
    let table = Table::start(&mut room);
    let number = table.read(policy);
    if number != 0 {
        return Answer::refused(number, 0);
    }
    if program.len() > MOST_BYTES {
        return Answer::refused(10, MOST_BYTES);
    }
    match program.len() <= SMALL {
        true => in_small_space(table, program, wanted),
        false => in_large_space(table, program, wanted),
    }
}

#[inline(never)]
fn in_small_space(table: &Table, program: &[u8], wanted: u32) -> Answer {
    in_space::<SMALL_BYTES, SMALL_FLOWS>(table, program, wanted)
}

#[inline(never)]
fn in_large_space(table: &Table, program: &[u8], wanted: u32) -> Answer {
    in_space::<LARGE_BYTES, LARGE_FLOWS>(table, program, wanted)
}

#[inline(always)]
fn in_space<const BYTES: usize, const FLOWS: usize>(
    table: &Table,
    program: &[u8],
    wanted: u32,
) -> Answer {
    let mut space = Space::<BYTES, FLOWS>::new();
    let mut code = Code::new(std::ptr::null_mut(), std::ptr::null_mut());
    // SAFETY: the space is made for programs of this length, and no code is written.
    unsafe {
        let (start, flows) = space.fill(program);
        let mut room = MaybeUninit::uninit();
        let length = program.len();
        Pass::<false>::start(&mut room, table, start, length, flows, wanted).run(&mut code)
    }
}

/// What holds other statements.
#[derive(Clone, Copy, PartialEq, Eq)]
enum Kind {
    Block,
    If,
    While,
    Query,
    Transaction,
    /// A transaction in a transaction, which is refused.
    Nested,
}

/// What a statement that holds others goes back to.
#[derive(Clone, Copy)]
struct Frame {
    context: Context,
    /// How many statements are still to come around it, itself among them.
    left: u16,
    kind: Kind,
    /// Nodes of the code that wait to be told where to go, or the place of a transaction's body.
    first: u16,
    second: u16,
}

/// What holds where a statement stands: the joins of both sides, with the queries' part, which is made
/// of the same roles on both; and the listed queries that are known.
#[derive(Clone, Copy)]
struct Context {
    readers: u64,
    trusters: u64,
    asked: u64,
    known: u32,
}

const EMPTY: Context = Context { readers: 0, trusters: 0, asked: 0, known: 0 };

pub struct Pass<'a, const RUN: bool> {
    table: &'a Table,
    start: *const u8,
    length: usize,
    variables: Variables,
    rows: LabelRows,
    around: Around,
    frames: [MaybeUninit<Frame>; MOST_DEPTH + 1],
    /// The first flow refusal so far.
    refused: u32,
    refused_at: usize,
    /// The transaction that is asked for, the number of those so far, and the body found.
    wanted: u32,
    transactions: u32,
    body: (usize, usize),
}

impl<'a, const RUN: bool> Pass<'a, RUN> {
    /// A pass in this room, before its first byte. Only what is known is set: a struct made whole would be
    /// cleared or copied.
    #[inline(always)]
    pub fn start<'b>(
        room: &'b mut MaybeUninit<Self>,
        table: &'a Table,
        start: *const u8,
        length: usize,
        flows: *mut Flow,
        wanted: u32,
    ) -> &'b mut Self {
        let pass = room.as_mut_ptr();
        // SAFETY: the room is one pass's; all fields but these may be unset.
        unsafe {
            (&raw mut (*pass).table).write(table);
            (&raw mut (*pass).start).write(start);
            (&raw mut (*pass).length).write(length);
            (&raw mut (*pass).variables.count).write(0);
            LabelRows::start(&raw mut (*pass).rows);
            Around::outside(&raw mut (*pass).around, flows);
            (&raw mut (*pass).refused).write(0);
            (&raw mut (*pass).refused_at).write(0);
            (&raw mut (*pass).wanted).write(wanted);
            (&raw mut (*pass).transactions).write(0);
            (&raw mut (*pass).body).write((0, 0));
            &mut *pass
        }
    }

    /// # Safety
    /// The bytes from `start` are a program of this length with those of `Space` behind it, there is
    /// room for the flows, and with `RUN` for the code.
    #[inline(always)]
    pub unsafe fn run(&mut self, code: &mut Code) -> Answer {
        let end = match self.head().and_then(|at| self.statements(at, code)) {
            Ok(end) => end,
            Err((number, at)) => return self.misread(number, at),
        };
        let end = end.offset_from(self.start) as usize;
        if end != self.length {
            return Answer::refused(10, end.min(self.length));
        }
        match self.refused {
            0 => Answer { number: 0, place: 0, body: self.body },
            number => Answer::refused(number, self.refused_at),
        }
    }

    /// A refusal met behind the end says that the program ends early; only that a depth is too much is
    /// known before the byte is looked for.
    #[cold]
    unsafe fn misread(&self, number: u32, at: *const u8) -> Answer {
        let place = at.offset_from(self.start) as usize;
        match place < self.length || place == self.length && number == 14 {
            true => Answer::refused(number, place),
            false => Answer::refused(10, self.length),
        }
    }

    /// Mark, version and labels; gives where the statement stands.
    #[inline(always)]
    unsafe fn head(&mut self) -> Result<*const u8, Fault> {
        let head = u64_at(self.start);
        const MARK: u64 = u64::from_le_bytes(*b"RXP\x01\x00\0\0\0");
        let wrong = (head ^ MARK) & 0xFF_FFFF_FFFF;
        if wrong != 0 {
            // In version 2 the byte of the version is not wrong; the others may be.
            let wrong = if (head >> 24) as u8 == 2 { wrong & !0xFF00_0000 } else { wrong };
            if wrong != 0 {
                return Err((11, self.start.add(wrong.trailing_zeros() as usize / 8)));
            }
        }
        let count = *self.start.add(5);
        if count > 64 {
            return Err((13, self.start.add(5)));
        }
        self.variables.count = count;
        let mut at = self.start.add(6);
        for variable in 0..usize::from(count) {
            let (reading, trust) = (*at, *at.add(1));
            if !self.label(reading) {
                return Err((13, at));
            }
            if !self.label(trust) {
                return Err((13, at.add(1)));
            }
            let role = |label: u8| u64::from(label != EVERYONE) << (label & 63);
            self.variables.readers.get_unchecked_mut(variable).write(role(reading));
            self.variables.trusters.get_unchecked_mut(variable).write(role(trust));
            at = at.add(2);
        }
        Ok(at)
    }

    #[inline(always)]
    fn label(&self, label: u8) -> bool {
        usize::from(label) < self.table.roles || label == EVERYONE
    }

    #[inline(always)]
    fn refuse(&mut self, number: u32, at: *const u8) {
        if self.refused == 0 {
            self.refused = number;
            // SAFETY: both are in the program.
            self.refused_at = unsafe { at.offset_from(self.start) } as usize;
        }
    }

    /// Reads and judges the program's statement, with all in it; gives where it ends.
    #[inline(always)]
    unsafe fn statements(&mut self, from: *const u8, code: &mut Code) -> Result<*const u8, Fault> {
        let mut at = from;
        let mut context = EMPTY;
        let mut left = 1_u16;
        // How many statements are around, and the one right around.
        let mut depth = 0;
        let mut kind = Kind::Block;
        macro_rules! enter {
            ($kind:expr, $left:expr, $first:expr, $second:expr, $outer:expr) => {{
                if depth == MOST_DEPTH - 1 {
                    return Err((14, at));
                }
                let frame = Frame { context: $outer, left, kind, first: $first, second: $second };
                self.frames.get_unchecked_mut(depth).write(frame);
                depth += 1;
                kind = $kind;
                left = $left;
                continue;
            }};
        }
        loop {
            match *at {
                0 => {
                    at = at.add(1);
                    if RUN {
                        code.put(op::SKIP, 0, 0, 0);
                    } else if kind == Kind::Block {
                        // Skips come in rows.
                        while left > 1 && *at == 0 {
                            at = at.add(1);
                            left -= 1;
                        }
                    }
                }
                1 => at = self.assign(at, &context, code)?,
                2 => {
                    let count = *at.add(1);
                    at = at.add(2);
                    if count != 0 {
                        enter!(Kind::Block, u16::from(count), 0, 0, context);
                    }
                }
                3 => {
                    at = at.add(1);
                    let outer = context;
                    let test = self.condition(&mut at, &mut context, code)?;
                    enter!(Kind::If, 2, test, 0, outer);
                }
                4 => {
                    at = at.add(1);
                    let outer = context;
                    let first = if RUN { code.length } else { 0 };
                    let test = self.condition(&mut at, &mut context, code)?;
                    enter!(Kind::While, 1, first, test, outer);
                }
                5 => {
                    let outer = context;
                    at = self.query(at, &mut context)?;
                    let mut test = 0;
                    if RUN {
                        let (a, b) = (*at.sub(2), *at.sub(1));
                        test = code.put(op::QUERY, 0, u16::from(a), u16::from(b));
                    }
                    enter!(Kind::Query, 2, test, 0, outer);
                }
                6 => at = self.update(at, &context, code)?,
                7 => {
                    let inner = match self.around.inside {
                        true => Kind::Nested,
                        false => Kind::Transaction,
                    };
                    at = self.transaction(at)?;
                    let body = at.offset_from(self.start) as u16;
                    let mut start = 0;
                    if RUN {
                        let listed = &self.around.listed;
                        let list = listed.list.offset_from(self.start) as u16;
                        start = code.start(listed.count as u8, list);
                    }
                    enter!(inner, 1, start, body, context);
                }
                _ => return Err((12, at)),
            }
            // The statement is read; with it may end those around it.
            loop {
                left -= 1;
                if left != 0 {
                    if kind == Kind::Query || RUN && kind == Kind::If {
                        let frame = self.frames.get_unchecked_mut(depth - 1).assume_init_mut();
                        context.known = frame.context.known;
                        if RUN {
                            frame.second = code.leave();
                            code.go_here(frame.first);
                        }
                    }
                    break;
                }
                if depth == 0 {
                    if RUN {
                        code.end();
                    }
                    return Ok(at);
                }
                depth -= 1;
                let frame = self.frames.get_unchecked(depth).assume_init();
                match kind {
                    Kind::Transaction => self.end_transaction(&frame, at, code),
                    Kind::While if RUN => {
                        let back = code.leave();
                        code.go_to(back, frame.first);
                        code.go_here(frame.second);
                    }
                    Kind::If | Kind::Query if RUN => code.go_here(frame.second),
                    _ => {}
                }
                context = frame.context;
                left = frame.left;
                kind = frame.kind;
            }
        }
    }

    /// Assign: context and expression label are at most the variable's label.
    #[inline(always)]
    unsafe fn assign(
        &mut self,
        statement: *const u8,
        context: &Context,
        code: &mut Code,
    ) -> Result<*const u8, Fault> {
        let variable = *statement.add(1);
        if variable >= self.variables.count {
            return Err((13, statement.add(1)));
        }
        let mut at = statement.add(2);
        let joined = if RUN {
            let (joined, value) = expression::write(&self.variables, &mut at, code)?;
            expression::assign(code, variable, value);
            joined
        } else {
            expression::read(&self.variables, &mut at)?
        };
        self.around.assigned |= 1 << variable;
        let readers = context.readers | joined.readers;
        let trusters = context.trusters | joined.trusters;
        // A label is at most itself; nearly always that is all.
        let more = readers & !self.variables.readers(variable)
            | trusters & !self.variables.trusters(variable);
        if more | context.asked != 0 && self.refused == 0 {
            self.judge_assign(statement, variable, Context { readers, trusters, ..*context });
        }
        Ok(at)
    }

    #[inline(never)]
    unsafe fn judge_assign(&mut self, at: *const u8, variable: u8, flow: Context) {
        let label = |role: u64| if role == 0 { EVERYONE } else { role.trailing_zeros() as u8 };
        let reading = label(self.variables.readers(variable));
        if !self.at_most(flow.readers, flow.asked, flow.known, reading, 1) {
            return self.refuse(17, at);
        }
        let trust = label(self.variables.trusters(variable));
        if !self.at_most(flow.trusters, flow.asked, flow.known, trust, 2) {
            self.refuse(18, at);
        }
    }

    /// Whether roles, and the viewers or trusters of those asked about, are at most a label.
    unsafe fn at_most(
        &mut self,
        roles: u64,
        asked: u64,
        known: u32,
        label: u8,
        side: usize,
    ) -> bool {
        let row = self.rows.of(self.table, label);
        if roles & !row[0] | asked & !row[side] == 0 {
            return true;
        }
        if known == 0 {
            return false;
        }
        let leading = self.around.listed.leading_to(&row) & known;
        if leading == 0 {
            return false;
        }
        let more = self.around.listed.below_any(self.table, leading, known);
        roles & !(row[0] | more[0]) | asked & !(row[side] | more[side]) == 0
    }

    /// Joins a condition's label to the context; with `RUN` gives the node of the test.
    #[inline(always)]
    unsafe fn condition(
        &mut self,
        at: &mut *const u8,
        context: &mut Context,
        code: &mut Code,
    ) -> Result<u16, Fault> {
        let (joined, test) = if RUN {
            let (joined, value) = expression::write(&self.variables, at, code)?;
            (joined, expression::test(code, value))
        } else {
            (expression::read(&self.variables, at)?, 0)
        };
        let Joined { readers, trusters } = joined;
        context.readers |= readers;
        context.trusters |= trusters;
        Ok(test)
    }

    #[inline(always)]
    unsafe fn atom(&self, at: *const u8) -> Result<u64, Fault> {
        let atom = *at;
        if usize::from(atom & 63) < self.table.roles && atom < 0xC0 {
            return Ok(bit(atom));
        }
        match atom {
            EVERYONE => Ok(0),
            0xC0.. => Err((12, at)),
            _ => Err((13, at)),
        }
    }

    /// A query: only in a transaction that lists it. Its label joins the context, and it is known in its
    /// first branch.
    #[inline(always)]
    unsafe fn query(
        &mut self,
        statement: *const u8,
        context: &mut Context,
    ) -> Result<*const u8, Fault> {
        let named = self.atom(statement.add(1))? | self.atom(statement.add(2))?;
        if self.refused == 0 {
            let pair = (u32_at(statement) >> 8) as u16;
            match self.around.inside {
                true => match self.around.listed.index(pair) {
                    Some(index) => context.known |= 1 << index,
                    None => self.refuse(15, statement),
                },
                false => self.refuse(15, statement),
            }
        }
        context.asked |= named;
        Ok(statement.add(3))
    }

    /// An update: only in a transaction, and of what the policy file allows. What flows into it is judged
    /// at the transaction's end.
    #[inline(always)]
    unsafe fn update(
        &mut self,
        statement: *const u8,
        context: &Context,
        code: &mut Code,
    ) -> Result<*const u8, Fault> {
        let count = *statement.add(1);
        if count.wrapping_sub(1) >= 16 {
            return Err((13, statement.add(1)));
        }
        let mut at = statement.add(2);
        let mut denied = 0;
        for _ in 0..count {
            denied |= self.mutation(at)?;
            at = at.add(3);
        }
        if RUN {
            code.policy = true;
            match count {
                1 => code.put(
                    op::UPDATE,
                    *statement.add(2),
                    u16::from(*statement.add(3)),
                    u16::from(*statement.add(4)),
                ),
                _ => {
                    let first = statement.add(2).offset_from(self.start) as u16;
                    code.put(op::UPDATE, SEVERAL + count, first, 0)
                }
            };
        }
        if self.refused == 0 {
            if !self.around.inside {
                self.refuse(15, statement);
            } else if denied != 0 {
                self.refuse(16, statement);
            } else {
                let Context { readers, trusters, asked, known } = *context;
                let place = statement.offset_from(self.start) as u32;
                self.around.note(Flow { readers, trusters, asked, known, place });
            }
        }
        Ok(at)
    }

    /// Whether what a mutation adds is denied.
    #[inline(always)]
    unsafe fn mutation(&mut self, at: *const u8) -> Result<u32, Fault> {
        let bytes = u32_at(at);
        let (kind, role, operand) = (bytes as u8, (bytes >> 8) as u8, (bytes >> 16) as u8);
        let limit = match kind {
            0 | 1 => usize::from(self.table.principals),
            2 | 3 => self.table.roles,
            _ => return Err((12, at)),
        };
        if usize::from(role) >= self.table.roles {
            return Err((13, at.add(1)));
        }
        if usize::from(operand) >= limit {
            return Err((13, at.add(2)));
        }
        self.around.mutated |= bit(role);
        Ok(match kind {
            0 => {
                let key = self.table.key(usize::from(role));
                !(key as u32 & (key >> 32) as u32) >> (operand & 31) & 1
            }
            2 => {
                let same =
                    self.table.key(usize::from(role)) == self.table.key(usize::from(operand));
                u32::from(!same)
            }
            _ => 0,
        })
    }

    /// Reads a transaction's list; gives where its body stands.
    #[inline(always)]
    unsafe fn transaction(&mut self, statement: *const u8) -> Result<*const u8, Fault> {
        let count = *statement.add(1);
        if count > 16 {
            return Err((13, statement.add(1)));
        }
        let list = statement.add(2);
        let mut named = 0;
        for index in 0..2 * usize::from(count) {
            named |= self.atom(list.add(index))?;
        }
        match self.around.inside {
            true => self.refuse(15, statement),
            false => self.around.start(list, usize::from(count), named),
        }
        let body = list.add(2 * usize::from(count));
        if self.transactions == self.wanted {
            self.body.0 = body.offset_from(self.start) as usize;
        }
        self.transactions += 1;
        Ok(body)
    }

    #[inline(always)]
    unsafe fn end_transaction(&mut self, frame: &Frame, at: *const u8, code: &mut Code) {
        let start = usize::from(frame.second);
        if start == self.body.0 {
            self.body.1 = at.offset_from(self.start) as usize - start;
        }
        if RUN {
            let rolls_back = self.around.listed.count != 0 && self.around.mutated != 0;
            code.save(frame.first, if rolls_back { self.around.assigned } else { 0 });
            code.policy |= self.around.listed.count != 0;
        }
        if self.around.has_flows() {
            self.judge_updates();
        }
        self.around.inside = false;
    }

    /// All updates of a transaction stand before what was refused in it so far.
    #[inline(never)]
    unsafe fn judge_updates(&mut self) {
        let mut labels = Labels::default();
        let mut assigned = self.around.assigned;
        while assigned != 0 {
            let variable = take_lowest(&mut assigned) as u8;
            let (readers, trusters) =
                (self.variables.readers(variable), self.variables.trusters(variable));
            labels.readers |= readers;
            labels.trusters |= trusters;
            labels.open_readers |= readers == 0;
            labels.open_trusters |= trusters == 0;
        }
        if let Some((number, place)) = self.around.refused(self.table, labels) {
            self.refused = number;
            self.refused_at = place as usize;
        }
    }
}
