//! The library's own steps by hand, without checks. A relation is a row of bits for each record, and each width of rows has code of its
//! own; a triple is a node that shares the nodes of its operands, and is written out only where it becomes a member.
use std::cmp::Ordering;
use std::mem::MaybeUninit;
use std::ptr::{copy, copy_nonoverlapping, write_bytes};
use std::slice::{from_raw_parts, from_raw_parts_mut};

const JOIN: u8 = 128;
const UNION: u8 = 129;
const BOTH: u8 = 130;
const BRANCH_RIGHT: u8 = 131;
const BRANCH_LEFT: u8 = 132;
const CHAIN: u8 = 133;

const HEAD_TAG: u8 = 0x41;
const MEMBER_TAG: u8 = 0x42;
const STEP_TAG: u8 = 0x43;
const OPERATOR_TAG: u8 = 0x44;
const THROUGH_TAG: u8 = 0x45;

const MOST_RECORDS: usize = 1024;
const MOST_KINDS: usize = 64;
const MOST_LINKS: usize = 64;
const MOST_CODES: usize = 32;
const MOST_TRIPLES: usize = 128;
const MOST_SYMBOLS: usize = 48;
const NARROW_WORK: usize = 8192;

/// Relations of the work words: a path's stack, and past it the steps that are held.
const STACK: usize = MOST_SYMBOLS / 2;
const MOST_HELD: usize = 4;

/// Room on the caller's stack: what lies in it is not moved, as a move would copy all of it.
type Room<T, const N: usize> = MaybeUninit<[T; N]>;

unsafe fn load16(at: *const u8) -> usize {
    u16::from_be_bytes(*at.cast()) as usize
}

unsafe fn load64(at: *const u8) -> u64 {
    u64::from_be_bytes(*at.cast())
}

/// The places of the bits of a word, lowest first.
struct Bits(u64);

impl Iterator for Bits {
    type Item = usize;

    #[inline(always)]
    fn next(&mut self) -> Option<usize> {
        if self.0 == 0 {
            return None;
        }
        let place = self.0.trailing_zeros() as usize;
        self.0 &= self.0 - 1;
        Some(place)
    }
}

// ---- the register

struct Register<'a> {
    records: &'a [[u8; 4]],
    links: &'a [[u8; 8]],
}

/// A link's field is one word: from record, name and to record are its low 5 bytes.
#[derive(Clone, Copy)]
struct Link(u64);

impl Link {
    fn from(self) -> usize {
        (self.0 >> 24) as usize & 0xffff
    }
    fn name(self) -> u8 {
        (self.0 >> 16) as u8
    }
    fn to(self) -> usize {
        self.0 as usize & 0xffff
    }
}

impl<'a> Register<'a> {
    unsafe fn read(file: *const u8) -> Self {
        let (records, links) = (load16(file.add(3)), load16(file.add(5)));
        let start = file.add(7);
        Register {
            records: from_raw_parts(start.cast(), records),
            links: from_raw_parts(start.add(4 * records).cast(), links),
        }
    }

    fn words(&self) -> usize {
        self.records.len().div_ceil(64)
    }

    fn answer_words(&self) -> usize {
        self.records.len() * self.words()
    }

    fn answer_work(&self) -> usize {
        28 * self.answer_words()
    }

    unsafe fn kind(&self, record: usize) -> u8 {
        self.records.get_unchecked(record)[3]
    }

    fn links(&self) -> impl Iterator<Item = Link> + '_ {
        self.links.iter().map(|field| Link(u64::from_be_bytes(*field)))
    }
}

// ---- relations

type Row<const W: usize> = [u64; W];

#[inline(always)]
unsafe fn set_bit<const W: usize>(row: &mut Row<W>, t: usize) {
    *row.get_unchecked_mut(t / 64) |= 1 << (t % 64);
}

#[inline(always)]
unsafe fn clear_bit<const W: usize>(row: &mut Row<W>, t: usize) {
    *row.get_unchecked_mut(t / 64) &= !(1 << (t % 64));
}

#[inline(always)]
fn any<const W: usize>(row: &Row<W>) -> bool {
    row.iter().fold(0, |all, word| all | word) != 0
}

#[inline(always)]
fn unite<const W: usize>(to: &mut Row<W>, from: &Row<W>) {
    for (a, b) in to.iter_mut().zip(from) {
        *a |= b;
    }
}

#[inline(always)]
fn restrict<const W: usize>(to: &mut Row<W>, mask: &Row<W>) {
    for (a, b) in to.iter_mut().zip(mask) {
        *a &= b;
    }
}

unsafe fn step<const W: usize>(r: &Register, reverse: bool, name: u8, relation: &mut [Row<W>]) {
    write_bytes(relation.as_mut_ptr(), 0, relation.len());
    for link in r.links() {
        if link.name() == name {
            let (s, t) = if reverse { (link.to(), link.from()) } else { (link.from(), link.to()) };
            set_bit(relation.get_unchecked_mut(s), t);
        }
    }
}

/// The row becomes the rows of q for its bits in the mask, united.
#[inline(always)]
unsafe fn join_row<const W: usize>(row: &mut Row<W>, q: &[Row<W>], mask: &Row<W>) {
    let mut made = [0; W];
    for i in 0..W {
        for z in Bits(row[i] & mask[i]) {
            unite(&mut made, q.get_unchecked(64 * i + z));
        }
    }
    *row = made;
}

unsafe fn join<const W: usize>(p: &mut [Row<W>], q: &[Row<W>], mask: &Row<W>) {
    for row in p {
        if any(row) {
            join_row(row, q, mask);
        }
    }
}

unsafe fn branch_right<const W: usize>(p: &mut [Row<W>], q: &[Row<W>]) {
    let mut sources = [0; W];
    for (t, row) in q.iter().enumerate() {
        *sources.get_unchecked_mut(t / 64) |= (any(row) as u64) << (t % 64);
    }
    for row in p {
        restrict(row, &sources);
    }
}

fn branch_left<const W: usize>(p: &mut [Row<W>], q: &[Row<W>]) {
    for (row, other) in p.iter_mut().zip(q) {
        if any(row) {
            *row = *other;
        }
    }
}

// ---- closures

/// The first bit that a row and both masks have.
#[inline(always)]
fn first<const W: usize>(row: &Row<W>, a: &Row<W>, b: &Row<W>) -> Option<usize> {
    let met = |i: usize| row[i] & a[i] & b[i];
    if (0..W).fold(0, |all, i| all | met(i)) == 0 {
        return None;
    }
    (0..W).find(|&i| met(i) != 0).map(|i| 64 * i + met(i).trailing_zeros() as usize)
}

#[inline(always)]
fn exclude<const W: usize>(from: &mut Row<W>, row: &Row<W>) {
    for (a, b) in from.iter_mut().zip(row) {
        *a &= !b;
    }
}

/// Rows that are not empty; of these the ones that are the closure's already.
struct Marks<const W: usize> {
    live: Row<W>,
    finished: Row<W>,
}

/// The row takes in a finished row that it has, and then the others of its word at once; what they have is not gone through.
#[inline(always)]
unsafe fn take_finished<const W: usize>(row: &mut Row<W>, left: &mut Row<W>, relation: &[Row<W>], marks: &Marks<W>, k: usize) {
    let i = k / 64;
    unite(row, relation.get_unchecked(k));
    exclude(left, relation.get_unchecked(k));
    clear_bit(left, k);
    let rest = row.get_unchecked(i) & left.get_unchecked(i) & marks.finished.get_unchecked(i);
    if rest == 0 {
        return;
    }
    let mut all = [0; W];
    for z in Bits(rest) {
        unite(&mut all, relation.get_unchecked(64 * i + z));
    }
    unite(row, &all);
    exclude(left, &all);
    *left.get_unchecked_mut(i) &= !rest;
}

/// Row s becomes the closure's.
#[inline(always)]
unsafe fn finish<const W: usize>(relation: &mut [Row<W>], marks: &mut Marks<W>, s: usize) {
    let mut row = *relation.get_unchecked(s);
    let mut left = marks.live;
    loop {
        if let Some(k) = first(&row, &left, &marks.finished) {
            take_finished(&mut row, &mut left, relation, marks, k);
        } else if let Some(k) = first(&row, &left, &left) {
            unite(&mut row, relation.get_unchecked(k));
            clear_bit(&mut left, k);
        } else {
            break;
        }
    }
    *relation.get_unchecked_mut(s) = row;
    set_bit(&mut marks.finished, s);
}

/// Rows are finished as a depth-first search leaves them, so that most find finished ones to take in.
unsafe fn closure<const W: usize>(relation: &mut [Row<W>]) {
    let mut marks = Marks { live: [0; W], finished: [0; W] };
    for (s, row) in relation.iter().enumerate() {
        *marks.live.get_unchecked_mut(s / 64) |= (any(row) as u64) << (s % 64);
    }
    let mut unseen = marks.live;
    let mut room = Room::<usize, MOST_RECORDS>::uninit();
    let (stack, mut depth) = (room.as_mut_ptr().cast::<usize>(), 0);
    loop {
        let row = if depth == 0 { &unseen } else { relation.get_unchecked(*stack.add(depth - 1)) };
        if let Some(k) = first(row, &unseen, &unseen) {
            clear_bit(&mut unseen, k);
            *stack.add(depth) = k;
            depth += 1;
        } else if depth == 0 {
            return;
        } else {
            depth -= 1;
            finish(relation, &mut marks, *stack.add(depth));
        }
    }
}

// ---- answers: a stack of relations in the work words

struct Kinds<const W: usize> {
    present: u64,
    records: [Row<W>; MOST_KINDS],
}

impl<const W: usize> Kinds<W> {
    unsafe fn read(r: &Register) -> Self {
        let mut kinds = Kinds { present: 0, records: [[0; W]; MOST_KINDS] };
        for t in 0..r.records.len() {
            let kind = r.kind(t) as usize;
            kinds.present |= 1 << kind;
            set_bit(kinds.records.get_unchecked_mut(kind), t);
        }
        kinds
    }

    /// The records whose kind is in the set.
    fn mask(&self, set: u64) -> Row<W> {
        let mut mask = [0; W];
        for kind in Bits(set & self.present) {
            unite(&mut mask, &self.records[kind]);
        }
        mask
    }
}

unsafe fn combine<const W: usize>(code: u8, p: &mut [Row<W>], q: &[Row<W>]) {
    match code {
        JOIN => join(p, q, &[u64::MAX; W]),
        UNION => p.iter_mut().zip(q).for_each(|(a, b)| unite(a, b)),
        BOTH => p.iter_mut().zip(q).for_each(|(a, b)| restrict(a, b)),
        BRANCH_RIGHT => branch_right(p, q),
        _ => branch_left(p, q),
    }
}

/// The first relation of the work words becomes the path of `count` symbols; where their fields end.
unsafe fn evaluate<const W: usize>(
    r: &Register,
    kinds: Option<&Kinds<W>>,
    mut field: *const u8,
    count: usize,
    work: *mut Row<W>,
) -> *const u8 {
    let n = r.records.len();
    let mut top = work;
    for _ in 0..count {
        let (tag, code) = (*field, *field.add(3));
        if tag == STEP_TAG {
            step(r, code == 1, *field.add(4), from_raw_parts_mut(top, n));
            top = top.add(n);
            field = field.add(5);
        } else if tag == OPERATOR_TAG && code == CHAIN {
            closure(from_raw_parts_mut(top.sub(n), n));
            field = field.add(4);
        } else {
            top = top.sub(n);
            let (p, q) = (from_raw_parts_mut(top.sub(n), n), from_raw_parts(top, n));
            if tag == OPERATOR_TAG {
                combine(code, p, q);
                field = field.add(4);
            } else {
                join(p, q, &kinds.unwrap_unchecked().mask(load64(field.add(3))));
                field = field.add(11);
            }
        }
    }
    field
}

unsafe fn answer_path<const W: usize>(r: &Register, question: *const u8, work: *mut u64, answer: *mut u64) {
    evaluate::<W>(r, None, question.add(4), *question.add(3) as usize, work.cast());
    copy_nonoverlapping(work, answer, r.answer_words());
}

// ---- narrowed answers: a route, which is steps joined through sets, is followed row by row, so that no relation is made on the way

/// The steps that were loaded, by their codes; they stay for the members that follow.
struct Held<const W: usize> {
    count: usize,
    codes: [u8; MOST_HELD],
    relations: *mut Row<W>,
}

/// A step of a route, and the records through which it is joined with the legs before it; the first has none.
struct Leg<'a, const W: usize> {
    relation: &'a [Row<W>],
    through: Row<W>,
}

impl<const W: usize> Held<W> {
    /// The relation of a step, which is loaded once; none where there is no room for it.
    unsafe fn hold<'a>(&mut self, r: &Register, reverse: u8, name: u8) -> Option<&'a [Row<W>]> {
        let (code, n) = (64 * reverse + name, r.records.len());
        let mut i = 0;
        while i < self.count && *self.codes.get_unchecked(i) != code {
            i += 1;
        }
        if i == MOST_HELD {
            return None;
        }
        let relation = from_raw_parts_mut(self.relations.add(i * n), n);
        if i == self.count {
            *self.codes.get_unchecked_mut(i) = code;
            self.count += 1;
            step(r, reverse == 1, name, relation);
        }
        Some(relation)
    }
}

/// Whether a path is a step, and then any number of times a step and its join through a set.
unsafe fn is_route(path: *const u8, count: usize) -> bool {
    let joined = |i: usize| {
        let field = path.add(5 + 16 * i);
        *field == STEP_TAG && *field.add(5) == THROUGH_TAG
    };
    count % 2 == 1 && (0..count / 2).all(joined)
}

/// Reads the legs of a route; where their fields end, none where there is no room for a step.
unsafe fn read_route<const W: usize>(
    r: &Register,
    kinds: &Kinds<W>,
    held: &mut Held<W>,
    mut field: *const u8,
    legs: usize,
    route: *mut Leg<W>,
) -> Option<*const u8> {
    for i in 0..legs {
        let relation = held.hold(r, *field.add(3), *field.add(4))?;
        let mut through = [0; W];
        field = field.add(5);
        if i > 0 {
            through = kinds.mask(load64(field.add(3)));
            field = field.add(11);
        }
        route.add(i).write(Leg { relation, through });
    }
    Some(field)
}

/// Each source's row of the first leg goes through the other legs, and what it then has of the targets is added to the answer.
unsafe fn follow<const W: usize>(route: &[Leg<W>], sources: &Row<W>, targets: &Row<W>, answer: *mut Row<W>) {
    let (head, rest) = route.split_first().unwrap_unchecked();
    for (i, &word) in sources.iter().enumerate() {
        for z in Bits(word) {
            let mut row = *head.relation.get_unchecked(64 * i + z);
            for leg in rest {
                join_row(&mut row, leg.relation, &leg.through);
            }
            restrict(&mut row, targets);
            unite(&mut *answer.add(64 * i + z), &row);
        }
    }
}

/// Adds the pairs of a member; where its fields end. What has to be evaluated is then a route of one leg.
unsafe fn add_member<const W: usize>(
    r: &Register,
    kinds: &Kinds<W>,
    held: &mut Held<W>,
    member: *const u8,
    work: *mut Row<W>,
    answer: *mut Row<W>,
) -> *const u8 {
    let mut room = Room::<Leg<W>, STACK>::uninit();
    let route = room.as_mut_ptr().cast::<Leg<W>>();
    let (path, count) = (member.add(20), *member.add(3) as usize);
    let (mut end, mut legs) = (None, count.div_ceil(2));
    if is_route(path, count) {
        end = read_route(r, kinds, held, path, legs, route);
    }
    let end = end.unwrap_or_else(|| {
        let end = evaluate(r, Some(kinds), path, count, work);
        route.write(Leg { relation: from_raw_parts(work, r.records.len()), through: [0; W] });
        legs = 1;
        end
    });
    let (sources, targets) = (kinds.mask(load64(member.add(4))), kinds.mask(load64(member.add(12))));
    follow(from_raw_parts(route, legs), &sources, &targets, answer);
    end
}

unsafe fn answer_members<const W: usize>(r: &Register, narrowed: *const u8, work: *mut u64, answer: *mut u64) {
    write_bytes(answer, 0, r.answer_words());
    let kinds = Kinds::<W>::read(r);
    let (work, answer) = (work.cast::<Row<W>>(), answer.cast::<Row<W>>());
    let mut held = Held { count: 0, codes: [0; MOST_HELD], relations: work.add(STACK * r.records.len()) };
    let mut member = narrowed.add(5);
    for _ in 0..load16(narrowed.add(3)) {
        member = add_member(r, &kinds, &mut held, member, work, answer);
    }
}

/// A call by the code of the register's own width; without records any width will do.
macro_rules! by_width {
    ($call:ident, $r:expr, $($argument:expr),*) => {
        match $r.words() {
            1 => $call::<1>($r, $($argument),*),
            2 => $call::<2>($r, $($argument),*),
            3 => $call::<3>($r, $($argument),*),
            4 => $call::<4>($r, $($argument),*),
            5 => $call::<5>($r, $($argument),*),
            6 => $call::<6>($r, $($argument),*),
            7 => $call::<7>($r, $($argument),*),
            8 => $call::<8>($r, $($argument),*),
            9 => $call::<9>($r, $($argument),*),
            10 => $call::<10>($r, $($argument),*),
            11 => $call::<11>($r, $($argument),*),
            12 => $call::<12>($r, $($argument),*),
            13 => $call::<13>($r, $($argument),*),
            14 => $call::<14>($r, $($argument),*),
            15 => $call::<15>($r, $($argument),*),
            _ => $call::<16>($r, $($argument),*),
        }
    };
}

// ---- the sheet

/// The to kinds of each link name and from kind; only those of the sheet's own names are filled.
struct Sheet {
    kinds: usize,
    links: usize,
    to: *mut u64,
}

impl Sheet {
    unsafe fn read(file: *const u8, length: usize, room: &mut Room<u64, { MOST_LINKS * MOST_KINDS }>) -> Self {
        let sheet = Sheet { kinds: *file.add(3) as usize, links: *file.add(4) as usize, to: room.as_mut_ptr().cast() };
        write_bytes(sheet.to, 0, sheet.links * MOST_KINDS);
        let triples: &[[u8; 6]] = from_raw_parts(file.add(5).cast(), (length - 5) / 6);
        for &[_, _, _, from, link, to] in triples {
            *sheet.to.add(link as usize * MOST_KINDS + from as usize) |= 1 << to;
        }
        sheet
    }

    unsafe fn to(&self, link: usize, from: usize) -> u64 {
        *self.to.add(link * MOST_KINDS + from)
    }

    unsafe fn permits(&self, from: u8, link: u8, to: u8) -> bool {
        (link as usize) < self.links && self.to(link as usize, from as usize) >> to & 1 == 1
    }

    unsafe fn is_obeyed(&self, r: &Register) -> bool {
        r.records.iter().all(|record| (record[3] as usize) < self.kinds)
            && r.links().all(|link| self.permits(r.kind(link.from()), link.name(), r.kind(link.to())))
    }
}

// ---- triples: a node for each, its operands before it

#[derive(Clone, Copy)]
struct Node {
    /// Of its path.
    hash: u64,
    /// Its operands; of a kept chain where its operand starts in the question, and its number of symbols.
    left: u16,
    right: u16,
    /// The code of its path's last symbol, and its number of symbols.
    made: u8,
    size: u8,
    from: u8,
    to: u8,
}

#[derive(Clone, Copy)]
struct Part {
    start: usize,
    end: usize,
    /// Where its symbols start in the question.
    origin: usize,
}

/// The part that is being made has the nodes from `start` up to `used`; each has its place in `slots`, by its hash.
struct Table {
    nodes: *mut Node,
    start: usize,
    used: usize,
    codes: [u8; MOST_CODES],
    slots: [u8; 256],
}

/// The nodes of a part by their from kind: `first` and `next` have 1 more than a node's place in the part, 0 at the end.
struct Index {
    start: usize,
    first: [u8; MOST_KINDS],
    next: [u8; MOST_TRIPLES],
}

fn mix(a: u64, b: u64, c: u64) -> u64 {
    let x = a.wrapping_add(c).wrapping_mul(0x9e3779b97f4a7c15);
    (x ^ x >> 32).wrapping_add(b).wrapping_mul(0xbf58476d1ce4e5b9)
}

impl Table {
    fn new(room: &mut Room<Node, { MOST_CODES * MOST_TRIPLES }>) -> Self {
        Table { nodes: room.as_mut_ptr().cast(), start: 0, used: 0, codes: [0; MOST_CODES], slots: [0; 256] }
    }

    unsafe fn node(&self, i: usize) -> &Node {
        &*self.nodes.add(i)
    }

    unsafe fn same_path(&self, x: &Node, y: &Node) -> bool {
        if x.hash != y.hash || x.made != y.made {
            return false;
        }
        if x.made < JOIN {
            return true;
        }
        if x.made == CHAIN {
            return self.kept(x) == self.kept(y);
        }
        let (p, q) = (self.node(x.left as usize), self.node(y.left as usize));
        if x.made == JOIN && p.to != q.to {
            return false;
        }
        self.same_path(p, q) && self.same_path(self.node(x.right as usize), self.node(y.right as usize))
    }

    /// The symbols of the question below a kept chain.
    unsafe fn kept(&self, x: &Node) -> &[u8] {
        self.codes.get_unchecked(x.left as usize..(x.left + x.right) as usize)
    }

    /// Adds a triple unless it is there already; none where the part gets too many or its path is too long.
    unsafe fn add(&mut self, x: Node) -> Option<()> {
        let mut slot = (mix(x.hash, x.from as u64, x.to as u64) >> 56) as u8;
        while self.slots[slot as usize] != 0 {
            let y = self.node(self.start + self.slots[slot as usize] as usize - 1);
            if x.from == y.from && x.to == y.to && self.same_path(&x, y) {
                return Some(());
            }
            slot = slot.wrapping_add(1);
        }
        if self.used - self.start == MOST_TRIPLES || x.size as usize > MOST_SYMBOLS {
            return None;
        }
        *self.nodes.add(self.used) = x;
        self.used += 1;
        self.slots[slot as usize] = (self.used - self.start) as u8;
        Some(())
    }

    unsafe fn add_pair(&mut self, made: u8, i: usize, j: usize) -> Option<()> {
        let (x, y) = (*self.node(i), *self.node(j));
        let symbol = if made == JOIN { made as u64 + 256 * x.to as u64 } else { made as u64 };
        self.add(Node {
            hash: mix(x.hash, y.hash, symbol),
            left: i as u16,
            right: j as u16,
            made,
            size: x.size + y.size + 1,
            from: x.from,
            to: if made == BRANCH_RIGHT { x.to } else { y.to },
        })
    }

    unsafe fn index(&self, start: usize, end: usize) -> Index {
        let mut index = Index { start, first: [0; MOST_KINDS], next: [0; MOST_TRIPLES] };
        for i in start..end {
            let first = index.first.get_unchecked_mut(self.node(i).from as usize);
            *index.next.get_unchecked_mut(i - start) = *first;
            *first = (i - start + 1) as u8;
        }
        index
    }

    /// What node i gives with the indexed nodes that fit.
    unsafe fn add_pairs(&mut self, made: u8, i: usize, index: &Index) -> Option<()> {
        let x = *self.node(i);
        let kind = if made == BOTH || made == BRANCH_LEFT { x.from } else { x.to };
        let mut k = *index.first.get_unchecked(kind as usize) as usize;
        while k != 0 {
            let j = index.start + k - 1;
            if made != BOTH || x.to == self.node(j).to {
                self.add_pair(made, i, j)?;
            }
            k = *index.next.get_unchecked(k - 1) as usize;
        }
        Some(())
    }

    unsafe fn pair_rule(&mut self, made: u8, p: Part, q: Part) -> Option<()> {
        let index = self.index(q.start, q.end);
        (p.start..p.end).try_for_each(|i| self.add_pairs(made, i, &index))
    }

    unsafe fn union_rule(&mut self, p: Part, q: Part) -> Option<()> {
        (p.start..p.end).chain(q.start..q.end).try_for_each(|i| self.add(*self.node(i)))
    }

    unsafe fn step_rule(&mut self, sheet: &Sheet, code: u8) -> Option<()> {
        for a in 0..sheet.kinds {
            for b in Bits(sheet.to(code as usize % 64, a)) {
                let (from, to) = if code < 64 { (a as u8, b as u8) } else { (b as u8, a as u8) };
                self.add(Node { hash: code as u64, left: 0, right: 0, made: code, size: 1, from, to })?;
            }
        }
        Some(())
    }

    /// The ringed kinds; and for each kind those to which a walk leads that meets a ringed kind.
    unsafe fn walk(&self, p: Part) -> (u64, [Row<1>; MOST_KINDS]) {
        let mut reach = [[0]; MOST_KINDS];
        for i in p.start..p.end {
            set_bit(reach.get_unchecked_mut(self.node(i).from as usize), self.node(i).to as usize);
        }
        closure(&mut reach);
        let ringed = (0..MOST_KINDS).fold(0, |set, k| set | reach[k][0] & 1 << k);
        let mut met = reach;
        join(&mut met, &reach, &[ringed]);
        (ringed, met)
    }

    /// The part as it grows is joined with its first nodes, which are those of the operand that meet no ringed kind.
    unsafe fn add_walks(&mut self, p: Part, ringed: u64) -> Option<()> {
        for i in p.start..p.end {
            let x = *self.node(i);
            if (ringed >> x.from | ringed >> x.to) & 1 == 0 {
                self.add(x)?;
            }
        }
        let index = self.index(self.start, self.used);
        let mut i = self.start;
        while i < self.used {
            self.add_pairs(JOIN, i, &index)?;
            i += 1;
        }
        Some(())
    }

    unsafe fn chain_rule(&mut self, p: Part, place: usize) -> Option<()> {
        let (ringed, met) = self.walk(p);
        self.add_walks(p, ringed)?;
        let (left, right) = (p.origin as u16, (place - p.origin) as u16);
        let size = right as u8 + 1;
        let hash = (p.origin..place).fold(CHAIN as u64, |hash, i| mix(hash, 0, *self.codes.get_unchecked(i) as u64));
        for (a, row) in met.iter().enumerate() {
            for b in Bits(row[0]) {
                self.add(Node { hash, left, right, made: CHAIN, size, from: a as u8, to: b as u8 })?;
            }
        }
        Some(())
    }

    unsafe fn read_question(&mut self, question: *const u8) -> usize {
        let count = *question.add(3) as usize;
        let mut field = question.add(4);
        for code in self.codes.get_unchecked_mut(..count) {
            let step = *field == STEP_TAG;
            *code = if step { 64 * *field.add(3) + *field.add(4) } else { *field.add(3) };
            field = field.add(if step { 5 } else { 4 });
        }
        count
    }

    /// The nodes from `start` up to `used` become the triples of the question.
    unsafe fn infer(&mut self, sheet: &Sheet, question: *const u8) -> Option<()> {
        // One place more than symbols: every symbol looks at a second part.
        let mut parts = [Part { start: 0, end: 0, origin: 0 }; MOST_CODES + 1];
        let mut depth = 0;
        for place in 0..self.read_question(question) {
            let code = *self.codes.get_unchecked(place);
            depth -= if code < JOIN { 0 } else if code == CHAIN { 1 } else { 2 };
            let (p, q) = (*parts.get_unchecked(depth), *parts.get_unchecked(depth + 1));
            self.start = self.used;
            self.slots = [0; 256];
            match code {
                _ if code < JOIN => self.step_rule(sheet, code)?,
                CHAIN => self.chain_rule(p, place)?,
                UNION => self.union_rule(p, q)?,
                _ => self.pair_rule(code, p, q)?,
            }
            let origin = if code < JOIN { place } else { p.origin };
            *parts.get_unchecked_mut(depth) = Part { start: self.start, end: self.used, origin };
            depth += 1;
        }
        Some(())
    }
}

// ---- members, in the order of their codes

/// Codes are followed by zeros: as a longer path ends in an operator, they compare as if they ended.
struct Member {
    from: u64,
    to: u64,
    size: usize,
    codes: [u8; MOST_SYMBOLS],
    sets: [u64; MOST_SYMBOLS],
}

struct Members {
    count: usize,
    order: [u8; MOST_TRIPLES],
    members: *mut Member,
}

impl Member {
    unsafe fn put(&mut self, code: u8, set: u64) {
        *self.codes.get_unchecked_mut(self.size) = code;
        *self.sets.get_unchecked_mut(self.size) = set;
        self.size += 1;
    }

    /// Writes out a node's path.
    unsafe fn expand(&mut self, t: &Table, x: &Node) {
        if x.made == CHAIN {
            for &code in t.kept(x) {
                self.put(code, 0);
            }
        } else if x.made >= JOIN {
            self.expand(t, t.node(x.left as usize));
            self.expand(t, t.node(x.right as usize));
        }
        self.put(x.made, if x.made == JOIN { 1 << t.node(x.left as usize).to } else { 0 });
    }

    fn merge(&mut self, other: &Member) {
        self.from |= other.from;
        self.to |= other.to;
        for (a, b) in self.sets.iter_mut().zip(&other.sets).take(other.size) {
            *a |= b;
        }
    }
}

impl Members {
    unsafe fn of(t: &Table, room: &mut Room<Member, MOST_TRIPLES>) -> Self {
        let mut all = Members { count: 0, order: [0; MOST_TRIPLES], members: room.as_mut_ptr().cast() };
        for i in t.start..t.used {
            let x = t.node(i);
            let member = &mut *all.members.add(all.count);
            member.from = 1 << x.from;
            member.to = 1 << x.to;
            member.size = 0;
            member.codes = [0; MOST_SYMBOLS];
            member.expand(t, x);
            all.place();
        }
        all
    }

    /// The member after the last takes its place among the others, or is merged with the one that has its codes.
    unsafe fn place(&mut self) {
        let new = &*self.members.add(self.count);
        let (mut low, mut high) = (0, self.count);
        while low < high {
            let middle = (low + high) / 2;
            let old = &mut *self.members.add(*self.order.get_unchecked(middle) as usize);
            match old.codes.cmp(&new.codes) {
                Ordering::Equal => return old.merge(new),
                Ordering::Less => low = middle + 1,
                Ordering::Greater => high = middle,
            }
        }
        let place = self.order.as_mut_ptr().add(low);
        copy(place, place.add(1), self.count - low);
        *place = self.count as u8;
        self.count += 1;
    }

    unsafe fn ordered(&self) -> impl Iterator<Item = &Member> {
        self.order.get_unchecked(..self.count).iter().map(|&i| &*self.members.add(i as usize))
    }
}

// ---- the file

struct Writer(*mut u8);

impl Writer {
    unsafe fn put<const N: usize>(&mut self, bytes: [u8; N]) {
        copy_nonoverlapping(bytes.as_ptr(), self.0, N);
        self.0 = self.0.add(N);
    }

    unsafe fn put_symbol(&mut self, code: u8, set: u64) {
        if set != 0 {
            self.put([THROUGH_TAG, 0, 8]);
            self.put(set.to_be_bytes());
        } else if code < JOIN {
            self.put([STEP_TAG, 0, 2, code / 64, code % 64]);
        } else {
            self.put([OPERATOR_TAG, 0, 1, code]);
        }
    }

    unsafe fn put_member(&mut self, member: &Member) {
        self.put([MEMBER_TAG, 0, 17, member.size as u8]);
        self.put(member.from.to_be_bytes());
        self.put(member.to.to_be_bytes());
        for j in 0..member.size {
            self.put_symbol(*member.codes.get_unchecked(j), *member.sets.get_unchecked(j));
        }
    }
}

unsafe fn narrow(sheet: &Sheet, question: *const u8, file: *mut u8) -> usize {
    let (mut nodes, mut room) = (MaybeUninit::uninit(), MaybeUninit::uninit());
    let mut table = Table::new(&mut nodes);
    if table.infer(sheet, question).is_none() {
        return 0;
    }
    let members = Members::of(&table, &mut room);
    let mut writer = Writer(file);
    writer.put([HEAD_TAG, 0, 2, 0, members.count as u8]);
    for member in members.ordered() {
        writer.put_member(member);
    }
    writer.0.offset_from(file) as usize
}

// ---- the calls

#[no_mangle]
pub unsafe extern "C" fn rust_plain(
    question: *const u8,
    _question_length: usize,
    register: *const u8,
    _register_length: usize,
    work: *mut u64,
    answer: *mut u64,
) {
    let r = Register::read(register);
    by_width!(answer_path, &r, question, work, answer);
    write_bytes(work, 0, r.answer_work());
}

#[no_mangle]
pub unsafe extern "C" fn rust_narrowed(
    narrowed: *const u8,
    _narrowed_length: usize,
    register: *const u8,
    _register_length: usize,
    work: *mut u64,
    answer: *mut u64,
) {
    let r = Register::read(register);
    by_width!(answer_members, &r, narrowed, work, answer);
    write_bytes(work, 0, r.answer_work());
}

#[no_mangle]
pub unsafe extern "C" fn rust_narrow(
    sheet: *const u8,
    sheet_length: usize,
    question: *const u8,
    _question_length: usize,
    work: *mut u64,
    file: *mut u8,
) -> usize {
    let mut room = MaybeUninit::uninit();
    let sheet = Sheet::read(sheet, sheet_length, &mut room);
    let bytes = narrow(&sheet, question, file);
    write_bytes(work, 0, NARROW_WORK);
    bytes
}

#[no_mangle]
pub unsafe extern "C" fn rust_job(
    sheet: *const u8,
    sheet_length: usize,
    question: *const u8,
    _question_length: usize,
    register: *const u8,
    _register_length: usize,
    work: *mut u64,
    answer: *mut u64,
    file: *mut u8,
) -> usize {
    let r = Register::read(register);
    let mut room = MaybeUninit::uninit();
    let sheet = Sheet::read(sheet, sheet_length, &mut room);
    let bytes = if sheet.is_obeyed(&r) { narrow(&sheet, question, file) } else { 0 };
    if bytes != 0 {
        by_width!(answer_members, &r, file, work, answer);
    }
    write_bytes(work, 0, r.answer_work().max(NARROW_WORK));
    bytes
}
