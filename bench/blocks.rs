//! A text that is loaded in part, as a list of sections in blocks, which are in groups. A hole keeps only how many gaps it has.

use std::mem;

/// The most runes of a loaded section.
const MOST_RUNES: usize = 512;
/// The most sections of a block.
const MOST_SECTIONS: usize = 32;
/// The most blocks of a group.
const MOST_BLOCKS: usize = 64;
/// The most sections that come in at once.
const MOST_NEW: usize = 2;

/// 1 to `MOST_RUNES` runes that are loaded, or a hole with so many gaps, at least one. Two holes are never neighbours.
enum Section {
    Loaded(Vec<char>),
    Hole(u32),
}

/// Stretches of a text in order, none of them empty.
struct Row<T> {
    parts: Vec<T>,
    /// The sum of their lengths.
    len: u32,
}

type Block = Row<Section>;
type Group = Row<Block>;

/// A list of sections in blocks.
pub struct Blocks {
    groups: Row<Group>,
}

/// Where a place stands: in which section, and how far from its start.
struct Spot {
    group: usize,
    block: usize,
    section: usize,
    at: u32,
}

/// A stretch of a text.
trait Part {
    /// How many runes and gaps it has.
    fn len(&self) -> u32;

    /// Takes `n` runes and gaps out. Returns whether two sections meet there that could be one.
    fn cut(&mut self, at: u32, n: u32) -> bool;
}

impl Part for Section {
    fn len(&self) -> u32 {
        match self {
            Section::Loaded(runes) => runes.len() as u32,
            Section::Hole(count) => *count,
        }
    }

    fn cut(&mut self, at: u32, n: u32) -> bool {
        match self {
            Section::Loaded(runes) => drop(runes.drain(at as usize..(at + n) as usize)),
            Section::Hole(count) => *count -= n,
        }
        at == 0 || at == self.len()
    }
}

impl<T: Part> Part for Row<T> {
    fn len(&self) -> u32 {
        self.len
    }

    fn cut(&mut self, at: u32, n: u32) -> bool {
        self.len -= n;
        let (mut index, at) = find(&self.parts, at);
        let mut left = n;
        if at > 0 {
            let part = &mut self.parts[index];
            let count = left.min(part.len() - at);
            let may_join = part.cut(at, count);
            if count == n {
                return may_join;
            }
            left -= count;
            index += 1;
        }
        let (whole, left) = find(&self.parts[index..], left);
        self.parts.drain(index..index + whole);
        if left > 0 {
            self.parts[index].cut(0, left);
        }
        true
    }
}

/// The index of the part in which place `p` stands, and the place in that.
fn find<T: Part>(parts: &[T], mut p: u32) -> (usize, u32) {
    for (index, part) in parts.iter().enumerate() {
        if p < part.len() {
            return (index, p);
        }
        p -= part.len();
    }
    (parts.len(), p)
}

impl Section {
    fn loaded(runes: &[char]) -> Section {
        Section::Loaded(runes.to_vec())
    }

    /// Puts runes in if it is loaded and has room for them. Returns whether it did.
    fn insert(&mut self, at: u32, more: &[char]) -> bool {
        match self {
            Section::Loaded(runes) if runes.len() + more.len() <= MOST_RUNES => {
                runes.extend_from_slice(more);
                runes[at as usize..].rotate_right(more.len());
                true
            }
            _ => false,
        }
    }

    /// Takes in what stands in the next section, if both are of one sort and there is room. Returns whether it did.
    fn absorb(&mut self, next: &Section) -> bool {
        match (self, next) {
            (Section::Hole(count), Section::Hole(more)) => {
                *count += more;
                true
            }
            (section, Section::Loaded(more)) => section.insert(section.len(), more),
            _ => false,
        }
    }

    /// Keeps what stands before a place in it, and returns the rest.
    fn split_off(&mut self, at: u32) -> Section {
        match self {
            Section::Loaded(runes) => Section::Loaded(runes.split_off(at as usize)),
            Section::Hole(count) => Section::Hole(mem::replace(count, at) - at),
        }
    }
}

impl<T: Part> Row<T> {
    fn new() -> Row<T> {
        Row { parts: Vec::new(), len: 0 }
    }

    fn one(part: T) -> Row<T> {
        let len = part.len();
        Row { parts: vec![part], len }
    }

    /// Keeps half of the parts, and returns the others.
    fn halve(&mut self) -> Row<T> {
        let half = self.parts.len() / 2;
        let parts = self.parts.split_off(half);
        let len = parts.iter().map(Part::len).sum();
        self.len -= len;
        Row { parts, len }
    }
}

impl<T: Part> Row<Row<T>> {
    /// Cuts a part in halves if it has no room for more.
    fn limit(&mut self, index: usize, most: usize) {
        if self.parts[index].parts.len() > most - MOST_NEW {
            let back = self.parts[index].halve();
            self.parts.insert(index + 1, back);
        }
    }
}

impl Blocks {
    pub fn gaps(count: u32) -> Blocks {
        let mut text = Blocks { groups: Row::new() };
        if count > 0 {
            text.begin(Section::Hole(count));
        }
        text
    }

    fn begin(&mut self, section: Section) {
        self.groups = Row::one(Row::one(Row::one(section)));
    }

    pub fn len(&self) -> u32 {
        self.groups.len
    }

    /// Where a place before the end stands.
    fn find(&self, p: u32) -> Spot {
        let (group, at) = find(&self.groups.parts, p);
        let blocks = &self.groups.parts[group].parts;
        let (block, at) = find(blocks, at);
        let (section, at) = find(&blocks[block].parts, at);
        Spot { group, block, section, at }
    }

    fn sections(&self, spot: &Spot) -> &[Section] {
        &self.groups.parts[spot.group].parts[spot.block].parts
    }

    fn sections_mut(&mut self, spot: &Spot) -> &mut Vec<Section> {
        &mut self.groups.parts[spot.group].parts[spot.block].parts
    }

    /// The sections from a place on.
    fn sections_from(&self, spot: &Spot) -> impl Iterator<Item = &Section> {
        let groups = &self.groups.parts[spot.group + 1..];
        let blocks = &self.groups.parts[spot.group].parts[spot.block + 1..];
        let blocks = blocks.iter().chain(groups.iter().flat_map(|group| &group.parts));
        self.sections(spot)[spot.section..].iter().chain(blocks.flat_map(|block| &block.parts))
    }

    /// The first stretch of gaps between two places: where it begins, and how many they are.
    pub fn first_gaps(&self, from: u32, to: u32) -> Option<(u32, u32)> {
        let to = to.min(self.len());
        if from >= to {
            return None;
        }
        let spot = self.find(from);
        let mut start = from - spot.at;
        for section in self.sections_from(&spot) {
            let end = start + section.len();
            if matches!(section, Section::Hole(_)) {
                let start = start.max(from);
                return Some((start, end.min(to) - start));
            }
            if end >= to {
                break;
            }
            start = end;
        }
        None
    }

    /// Counts `n` more runes and gaps where a place stands.
    fn lengthen(&mut self, spot: &Spot, n: u32) {
        let group = &mut self.groups.parts[spot.group];
        group.parts[spot.block].len += n;
        group.len += n;
        self.groups.len += n;
    }

    /// Puts sections in, whose runes and gaps are counted already, before the section of an index.
    fn put<const N: usize>(&mut self, spot: &Spot, index: usize, new: [Section; N]) {
        let group = &mut self.groups.parts[spot.group];
        let sections = &mut group.parts[spot.block].parts;
        sections.extend(new);
        sections[index..].rotate_right(N);
        group.limit(spot.block, MOST_SECTIONS);
        self.groups.limit(spot.group, MOST_BLOCKS);
    }

    /// Joins the two sections that meet at a place, if that can be.
    fn join(&mut self, p: u32) {
        if p == 0 || p == self.len() {
            return;
        }
        let before = self.find(p - 1);
        let spot = self.find(p);
        let section = &mut self.sections_mut(&spot)[spot.section];
        let count = section.len();
        // A hole of its length keeps its place.
        let next = mem::replace(section, Section::Hole(count));
        if self.sections_mut(&before)[before.section].absorb(&next) {
            self.lengthen(&before, count);
            self.groups.cut(p + count, count);
        } else {
            self.sections_mut(&spot)[spot.section] = next;
        }
    }

    /// Stores runes in existing places.
    pub fn data(&mut self, p: u32, runes: &[char]) {
        let mut p = p;
        let mut rest = runes;
        while !rest.is_empty() {
            let spot = self.find(p);
            let section = &mut self.sections_mut(&spot)[spot.section];
            let count = rest.len().min(MOST_RUNES).min((section.len() - spot.at) as usize);
            let (part, after) = rest.split_at(count);
            match section {
                Section::Loaded(text) => text[spot.at as usize..][..count].copy_from_slice(part),
                Section::Hole(_) => self.load(p, &spot, part),
            }
            p += count as u32;
            rest = after;
        }
    }

    /// Loads 1 to `MOST_RUNES` runes into one hole.
    fn load(&mut self, p: u32, spot: &Spot, runes: &[char]) {
        let count = runes.len() as u32;
        let sections = self.sections_mut(spot);
        let index = spot.section;
        let back = sections[index].len() - spot.at - count;
        if spot.at == 0 && back == 0 {
            sections[index] = Section::loaded(runes);
            if runes.len() < MOST_RUNES {
                self.join(p + count);
                self.join(p);
            }
        } else if spot.at == 0 {
            sections[index] = Section::Hole(back);
            let before = index.checked_sub(1).map(|before| &mut sections[before]);
            if !before.is_some_and(|before| before.insert(before.len(), runes)) {
                self.put(spot, index, [Section::loaded(runes)]);
            }
        } else if back == 0 {
            sections[index] = Section::Hole(spot.at);
            if !sections.get_mut(index + 1).is_some_and(|next| next.insert(0, runes)) {
                self.put(spot, index + 1, [Section::loaded(runes)]);
            }
        } else {
            sections[index] = Section::Hole(spot.at);
            self.put(spot, index + 1, [Section::loaded(runes), Section::Hole(back)]);
        }
    }

    /// Puts runes in.
    pub fn type_in(&mut self, p: u32, runes: &[char]) {
        let mut p = p;
        for part in runes.chunks(MOST_RUNES) {
            self.type_part(p, part);
            p += part.len() as u32;
        }
    }

    /// Puts 1 to `MOST_RUNES` runes in: into a section that is loaded and has room, else into one of their own.
    fn type_part(&mut self, p: u32, runes: &[char]) {
        if self.len() == 0 {
            return self.begin(Section::loaded(runes));
        }
        // Between two sections it is at the end of the first one.
        let spot = self.find(p.saturating_sub(1));
        let at = spot.at + p.min(1);
        self.lengthen(&spot, runes.len() as u32);
        let index = spot.section;
        let sections = self.sections_mut(&spot);
        let section = &mut sections[index];
        if section.insert(at, runes) {
            return;
        }
        if at == 0 {
            self.put(&spot, 0, [Section::loaded(runes)]);
        } else if at < section.len() {
            let back = section.split_off(at);
            if section.insert(at, runes) {
                self.put(&spot, index + 1, [back]);
            } else {
                self.put(&spot, index + 1, [Section::loaded(runes), back]);
            }
        } else if !sections.get_mut(index + 1).is_some_and(|next| next.insert(0, runes)) {
            self.put(&spot, index + 1, [Section::loaded(runes)]);
        }
    }

    /// Puts gaps in: into a hole that is there, else into a hole of their own.
    pub fn grow(&mut self, p: u32, n: u32) {
        if n == 0 {
            return;
        }
        if self.len() == 0 {
            return self.begin(Section::Hole(n));
        }
        let spot = self.find(p.saturating_sub(1));
        let at = spot.at + p.min(1);
        self.lengthen(&spot, n);
        let index = spot.section;
        let section = &mut self.sections_mut(&spot)[index];
        match section {
            Section::Hole(count) => *count += n,
            Section::Loaded(_) if at == 0 => self.put(&spot, 0, [Section::Hole(n)]),
            Section::Loaded(runes) if at as usize == runes.len() => {
                self.put(&spot, index + 1, [Section::Hole(n)]);
                self.join(p + n);
            }
            Section::Loaded(_) => {
                let back = section.split_off(at);
                self.put(&spot, index + 1, [Section::Hole(n), back]);
            }
        }
    }

    /// Takes runes and gaps out.
    pub fn cut(&mut self, p: u32, n: u32) {
        if n > 0 && self.groups.cut(p, n) {
            self.join(p);
        }
    }
}
