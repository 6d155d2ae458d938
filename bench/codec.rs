//! Messages to bytes and back. A text is a list of runes, since places are counted in runes.

/// The most runes of a text that is typed or told of.
pub const MOST_IN_MESSAGE: usize = 512;

#[derive(Clone)]
pub enum Tmesg {
    Version(u16),
    StartCmdFile,
    Check(u16),
    Request(u16, u32, u16),
    Origin(u16, u32, u32),
    StartFile(u16),
    WorkFile(u16, u32, u32),
    Type(u16, u32, Vec<char>),
    Cut(u16, u32, u32),
    Paste(u16, u32),
    Snarf(u16, u32, u32),
    StartNewFile,
    Write(u16),
    Close(u16),
    Look(u16, u32, u32),
    Search(u16, u32, u32),
    Send(u16, u32, u32),
    Dclick(u16, u32),
    StartSnarf,
    SetSnarf(Vec<char>),
    Ack,
    Exit,
}

pub enum Hmesg {
    Version(u16),
    BindName(u16),
    Current(u16),
    NewName(u16),
    MovName(u16, Vec<char>),
    Grow(u16, u32, u32),
    Check(u16),
    Unlock,
    Data(u16, u32, Vec<char>),
    Origin(u16, u32),
    UnlockFile(u16),
    SetDot(u16, u32, u32),
    GrowData(u16, u32, Vec<char>),
    MoveTo(u16, u32),
    Clean(u16),
    Dirty(u16),
    Cut(u16, u32, u32),
    SetPat(Vec<char>),
    DelName(u16),
    Close(u16),
    SetSnarf(Vec<char>),
    SnarfLen(u32),
    Ack,
    Exit,
}

pub struct HFrame {
    pub seen: u64,
    pub msg: Hmesg,
}

trait Field: Sized {
    fn put(&self, out: &mut Vec<u8>);
    /// The value and what follows it.
    fn take(bytes: &[u8]) -> Option<(Self, &[u8])>;
}

macro_rules! numbers {
    ($($number:ty),*) => {$(
        impl Field for $number {
            fn put(&self, out: &mut Vec<u8>) {
                out.extend_from_slice(&self.to_be_bytes());
            }

            fn take(bytes: &[u8]) -> Option<($number, &[u8])> {
                let (first, rest) = bytes.split_first_chunk()?;
                Some((<$number>::from_be_bytes(*first), rest))
            }
        }
    )*};
}

numbers!(u16, u32, u64);

impl Field for Vec<char> {
    fn put(&self, out: &mut Vec<u8>) {
        for rune in self {
            if rune.is_ascii() {
                out.push(*rune as u8);
            } else {
                out.extend_from_slice(rune.encode_utf8(&mut [0; 4]).as_bytes());
            }
        }
    }

    fn take(bytes: &[u8]) -> Option<(Vec<char>, &[u8])> {
        let text = std::str::from_utf8(bytes).ok()?;
        Some((text.chars().collect(), &[]))
    }
}

/// A snarfed text is within its limit, which is one of bytes.
fn snarf_fits(text: &[char]) -> bool {
    text.iter().map(|rune| rune.len_utf8()).sum::<usize>() <= 32_000
}

/// Writes a frame: kind, length of the body, body.
fn put_frame(out: &mut Vec<u8>, kind: u8, body: impl FnOnce(&mut Vec<u8>)) {
    out.extend_from_slice(&[kind, 0, 0]);
    let start = out.len();
    body(out);
    let len = (out.len() - start) as u16;
    out[start - 2..start].copy_from_slice(&len.to_be_bytes());
}

pub fn encode_t(out: &mut Vec<u8>, message: &Tmesg) {
    macro_rules! frame {
        ($kind:literal $($field:ident)*) => { put_frame(out, $kind, |_out| { $($field.put(_out);)* }) };
    }
    match message {
        Tmesg::Version(v) => frame!(1 v),
        Tmesg::StartCmdFile => frame!(2),
        Tmesg::Check(t) => frame!(3 t),
        Tmesg::Request(t, p, n) => frame!(4 t p n),
        Tmesg::Origin(t, p, n) => frame!(5 t p n),
        Tmesg::StartFile(t) => frame!(6 t),
        Tmesg::WorkFile(t, p, q) => frame!(7 t p q),
        Tmesg::Type(t, p, text) => frame!(8 t p text),
        Tmesg::Cut(t, p, q) => frame!(9 t p q),
        Tmesg::Paste(t, p) => frame!(10 t p),
        Tmesg::Snarf(t, p, q) => frame!(11 t p q),
        Tmesg::StartNewFile => frame!(12),
        Tmesg::Write(t) => frame!(13 t),
        Tmesg::Close(t) => frame!(14 t),
        Tmesg::Look(t, p, q) => frame!(15 t p q),
        Tmesg::Search(t, p, q) => frame!(16 t p q),
        Tmesg::Send(t, p, q) => frame!(17 t p q),
        Tmesg::Dclick(t, p) => frame!(18 t p),
        Tmesg::StartSnarf => frame!(19),
        Tmesg::SetSnarf(text) => frame!(20 text),
        Tmesg::Ack => frame!(21),
        Tmesg::Exit => frame!(22),
    }
}

pub fn encode_h(out: &mut Vec<u8>, frame: &HFrame) {
    let seen = frame.seen;
    macro_rules! frame {
        ($kind:literal $($field:ident)*) => { put_frame(out, $kind, |out| { seen.put(out); $($field.put(out);)* }) };
    }
    match &frame.msg {
        Hmesg::Version(v) => frame!(65 v),
        Hmesg::BindName(t) => frame!(66 t),
        Hmesg::Current(t) => frame!(67 t),
        Hmesg::NewName(t) => frame!(68 t),
        Hmesg::MovName(t, name) => frame!(69 t name),
        Hmesg::Grow(t, p, n) => frame!(70 t p n),
        Hmesg::Check(t) => frame!(71 t),
        Hmesg::Unlock => frame!(72),
        Hmesg::Data(t, p, text) => frame!(73 t p text),
        Hmesg::Origin(t, p) => frame!(74 t p),
        Hmesg::UnlockFile(t) => frame!(75 t),
        Hmesg::SetDot(t, p, q) => frame!(76 t p q),
        Hmesg::GrowData(t, p, text) => frame!(77 t p text),
        Hmesg::MoveTo(t, p) => frame!(78 t p),
        Hmesg::Clean(t) => frame!(79 t),
        Hmesg::Dirty(t) => frame!(80 t),
        Hmesg::Cut(t, p, n) => frame!(81 t p n),
        Hmesg::SetPat(text) => frame!(82 text),
        Hmesg::DelName(t) => frame!(83 t),
        Hmesg::Close(t) => frame!(84 t),
        Hmesg::SetSnarf(text) => frame!(85 text),
        Hmesg::SnarfLen(n) => frame!(86 n),
        Hmesg::Ack => frame!(87),
        Hmesg::Exit => frame!(88),
    }
}

/// The text of a message is within the limit of its kind, in version 2.
pub fn fits_t(message: &Tmesg) -> bool {
    match message {
        Tmesg::Type(_, _, text) => text.len() <= MOST_IN_MESSAGE,
        Tmesg::SetSnarf(text) => snarf_fits(text),
        _ => true,
    }
}

pub fn fits_h(message: &Hmesg) -> bool {
    match message {
        Hmesg::MovName(_, name) => name.len() <= 64,
        Hmesg::Data(_, _, text) | Hmesg::GrowData(_, _, text) => text.len() <= MOST_IN_MESSAGE,
        Hmesg::SetPat(text) => text.len() <= 128,
        Hmesg::SetSnarf(text) => snarf_fits(text),
        _ => true,
    }
}

/// The fields of a body, which they fill.
macro_rules! fields {
    ($body:ident; $make:expr; $($field:ident: $type:ty),*) => {{
        let _rest: &[u8] = $body;
        $(let ($field, _rest) = <$type>::take(_rest)?;)*
        _rest.is_empty().then_some($make)
    }};
}

pub fn decode_t(kind: u8, body: &[u8]) -> Option<Tmesg> {
    let message = match kind {
        1 => fields!(body; Tmesg::Version(v); v: u16),
        2 => fields!(body; Tmesg::StartCmdFile; ),
        3 => fields!(body; Tmesg::Check(t); t: u16),
        4 => fields!(body; Tmesg::Request(t, p, n); t: u16, p: u32, n: u16),
        5 => fields!(body; Tmesg::Origin(t, p, n); t: u16, p: u32, n: u32),
        6 => fields!(body; Tmesg::StartFile(t); t: u16),
        7 => fields!(body; Tmesg::WorkFile(t, p, q); t: u16, p: u32, q: u32),
        8 => fields!(body; Tmesg::Type(t, p, text); t: u16, p: u32, text: Vec<char>),
        9 => fields!(body; Tmesg::Cut(t, p, q); t: u16, p: u32, q: u32),
        10 => fields!(body; Tmesg::Paste(t, p); t: u16, p: u32),
        11 => fields!(body; Tmesg::Snarf(t, p, q); t: u16, p: u32, q: u32),
        12 => fields!(body; Tmesg::StartNewFile; ),
        13 => fields!(body; Tmesg::Write(t); t: u16),
        14 => fields!(body; Tmesg::Close(t); t: u16),
        15 => fields!(body; Tmesg::Look(t, p, q); t: u16, p: u32, q: u32),
        16 => fields!(body; Tmesg::Search(t, p, q); t: u16, p: u32, q: u32),
        17 => fields!(body; Tmesg::Send(t, p, q); t: u16, p: u32, q: u32),
        18 => fields!(body; Tmesg::Dclick(t, p); t: u16, p: u32),
        19 => fields!(body; Tmesg::StartSnarf; ),
        20 => fields!(body; Tmesg::SetSnarf(text); text: Vec<char>),
        21 => fields!(body; Tmesg::Ack; ),
        22 => fields!(body; Tmesg::Exit; ),
        _ => None,
    }?;
    fits_t(&message).then_some(message)
}

pub fn decode_h(kind: u8, body: &[u8]) -> Option<HFrame> {
    let (seen, body) = u64::take(body)?;
    let msg = match kind {
        65 => fields!(body; Hmesg::Version(v); v: u16),
        66 => fields!(body; Hmesg::BindName(t); t: u16),
        67 => fields!(body; Hmesg::Current(t); t: u16),
        68 => fields!(body; Hmesg::NewName(t); t: u16),
        69 => fields!(body; Hmesg::MovName(t, name); t: u16, name: Vec<char>),
        70 => fields!(body; Hmesg::Grow(t, p, n); t: u16, p: u32, n: u32),
        71 => fields!(body; Hmesg::Check(t); t: u16),
        72 => fields!(body; Hmesg::Unlock; ),
        73 => fields!(body; Hmesg::Data(t, p, text); t: u16, p: u32, text: Vec<char>),
        74 => fields!(body; Hmesg::Origin(t, p); t: u16, p: u32),
        75 => fields!(body; Hmesg::UnlockFile(t); t: u16),
        76 => fields!(body; Hmesg::SetDot(t, p, q); t: u16, p: u32, q: u32),
        77 => fields!(body; Hmesg::GrowData(t, p, text); t: u16, p: u32, text: Vec<char>),
        78 => fields!(body; Hmesg::MoveTo(t, p); t: u16, p: u32),
        79 => fields!(body; Hmesg::Clean(t); t: u16),
        80 => fields!(body; Hmesg::Dirty(t); t: u16),
        81 => fields!(body; Hmesg::Cut(t, p, n); t: u16, p: u32, n: u32),
        82 => fields!(body; Hmesg::SetPat(text); text: Vec<char>),
        83 => fields!(body; Hmesg::DelName(t); t: u16),
        84 => fields!(body; Hmesg::Close(t); t: u16),
        85 => fields!(body; Hmesg::SetSnarf(text); text: Vec<char>),
        86 => fields!(body; Hmesg::SnarfLen(n); n: u32),
        87 => fields!(body; Hmesg::Ack; ),
        88 => fields!(body; Hmesg::Exit; ),
        _ => None,
    }?;
    fits_h(&msg).then_some(HFrame { seen, msg })
}

/// The first frame's kind and body, and what follows.
pub fn split(bytes: &[u8]) -> Option<(u8, &[u8], &[u8])> {
    let ([kind, high, low], rest) = bytes.split_first_chunk()?;
    let (body, rest) = rest.split_at_checked(u16::from_be_bytes([*high, *low]) as usize)?;
    Some((*kind, body, rest))
}
