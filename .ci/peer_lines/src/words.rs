//! The words of a line.

/// The indices of a parent and a child, and the weight of an edge between them.
pub type Triple = (usize, usize, i64);

pub enum Command {
    Node(i64),
    Edge(Triple),
    Update(Triple),
    /// A node, the weight of an edge from it, and that of the edge's child.
    Child(usize, i64, i64),
    Parent(usize, i64, i64),
    Edges(Vec<Triple>),
    Find(usize, usize),
    Ends(usize),
    Children(usize),
    Parents(usize),
    RemoveNode(usize),
    RemoveEdge(usize),
    ClearEdges,
    Clear,
    Reduce(Vec<usize>),
    Json,
}

/// One to ten digits, of a number that 32 bits hold.
fn index(word: &&[u8]) -> Option<usize> {
    let is_short = (1..=10).contains(&word.len()) && word.iter().all(u8::is_ascii_digit);
    let number: u64 = std::str::from_utf8(word).ok().filter(|_| is_short)?.parse().ok()?;
    (number <= u64::from(u32::MAX)).then_some(number as usize)
}

/// One to nineteen digits, and a `-` before them if the number is negative.
fn weight(word: &&[u8]) -> Option<i64> {
    let digits = word.strip_prefix(b"-").unwrap_or(word);
    let is_short = (1..=19).contains(&digits.len()) && digits.iter().all(u8::is_ascii_digit);
    std::str::from_utf8(word).ok().filter(|_| is_short)?.parse().ok()
}

fn triple(words: &[&[u8]]) -> Option<Triple> {
    match words {
        [a, b, w] => Some((index(a)?, index(b)?, weight(w)?)),
        _ => None,
    }
}

/// The command of a line without its newline, if it has one.
pub fn command(line: &[u8]) -> Option<Command> {
    if line.len() > 4096 {
        return None;
    }
    let words: Vec<&[u8]> = line.split(|byte| *byte == b' ').filter(|word| !word.is_empty()).collect();
    let (name, rest) = words.split_first()?;
    Some(match (*name, rest) {
        (b"node", [w]) => Command::Node(weight(w)?),
        (b"edge", rest) => Command::Edge(triple(rest)?),
        (b"update", rest) => Command::Update(triple(rest)?),
        (b"child", [n, e, w]) => Command::Child(index(n)?, weight(e)?, weight(w)?),
        (b"parent", [n, e, w]) => Command::Parent(index(n)?, weight(e)?, weight(w)?),
        (b"edges", rest) => Command::Edges(rest.chunks(3).map(triple).collect::<Option<_>>()?),
        (b"find", [a, b]) => Command::Find(index(a)?, index(b)?),
        (b"ends", [e]) => Command::Ends(index(e)?),
        (b"children", [n]) => Command::Children(index(n)?),
        (b"parents", [n]) => Command::Parents(index(n)?),
        (b"rmnode", [n]) => Command::RemoveNode(index(n)?),
        (b"rmedge", [e]) => Command::RemoveEdge(index(e)?),
        (b"clearedges", []) => Command::ClearEdges,
        (b"clear", []) => Command::Clear,
        (b"reduce", rest) => Command::Reduce(rest.iter().map(index).collect::<Option<_>>()?),
        (b"json", []) => Command::Json,
        _ => return None,
    })
}
