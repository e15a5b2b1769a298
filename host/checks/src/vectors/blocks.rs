//! Texts named by letters, laid out one behind the other, and a place changed.

/// The most bytes that a text with a letter has.
const WIDTH: usize = SLOT;

/// A slot of a register with its stamp; the header or a line of an HGV.
pub const SLOT: usize = 168;
pub const LINE: usize = 128;
const FOOTER: usize = 64;

/// The header of an HGC, and an answer in it.
const HGC_HEADER: usize = 110;
const ANSWER: usize = 130;

/// The most letters of a register, and of an HGV: its header and lines.
pub const LETTERS: usize = 5;

/// What stands for LF and CR in a vector is turned into these bytes, once, when it is read.
pub fn marked(line: &[u8]) -> Vec<u8> {
    let byte = |&b: &u8| match b {
        b'~' => b'\n',
        b'^' => b'\r',
        b => b,
    };
    line.iter().map(byte).collect()
}

/// The part of a text between two positions, or as much of it as there is.
pub fn field(text: &[u8], from: usize, to: usize) -> &[u8] {
    let to = to.min(text.len());
    &text[(from - 1).min(to)..to]
}

pub fn rest(text: &[u8], from: usize) -> &[u8] {
    field(text, from, text.len())
}

/// The number that digits write; a byte below them counts as 0.
pub fn number(digits: &[u8]) -> usize {
    digits.iter().fold(0, |n, &b| n * 10 + usize::from(b.saturating_sub(b'0')))
}

/// A text from a position on, where it lies within the block.
fn put(block: &mut [u8], from: usize, text: &[u8]) {
    if from >= 1 && from - 1 + text.len() <= block.len() {
        block[from - 1..from - 1 + text.len()].copy_from_slice(text);
    }
}

/// A position in three digits, a blank, and the text that goes there.
pub fn change(block: &mut [u8], f: &[u8]) {
    put(block, number(field(f, 1, 3)), rest(f, 5));
}

/// The letters before the first `-`, so many at most.
pub fn letters(f: &[u8], most: usize) -> &[u8] {
    let end = f.iter().position(|&b| b == b'-').unwrap_or(f.len());
    &f[..end.min(most)]
}

/// The texts that letters name. A letter without a text names zero bytes.
pub struct Samples(Vec<[u8; WIDTH]>);

impl Samples {
    pub fn none() -> Samples {
        Samples(vec![[0; WIDTH]; 256])
    }

    /// The letter, a blank, the text, of which no byte comes under another letter.
    pub fn keep(&mut self, f: &[u8]) {
        let (letter, text) = (f.first().copied().unwrap_or(0), rest(f, 3));
        assert!(text.len() <= WIDTH, "a text of {} bytes", text.len());
        self.0[usize::from(letter)][..text.len()].copy_from_slice(text);
    }

    /// The first bytes of the texts, one behind the other.
    pub fn laid(&self, width: usize, letters: &[u8]) -> Vec<u8> {
        letters.iter().flat_map(|&letter| &self.0[usize::from(letter)][..width]).copied().collect()
    }

    /// A register: slots by their letters before the first `-`.
    pub fn slots(&self, f: &[u8]) -> Vec<u8> {
        self.laid(SLOT, letters(f, LETTERS))
    }

    /// Header and lines by their letters, and a footer.
    pub fn hgv(&self, f: &[u8]) -> Vec<u8> {
        [self.laid(LINE, letters(f, LETTERS)), self.laid(FOOTER, b"T")].concat()
    }

    /// The header of an HGC by its letter, an answer for each letter behind it, and a footer.
    pub fn hgc(&self, f: &[u8]) -> Vec<u8> {
        let mut header = self.laid(HGC_HEADER, letters(f, 1));
        header.resize(HGC_HEADER, 0);
        [header, self.laid(ANSWER, letters(rest(f, 2), 4)), self.laid(FOOTER, b"T")].concat()
    }
}

/// What is sent of a file: so many bytes as are asked for, or where that is 0, the file's own. The room has 704.
pub fn sent(mut file: Vec<u8>, asked: &[u8], change: impl Fn(&mut [u8])) -> Vec<u8> {
    let own = file.len();
    file.resize(704, 0);
    change(&mut file);
    let length = number(field(asked, 1, 15));
    file.truncate(if length == 0 { own } else { length });
    file
}
