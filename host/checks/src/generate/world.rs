//! Providers and their issuer rows. The worlds are small, so that PANs meet again: in the
//! register, under another actor, twice in a file.

use super::rng::Rng;

const ACTORS: [&[u8]; 5] = [b"900123", b"900124", b"000002", b"000000", b"990001"];

#[derive(Clone)]
pub struct Row {
    pub bin: Vec<u8>,
    pub bin_id: usize,
    pub pan: usize,
    pub actor: Vec<u8>,
}

#[derive(Clone)]
pub struct World {
    pub rows: Vec<Row>,
}

pub fn padded(text: &[u8], width: usize) -> Vec<u8> {
    let mut field = text.to_vec();
    field.resize(width, b' ');
    field
}

impl Row {
    pub fn bytes(&self) -> Vec<u8> {
        let mut row = padded(&self.bin, 14);
        row.extend(format!("{:02}{:02}", self.bin_id, self.pan).bytes());
        row.extend(&self.actor);
        row
    }
}

fn row(rng: &mut Rng, actor: &[u8]) -> Row {
    let given = if rng.one_in(3) { rng.between(6, 14) } else { 8 };
    let front: &[u8] = rng.pick(&[b"979900", b"957800", b"000000"]);
    let mut bin = front.to_vec();
    bin.extend(rng.from_alphabet(b"01", given - 6));
    let bin_id = if rng.one_in(3) { rng.between(6, given) } else { given };
    let pan = match rng.below(4) {
        0 => bin_id + 1,
        1 => 19,
        2 => rng.between(bin_id + 1, 19),
        _ => 16.max(bin_id + 1),
    };
    Row { bin, bin_id, pan, actor: actor.to_vec() }
}

/// The digit that makes the sum a multiple of ten. Kept apart from the rule it serves: the
/// table is the doubled digit's own.
pub fn check_digit(front: &[u8]) -> u8 {
    const DOUBLED: [u32; 10] = [0, 2, 4, 6, 8, 1, 3, 5, 7, 9];
    let mut sum = 0;
    let mut doubled = true;
    for &digit in front.iter().rev() {
        let value = (digit - b'0') as usize;
        sum += if doubled { DOUBLED[value] } else { value as u32 };
        doubled = !doubled;
    }
    b'0' + ((10 - sum % 10) % 10) as u8
}

/// Digits with the right check digit: `front`, an account number, the check digit.
pub fn pan_of(front: &[u8], length: usize, account: usize) -> Vec<u8> {
    let mut pan = front.to_vec();
    let middle = length.saturating_sub(front.len() + 1);
    let account = format!("{account:019}").into_bytes();
    pan.extend(&account[19 - middle..]);
    pan.push(check_digit(&pan));
    pan
}

impl World {
    pub fn new(rng: &mut Rng) -> World {
        let mut rows: Vec<Row> = Vec::new();
        for actor in &ACTORS[..rng.between(2, 5)] {
            for _ in 0..rng.between(1, 3) {
                let mut row = row(rng, actor);
                if rng.one_in(4) && !rows.is_empty() {
                    row = Row { actor: actor.to_vec(), ..rows[rng.below(rows.len())].clone() };
                }
                rows.push(row);
            }
        }
        World { rows }
    }

    pub fn bytes(&self) -> Vec<u8> {
        self.rows.iter().flat_map(|row| row.bytes()).collect()
    }

    pub fn actor(&self, rng: &mut Rng) -> Vec<u8> {
        self.rows[rng.below(self.rows.len())].actor.clone()
    }

    pub fn row_of(&self, rng: &mut Rng, actor: &[u8]) -> Row {
        let own: Vec<&Row> = self.rows.iter().filter(|row| row.actor == actor).collect();
        match own.is_empty() {
            true => self.rows[rng.below(self.rows.len())].clone(),
            false => own[rng.below(own.len())].clone(),
        }
    }

    /// A PAN that L3, L4 and L5 let pass for the actor, 19 bytes.
    pub fn pan(&self, rng: &mut Rng, actor: &[u8], accounts: usize) -> Vec<u8> {
        let row = self.row_of(rng, actor);
        let account = rng.below(accounts);
        padded(&pan_of(&row.bin[..row.bin_id], row.pan, account), 19)
    }
}
