//! Page 02's exercise books and salvage, written down plainly: no part of it is shared with the proved library.

use super::BLOCK;

/// A field: what a book is about.
#[derive(Clone, PartialEq, Eq, Debug)]
pub struct Field {
    pub exercise: u16,
    pub kind: u8,
    pub payload: Vec<u8>,
}

const MOST: usize = 65_536;

/// What a block says of itself.
#[derive(Clone, Copy, PartialEq, Eq, Debug)]
pub struct Head {
    pub exercise: u16,
    pub kind: u8,
    pub part: u16,
}

fn pair(block: &[u8], at: usize) -> u16 {
    u16::from_le_bytes([block[at], block[at + 1]])
}

fn word(block: &[u8], k: usize) -> u32 {
    u32::from_le_bytes(block[4 * k..4 * k + 4].try_into().expect("four bytes"))
}

/// The sum modulo 2^32 of the first 127 words and the place, counted from 1.
pub fn check(block: &[u8], place: usize) -> u32 {
    (0..127).fold(place as u32, |sum, k| sum.wrapping_add(word(block, k)))
}

pub fn head(block: &[u8]) -> Head {
    Head { exercise: pair(block, 0), kind: block[2], part: pair(block, 4) }
}

pub fn size(block: &[u8]) -> usize {
    pair(block, 6) as usize
}

/// A block with its check made.
pub fn block(head: Head, payload: &[u8], place: usize) -> Vec<u8> {
    let mut block = vec![0; BLOCK];
    block[..2].copy_from_slice(&head.exercise.to_le_bytes());
    block[2] = head.kind;
    block[4..6].copy_from_slice(&head.part.to_le_bytes());
    block[6..8].copy_from_slice(&(payload.len() as u16).to_le_bytes());
    block[8..8 + payload.len()].copy_from_slice(payload);
    let sum = check(&block, place);
    block[508..].copy_from_slice(&sum.to_le_bytes());
    block
}

/// The book of the fields, or 45 or 46.
pub fn write(fields: &[Field]) -> Result<Vec<u8>, u32> {
    let mut before: Option<&Field> = None;
    for field in fields {
        let higher = before.is_none_or(|b| (b.exercise, b.kind) < (field.exercise, field.kind));
        if field.payload.is_empty() || !(1..=7).contains(&field.kind) || !higher {
            return Err(45);
        }
        before = Some(field);
    }
    if fields.iter().map(|field| field.payload.len().div_ceil(500)).sum::<usize>() > MOST {
        return Err(46);
    }
    let mut book = Vec::new();
    for field in fields {
        for (part, bytes) in field.payload.chunks(500).enumerate() {
            let head = Head { exercise: field.exercise, kind: field.kind, part: part as u16 };
            let place = book.len() / BLOCK + 1;
            book.extend(block(head, bytes, place));
        }
    }
    Ok(book)
}

fn in_turn(before: Option<Head>, head: Head) -> bool {
    match before {
        None => head.part == 0,
        Some(b) => {
            let next = (b.exercise, b.kind) == (head.exercise, head.kind)
                && head.part as u32 == b.part as u32 + 1;
            let higher =
                head.exercise > b.exercise || (head.exercise == b.exercise && head.kind > b.kind);
            next || (head.part == 0 && higher)
        }
    }
}

/// The lowest fault of a block, or 0.
pub fn fault(block: &[u8], place: usize, before: Option<Head>) -> u32 {
    if word(block, 127) != check(block, place) {
        return 41;
    }
    let size = size(block);
    let formed = (1..=7).contains(&block[2])
        && block[3] == 0
        && (1..=500).contains(&size)
        && block[8 + size..508].iter().all(|byte| *byte == 0);
    if !formed {
        return 42;
    }
    if in_turn(before, head(block)) { 0 } else { 43 }
}

/// The fields of a book, or 40 to 43.
pub fn read(book: &[u8]) -> Result<Vec<Field>, u32> {
    if book.len() % BLOCK != 0 || book.len() / BLOCK > MOST {
        return Err(40);
    }
    let (mut fields, mut before) = (Vec::<Field>::new(), None);
    for (i, block) in book.chunks(BLOCK).enumerate() {
        match fault(block, i + 1, before) {
            0 => {}
            number => return Err(number),
        }
        let (h, bytes) = (head(block), &block[8..8 + size(block)]);
        match fields.last_mut() {
            Some(field) if h.part > 0 => field.payload.extend_from_slice(bytes),
            _ => fields.push(Field { exercise: h.exercise, kind: h.kind, payload: bytes.to_vec() }),
        }
        before = Some(h);
    }
    Ok(fields)
}

/// The new book and the list, or 40: nearest good blocks are looked for one by one.
pub fn salvage(book: &[u8]) -> Result<(Vec<u8>, Vec<u8>), u32> {
    if book.len() % BLOCK != 0 || book.len() / BLOCK > MOST {
        return Err(40);
    }
    let blocks: Vec<&[u8]> = book.chunks(BLOCK).collect();
    let (mut list, mut before) = (Vec::new(), None);
    for (i, block) in blocks.iter().enumerate() {
        let number = fault(block, i + 1, before);
        if number == 0 {
            before = Some(head(block));
        }
        list.push(number as u8);
    }
    let mut spoiled = std::collections::HashSet::new();
    for i in (0..blocks.len()).filter(|i| list[*i] != 0) {
        let nearest_before = (0..i).rev().find(|j| list[*j] == 0);
        let nearest_after = (i + 1..blocks.len()).find(|j| list[*j] == 0);
        spoiled.extend(
            nearest_before.into_iter().chain(nearest_after).map(|j| head(blocks[j]).exercise),
        );
        if list[i] == 43 {
            spoiled.insert(head(blocks[i]).exercise);
        }
    }
    let mut new = Vec::new();
    for (i, old) in blocks.iter().enumerate() {
        if list[i] != 0 {
            continue;
        }
        if spoiled.contains(&head(old).exercise) {
            list[i] = 44;
            continue;
        }
        let place = new.len() / BLOCK + 1;
        new.extend(block(head(old), &old[8..8 + size(old)], place));
    }
    Ok((new, list))
}
