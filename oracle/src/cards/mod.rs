//! Logs on cards, read, mended and written from the wording of the request, over whole cards and whole stretches.

pub mod compare;
pub mod generate;
pub mod text;

pub const BLOCK: usize = 512;
pub const MOST_RECORDS: usize = 21;

#[derive(Clone, Debug, PartialEq, Eq)]
pub struct Record {
    pub stamp: u32,
    pub predicate: u32,
    pub values: Vec<u32>,
    pub last: bool,
}

#[derive(Clone, Debug, PartialEq, Eq)]
pub struct Block {
    pub number: u32,
    pub records: Vec<Record>,
}

#[derive(Clone, Copy, Debug, PartialEq, Eq)]
pub enum Reason {
    Check,
    Shape,
    Number,
}

/// A moment is its records; where the monitor starts anew, another stretch of moments begins.
pub type Stretch = Vec<Vec<Record>>;

/// A line of the list: none where the block is kept, and the count of records dropped.
pub type Line = (Option<Reason>, usize);

/// "two sums modulo 255 from 0: the first adds each of bytes 0 to 509, the second adds the first sum after each"
pub fn check(bytes: &[u8]) -> [u8; 2] {
    let (mut first, mut second) = (0u32, 0u32);
    for byte in bytes {
        first = (first + u32::from(*byte)) % 255;
        second = (second + first) % 255;
    }
    [first as u8, second as u8]
}

fn number(bytes: &[u8]) -> u32 {
    u32::from_le_bytes(bytes.try_into().expect("four bytes"))
}

/// One record's 24 bytes, or none where they have a bad shape.
fn record(bytes: &[u8]) -> Option<Record> {
    let (count, flag) = (usize::from(bytes[8]), bytes[9]);
    if count > 3 || flag > 1 || bytes[10..12] != [0, 0] {
        return None;
    }
    let (used, unused) = bytes[12..24].split_at(4 * count);
    unused.iter().all(|byte| *byte == 0).then(|| Record {
        stamp: number(&bytes[..4]),
        predicate: number(&bytes[4..8]),
        values: used.chunks(4).map(number).collect(),
        last: flag == 1,
    })
}

/// One piece by itself.
pub fn block(piece: &[u8]) -> Result<Block, Reason> {
    if piece.len() != BLOCK {
        return Err(Reason::Shape);
    }
    if check(&piece[..510]) != piece[510..] {
        return Err(Reason::Check);
    }
    let count = usize::from(piece[1]);
    if piece[0] != 75 || count > MOST_RECORDS {
        return Err(Reason::Shape);
    }
    let (used, unused) = piece[6..510].split_at(24 * count);
    if unused.iter().any(|byte| *byte != 0) {
        return Err(Reason::Shape);
    }
    let records: Option<Vec<Record>> = used.chunks(24).map(record).collect();
    Ok(Block {
        number: number(&piece[2..6]),
        records: records.ok_or(Reason::Shape)?,
    })
}

pub fn bytes_of(block: &Block) -> Vec<u8> {
    let mut bytes = vec![75, block.records.len() as u8];
    bytes.extend(block.number.to_le_bytes());
    for record in &block.records {
        let end = bytes.len() + 24;
        bytes.extend(record.stamp.to_le_bytes());
        bytes.extend(record.predicate.to_le_bytes());
        bytes.extend([record.values.len() as u8, u8::from(record.last), 0, 0]);
        bytes.extend(record.values.iter().flat_map(|value| value.to_le_bytes()));
        bytes.resize(end, 0);
    }
    bytes.resize(510, 0);
    let check = check(&bytes);
    bytes.extend(check);
    bytes
}

pub fn card_of(blocks: &[Block]) -> Vec<u8> {
    blocks.iter().flat_map(bytes_of).collect()
}

/// The records, cut after each flagged one; the last part is the open moment, and may be empty.
fn moments(records: &[Record]) -> Vec<Vec<Record>> {
    let mut all = vec![Vec::new()];
    for record in records {
        all.last_mut().expect("one at least").push(record.clone());
        if record.last {
            all.push(Vec::new());
        }
    }
    all
}

fn may_be_one(records: &[Record]) -> bool {
    records.len() <= 8
        && records
            .iter()
            .all(|record| record.stamp == records[0].stamp)
}

/// A kept block with its place in the card, and whether it makes a gap.
struct Kept {
    place: usize,
    block: Block,
    gap: bool,
}

/// What comes of each piece: its fate, and the kept blocks.
fn fates(card: &[u8]) -> (Vec<Option<Reason>>, Vec<Kept>) {
    let (mut next, mut open) = (0u64, Vec::new());
    let (mut fates, mut kept) = (Vec::new(), Vec::new());
    for (place, piece) in card.chunks(BLOCK).enumerate() {
        let judged = block(piece).and_then(|block| {
            let runs_on = u64::from(block.number) == next;
            let before: &[Record] = if runs_on { &open } else { &[] };
            let line = [before, &block.records].concat();
            if !moments(&line).iter().all(|moment| may_be_one(moment)) {
                return Err(Reason::Shape);
            }
            if u64::from(block.number) < next {
                return Err(Reason::Number);
            }
            Ok((block, line, runs_on))
        });
        fates.push(judged.as_ref().err().copied());
        if let Ok((block, line, runs_on)) = judged {
            next = u64::from(block.number) + 1;
            open = moments(&line).pop().expect("one at least");
            kept.push(Kept {
                place,
                block,
                gap: !runs_on,
            });
        }
    }
    (fates, kept)
}

/// The kept blocks of each stretch.
fn stretches(kept: Vec<Kept>) -> Vec<Vec<Kept>> {
    let mut all = vec![Vec::new()];
    for block in kept {
        if block.gap {
            all.push(Vec::new());
        }
        all.last_mut().expect("one at least").push(block);
    }
    all
}

/// The reader: the moments of each stretch, or the first bad block and the reason.
pub fn read(card: &[u8]) -> Result<Vec<Stretch>, (usize, Reason)> {
    let (fates, kept) = fates(card);
    let mut bad = fates
        .iter()
        .position(Option::is_some)
        .map(|place| (place, fates[place].expect("a reason")));
    // What was judged after a bad block is not looked at: the reader stops there.
    let end = bad.map_or(fates.len(), |(place, _)| place);
    let seen: Vec<Kept> = kept.into_iter().filter(|kept| kept.place < end).collect();
    let all = stretches(seen);
    let last = all.len() - 1;
    let mut said = Vec::new();
    for (at, stretch) in all.iter().enumerate() {
        let records: Vec<Record> = stretch
            .iter()
            .flat_map(|kept| kept.block.records.clone())
            .collect();
        let mut moments = moments(&records);
        let open = moments.pop().expect("one at least");
        // A moment is open at a gap, or at the end where no bad block comes first.
        if !open.is_empty() && (at < last || bad.is_none()) {
            let holds = stretch
                .iter()
                .rev()
                .find(|kept| !kept.block.records.is_empty());
            bad = Some((holds.expect("a record").place, Reason::Shape));
            break;
        }
        said.push(moments);
    }
    bad.map_or(Ok(said), Err)
}

/// Mending, stretch by stretch, as the request says it.
pub fn mend(card: &[u8]) -> (Vec<u8>, Vec<Line>) {
    let (fates, kept) = fates(card);
    let mut list: Vec<Line> = fates.into_iter().map(|fate| (fate, 0)).collect();
    let mut mended = Vec::new();
    for (at, stretch) in stretches(kept).into_iter().enumerate() {
        let flags: Vec<bool> = stretch
            .iter()
            .flat_map(|kept| kept.block.records.iter().map(|record| record.last))
            .collect();
        // "After a gap, records up to and including the first flagged one go."
        let from = match flags.iter().position(|flag| *flag) {
            _ if at == 0 => 0,
            Some(first) => first + 1,
            None => flags.len(),
        };
        // "Before a gap, and at the end, records after the last flagged one go."
        let to = flags
            .iter()
            .rposition(|flag| *flag)
            .map_or(0, |last| last + 1);
        let mut place = 0;
        for kept in stretch {
            let before = kept.block.records.len();
            let stay = |record: &Record| {
                let here = place;
                place += 1;
                (from <= here && here < to).then(|| record.clone())
            };
            let records: Vec<Record> = kept.block.records.iter().filter_map(stay).collect();
            list[kept.place].1 = before - records.len();
            mended.extend(bytes_of(&Block {
                number: kept.block.number,
                records,
            }));
        }
    }
    (mended, list)
}

/// Writing: numbers from 0, each block filled before the next.
pub fn write(moments: &[Vec<Record>]) -> Vec<u8> {
    let records = moments.concat();
    let blocks = records.chunks(MOST_RECORDS).enumerate();
    let blocks: Vec<Block> = blocks
        .map(|(number, records)| Block {
            number: number as u32,
            records: records.to_vec(),
        })
        .collect();
    card_of(&blocks)
}
