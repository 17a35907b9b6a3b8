//! Numbers drawn from a seed, and requests made of them.

use reference::{Name, NAME_BYTES, OPEN_END, PAGE};

pub struct Draw(u64);

impl Draw {
    pub fn new(seed: u64) -> Draw {
        Draw(seed)
    }

    pub fn next(&mut self) -> u64 {
        self.0 = self.0.wrapping_add(0x9E37_79B9_7F4A_7C15);
        let mut mixed = self.0;
        mixed = (mixed ^ (mixed >> 30)).wrapping_mul(0xBF58_476D_1CE4_E5B9);
        mixed = (mixed ^ (mixed >> 27)).wrapping_mul(0x94D0_49BB_1331_11EB);
        mixed ^ (mixed >> 31)
    }

    /// A number below the limit.
    pub fn below(&mut self, limit: u64) -> u64 {
        self.next() % limit
    }

    /// A number from low to high, both included.
    pub fn within(&mut self, low: u64, high: u64) -> u64 {
        low + self.next() % (high - low + 1)
    }

    pub fn percent(&mut self, chance: u64) -> bool {
        self.below(100) < chance
    }

    pub fn bytes(&mut self, length: usize) -> Vec<u8> {
        let mut bytes = Vec::with_capacity(length + 8);
        while bytes.len() < length {
            bytes.extend_from_slice(&self.next().to_le_bytes());
        }
        bytes.truncate(length);
        bytes
    }

    pub fn one_of(&mut self, list: &[u64]) -> u64 {
        list[self.below(list.len() as u64) as usize]
    }

    /// A number with one bit set, of so many bits.
    pub fn one_bit(&mut self, bits: u64) -> u64 {
        1 << self.below(bits)
    }
}

pub fn packed(operation: u64, address: u64, moment: u64, spare: u64) -> Vec<u8> {
    let bits = operation << 53 | (address & 0xFFFF) << 37 | (moment & 0xFFFF_FFFF) << 5 | spare & 31;
    bits.to_be_bytes()[1..].to_vec()
}

pub fn write(address: u64, page: &[u8]) -> Vec<u8> {
    let mut bytes = packed(1, address, 0, 0);
    bytes.extend_from_slice(page);
    bytes
}

pub fn mark() -> Vec<u8> {
    packed(2, 0, 0, 0)
}

/// The address field of a revert is its work order (document 02, Seven).
pub fn revert(moment: u64, order: u64) -> Vec<u8> {
    packed(3, order, moment, 0)
}

pub fn read(address: u64, moment: u64) -> Vec<u8> {
    packed(4, address, moment, 0)
}

pub fn reclaim(moment: u64) -> Vec<u8> {
    packed(5, 0, moment, 0)
}

pub fn name(moment: u64, name: &[u8]) -> Vec<u8> {
    [&packed(6, 0, moment, 0), name].concat()
}

pub fn withdraw(name: &[u8]) -> Vec<u8> {
    [&packed(7, 0, 0, 0), name].concat()
}

/// How often each request is drawn.
pub struct Mix {
    pub write: u64,
    pub mark: u64,
    pub revert: u64,
    pub read: u64,
    pub reclaim: u64,
    pub name: u64,
    pub withdraw: u64,
}

pub const MIXES: [Mix; 6] = [
    Mix { write: 30, mark: 20, revert: 20, read: 15, reclaim: 15, name: 10, withdraw: 6 },
    Mix { write: 25, mark: 10, revert: 45, read: 10, reclaim: 10, name: 4, withdraw: 1 },
    Mix { write: 35, mark: 10, revert: 20, read: 5, reclaim: 30, name: 10, withdraw: 2 },
    Mix { write: 40, mark: 5, revert: 15, read: 30, reclaim: 10, name: 4, withdraw: 4 },
    Mix { write: 20, mark: 15, revert: 10, read: 15, reclaim: 20, name: 40, withdraw: 8 },
    Mix { write: 6, mark: 25, revert: 40, read: 10, reclaim: 20, name: 4, withdraw: 2 },
];

/// What the requests of a list are drawn from; now, floor and names are guessed ahead over the batch.
pub struct Outlook {
    pub size: u64,
    /// Most addresses are drawn below this.
    pub few: u64,
    pub now: u64,
    pub floor: u64,
    pub names: Vec<Name>,
}

impl Outlook {
    fn can_read(&self, moment: u64) -> bool {
        self.floor <= moment && moment <= self.now || self.names.iter().any(|name| u64::from(name.moment) == moment)
    }
}

pub fn drawn_address(draw: &mut Draw, outlook: &Outlook) -> u64 {
    let size = outlook.size;
    match draw.below(20) {
        0 => draw.one_of(&[size - 1, size, size + 1, 65_535]).min(65_535),
        1 => draw.below(size),
        _ => draw.below(size.min(outlook.few)),
    }
}

/// A work order: any of 16 bits, whatever the size of the volume.
pub fn drawn_order(draw: &mut Draw) -> u64 {
    match draw.below(8) {
        0 => 0,
        1 => draw.one_of(&[1, 2, 127, 128, 254, 255, 256, 257]),
        2 => draw.one_of(&[32_767, 32_768, 65_280, 65_534, 65_535]),
        3 => 256 * draw.below(256),
        4 => draw.below(10),
        _ => draw.below(65_536),
    }
}

/// An address for a live read, which has 32 bits.
pub fn drawn_live_address(draw: &mut Draw, size: u64) -> u32 {
    (match draw.below(16) {
        0 => draw.one_of(&[size, size + 1, 65_535, 65_536, 65_537, 131_072, 4_294_967_295]),
        1 => 65_536 * draw.within(1, 65_535) + draw.below(size.max(1)),
        2 => size.saturating_sub(1),
        3..=9 => draw.below(size.clamp(1, 5)),
        _ => draw.below(size.max(1)),
    }) as u32
}

/// A budget for a copying step: few pages, as many as there are, or more.
pub fn drawn_budget(draw: &mut Draw, size: u64) -> u32 {
    (match draw.below(10) {
        0 => 0,
        1 => draw.one_of(&[size, size + 1, 65_536, 65_537, 4_294_967_295]),
        2 => draw.below(1 << 32),
        3..=5 => draw.within(1, 3),
        _ => draw.within(0, size + 1),
    }) as u32
}

pub fn drawn_moment(draw: &mut Draw, outlook: &Outlook) -> u64 {
    let (now, floor) = (outlook.now, outlook.floor);
    if !outlook.names.is_empty() && draw.percent(30) {
        return drawn_named(draw, outlook);
    }
    match draw.below(24) {
        0 => floor.saturating_sub(1),
        1 => now + 1,
        2 => now,
        3 => draw.below(1 << 32),
        4 => draw.one_of(&[0, 1, 4_294_967_294, 4_294_967_295]),
        5..=8 => floor,
        9..=13 => now.saturating_sub(draw.within(1, 3)),
        _ => draw.within(floor, now),
    }
}

/// A named moment, or one beside it.
fn drawn_named(draw: &mut Draw, outlook: &Outlook) -> u64 {
    let named = u64::from(outlook.names[draw.below(outlook.names.len() as u64) as usize].moment);
    match draw.below(10) {
        0 => named + 1,
        1 => named.saturating_sub(1),
        _ => named,
    }
}

/// A name: one of few, or one that is given, or nearly so, or any.
pub fn drawn_name(draw: &mut Draw, outlook: &Outlook) -> [u8; NAME_BYTES] {
    let mut name = [b'n'; NAME_BYTES];
    let byte = draw.below(NAME_BYTES as u64) as usize;
    match draw.below(12) {
        0 => name.fill(0),
        1 => name.copy_from_slice(&draw.bytes(NAME_BYTES)),
        2..=4 if !outlook.names.is_empty() => {
            name = outlook.names[draw.below(outlook.names.len() as u64) as usize].bytes;
            if draw.percent(40) {
                name[byte] ^= draw.one_bit(8) as u8;
            }
        }
        _ => name[byte] = draw.below(12) as u8,
    }
    name
}

pub fn drawn_request(draw: &mut Draw, mix: &Mix, outlook: &mut Outlook) -> Vec<u8> {
    let all = mix.write + mix.mark + mix.revert + mix.read + mix.reclaim + mix.name + mix.withdraw;
    let mut chosen = draw.below(all);
    if chosen < mix.write {
        let page = draw.bytes(PAGE);
        return write(drawn_address(draw, outlook), &page);
    }
    chosen -= mix.write;
    if chosen < mix.mark {
        outlook.now = (outlook.now + 1).min(u64::from(OPEN_END));
        return mark();
    }
    chosen -= mix.mark;
    if chosen < mix.revert {
        let moment = drawn_moment(draw, outlook);
        if outlook.can_read(moment) && moment < outlook.now {
            outlook.now = (outlook.now + 1).min(u64::from(OPEN_END));
        }
        return revert(moment, drawn_order(draw));
    }
    chosen -= mix.revert;
    if chosen < mix.read {
        let address = drawn_address(draw, outlook);
        return read(address, drawn_moment(draw, outlook));
    }
    chosen -= mix.read;
    if chosen < mix.name {
        let moment = drawn_moment(draw, outlook);
        let bytes = drawn_name(draw, outlook);
        if outlook.can_read(moment) && moment < outlook.now {
            outlook.names.push(Name { bytes, moment: moment as u32 });
        }
        return name(moment, &bytes);
    }
    chosen -= mix.name;
    if chosen < mix.withdraw {
        let mut bytes = drawn_name(draw, outlook);
        if !outlook.names.is_empty() && draw.percent(70) {
            bytes = outlook.names[draw.below(outlook.names.len() as u64) as usize].bytes;
        }
        outlook.names.retain(|row| row.bytes != bytes);
        return withdraw(&bytes);
    }
    // Most reclaims lift the floor by little, so that there is something to revert to.
    let moment = match draw.below(8) {
        0 => drawn_moment(draw, outlook),
        1 => draw.within(outlook.floor, outlook.now),
        2..=4 => outlook.floor,
        _ => (outlook.floor + draw.below(3)).min(outlook.now),
    };
    if outlook.floor <= moment && moment <= outlook.now {
        outlook.floor = moment;
    }
    reclaim(moment)
}

/// Seven bytes that are no request, or one with a field set that it does not use, or one without its page or name.
pub fn drawn_fault(draw: &mut Draw) -> Vec<u8> {
    match draw.below(6) {
        0 => packed(0, 0, 0, 0),
        1 => packed(draw.within(1, 7), 0, 0, draw.one_bit(5)),
        2 if draw.percent(10) => packed(3, drawn_order(draw), 0, draw.one_bit(5)),
        2 => packed(draw.one_of(&[2, 5, 6, 7]), draw.one_bit(16), 0, 0),
        3 => packed(draw.one_of(&[1, 2, 7]), 0, draw.one_bit(32), 0),
        4 => packed(draw.one_of(&[1, 6, 7]), 0, 0, 0),
        _ => draw.bytes(7),
    }
}

/// Bytes of requests that follow on what the batches left over.
pub fn drawn_batch(draw: &mut Draw, mix: &Mix, outlook: &mut Outlook, most: u64, faults: u64) -> Vec<u8> {
    let mut bytes = Vec::new();
    if draw.percent(faults) && draw.percent(20) {
        let length = draw.below(600) as usize;
        return draw.bytes(length);
    }
    for _ in 0..draw.within(0, most) {
        if draw.percent(faults) && draw.percent(10) {
            bytes.extend(drawn_fault(draw));
        } else {
            bytes.extend(drawn_request(draw, mix, outlook));
        }
    }
    bytes
}
