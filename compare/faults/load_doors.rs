//! The C functions of capi, answered by the plain program.

use super::slices::{Bytes, lent, text};
use super::{ClassRow, Lent, Loaded, MemberRow, Refusal, read};

/// What is lent to a load.
struct Rooms<'a> {
    classes: &'a mut [ClassRow],
    members: &'a mut [MemberRow],
    pool: &'a mut [u8],
}

impl Rooms<'_> {
    fn zero(&mut self) {
        self.classes.fill([0; 4]);
        self.members.fill([0; 15]);
        self.pool.fill(0);
    }

    fn leave(&mut self, loaded: &Loaded) {
        self.classes[..loaded.classes.len()].copy_from_slice(&loaded.classes);
        self.members[..loaded.members.len()].copy_from_slice(&loaded.members);
        self.pool[..loaded.pool.len()].copy_from_slice(&loaded.pool);
    }
}

fn load(text: &[u8], marks: bool, mut rooms: Rooms) -> [u32; 24] {
    let lent = Lent {
        classes: rooms.classes.len(),
        members: rooms.members.len(),
        pool: rooms.pool.len(),
    };
    let mut answer = [0; 24];
    match read(text, marks).and_then(|mapping| mapping.fit(lent)) {
        Ok(loaded) => {
            rooms.zero();
            rooms.leave(&loaded);
            answer[3..12].copy_from_slice(&counts(&loaded));
        }
        Err(refused) => {
            rooms.zero();
            answer[..3].copy_from_slice(&numbers(refused));
        }
    }
    answer
}

fn counts(loaded: &Loaded) -> [u32; 9] {
    let fates = loaded.fates;
    [
        fates.lines,
        fates.blank,
        fates.applied,
        fates.idle,
        fates.class,
        fates.field,
        fates.method,
        fates.short,
        loaded.pool.len() as u32,
    ]
}

fn numbers(refused: Refusal) -> [u32; 3] {
    [refused.number, refused.place as u32, refused.length as u32]
}

#[unsafe(no_mangle)]
pub unsafe extern "C" fn clumarief_parse(
    address: Bytes,
    length: usize,
    classes: *mut ClassRow,
    class_rows: usize,
    members: *mut MemberRow,
    member_rows: usize,
    pool: *mut u8,
    pool_length: usize,
    answer: &mut [u32; 24],
) {
    let rooms = unsafe {
        Rooms {
            classes: lent(classes, class_rows),
            members: lent(members, member_rows),
            pool: lent(pool, pool_length),
        }
    };
    *answer = load(unsafe { text(address, length) }, true, rooms);
}

#[unsafe(no_mangle)]
pub unsafe extern "C" fn clumarief_parse_str(
    address: Bytes,
    length: usize,
    classes: *mut ClassRow,
    class_rows: usize,
    members: *mut MemberRow,
    member_rows: usize,
    pool: *mut u8,
    pool_length: usize,
    answer: &mut [u32; 24],
) {
    let rooms = unsafe {
        Rooms {
            classes: lent(classes, class_rows),
            members: lent(members, member_rows),
            pool: lent(pool, pool_length),
        }
    };
    *answer = load(unsafe { text(address, length) }, false, rooms);
}
