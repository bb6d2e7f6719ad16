//! Examples of loading whose answers are written here, from document 01, so that no program has to be believed for them.

use crate::load_rooms::{self, Calls, Load, Room};
use crate::report::{Disagreement, Held};

const ROOMS: &[Room] = &[Room::Exact, Room::Larger(9)];

/// A text, and what an accepted load says: lines, blank, applied, idle, class, field, method, short; the pool; the range
/// flag and the ranges of the last member.
type Accepted = (&'static str, [u32; 8], &'static str, [u32; 5]);

const SMALL: &str = include_str!("../../examples/small.map");

const ACCEPTED: [Accepted; 17] = [
    (
        SMALL,
        [5, 1, 1, 0, 1, 1, 1, 0],
        "Lx;La/Main;bInc(Lx;)VrunLa/Main;",
        [2, 1, 3, 10, 12],
    ),
    (
        "a->b:\n 1:4: void run()->c",
        [2, 0, 0, 0, 1, 0, 1, 0],
        "Lb;La;c()L;void runLa;",
        [2, 1, 4, 1, 4],
    ),
    (
        "a->b:\n int [] n->c",
        [2, 0, 0, 0, 1, 1, 0, 0],
        "Lb;La;c[Lint ;n",
        [0; 5],
    ),
    (
        "a->b:\n a[][] f(a,int[],x.Y):10->c",
        [2, 0, 0, 0, 1, 0, 1, 0],
        "Lb;La;c(Lb;[ILx/Y;)[[Lb;fLa;",
        [1, 0, 0, 10, 10],
    ),
    (
        "a->b:\n void f():10:x->c",
        [2, 0, 0, 0, 1, 0, 1, 1],
        "Lb;La;c()VfLa;",
        [1, 0, 0, 10, 10],
    ),
    (
        "a->b:\n 1:2:void f():x:10->c",
        [2, 0, 0, 0, 1, 0, 1, 0],
        "Lb;La;c()VfLa;",
        [2, 1, 2, 1, 2],
    ),
    (
        "a->b:\n +7:9:void f():4294967296->c",
        [2, 0, 0, 0, 1, 0, 1, 0],
        "Lb;La;c()VfLa;",
        [2, 7, 9, 7, 9],
    ),
    (
        "a->b:\n void x.Y.f( , int ,)->c",
        [2, 0, 0, 0, 1, 0, 1, 0],
        "Lb;La;c(I)VfLx/Y;",
        [0; 5],
    ),
    // a line opened by U+00A0 is a member line
    (
        "a->b:\n\u{A0}int n->c\r\r\n",
        [2, 0, 0, 0, 1, 1, 0, 0],
        "Lb;La;cIn",
        [0; 5],
    ),
    // a class that is known by a later line
    (
        "a->b:\n c n->d\nc->e:\n\u{3000}",
        [4, 1, 0, 0, 2, 1, 0, 0],
        "Lb;La;Le;Lc;dLe;n",
        [0; 5],
    ),
    // the last class line of a display name
    (
        "a->b:\na->c:\n a n->d",
        [3, 0, 0, 0, 2, 1, 0, 0],
        "Lb;La;Lc;La;dLc;n",
        [0; 5],
    ),
    (
        "a->b:\n int n->c\n# {\"i\\u0064\":\"com.android.tools.r8.residualsignature\",\"signature\":\"x.y\"}",
        [3, 0, 1, 0, 1, 1, 0, 0],
        "Lb;La;cLx/y;n",
        [0; 5],
    ),
    // after a class line there is no last member
    (
        "a->b:\n int n->c\nd->e:\n# {\"id\":\"com.android.tools.r8.residualsignature\",\"signature\":\"V\"}",
        [4, 0, 0, 1, 2, 1, 0, 0],
        "Lb;La;Le;Ld;cIn",
        [0; 5],
    ),
    // numbers of which serde_json says otherwise than RFC 8259, which decides
    (
        "a->b:\n int n->c\n# {\"\":18446744073709551616.,\"id\":\"com.android.tools.r8.residualsignature\",\"signature\":\"V\"}",
        [3, 0, 0, 1, 1, 1, 0, 0],
        "Lb;La;cIn",
        [0; 5],
    ),
    (
        "a->b:\n int n->c\n# {\"\":18446744073709551616.0,\"id\":\"com.android.tools.r8.residualsignature\",\"signature\":\"V\"}",
        [3, 0, 1, 0, 1, 1, 0, 0],
        "Lb;La;cVn",
        [0; 5],
    ),
    (
        "a->b:\n int n->c\n# {\"\":1e309,\"id\":\"com.android.tools.r8.residualsignature\",\"signature\":\"V\"}",
        [3, 0, 1, 0, 1, 1, 0, 0],
        "Lb;La;cVn",
        [0; 5],
    ),
    (
        "\u{FEFF}\u{FEFF}#\na.b->c:",
        [2, 0, 0, 1, 1, 0, 0, 0],
        "Lc;La/b;",
        [0; 5],
    ),
];

/// A text, and the number, place and length of its refusal.
const REFUSED: [(&[u8], [u32; 3]); 14] = [
    (b"", [8, 0, 0]),
    (b"\n# a\n", [8, 0, 0]),
    (b"a -> b", [3, 1, 0]),
    (b" int n -> b", [4, 1, 0]),
    (b" int n", [4, 1, 0]),
    (b"a->b:\n\n int n", [5, 3, 0]),
    (b"a->b:\n int n(->c", [6, 2, 0]),
    (b"a->b:\n run()->c", [6, 2, 0]),
    (b"a->b:\n n->c", [7, 2, 0]),
    (b"a->b:\n-> c:\n n->c", [3, 2, 0]),
    (b"\xC0\x80", [2, 0, 1]),
    (b"\xE2\x82", [2, 0, 0]),
    (b"a\xE2\x82 ", [2, 1, 2]),
    (b"ab\xF0\x90\x80\x0A", [2, 2, 3]),
];

/// Whether every call has that answer, and on top of it that pool and those ranges.
fn agrees(calls: &Calls, answer: [u32; 12], pool: &str, ranges: [u32; 5]) -> bool {
    calls.iter().all(|call| {
        let Ok(left) = call else { return false };
        let members = (answer[8] + answer[9]) as usize;
        let last = members
            .checked_sub(1)
            .and_then(|last| left.members.get(last));
        left.answer[..12] == answer
            && left.pool.starts_with(pool.as_bytes())
            && last.map_or(members == 0, |last| last[10..] == ranges)
    })
}

fn hold(load: &Load, answer: [u32; 12], pool: &str, ranges: [u32; 5]) -> Held {
    for calls in [
        load_rooms::proved_calls(load),
        load_rooms::plain_calls(load),
    ] {
        if !agrees(&calls, answer, pool, ranges) {
            let (text, told) = (load.text.escape_ascii(), &answer);
            return Err(Disagreement(format!(
                "an example of loading: \"{text}\"\n  told: {told:?} {pool} {ranges:?}\n  answer: {calls:?}\n"
            )));
        }
    }
    Ok(())
}

/// How many examples hold.
pub fn run() -> Result<usize, Disagreement> {
    let marks = true;
    let rooms = ROOMS;
    for (text, fates, pool, ranges) in ACCEPTED {
        let mut answer = [0; 12];
        answer[3..11].copy_from_slice(&fates);
        answer[11] = pool.len() as u32;
        let text = text.as_bytes().to_vec();
        hold(&Load { text, marks, rooms }, answer, pool, ranges)?;
    }
    for (text, refusal) in REFUSED {
        let mut answer = [0; 12];
        answer[..3].copy_from_slice(&refusal);
        let text = text.to_vec();
        hold(&Load { text, marks, rooms }, answer, "", [0; 5])?;
    }
    Ok(ACCEPTED.len() + REFUSED.len())
}
