//! Whether a code point is white space, judged by `char::is_whitespace`.

use crate::case::Code;
use crate::proved;
use crate::report::{Comparison, Held, Report, Settings, Subject};

const WHITE: Subject<Code, u32> = Subject {
    name: "white",
    proved: |code| proved::white(code.0),
    judge: |code| {
        let character = char::from_u32(code.0);
        Some(u32::from(character.is_some_and(char::is_whitespace)))
    },
    outcome: |answer| match answer {
        1 => "white",
        _ => "not white",
    },
};

/// Every character that `char::is_whitespace` holds for.
pub fn whites() -> Vec<char> {
    let all = '\0'..=char::MAX;
    all.filter(|character| character.is_whitespace()).collect()
}

pub fn run(settings: &Settings, report: &mut Report) -> Held {
    let mut white = Comparison::new(WHITE);
    for code in 0..=0x11_FFFF {
        white.hold(&Code(code))?;
    }
    // numbers of which a part is white space, for a reader that looks at that part alone
    for character in whites() {
        for high in 0..=u32::from(u16::MAX) {
            white.hold(&Code(u32::from(character) | high << 16))?;
        }
    }
    let mut random = settings.random("white");
    for _ in settings.turns(100_000) {
        white.hold(&Code(random.draw() as u32))?;
    }
    white.hold(&Code(u32::MAX))?;
    report.add(white);
    Ok(())
}
