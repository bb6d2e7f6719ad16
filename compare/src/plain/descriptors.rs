//! Document 01 "Descriptors".

/// "A class name becomes `L`, the name with dots as slashes, `;`."
pub fn class_descriptor(name: &[u8]) -> Vec<u8> {
    let slashed = name
        .iter()
        .map(|byte| if *byte == b'.' { b'/' } else { *byte });
    let mut descriptor = vec![b'L'];
    descriptor.extend(slashed);
    descriptor.push(b';');
    descriptor
}

const WORDS: [(&[u8], u8); 9] = [
    (b"void", b'V'),
    (b"boolean", b'Z'),
    (b"byte", b'B'),
    (b"char", b'C'),
    (b"short", b'S'),
    (b"int", b'I'),
    (b"long", b'J'),
    (b"float", b'F'),
    (b"double", b'D'),
];

fn is_class_descriptor(text: &[u8]) -> bool {
    text.starts_with(b"L") && text.ends_with(b";")
}

/// What a type is without the `[]`s at its end.
pub enum Base {
    /// one of the nine words, by its letter
    Word(u8),
    /// "text starting `L` and ending `;`"
    Kept,
    Class,
}

/// What a type that is trimmed is made of: "each `[]` at its end becomes a leading `[`; no second trim".
pub struct Shape<'a> {
    pub brackets: usize,
    pub text: &'a [u8],
    pub base: Base,
}

pub fn type_shape(mut text: &[u8]) -> Shape<'_> {
    let mut brackets = 0;
    while let Some(element) = text.strip_suffix(b"[]") {
        brackets += 1;
        text = element;
    }
    let word = WORDS.iter().find(|(word, _)| *word == text);
    let base = match word {
        Some((_, letter)) => Base::Word(*letter),
        None if is_class_descriptor(text) => Base::Kept,
        None => Base::Class,
    };
    Shape {
        brackets,
        text,
        base,
    }
}

/// The descriptor of a type that is trimmed.
pub fn type_descriptor(text: &[u8]) -> Vec<u8> {
    let shape = type_shape(text);
    let mut descriptor = vec![b'['; shape.brackets];
    match shape.base {
        Base::Word(letter) => descriptor.push(letter),
        Base::Kept => descriptor.extend_from_slice(shape.text),
        Base::Class => descriptor.extend(class_descriptor(shape.text)),
    }
    descriptor
}

/// The parts of a descriptor, and whether each is a class piece: "a piece runs from an `L` to the next `;`; an `L` with
/// no `;` copies the rest".
pub fn parts(mut descriptor: &[u8]) -> Vec<(bool, &[u8])> {
    let mut parts = Vec::new();
    while let Some(start) = descriptor.iter().position(|byte| *byte == b'L') {
        let Some(length) = descriptor[start..].iter().position(|byte| *byte == b';') else {
            break;
        };
        let end = start + length + 1;
        parts.push((false, &descriptor[..start]));
        parts.push((true, &descriptor[start..end]));
        descriptor = &descriptor[end..];
    }
    parts.push((false, descriptor));
    parts
}

/// "Raw field signatures that start `[`, or are `L..;`, or one of the nine letters are kept, others become classes".
fn raw_type(text: &[u8]) -> Vec<u8> {
    let letter = WORDS.iter().any(|(_, letter)| text == [*letter]);
    if text.starts_with(b"[") || is_class_descriptor(text) || letter {
        text.to_vec()
    } else {
        class_descriptor(text)
    }
}

/// "For methods this holds for what follows the last `)`; with no `)` the text is kept."
pub fn raw_signature(text: &[u8], method: bool) -> Vec<u8> {
    if !method {
        return raw_type(text);
    }
    match text.iter().rposition(|byte| *byte == b')') {
        Some(close) => [&text[..=close], &raw_type(&text[close + 1..])].concat(),
        None => text.to_vec(),
    }
}
