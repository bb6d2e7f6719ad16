//! The original's own private functions, out of its unchanged file, behind public doors.
//!
//! No line of that file stands in this repository: `build.rs` hands it on from the folder that `run --source` names.

#![allow(dead_code, clippy::all)]

use crate::java_asm;

include!(concat!(env!("OUT_DIR"), "/mapping.rs"));

/// What the original's parts of a line are asked for by. They are as private as it made them, and a child sees them.
pub mod doors {
    use crate::tables::{self, Answer, Tables};
    use std::str;

    pub type Range = Option<(u32, u32)>;

    pub struct Field {
        pub declared: String,
        pub name: String,
        pub raw: String,
    }

    pub struct Method {
        pub returned: String,
        pub owner: Option<String>,
        pub name: String,
        pub arguments: Vec<String>,
        pub raw: String,
        pub raw_range: Range,
        pub display_range: Range,
    }

    pub fn class_line(line: &str) -> Option<(String, String)> {
        super::parse_class_line(line)
    }

    pub fn arrow(line: &str) -> Option<(&str, &str)> {
        super::split_arrow(line)
    }

    pub fn field(left: &str, raw: &str) -> Option<Field> {
        let field = super::parse_field(left, raw)?;
        Some(Field {
            declared: field.display_type,
            name: field.display_name,
            raw: field.raw_name,
        })
    }

    pub fn method(left: &str, raw: &str) -> Option<Method> {
        let method = super::parse_method(left, raw)?;
        Some(Method {
            returned: method.display_return_type,
            owner: method.display_owner,
            name: method.display_name,
            arguments: method.display_arguments,
            raw: method.raw_name,
            raw_range: method.raw_line_range,
            display_range: method.display_line_range,
        })
    }

    pub fn leading_range(text: &str) -> (Range, &str) {
        super::take_leading_range(text)
    }

    pub fn trailing_range(text: &str) -> Range {
        super::parse_trailing_range(text)
    }

    pub fn class_descriptor(name: &str) -> String {
        super::java_class_to_descriptor(name).to_string()
    }

    pub fn type_descriptor(text: &str) -> String {
        super::java_type_to_descriptor(text)
    }

    pub fn raw_signature(text: &str, method: bool) -> String {
        super::normalize_raw_signature(text, method)
    }

    /// A descriptor with each class piece turned to what `look` gives.
    pub fn turned(descriptor: &str, look: fn(&str) -> Option<String>) -> String {
        super::map_descriptor(descriptor, |class| look(class).map(Into::into))
    }

    /// A mapping of the original, which only keeps it.
    pub struct Kept(super::Mapping);

    /// What a member is asked for by: the raw descriptor of its class, and the original's key.
    pub struct Key {
        owner: String,
        key: super::MemberKey,
    }

    impl Key {
        pub fn new(owner: &str, name: &str, descriptor: &str) -> Self {
            Key {
                owner: owner.to_owned(),
                key: super::MemberKey {
                    raw_name: name.into(),
                    raw_descriptor: descriptor.into(),
                },
            }
        }
    }

    impl Kept {
        pub fn display_class_name(&self, raw: &str) -> Option<super::StrRef> {
            self.0.display_class_name(raw)
        }

        pub fn display_field_name(&self, key: &Key) -> Option<super::StrRef> {
            self.0.display_field_name(&key.owner, &key.key)
        }

        pub fn display_method_name(&self, key: &Key) -> Option<super::StrRef> {
            self.0.display_method_name(&key.owner, &key.key)
        }

        pub fn display_line(&self, key: &Key, line: u32) -> Option<u32> {
            self.0.display_line(&key.owner, &key.key, line)
        }

        pub fn apply_to_smali(&self, class: &str, tree: &mut super::SmaliNode) {
            self.0.apply_to_smali(class, tree);
        }

        /// What the class is shown as, what it is turned back to, and what is mapped.
        pub fn names(&self, name: &str) -> (Option<Vec<u8>>, Option<Vec<u8>>, Vec<u8>) {
            let display = self.0.display_class_name(name);
            let raw = self.0.raw_class_name(name);
            let mapped = self.0.mapped_class_name(name.into());
            let bytes = |text: &str| text.as_bytes().to_vec();
            (
                display.map(|text| bytes(&text)),
                raw.map(|text| bytes(&text)),
                bytes(&mapped.display_name),
            )
        }
    }

    /// The original's own entry point.
    pub fn parse(text: &[u8]) -> Option<Kept> {
        super::Mapping::parse(text).ok().map(Kept)
    }

    /// All tables of a mapping: as `parse` reads it where `marks` says so, else as `parse_str` does, which takes UTF-8
    /// alone.
    pub fn tables(text: &[u8], marks: bool) -> Option<Answer> {
        let mapping = if marks {
            super::Mapping::parse(text)
        } else {
            super::Mapping::parse_str(str::from_utf8(text).ok()?)
        };
        Some(match mapping {
            Ok(mapping) => Ok(tables_of(&mapping)),
            Err(error) => Err((error.line, error.message)),
        })
    }

    fn tables_of(mapping: &super::Mapping) -> Tables {
        let classes = mapping.classes_by_raw.iter();
        let displays = mapping.raw_by_display.iter();
        Tables {
            classes_by_raw: classes
                .map(|(raw, class)| (raw.to_string(), class_of(class)))
                .collect(),
            raw_by_display: displays
                .map(|(display, raw)| (display.to_string(), raw.to_string()))
                .collect(),
        }
    }

    fn class_of(class: &super::ClassMapping) -> tables::Class {
        let key =
            |key: &super::MemberKey| (key.raw_name.to_string(), key.raw_descriptor.to_string());
        let fields = class.fields.iter();
        let methods = class.methods.iter();
        tables::Class {
            display: class.display_descriptor.to_string(),
            fields: fields
                .map(|(member, field)| (key(member), field.display_name.to_string()))
                .collect(),
            methods: methods
                .map(|(member, methods)| (key(member), methods.iter().map(method_of).collect()))
                .collect(),
        }
    }

    fn method_of(method: &super::MethodMapping) -> tables::Method {
        tables::Method {
            owner: method.display_owner.to_string(),
            name: method.display_name.to_string(),
            raw_range: method.raw_line_range,
            display_range: method.display_line_range,
        }
    }
}
