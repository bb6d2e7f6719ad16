//! Mappings as shrinkers write them: packages, classes, fields, methods with ranges and owners, comments.

use crate::comment_parts::residual_comment;
use crate::random::Random;

/// Whose files they are like.
#[derive(Clone, Copy, Debug, PartialEq)]
pub enum Form {
    /// no comments, and a display range where it differs from the raw one
    ProGuard,
    /// a head of comments, the source file of each class, and a residual signature after each member
    R8,
}

impl Form {
    pub const ALL: [Form; 2] = [Form::ProGuard, Form::R8];

    /// About how many bytes a class has with its members.
    fn class_length(self) -> usize {
        match self {
            Form::ProGuard => 400,
            Form::R8 => 1_000,
        }
    }
}

const PACKAGES: [&str; 10] = [
    "com.example.app",
    "com.example.app.view",
    "com.example.app.model.internal",
    "androidx.core.widget",
    "androidx.recyclerview.widget",
    "kotlin.collections",
    "kotlinx.coroutines.channels",
    "okhttp3.internal.http2",
    "com.google.common.collect",
    "org.apache.commons.io.input",
];

const WORDS: [&str; 20] = [
    "Main", "Activity", "View", "List", "Adapter", "Reader", "Stream", "State", "Item", "Model",
    "Client", "Buffer", "Cache", "Helper", "Builder", "Factory", "Event", "Entry", "Node", "Task",
];

const VERBS: [&str; 14] = [
    "get", "set", "on", "is", "read", "write", "add", "remove", "create", "update", "find",
    "apply", "close", "access$",
];

/// Types that no class line names, and their descriptors. The first is a return type alone.
const TYPES: [(&str, &str); 12] = [
    ("void", "V"),
    ("int", "I"),
    ("boolean", "Z"),
    ("long", "J"),
    ("byte[]", "[B"),
    ("float", "F"),
    ("java.lang.String", "Ljava/lang/String;"),
    ("java.lang.Object", "Ljava/lang/Object;"),
    ("java.util.List", "Ljava/util/List;"),
    ("java.lang.String[]", "[Ljava/lang/String;"),
    ("android.view.View", "Landroid/view/View;"),
    ("double[][]", "[[D"),
];

/// What an R8 file begins with.
const R8_HEAD: &str = "# compiler: R8
# compiler_version: 8.2.42
# min_api: 24
# {\"id\":\"com.android.tools.r8.mapping\",\"version\":\"2.2\"}
# pg_map_id: 7ab3c2f
";

/// `a` to `z`, then `aa`, and so on.
fn short_name(mut number: usize) -> String {
    let mut name = String::new();
    loop {
        name.insert(0, char::from(b'a' + (number % 26) as u8));
        if number < 26 {
            return name;
        }
        number = number / 26 - 1;
    }
}

/// A type as it is displayed, and its raw descriptor.
struct Type {
    display: String,
    raw: String,
}

struct Writer<'a> {
    random: &'a mut Random,
    form: Form,
    text: String,
    /// the display names of the classes; their raw names are the short ones in order
    displays: Vec<String>,
}

impl Writer<'_> {
    /// A class of this mapping, or one of the other types from the place on.
    fn any_type(&mut self, from: usize) -> Type {
        if self.random.once_in(4) {
            let at = self.random.below(self.displays.len());
            let display = self.displays[at].clone();
            let raw = format!("L{};", short_name(at));
            return Type { display, raw };
        }
        let (display, raw) = *self.random.pick(&TYPES[from..]);
        Type {
            display: display.to_owned(),
            raw: raw.to_owned(),
        }
    }

    /// The raw signature of the member before it, which R8 alone gives.
    fn signature(&mut self, signature: &str) {
        if self.form == Form::R8 {
            self.text += &format!("      {}\n", residual_comment(signature));
        }
    }

    fn field(&mut self, raw: &str) {
        let (declared, word) = (self.any_type(1), *self.random.pick(&WORDS));
        self.text += &format!("    {} m{word} -> {raw}\n", declared.display);
        self.signature(&declared.raw);
    }

    fn method(&mut self, raw: &str) {
        let (start, lines) = (1 + self.random.below(900), self.random.below(9));
        let end = start + lines;
        let returned = self.any_type(0);
        let owner = if self.random.once_in(4) {
            self.random.pick(&self.displays).clone() + "."
        } else {
            String::new()
        };
        let (verb, word) = (*self.random.pick(&VERBS), *self.random.pick(&WORDS));
        let count = self.random.below(4);
        let arguments: Vec<Type> = (0..count).map(|_| self.any_type(1)).collect();
        let displays: Vec<&str> = arguments.iter().map(|one| &one.display[..]).collect();
        let shown = if self.form == Form::R8 || self.random.once_in(2) {
            let shown = 1 + self.random.below(2_000);
            format!(":{shown}:{}", shown + lines)
        } else {
            String::new()
        };
        self.text += &format!(
            "    {start}:{end}:{} {owner}{verb}{word}({}){shown} -> {raw}\n",
            returned.display,
            displays.join(",")
        );
        let raws: String = arguments.iter().map(|one| &one.raw[..]).collect();
        self.signature(&format!("({raws}){}", returned.raw));
    }

    /// A class and its members, up to about the length of the text.
    fn class(&mut self, at: usize, length: usize) {
        let display = &self.displays[at];
        self.text += &format!("{display} -> {}:\n", short_name(at));
        if self.form == Form::R8 {
            let file = *self.random.pick(&WORDS);
            self.text += &format!("# {{\"id\":\"sourceFile\",\"fileName\":\"{file}.java\"}}\n");
        }
        // a line is about so long, and the next class starts near its place
        let mut members = 0;
        while self.text.len() + 40 < length {
            let raw = short_name(members / 2);
            members += 1;
            if self.random.once_in(3) {
                self.field(&raw);
            } else {
                self.method(&raw);
            }
        }
    }
}

/// A mapping of at least `length` bytes, and not much more.
pub fn mapping(random: &mut Random, form: Form, length: usize) -> String {
    let classes = (length / form.class_length()).max(1);
    let display = |at: usize| {
        let package = *random.pick(&PACKAGES);
        let (first, second) = (*random.pick(&WORDS), *random.pick(&WORDS));
        format!("{package}.{first}{second}{at}")
    };
    let displays = (0..classes).map(display).collect();
    let mut text = String::with_capacity(length + 1_000);
    if form == Form::R8 {
        text += R8_HEAD;
    }
    let mut writer = Writer {
        random,
        form,
        text,
        displays,
    };
    for at in 0..classes {
        writer.class(at, length / classes * (at + 1));
    }
    while writer.text.len() < length {
        writer.field("z");
    }
    writer.text
}
