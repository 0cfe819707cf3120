//! Reading antt as far as the gate's own checks need it: the names that a text gives a meaning, and its items, which are
//! definitions, laws and types, each with what is said of it and the parameters of the modules around it.

use crate::source::{stripped, tokens, uncommented};

/// Marks before a name.
const MARKS: [&str; 4] = ["unfoldable", "abbrev", "axiom", "pub"];
/// What makes a statement of a type.
const RELATIONS: [&str; 6] = ["≡", "≤", "<", "⊥", "⊎", "¬"];

/// A definition, a law or a type, its text without comments and with single spaces.
#[derive(Debug, Default)]
pub struct Item {
    pub name: String,
    pub public: bool,
    /// A record or data type, whose fields or constructors are what is said.
    pub is_type: bool,
    /// Whether its value is seen wherever it is used.
    pub seen: bool,
    /// The parameters of the modules around it.
    pub around: String,
    /// Its type; of a record or data type all of it.
    pub said: String,
    /// The clauses after its type.
    pub body: String,
    /// How many lines it takes, without comments and blank lines.
    pub lines: usize,
}

impl Item {
    /// Whether it is a type, or gives one: a statement by itself.
    pub fn gives_type(&self) -> bool {
        let last = self.said.rsplit('→').next().unwrap_or("").trim();
        self.is_type || last.starts_with("Type ")
    }

    /// Whether it says something of what it is given: a type with parameters, or one by cases.
    pub fn is_statement(&self) -> bool {
        let parameters = self.said.split(" : Type").next().unwrap_or("");
        self.gives_type() && if self.is_type { parameters.contains('(') } else { self.said.contains('→') }
    }

    /// The name that its result's type begins with, where its type has no relation in it.
    pub fn result(&self) -> Option<String> {
        let mut tokens = tokens(&self.said);
        let related = tokens.iter().any(|token| RELATIONS.contains(&token.as_str()));
        let start = tokens.iter().rposition(|token| token == "→" || token == "in").map_or(0, |at| at + 1);
        tokens.drain(..start);
        tokens.into_iter().find(|token| token != "(").filter(|_| !related)
    }

    /// What is said of it, from outside the modules around it.
    pub fn statement(&self) -> String {
        let parameters = if self.around.is_empty() { String::new() } else { format!("{} → ", self.around) };
        format!("{} : {parameters}{}", self.name, self.said)
    }

    /// The same, and its value.
    pub fn meaning(&self) -> String {
        let gap = if self.body.is_empty() { "" } else { "; " };
        format!("{}{gap}{}", self.statement(), self.body)
    }
}

/// The items of antt's text, those of inner modules too.
pub fn items(text: &str) -> Vec<Item> {
    let (mut found, mut modules): (Vec<Item>, Vec<(usize, String)>) = (vec![], vec![]);
    for Chunk { indent, text, lines } in chunks(&stripped(text, true)) {
        modules.retain(|(outer, _)| *outer < indent);
        if let Some(module) = text.strip_prefix("module ") {
            let parameters = module.split_once(' ').map_or("", |(_, rest)| rest);
            modules.push((indent, parameters.trim_end_matches("where").trim().into()));
            continue;
        }
        let around: Vec<&str> = modules.iter().map(|(_, text)| text.as_str()).filter(|text| !text.is_empty()).collect();
        let mut begun = begun(&text, &around.join(" "));
        if let Some(first) = begun.first_mut() {
            first.lines = lines;
            found.extend(begun);
        } else if let Some(item) = found.last_mut().filter(|_| !["use ", "infix"].iter().any(|w| text.starts_with(w))) {
            item.body.push_str(if item.body.is_empty() { "" } else { "; " });
            item.body.push_str(&text);
            item.lines += lines;
        }
    }
    found
}

/// A part of a text: its indent, and how many lines it takes.
struct Chunk {
    indent: usize,
    text: String,
    lines: usize,
}

/// The parts of a text: a line with the lines after it that are indented more. A module is its head alone.
fn chunks(text: &str) -> Vec<Chunk> {
    let mut found: Vec<Chunk> = vec![];
    for line in text.lines().filter(|line| !line.trim().is_empty()) {
        let indent = line.chars().take_while(|sign| *sign == ' ').count();
        let folded = line.split_whitespace().collect::<Vec<_>>().join(" ");
        let open = |last: &&mut Chunk| {
            indent > last.indent && !(last.text.starts_with("module ") && last.text.ends_with(" where"))
        };
        match found.last_mut().filter(open) {
            Some(last) => {
                last.text.push(' ');
                last.text.push_str(&folded);
                last.lines += 1;
            }
            None => found.push(Chunk { indent, text: folded, lines: 1 }),
        }
    }
    found
}

/// The items that a part begins: none where it is a clause of the one before.
fn begun(text: &str, around: &str) -> Vec<Item> {
    let mut rest = text;
    while let Some((_, behind)) = rest.split_once(' ').filter(|(mark, _)| MARKS.contains(mark)) {
        rest = behind;
    }
    let (marks, tokens) = (&text[..text.len() - rest.len()], tokens(rest));
    let is_type = ["record", "data"].contains(&tokens[0].as_str());
    if ["open", "use"].contains(&tokens[0].as_str()) {
        return vec![];
    }
    let said = if is_type { rest } else { rest.split_once(" : ").map_or("", |(_, said)| said) };
    let item = |name: String| Item {
        name,
        is_type,
        public: marks.contains("pub "),
        seen: marks.contains("abbrev ") || marks.contains("unfoldable "),
        around: around.into(),
        said: said.into(),
        body: String::new(),
        lines: 0,
    };
    defined(&tokens).into_iter().map(item).collect()
}

/// A name that antt's text gives a meaning: a definition or law, a type, a constructor, a field, a name opened from a record.
#[derive(Debug, PartialEq)]
pub struct Definition {
    pub name: String,
    /// A field of a record, which is reached by its dot alone.
    pub field: bool,
}

/// The definitions of antt's text, those of inner blocks too.
pub fn definitions(text: &str) -> Vec<Definition> {
    let (mut found, mut record) = (vec![], None);
    for line in uncommented(text).lines() {
        let indent = line.chars().take_while(|sign| *sign == ' ').count();
        let tokens = tokens(line);
        let start = tokens.iter().take_while(|token| MARKS.contains(&token.as_str())).count();
        let rest = &tokens[start..];
        if rest.is_empty() {
            continue;
        }
        record = record.filter(|outer| indent > *outer);
        let field = record.is_some();
        found.extend(defined(rest).iter().map(|name| Definition { name: name.clone(), field }));
        if rest[0] == "record" && rest.len() > 1 && rest[1] != "{" {
            record = Some(indent);
        }
    }
    found
}

/// The names that a line, its marks left out, gives a meaning.
fn defined(line: &[String]) -> Vec<String> {
    let place = |sign: &str| line.iter().position(|token| token == sign);
    match line[0].as_str() {
        "record" | "data" => line.get(1).filter(|name| *name != "{").into_iter().cloned().collect(),
        "open" => {
            let names = line[place("using").unwrap_or(line.len())..].iter();
            names.filter(|name| !["using", "(", ")", ",", "as"].contains(&name.as_str())).cloned().collect()
        }
        "use" | "module" | "mod" | "infix" | "infixl" | "infixr" => vec![],
        _ => {
            // a signature: names, perhaps levels in brackets, and a colon
            let colon = place(":").unwrap_or(0);
            let names = &line[..place("{").map_or(colon, |levels| levels.min(colon))];
            let other = ["(", ")", "=", "let", "λ", "→", "∀", ";"];
            if names.iter().any(|name| other.contains(&name.as_str())) {
                vec![]
            } else {
                names.to_vec()
            }
        }
    }
}
