//! Reading sources as far as the gate's own checks need it: Rattle by its tokens, functions with their contracts; antt's tokens and
//! imports.

/// Goes through Rattle's text. Comments, nested ones too, are passed over; what a string holds is no token.
struct Reader {
    signs: Vec<char>,
    at: usize,
}

impl Reader {
    fn new(text: &str) -> Reader {
        Reader { signs: text.chars().collect(), at: 0 }
    }

    /// Whether this is here.
    fn sees(&self, text: &str) -> bool {
        text.chars().enumerate().all(|(i, sign)| self.signs.get(self.at + i) == Some(&sign))
    }

    /// Moves past spaces and comments.
    fn pass(&mut self) {
        while self.at < self.signs.len() {
            if self.sees("//") {
                self.at += self.signs[self.at..].iter().position(|&s| s == '\n').unwrap_or(self.signs.len() - self.at);
            } else if self.sees("/*") {
                self.pass_block("/*", "*/");
            } else if self.signs[self.at].is_whitespace() {
                self.at += 1;
            } else {
                break;
            }
        }
    }

    /// Moves past a block comment, and those inside it.
    fn pass_block(&mut self, open: &str, close: &str) {
        let mut depth = 0;
        while self.at < self.signs.len() {
            if self.sees(open) {
                depth += 1;
                self.at += 2;
            } else if self.sees(close) {
                depth -= 1;
                self.at += 2;
                if depth == 0 {
                    return;
                }
            } else {
                self.at += 1;
            }
        }
    }

    /// Moves past all up to an unescaped closing sign.
    fn pass_quoted(&mut self, close: char) {
        self.at += 1;
        while self.at < self.signs.len() && self.signs[self.at] != close {
            self.at += if self.signs[self.at] == '\\' { 2 } else { 1 };
        }
        self.at = (self.at + 1).min(self.signs.len());
    }

    /// Moves past a raw string whose signs `#` or whose quote are here; false where there is none.
    fn pass_raw(&mut self) -> bool {
        let hashes = self.signs[self.at..].iter().take_while(|&&sign| sign == '#').count();
        if self.signs.get(self.at + hashes) != Some(&'"') {
            return false;
        }
        let close = format!("\"{}", "#".repeat(hashes));
        self.at += hashes + 1;
        while self.at < self.signs.len() && !self.sees(&close) {
            self.at += 1;
        }
        self.at = (self.at + close.len()).min(self.signs.len());
        true
    }

    /// The next token: a word, a literal as two quotes, or a sign by itself.
    fn token(&mut self) -> Option<String> {
        self.pass();
        let start = self.at;
        let first = *self.signs.get(start)?;
        if is_word(first) {
            let rest = &self.signs[start..];
            self.at += rest.iter().position(|&sign| !is_word(sign)).unwrap_or(rest.len());
            let word: String = self.signs[start..self.at].iter().collect();
            let raw = ["r", "br", "cr"].contains(&word.as_str());
            if raw && self.at < self.signs.len() && self.pass_raw() {
                return Some("\"\"".into());
            }
            return Some(word);
        }
        let letter =
            first == '\'' && (self.signs.get(start + 1) == Some(&'\\') || self.signs.get(start + 2) == Some(&'\''));
        if first == '"' || letter {
            self.pass_quoted(first);
            return Some("\"\"".into());
        }
        self.at += 1;
        Some(first.into())
    }

    /// What is between the bracket here and the one that closes it, as it is written.
    fn braces(&mut self) -> String {
        let (start, mut depth) = (self.at, 0);
        while self.at < self.signs.len() {
            match self.signs[self.at] {
                '"' => {
                    self.pass_quoted('"');
                    continue;
                }
                '{' => depth += 1,
                '}' => depth -= 1,
                _ => (),
            }
            self.at += 1;
            if depth == 0 {
                break;
            }
        }
        self.signs[(start + 1).min(self.at)..self.at].iter().take(self.at.saturating_sub(start + 2)).collect()
    }
}

/// The kit's libraries, whose modules' paths begin as those of the project's crates do.
const KIT: [&str; 9] = ["std", "core", "io", "os", "libc", "std_alloc", "std_collections", "std_heap", "std_io"];

/// The project's crate that a module is in, and its path there; nothing for a module of the kit.
pub fn own_module(module: &str) -> Option<(&str, &str)> {
    let (crate_name, rest) = module.strip_prefix("Rattle.")?.split_once('.')?;
    (!KIT.contains(&crate_name)).then_some((crate_name, rest))
}

/// A sign of a word of Rattle.
fn is_word(sign: char) -> bool {
    sign.is_alphanumeric() || sign == '_'
}

/// A function: whether other crates see it, its parameters, whether it gives a result, and its contract's clauses.
#[derive(Debug, Default)]
pub struct Function {
    pub name: String,
    pub exported: bool,
    /// Names, and which of them are lent to be written.
    pub parameters: Vec<(String, bool)>,
    pub result: bool,
    /// What is between its name and its contract, token by token: the parameters with their types, and the result's type.
    pub signature: Vec<String>,
    /// The word that begins each clause, and what is in its brackets.
    pub clauses: Vec<(String, String)>,
    /// What is in the brackets of its body, token by token.
    pub body: Vec<String>,
}

/// The parameters up to the bracket that closes the one that was read.
fn parameters(reader: &mut Reader) -> Vec<(String, bool)> {
    let (mut depth, mut parameters, mut tokens) = (1, vec![], Vec::<String>::new());
    while let Some(token) = reader.token() {
        let arrow = token == ">" && tokens.last().map_or(false, |last| last == "-");
        match token.as_str() {
            "(" | "[" | "<" => depth += 1,
            ")" | "]" | ">" if !arrow => depth -= 1,
            _ => (),
        }
        if depth == 0 || depth == 1 && token == "," {
            parameters.extend(parameter(&tokens));
            tokens.clear();
        } else {
            tokens.push(token);
        }
        if depth == 0 {
            break;
        }
    }
    parameters
}

/// A parameter's name, and whether it is lent to be written.
fn parameter(tokens: &[String]) -> Option<(String, bool)> {
    let colon = tokens.iter().position(|token| token == ":");
    let name = tokens[..colon.unwrap_or(tokens.len())].iter().rev().find(|token| token.chars().all(is_word))?;
    let kind = &tokens[colon.map_or(0, |at| at + 1)..];
    let lent = kind.first().map_or(false, |token| token == "&") && kind.iter().take(4).any(|token| token == "mut");
    Some((name.clone(), lent))
}

/// The functions of a source, methods too.
pub fn functions(source: &str) -> Vec<Function> {
    let mut reader = Reader::new(source);
    let (mut found, mut lead) = (vec![], vec![]);
    while let Some(token) = reader.token() {
        if ["}", "{", ";", "]"].contains(&token.as_str()) {
            lead.clear();
        } else if token == "fn" {
            found.push(function(&mut reader, &lead));
            lead.clear();
        } else {
            lead.push(token);
        }
    }
    found
}

/// The function whose `fn` was read, `lead` standing before it; up to the start of its body.
fn function(reader: &mut Reader, lead: &[String]) -> Function {
    let public = lead.iter().position(|token| token == "pub");
    let exported = public.map_or(false, |at| lead.get(at + 1).map_or(true, |next| next != "("));
    let mut function = Function { name: reader.token().unwrap_or_default(), exported, ..Function::default() };
    function.signature = signature(reader);
    // parameters of types come first, in brackets that may have others within
    let (mut last, mut depth) = (String::new(), 0);
    while let Some(token) = reader.token() {
        match token.as_str() {
            "(" if depth == 0 => break,
            "<" | "(" => depth += 1,
            ")" => depth -= 1,
            ">" if last != "-" => depth -= 1,
            _ => (),
        }
        last = token;
    }
    function.parameters = parameters(reader);
    // an array type has a `;` of its own
    let (mut last, mut arrays) = (String::new(), 0);
    while let Some(token) = reader.token() {
        match token.as_str() {
            "[" => arrays += 1,
            "]" => arrays -= 1,
            "{" => {
                function.body = body(reader);
                break;
            }
            ";" if arrays == 0 => break,
            ">" if last == "-" => function.result = true,
            "requires" | "ensures" | "ghost" => {
                reader.pass();
                let star = if reader.sees("*") { "*" } else { "" };
                // a clause may have a name
                while !reader.sees("{") && reader.token().is_some() {
                    reader.pass();
                }
                function.clauses.push((format!("{token}{star}"), reader.braces()));
            }
            _ => (),
        }
        last = token;
    }
    function
}

/// The tokens up to a contract, a body or the end of a declaration, without the comma that a layout in lines has behind the last parameter. The
/// reader stays where it is.
fn signature(reader: &mut Reader) -> Vec<String> {
    let (start, mut arrays, mut tokens) = (reader.at, 0, Vec::<String>::new());
    while let Some(token) = reader.token() {
        match token.as_str() {
            "[" => arrays += 1,
            "]" => arrays -= 1,
            ";" if arrays == 0 => break,
            "{" | "requires" | "ensures" | "ghost" => break,
            ")" if tokens.last().map_or(false, |last| last == ",") => drop(tokens.pop()),
            _ => (),
        }
        tokens.push(token);
    }
    reader.at = start;
    tokens
}

/// The tokens up to the bracket that closes the one that was read. The reader stays where it is: a body may have functions in it.
fn body(reader: &mut Reader) -> Vec<String> {
    let (start, mut depth, mut tokens) = (reader.at, 1, vec![]);
    while let Some(token) = reader.token() {
        match token.as_str() {
            "{" => depth += 1,
            "}" => depth -= 1,
            _ => (),
        }
        if depth == 0 {
            break;
        }
        tokens.push(token);
    }
    reader.at = start;
    tokens
}

/// The `ghost use` items of Rattle, as text.
pub fn ghost_uses(source: &str) -> Vec<String> {
    let mut reader = Reader::new(source);
    let (mut found, mut before) = (vec![], String::new());
    while let Some(token) = reader.token() {
        if token == "use" && before == "ghost" {
            let start = reader.at;
            while reader.signs.get(reader.at).map_or(false, |&sign| sign != ';') {
                reader.at += 1;
            }
            found.push(reader.signs[start..reader.at].iter().collect());
        }
        before = token;
    }
    found
}

/// antt's text without its comments and what its strings hold, line for line.
pub fn uncommented(text: &str) -> String {
    stripped(text, false)
}

/// antt's text without its comments, and, unless they are kept, what strings hold.
pub fn stripped(text: &str, strings: bool) -> String {
    let mut reader = Reader::new(text);
    let mut kept = String::new();
    while reader.at < reader.signs.len() {
        let start = reader.at;
        let begins = start == 0 || !is_name(reader.signs[start - 1]);
        if reader.sees("{-") {
            reader.pass_block("{-", "-}");
            kept.extend(reader.signs[start..reader.at].iter().filter(|&&sign| sign == '\n'));
        } else if begins && reader.sees("--") {
            reader.at += reader.signs[start..].iter().position(|&s| s == '\n').unwrap_or(reader.signs.len() - start);
        } else if reader.sees("\"") {
            reader.pass_quoted('"');
            match strings {
                true => kept.extend(&reader.signs[start..reader.at]),
                false => kept.push_str("\"\""),
            }
        } else {
            kept.push(reader.signs[start]);
            reader.at += 1;
        }
    }
    kept
}

/// A sign of a name of antt.
fn is_name(sign: char) -> bool {
    !sign.is_whitespace() && !"(){}.;,@\"«»".contains(sign)
}

/// The tokens of antt: names, with a module in front where they have one and their fields behind, fields of what is in brackets with their
/// dot, signs. An escaped name is the name.
pub fn tokens(text: &str) -> Vec<String> {
    let signs: Vec<char> = text.chars().collect();
    let mut tokens: Vec<String> = vec![];
    let mut at = 0;
    while at < signs.len() {
        let start = at;
        let (tight, next) = (at > 0 && is_name(signs[at - 1]), signs.get(at + 1).map_or(false, |&sign| is_name(sign)));
        if signs[at] == '«' {
            at += signs[at..].iter().position(|&sign| sign == '»').unwrap_or(signs.len() - at - 1) + 1;
            tokens.push(signs[start + 1..at - 1].iter().collect());
        } else if signs[at].is_whitespace() {
            at += 1;
        } else if is_name(signs[at]) || signs[at] == '.' && next {
            at += 1;
            while at < signs.len() && is_name(signs[at]) {
                at += 1;
            }
            let token: String = signs[start..at].iter().collect();
            match tokens.last_mut() {
                Some(last) if tight && token.starts_with('.') => last.push_str(&token),
                _ => tokens.push(token),
            }
        } else {
            tokens.push(signs[at].into());
            at += 1;
        }
    }
    tokens
}

/// A name brought from a module, under this or another name; no name where the module itself is brought.
#[derive(Debug, PartialEq)]
pub struct Import {
    pub module: String,
    pub name: String,
    pub local: String,
}

/// What the `use` items in a text bring.
pub fn imports(text: &str) -> Vec<Import> {
    let tokens = tokens(text);
    let mut found = vec![];
    for start in (0..tokens.len()).filter(|&at| tokens[at] == "use") {
        let word = |at: usize| tokens.get(at).map_or("", |token| token.as_str());
        let import =
            |name: &str, local: &str| Import { module: word(start + 1).into(), name: name.into(), local: local.into() };
        if word(start + 2) == "as" {
            found.push(import("", word(start + 3)));
        } else if word(start + 2) == "." && word(start + 3) == "{" {
            let mut at = start + 4;
            while !["}", ""].contains(&word(at)) {
                let renamed = word(at + 1) == "as";
                found.push(import(word(at), word(if renamed { at + 2 } else { at })));
                at += if renamed { 4 } else { 2 } - usize::from(word(at + if renamed { 3 } else { 1 }) == "}");
            }
        } else {
            found.push(import("", word(start + 1)));
        }
    }
    found
}

/// The functions, types and variants that a source of Rattle declares.
pub fn declared(source: &str) -> Vec<String> {
    let mut reader = Reader::new(source);
    let (mut found, mut before) = (vec![], String::new());
    while let Some(token) = reader.token() {
        if ["fn", "struct", "enum"].contains(&before.as_str()) {
            found.push(token.clone());
        }
        before = token;
    }
    found
}
