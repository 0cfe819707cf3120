//! A page as the gate reads it: quoted items, the blocks that they are in, and the rows of tables.

/// A quoted item, with what is between it and the one before.
pub struct Item<'a> {
    pub before: &'a str,
    pub text: &'a str,
}

/// The quoted items of a block of text.
pub fn items(block: &str) -> Vec<Item<'_>> {
    let parts: Vec<&str> = block.split('`').collect();
    parts.chunks_exact(2).map(|pair| Item { before: pair[0], text: pair[1] }).collect()
}

/// Whether what is between two items only lists them.
pub fn lists(between: &str) -> bool {
    [",", "and", ", and", ";", ":"].contains(&between.trim())
}

/// The names one after the other at the end, the last part of each.
pub fn chain<'a>(items: &[Item<'a>]) -> Vec<&'a str> {
    let mut names = vec![];
    for item in items.iter().rev() {
        let name = item.text.split(' ').next().unwrap_or("");
        if name.contains('/') || name.contains("::") {
            break;
        }
        names.push(name.rsplit('.').next().unwrap_or(name));
        if !lists(item.before) {
            break;
        }
    }
    names
}

/// The blocks of a page: the cells of tables, and paragraphs.
pub fn blocks(page: &str) -> Vec<String> {
    let mut blocks = vec![String::new()];
    for line in page.lines() {
        if line.starts_with('|') {
            blocks.extend(line.split('|').map(String::from));
            blocks.push(String::new());
        } else if line.trim().is_empty() {
            blocks.push(String::new());
        } else if let Some(last) = blocks.last_mut() {
            last.push_str(line);
            last.push('\n');
        }
    }
    blocks
}

/// The rows of a page's tables, each as the cells of its table's head and its own.
pub fn rows(page: &str) -> Vec<(Vec<&str>, Vec<&str>)> {
    let (mut found, mut head) = (vec![], None::<Vec<&str>>);
    for line in page.lines() {
        let cells: Vec<&str> = line.split('|').map(str::trim).collect();
        if cells.len() < 3 {
            head = None;
        } else if let Some(head) = &head {
            found.push((head.clone(), cells));
        } else {
            head = Some(cells);
        }
    }
    // the line of dashes below a head is none
    found.retain(|(_, cells)| !cells[1].starts_with('-'));
    found
}
