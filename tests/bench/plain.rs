//! What the library is timed beside: the same work in plain Rust, written for speed and not proved.

/// T, F and the chosen variable, as they were before a choice.
type Level = (u32, u32, u32);

/// T and F after a level is taken back: its variable becomes false.
#[inline(always)]
fn restored(level: Level) -> (u32, u32) {
    (level.0, level.1 | 1 << level.2)
}

/// T and F after the lowest of the forced variables is set: true where some row forces it so.
#[inline(always)]
fn forced(t: u32, f: u32, units: u32, positive: u32) -> (u32, u32) {
    let unit = units & units.wrapping_neg();
    if positive & unit != 0 {
        (t | unit, f)
    } else {
        (t, f | unit)
    }
}

/// The level of a choice, and T after it: the lowest free variable becomes true.
#[inline(always)]
fn chosen(t: u32, f: u32, free: u32) -> (Level, u32) {
    let variable = free.trailing_zeros();
    ((t, f, variable), t | 1 << variable)
}

/// What a look at all rows finds: a conflict; the variables that unit rows force, and those that they force true; all free variables.
struct Scan {
    conflict: bool,
    units: u32,
    positive: u32,
    free: u32,
}

/// Looks at the rows of all tables in order, up to the first conflict.
#[inline(always)]
fn scan(rows: &[u32], t: u32, f: u32) -> Scan {
    let unset = !(t | f);
    let mut found = Scan { conflict: false, units: 0, positive: 0, free: 0 };
    for row in rows.chunks_exact(2) {
        if row[0] & row[1] | row[0] & t | row[1] & f != 0 {
            continue;
        }
        let open = (row[0] | row[1]) & unset;
        if open == 0 {
            found.conflict = true;
            break;
        }
        found.free |= open;
        if open & (open - 1) == 0 {
            found.units |= open;
            found.positive |= open & row[0];
        }
    }
    found
}

/// The budgeted run over row words, two a row: count, verdict and model as the library numbers them.
pub fn solve(rows: &[u32], budget: u64) -> [u64; 3] {
    let (mut t, mut f) = (0u32, 0u32);
    let mut levels = [(0u32, 0u32, 0u32); 32];
    let (mut depth, mut count) = (0, 0);
    while count < budget {
        count += 1;
        let Scan { conflict, units, positive, free } = scan(rows, t, f);
        if conflict {
            if depth == 0 {
                return [count, 2, 0];
            }
            depth -= 1;
            (t, f) = restored(levels[depth]);
        } else if free == 0 {
            return [count, 1, u64::from(t)];
        } else if units != 0 {
            (t, f) = forced(t, f, units, positive);
        } else {
            (levels[depth], t) = chosen(t, f, free);
            depth += 1;
        }
    }
    [count, 0, 0]
}

/// Whether no row has a bit at or above n.
#[inline(always)]
fn accepted(n: u32, rows: &[u32]) -> bool {
    let beyond = u32::MAX.checked_shl(n).unwrap_or(0);
    rows.iter().all(|word| word & beyond == 0)
}

/// How many literals of each row are free under a run, a byte a row; false where rows or run are not right or bytes are too few.
pub fn count_free(n: u32, rows: &[u32], run: &[u32; 101], counts: &mut [u8]) -> bool {
    if !accepted(n, rows) || counts.len() < rows.len() / 2 || !well_formed(n, run) {
        return false;
    }
    let unset = !(run[2] | run[3]);
    for (row, count) in rows.chunks_exact(2).zip(counts) {
        *count = ((row[0] & unset).count_ones() + (row[1] & unset).count_ones()) as u8;
    }
    true
}

/// One step of a run of 101 words, or false where a row has a bit at or above n or the run is no well-formed one of n variables.
pub fn step(n: u32, rows: &[u32], run: &mut [u32; 101]) -> bool {
    if !accepted(n, rows) || !well_formed(n, run) {
        return false;
    }
    if run[1] != 0 {
        return true;
    }
    let (t, f, depth) = (run[2], run[3], run[4] as usize);
    let Scan { conflict, units, positive, free } = scan(rows, t, f);
    if conflict && depth == 0 {
        run[1] = 2;
    } else if conflict {
        let at = 5 + 3 * (depth - 1);
        (run[2], run[3]) = restored((run[at], run[at + 1], run[at + 2]));
        run[at..at + 3].fill(0);
        run[4] -= 1;
    } else if free == 0 {
        run[1] = 1;
    } else if units != 0 {
        (run[2], run[3]) = forced(t, f, units, positive);
    } else {
        let at = 5 + 3 * depth;
        let (level, after) = chosen(t, f, free);
        (run[at], run[at + 1], run[at + 2]) = level;
        run[2] = after;
        run[4] += 1;
    }
    true
}

/// Whether the words are a run of n variables: each level lies within the next, its variable free before and true then.
fn well_formed(n: u32, run: &[u32; 101]) -> bool {
    let beyond = u32::MAX.checked_shl(n).unwrap_or(0);
    let (t, f, depth) = (run[2], run[3], run[4] as usize);
    if run[0] != n || run[1] > 2 || t & f | (t | f) & beyond != 0 || depth > n as usize {
        return false;
    }
    let levels = &run[5..5 + 3 * depth];
    let mut next = (t, f);
    for level in levels.chunks_exact(3).rev() {
        if level[2] >= n || level[0] & level[1] != 0 {
            return false;
        }
        let chosen = 1 << level[2];
        if (level[0] | level[1]) & chosen | !next.0 & (level[0] | chosen) | !next.1 & level[1] != 0 {
            return false;
        }
        next = (level[0], level[1]);
    }
    run[5 + 3 * depth..].iter().all(|&word| word == 0)
}

/// A circuit's text with these input widths, into a buffer that is cleared first; false where the words are no gates.
pub fn text(widths: &[usize], state: usize, gates: &[u32], text: &mut Vec<u8>) -> bool {
    let inputs: usize = widths.iter().sum();
    let judged = gates.chunks_exact(3).enumerate().all(|(g, gate)| {
        let bound = if gate[2] == 0 && gate[0] == 2 { 1 } else { inputs + g };
        gate[0] <= 2 && (gate[1] as usize) < inputs + g && (gate[2] as usize) < bound
    });
    let count = gates.len() / 3;
    text.clear();
    let mut line = |numbers: &[usize], end: &[u8]| {
        for (k, &number) in numbers.iter().enumerate() {
            if k > 0 {
                text.push(b' ');
            }
            decimal(number, text);
        }
        text.extend(end);
    };
    line(&[count, inputs + count], b"\n");
    line(&[&[widths.len()], widths].concat(), b"\n");
    line(&[2, state, 1], b"\n\n");
    for (g, gate) in gates.chunks_exact(3).enumerate() {
        let (a, b, wire) = (gate[1] as usize, gate[2] as usize, inputs + g);
        match gate[0] {
            0 => line(&[2, 1, a, b, wire], b" XOR\n"),
            1 => line(&[2, 1, a, b, wire], b" AND\n"),
            _ => line(&[1, 1, a, wire], b" INV\n"),
        }
    }
    judged
}

/// A number in decimal.
fn decimal(mut number: usize, text: &mut Vec<u8>) {
    let (mut digits, mut at) = ([0; 20], 20);
    loop {
        at -= 1;
        digits[at] = b'0' + (number % 10) as u8;
        number /= 10;
        if number == 0 {
            break;
        }
    }
    text.extend(&digits[at..]);
}

/// What comes before the clauses: n, the number of rows, and where the header's line ends; or the refusal's number.
#[inline(always)]
fn sizes(text: &[u8]) -> Result<(i64, i64, usize), u8> {
    if text.len() > 65_536 {
        return Err(5);
    }
    let mut at = 0;
    while text.get(at) == Some(&b'c') {
        match text[at..].iter().position(|&byte| byte == b'\n') {
            Some(end) => at += end + 1,
            None => return Err(5),
        }
    }
    let end = text[at..].iter().position(|&byte| byte == b'\n').map_or(text.len(), |end| at + end);
    let (n, m) = header(&text[at..end]).ok_or(5)?;
    if !(1..=32).contains(&n) {
        return Err(1);
    }
    if !(1..=128).contains(&m) {
        return Err(2);
    }
    Ok((n, m, end))
}

/// One station's text: n and the row words, or the refusal's number. One pass with a cursor, nothing allocated but the words.
pub fn read(text: &[u8], words: &mut Vec<u32>) -> Result<u8, u8> {
    let (n, m, mut at) = sizes(text)?;
    words.clear();
    let (mut positive, mut negative, mut open) = (0u32, 0u32, false);
    loop {
        while at < text.len() && matches!(text[at], b' ' | b'\t' | b'\r' | b'\n') {
            at += 1;
        }
        if at == text.len() {
            break;
        }
        if text[at] == b'c' && text[at - 1] == b'\n' {
            at = text[at..].iter().position(|&byte| byte == b'\n').map_or(text.len(), |end| at + end);
            continue;
        }
        let (literal, behind) = number(text, at).ok_or(5)?;
        at = behind;
        if at < text.len() && !matches!(text[at], b' ' | b'\t' | b'\r' | b'\n') {
            return Err(5);
        }
        open = literal != 0;
        match literal {
            0 => {
                words.extend([positive, negative]);
                (positive, negative) = (0, 0);
            }
            1.. if literal <= n => positive |= 1 << (literal - 1),
            _ if -literal <= n && literal < 0 => negative |= 1 << (-literal - 1),
            _ => return Err(5),
        }
    }
    if open || words.len() as i64 != 2 * m {
        return Err(5);
    }
    Ok(n as u8)
}

/// The number at a place and the place after it; one past every limit is held at a thousand.
fn number(text: &[u8], mut at: usize) -> Option<(i64, usize)> {
    let minus = text.get(at) == Some(&b'-');
    at += usize::from(minus);
    let start = at;
    let mut value = 0;
    while let Some(digit) = text.get(at).map(|byte| byte.wrapping_sub(b'0')).filter(|&digit| digit < 10) {
        value = (10 * value + i64::from(digit)).min(1_000);
        at += 1;
    }
    let leading = text.get(start) == Some(&b'0');
    if at == start || leading && (at > start + 1 || minus) {
        return None;
    }
    Some((if minus { -value } else { value }, at))
}

/// The header line's two numbers.
fn header(line: &[u8]) -> Option<(i64, i64)> {
    let mut end = line.len();
    while end > 0 && matches!(line[end - 1], b' ' | b'\t' | b'\r') {
        end -= 1;
    }
    let mut parts = line[..end].split(|&byte| byte == b' ' || byte == b'\t').filter(|part| !part.is_empty());
    if line.first() != Some(&b'p') || parts.next() != Some(b"p") || parts.next() != Some(b"cnf") {
        return None;
    }
    let mut whole =
        || parts.next().and_then(|part| number(part, 0).filter(|read| read.1 == part.len())).map(|read| read.0);
    let sizes = (whole()?, whole()?);
    parts.next().is_none().then_some(sizes)
}

/// The variables of the lines between header and clauses, in order: each bit with 1 for the universal side; and the text without these
/// lines. None where a line is malformed.
fn prefix(text: &[u8], plain: &mut Vec<u8>) -> Option<Vec<(i64, bool)>> {
    plain.clear();
    let (mut turns, mut rest, mut headed) = (vec![], text, false);
    while !rest.is_empty() {
        let end = rest.iter().position(|&byte| byte == b'\n').map_or(rest.len(), |end| end + 1);
        let line = &rest[..end];
        match line[0] {
            b'a' | b'e' if headed => {
                let mut at = 1;
                loop {
                    let start = at;
                    while at < end && matches!(line[at], b' ' | b'\t') {
                        at += 1;
                    }
                    let (variable, behind) = number(line, at).filter(|_| at > start)?;
                    at = behind;
                    if variable == 0 {
                        break;
                    }
                    turns.push((variable, line[0] == b'a'));
                }
                line[at..].iter().all(|byte| matches!(byte, b' ' | b'\t' | b'\r' | b'\n')).then_some(())?;
            }
            b' ' | b'\t' | b'\r' | b'\n' if headed => plain.extend(line),
            b'c' => plain.extend(line),
            _ if !headed => {
                plain.extend(line);
                headed = true;
            }
            _ => break,
        }
        rest = &rest[end..];
    }
    plain.extend(rest);
    Some(turns)
}

/// Whether the existential side can force that all rows are true: rows and turns, T and F.
fn forces(rows: &[u32], turns: &[(u32, bool)], t: u32, f: u32) -> bool {
    let (mut satisfied, unset) = (true, !(t | f));
    for row in rows.chunks_exact(2) {
        if row[0] & row[1] | row[0] & t | row[1] & f == 0 {
            if (row[0] | row[1]) & unset == 0 {
                return false;
            }
            satisfied = false;
        }
    }
    let Some((&(bit, universal), later)) = turns.split_first().filter(|_| !satisfied) else {
        return satisfied;
    };
    match forces(rows, later, t | bit, f) {
        first if first == universal => forces(rows, later, t, f | bit),
        first => first,
    }
}

/// Who can force the roster of a QDIMACS text: the winner, the first variable where the winner moves first, and its value.
pub fn game(text: &[u8], plain: &mut Vec<u8>, words: &mut Vec<u32>) -> Result<[u64; 3], u8> {
    if text.len() > 65_536 {
        return Err(5);
    }
    let listed = prefix(text, plain);
    let (n, _, _) = sizes(plain)?;
    if n > 12 {
        return Err(21);
    }
    let listed = listed.ok_or(5)?;
    read(plain, words)?;
    let mut seen = 0u32;
    let mut later = vec![];
    for &(variable, universal) in &listed {
        if !(1..=n).contains(&variable) || seen >> (variable - 1) & 1 == 1 {
            return Err(22);
        }
        seen |= 1 << (variable - 1);
        later.push((1 << (variable - 1), universal));
    }
    let unlisted = (0..n).map(|k| (1u32 << k, false)).filter(|(bit, _)| seen & bit == 0);
    let turns: Vec<(u32, bool)> = unlisted.chain(later).collect();
    let (bit, universal) = turns[0];
    let [yes, no] = [forces(words, &turns[1..], bit, 0), forces(words, &turns[1..], 0, bit)];
    let wins = if universal { !(yes && no) } else { yes || no };
    let side = 1 + u64::from(wins == universal);
    let variable = u64::from(bit.trailing_zeros() + 1);
    Ok(if wins { [side, variable, u64::from(yes != universal)] } else { [side, 0, 0] })
}

// ---- The watch page

/// Writes the page of a model, line by line: 25, 26.
pub fn page(model: u64, n: usize, [pilots, watches]: [usize; 2], page: &mut [u8]) -> u8 {
    if pilots.checked_mul(watches) != Some(n) {
        return 25;
    }
    let Some(page) = page.get_mut(..80 * pilots) else {
        return 26;
    };
    for (i, line) in page.chunks_exact_mut(80).enumerate() {
        line.fill(b' ');
        if i >= 9 {
            line[1] = b'0' + (i as u8 + 1) / 10;
        }
        line[2] = b'0' + (i as u8 + 1) % 10;
        for j in 0..watches {
            line[4 + 2 * j] = if model >> (i * watches + j) & 1 == 1 { b'#' } else { b'.' };
        }
        line[79] = b'\n';
    }
    0
}

/// The model on a page, line by line: 25, 26, 27.
pub fn read_page(n: usize, [pilots, watches]: [usize; 2], page: &[u8]) -> Result<u64, u8> {
    if pilots.checked_mul(watches) != Some(n) {
        return Err(25);
    }
    let mut model = 0;
    for (i, line) in page.get(..80 * pilots).ok_or(26u8)?.chunks_exact(80).enumerate() {
        let tens = if i >= 9 { b'0' + (i as u8 + 1) / 10 } else { b' ' };
        let (marks, rest) = line[3..].split_at(2 * watches);
        let spaces = rest[..rest.len() - 1].iter().all(|&byte| byte == b' ');
        if line[..3] != [b' ', tens, b'0' + (i as u8 + 1) % 10] || !spaces || line[79] != b'\n' {
            return Err(27);
        }
        for (j, mark) in marks.chunks_exact(2).enumerate() {
            match mark {
                b" #" => model |= 1 << (i * watches + j),
                b" ." => (),
                _ => return Err(27),
            }
        }
    }
    Ok(model)
}
