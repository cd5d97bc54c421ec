//! Session files written as text: what each shows, its bytes, and its listing worked out by hand from the paper.
//!
//! A case is a line `== name`, a line that says what the case shows, the bytes, a line `--` and the listing. Bytes are
//! hex digits, set apart as one likes; `00*512` is 512 zero bytes, and `( .. )*3` is three times what stands between. A
//! line of the listing that ends in ` * 3` stands for three such lines. A line that starts with `#` is a remark.

pub struct Case {
    pub name: String,
    pub shows: String,
    pub bytes: Vec<u8>,
    pub listing: String,
}

/// The cases of a text, in order.
pub fn parse(text: &str) -> Result<Vec<Case>, String> {
    let lines: Vec<&str> = text.lines().filter(|line| !line.is_empty() && !line.starts_with('#')).collect();
    let (before, cases) = lines.split_at(lines.iter().position(|line| line.starts_with("== ")).unwrap_or(lines.len()));
    if let Some(line) = before.first() {
        return Err(format!("before the first case: {line}"));
    }
    cases.chunk_by(|_, line| !line.starts_with("== ")).map(case).collect()
}

fn case(lines: &[&str]) -> Result<Case, String> {
    let name = lines[0].trim_start_matches("== ").to_string();
    let in_case = |what: String| format!("{name}: {what}");
    let shows = lines.get(1).ok_or_else(|| in_case("nothing said of it".into()))?.to_string();
    let dashes = lines.iter().position(|&line| line == "--").ok_or_else(|| in_case("no listing".into()))?;
    let bytes = bytes(&lines[2..dashes].join(" ")).map_err(in_case)?;
    let listing = listing(&lines[dashes + 1..]).map_err(in_case)?;
    Ok(Case { name, shows, bytes, listing })
}

/// The bytes that a text writes.
fn bytes(text: &str) -> Result<Vec<u8>, String> {
    let spaced = text.replace('(', " ( ").replace(')', " ) ");
    let mut groups = vec![Vec::new()];
    let mut words = spaced.split_whitespace();
    while let Some(word) = words.next() {
        let bytes = match word {
            "(" => {
                groups.push(Vec::new());
                continue;
            }
            ")" => {
                let times = words.next().and_then(|word| word.strip_prefix('*')).ok_or("a group without its times")?;
                groups.pop().ok_or("a group that doesn't begin")?.repeat(number(times)?)
            }
            _ => match word.split_once('*') {
                Some((digits, times)) => hex(digits)?.repeat(number(times)?),
                None => hex(word)?,
            },
        };
        groups.last_mut().ok_or("a group that doesn't begin")?.extend(bytes);
    }
    match <[Vec<u8>; 1]>::try_from(groups) {
        Ok([bytes]) => Ok(bytes),
        Err(_) => Err("a group that doesn't end".into()),
    }
}

fn hex(digits: &str) -> Result<Vec<u8>, String> {
    if !digits.len().is_multiple_of(2) || !digits.bytes().all(|digit| digit.is_ascii_hexdigit()) {
        return Err(format!("not bytes in hex: {digits}"));
    }
    let pairs = (0..digits.len()).step_by(2).map(|at| &digits[at..at + 2]);
    pairs.map(|pair| u8::from_str_radix(pair, 16).map_err(|error| format!("{pair}: {error}"))).collect()
}

/// The listing that lines stand for.
fn listing(lines: &[&str]) -> Result<String, String> {
    let mut listing = String::new();
    for line in lines {
        let (line, times) = match line.split_once(" * ") {
            Some((line, times)) => (line, number(times)?),
            None => (*line, 1),
        };
        listing.push_str(&format!("{line}\n").repeat(times));
    }
    Ok(listing)
}

fn number(digits: &str) -> Result<usize, String> {
    digits.parse().map_err(|error| format!("{digits}: {error}"))
}
