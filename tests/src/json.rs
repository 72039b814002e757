// A strict reader of the JSON that the host program writes: objects, strings and whole numbers,
// without spaces between their parts. What no answer needs is an error: other kinds of values,
// escapes, a key twice, more than one value.

#[derive(Clone, Debug, PartialEq, Eq)]
pub enum Value {
    Number(i64),
    Text(String),
    Object(Vec<(String, Value)>),
}

impl Value {
    /// What an object has under this key.
    pub fn get(&self, key: &str) -> Option<&Value> {
        match self {
            Value::Object(members) => {
                members.iter().find(|(name, _)| name == key).map(|(_, value)| value)
            }
            _ => None,
        }
    }
}

/// The one value that is all of this text, or how many bytes of it were left where it goes wrong.
pub fn parse(text: &[u8]) -> Result<Value, usize> {
    let mut left = text;
    match value(&mut left) {
        Some(value) if left.is_empty() => Ok(value),
        _ => Err(left.len()),
    }
}

fn value(left: &mut &[u8]) -> Option<Value> {
    match left.first()? {
        b'{' => object(left),
        b'"' => string(left).map(Value::Text),
        _ => number(left).map(Value::Number),
    }
}

fn object(left: &mut &[u8]) -> Option<Value> {
    take(left, b'{')?;
    let mut members: Vec<(String, Value)> = Vec::new();
    if take(left, b'}').is_some() {
        return Some(Value::Object(members));
    }
    loop {
        let key = string(left)?;
        take(left, b':')?;
        if members.iter().any(|(name, _)| *name == key) {
            return None;
        }
        members.push((key, value(left)?));
        if take(left, b',').is_none() {
            take(left, b'}')?;
            return Some(Value::Object(members));
        }
    }
}

fn string(left: &mut &[u8]) -> Option<String> {
    take(left, b'"')?;
    let len = left.iter().position(|&byte| byte == b'"')?;
    let (text, rest) = left.split_at(len);
    let is_plain = text.iter().all(|byte| matches!(byte, b' '..=b'~') && *byte != b'\\');
    *left = rest;
    take(left, b'"')?;
    is_plain.then(|| text.iter().copied().map(char::from).collect())
}

/// Digits, with a minus in front or not, and no zero before another digit.
fn number(left: &mut &[u8]) -> Option<i64> {
    let minus = usize::from(left.first() == Some(&b'-'));
    let digits = left[minus..].iter().take_while(|byte| byte.is_ascii_digit()).count();
    let (text, rest) = left.split_at(minus + digits);
    if digits > 1 && text[minus] == b'0' {
        return None;
    }
    *left = rest;
    std::str::from_utf8(text).ok()?.parse().ok()
}

fn take(left: &mut &[u8], byte: u8) -> Option<()> {
    *left = left.strip_prefix(&[byte])?;
    Some(())
}
