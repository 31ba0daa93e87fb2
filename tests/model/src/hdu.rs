//! Header and data units of the FITS Standard 4.0, read and written in general. No part of the model of the calls.

/// The Standard's unit of length.
const BLOCK: usize = 2_880;
const CARD: usize = 80;

#[derive(Clone, Debug, PartialEq, Eq)]
pub enum Value {
    Logical(bool),
    Integer(i64),
    Text(String),
}

/// A card that has a value.
#[derive(Clone, Debug, PartialEq, Eq)]
pub struct Card {
    pub keyword: String,
    pub value: Value,
}

#[derive(Clone, Debug, PartialEq, Eq)]
pub struct Unit {
    pub cards: Vec<Card>,
    pub data: Vec<u8>,
}

fn wrong<T>(what: &str) -> Result<T, String> {
    Err(what.to_string())
}

impl Card {
    pub fn new(keyword: &str, value: Value) -> Card {
        Card { keyword: keyword.to_string(), value }
    }

    /// In fixed format (4.2): a logical in column 30, an integer right-justified to it, a string from column 11 with at least
    /// eight characters between its quotes.
    fn bytes(&self) -> Vec<u8> {
        let value = match &self.value {
            Value::Logical(value) => format!("{:>20}", if *value { "T" } else { "F" }),
            Value::Integer(value) => format!("{value:>20}"),
            Value::Text(value) => format!("'{:<8}'", value.replace('\'', "''")),
        };
        format!("{:<8}= {value:<70}", self.keyword).into_bytes()
    }

    /// The card of 80 characters; none for a blank or a comment.
    fn read(text: &str) -> Result<Option<Card>, String> {
        let (keyword, rest) = text.split_at(8);
        let keyword = keyword.trim_end();
        if !keyword.chars().all(|c| c.is_ascii_uppercase() || c.is_ascii_digit() || c == '-' || c == '_') {
            return Err(format!("keyword '{keyword}'"));
        }
        if !rest.starts_with("= ") || ["", "COMMENT", "HISTORY"].contains(&keyword) {
            return Ok(None);
        }
        Ok(Some(Card { keyword: keyword.to_string(), value: Value::read(&rest[2..])? }))
    }
}

impl Value {
    /// From column 11 on, in fixed format, which mandatory keywords have; a comment may follow.
    fn read(text: &str) -> Result<Value, String> {
        if let Some(quoted) = text.strip_prefix('\'') {
            return Value::read_text(quoted);
        }
        let (value, comment) = text.split_at(20);
        let comment = comment.trim_start();
        if !comment.is_empty() && !comment.starts_with('/') {
            return Err(format!("'{text}' is not in fixed format"));
        }
        match value.trim_start() {
            "T" => Ok(Value::Logical(true)),
            "F" => Ok(Value::Logical(false)),
            number => number.parse().map(Value::Integer).map_err(|_| format!("value '{value}'")),
        }
    }

    /// Behind the first quote: two of them stand for one, and blanks at the end mean nothing.
    fn read_text(quoted: &str) -> Result<Value, String> {
        let (mut value, mut rest) = (String::new(), quoted.chars());
        loop {
            match (rest.next(), rest.as_str().starts_with('\'')) {
                (None, _) => return wrong("a string without an end"),
                (Some('\''), true) => value.extend(rest.next()),
                (Some('\''), false) => break,
                (Some(other), _) => value.push(other),
            }
        }
        let comment = rest.as_str().trim_start();
        match comment.is_empty() || comment.starts_with('/') {
            true => Ok(Value::Text(value.trim_end().to_string())),
            false => Err(format!("'{comment}' behind a string")),
        }
    }
}

impl Unit {
    fn value(&self, keyword: &str) -> Option<&Value> {
        self.cards.iter().find(|card| card.keyword == keyword).map(|card| &card.value)
    }

    fn integer(&self, keyword: &str) -> Result<i64, String> {
        match self.value(keyword) {
            Some(&Value::Integer(value)) => Ok(value),
            _ => Err(format!("{keyword} is not a number")),
        }
    }

    fn text(&self, keyword: &str) -> Result<&str, String> {
        match self.value(keyword) {
            Some(Value::Text(value)) => Ok(value),
            _ => Err(format!("{keyword} is not a string")),
        }
    }

    /// The mandatory keywords first and in their order (4.4.1, 7.3.1): for a primary header or for a binary table.
    fn check_order(&self, primary: bool) -> Result<(), String> {
        let axes = (1..=self.integer("NAXIS")?).map(|axis| format!("NAXIS{axis}"));
        let first = if primary { "SIMPLE" } else { "XTENSION" };
        let last: &[&str] = if primary { &[] } else { &["PCOUNT", "GCOUNT", "TFIELDS"] };
        let names = [first, "BITPIX", "NAXIS"].map(String::from).into_iter().chain(axes);
        let names: Vec<String> = names.chain(last.iter().map(|name| name.to_string())).collect();
        let found = self.cards.iter().map(|card| &card.keyword);
        match found.take(names.len()).eq(&names) {
            true => Ok(()),
            false => wrong("the mandatory keywords are not there or not in order"),
        }
    }

    /// How many bytes of data the header announces (4.4.1.1, 4.4.1.2).
    fn data_length(&self, primary: bool) -> Result<usize, String> {
        let axes = self.integer("NAXIS")?;
        if axes == 0 {
            return Ok(0);
        }
        let (groups, parameters) = if primary { (1, 0) } else { (self.integer("GCOUNT")?, self.integer("PCOUNT")?) };
        let axes: Result<Vec<i64>, String> = (1..=axes).map(|axis| self.integer(&format!("NAXIS{axis}"))).collect();
        let items = groups * (parameters + axes?.into_iter().product::<i64>());
        usize::try_from(self.integer("BITPIX")?.abs() / 8 * items).map_err(|_| "a negative length".to_string())
    }

    /// The rows of a binary table all of whose columns are 32-bit integers (7.3).
    pub fn rows(&self) -> Result<Vec<Vec<i32>>, String> {
        let numbers = ["BITPIX", "NAXIS", "PCOUNT", "GCOUNT"].map(|keyword| self.integer(keyword));
        if self.text("XTENSION")? != "BINTABLE" || numbers != [Ok(8), Ok(2), Ok(0), Ok(1)] {
            return wrong("not a binary table, or one with a heap");
        }
        let mut columns = 0;
        for field in 1..=self.integer("TFIELDS")? {
            let form = self.text(&format!("TFORM{field}"))?;
            let count = form.strip_suffix('J').ok_or_else(|| format!("form {form}"))?;
            columns += if count.is_empty() { 1 } else { count.parse::<usize>().map_err(|_| format!("form {form}"))? };
        }
        let (width, count) = (self.integer("NAXIS1")? as usize, self.integer("NAXIS2")? as usize);
        if width != 4 * columns || self.data.len() != width * count {
            return wrong("the columns do not make up the rows");
        }
        let value = |bytes: &[u8]| i32::from_be_bytes(bytes.try_into().unwrap());
        Ok(self.data.chunks(width).map(|row| row.chunks(4).map(value).collect()).collect())
    }
}

/// All units of a file that is a primary header and binary tables.
pub fn read(bytes: &[u8]) -> Result<Vec<Unit>, String> {
    if bytes.is_empty() || !bytes.len().is_multiple_of(BLOCK) {
        return wrong("not whole blocks");
    }
    let (mut units, mut rest) = (Vec::new(), bytes);
    while !rest.is_empty() {
        let primary = units.is_empty();
        let (mut unit, header) = read_header(rest)?;
        unit.check_order(primary)?;
        if primary && unit.value("SIMPLE") != Some(&Value::Logical(true)) {
            return wrong("SIMPLE is not T");
        }
        let length = unit.data_length(primary)?;
        let blocks = length.div_ceil(BLOCK) * BLOCK;
        let data = rest.get(header..header + blocks).ok_or("the data end too early")?;
        if data[length..].iter().any(|&byte| byte != 0) {
            return wrong("a fill that is not zeros");
        }
        unit.data = data[..length].to_vec();
        units.push(unit);
        rest = &rest[header + blocks..];
    }
    Ok(units)
}

/// The unit without its data, and how long its header is.
fn read_header(bytes: &[u8]) -> Result<(Unit, usize), String> {
    let mut unit = Unit { cards: Vec::new(), data: Vec::new() };
    for (index, card) in bytes.chunks(CARD).enumerate() {
        if !card.iter().all(|byte| (0x20..=0x7e).contains(byte)) {
            return wrong("a header with other characters");
        }
        let text = std::str::from_utf8(card).unwrap();
        if text.trim_end() == "END" {
            let end = ((index + 1) * CARD).div_ceil(BLOCK) * BLOCK;
            let blank = bytes[(index + 1) * CARD..end].iter().all(|&byte| byte == b' ');
            return if blank { Ok((unit, end)) } else { wrong("no blanks behind END") };
        }
        unit.cards.extend(Card::read(text)?);
    }
    wrong("a header without END")
}

/// The bytes of some units.
pub fn write(units: &[Unit]) -> Vec<u8> {
    let mut bytes = Vec::new();
    for unit in units {
        unit.cards.iter().for_each(|card| bytes.extend(card.bytes()));
        bytes.extend(format!("{:<80}", "END").into_bytes());
        bytes.resize(bytes.len().div_ceil(BLOCK) * BLOCK, b' ');
        bytes.extend(&unit.data);
        bytes.resize(bytes.len().div_ceil(BLOCK) * BLOCK, 0);
    }
    bytes
}

/// A primary header without data, and a binary table of 32-bit integers; with names for the columns, if there are any.
pub fn table(columns: usize, names: &[&str], rows: &[Vec<i32>]) -> Vec<Unit> {
    let (integer, text) = (|value: usize| Value::Integer(value as i64), |value: &str| Value::Text(value.to_string()));
    let mut primary = vec![Card::new("SIMPLE", Value::Logical(true)), Card::new("BITPIX", integer(8))];
    primary.extend([Card::new("NAXIS", integer(0)), Card::new("EXTEND", Value::Logical(true))]);
    let mut cards = vec![Card::new("XTENSION", text("BINTABLE"))];
    let sizes = [("NAXIS1", 4 * columns), ("NAXIS2", rows.len())];
    let numbers = [("BITPIX", 8), ("NAXIS", 2)].into_iter().chain(sizes).chain([("PCOUNT", 0), ("GCOUNT", 1)]);
    cards.extend(numbers.chain([("TFIELDS", columns)]).map(|(keyword, value)| Card::new(keyword, integer(value))));
    for column in 1..=columns {
        cards.push(Card::new(&format!("TFORM{column}"), text("1J")));
        cards.extend(names.get(column - 1).map(|name| Card::new(&format!("TTYPE{column}"), text(name))));
    }
    let data = rows.iter().flatten().flat_map(|value| value.to_be_bytes()).collect();
    vec![Unit { cards: primary, data: Vec::new() }, Unit { cards, data }]
}
