//! The records of a procedure file by their fields, whatever these say.

pub const AUTOMATON: u16 = 1;
pub const SEQUENCE: u16 = 2;
pub const CLOSURE: u16 = 3;
pub const GUARD: u16 = 4;
pub const CHOICE: u16 = 5;
pub const SYNCHRONISATION: u16 = 6;
pub const QUANTIFIED_CHOICE: u16 = 7;
pub const QUANTIFIED_SYNCHRONISATION: u16 = 8;
pub const ARROW: u16 = 9;

/// What stands in a file for no child and for no guard.
pub const NONE: u16 = 65_535;

/// The names of the kinds of records, by number.
pub const KINDS: [&str; 10] = [
    "?",
    "automaton",
    "sequence",
    "closure",
    "guard",
    "choice",
    "synchronisation",
    "quantified choice",
    "quantified synchronisation",
    "arrow",
];

/// A record: its kind, and the fields of its body.
#[derive(Clone, Debug, PartialEq, Eq)]
pub struct Record {
    pub kind: u16,
    pub fields: Vec<u16>,
}

impl Record {
    pub fn new(kind: u16, fields: Vec<u16>) -> Record {
        Record { kind, fields }
    }

    pub fn is_arrow(&self) -> bool {
        self.kind == ARROW
    }

    /// Which fields name a child.
    pub fn child_fields(&self) -> Vec<usize> {
        let places: Vec<usize> = match self.kind {
            AUTOMATON => (3..self.fields.len()).step_by(2).collect(),
            SEQUENCE | CHOICE | SYNCHRONISATION => vec![0, 1],
            CLOSURE => vec![0],
            GUARD | QUANTIFIED_CHOICE | QUANTIFIED_SYNCHRONISATION => vec![1],
            _ => vec![],
        };
        places
            .into_iter()
            .filter(|&place| self.fields.get(place).is_some_and(|&child| child != NONE))
            .collect()
    }

    fn put(&self, file: &mut Vec<u8>) {
        // A length of more than two bytes cannot be drawn; what is left of it makes a file that is refused.
        let length = (2 + 2 * self.fields.len()) as u16;
        for field in [length, self.kind].iter().chain(&self.fields) {
            file.extend(field.to_le_bytes());
        }
    }
}

/// The file of some records.
pub fn file_of(records: &[Record]) -> Vec<u8> {
    let mut file = Vec::new();
    for record in records {
        record.put(&mut file);
    }
    file
}

/// The records of a file, if it is whole records of a kind and whole fields, whatever these say.
pub fn records_of(file: &[u8]) -> Option<Vec<Record>> {
    let mut records = Vec::new();
    let mut rest = file;
    while !rest.is_empty() {
        let (length, behind) = rest.split_first_chunk::<2>()?;
        let length = usize::from(u16::from_le_bytes(*length));
        if length < 2 || length % 2 == 1 || length > behind.len() {
            return None;
        }
        let (body, next) = behind.split_at(length);
        let fields: Vec<u16> = body
            .chunks_exact(2)
            .map(|pair| u16::from_le_bytes([pair[0], pair[1]]))
            .collect();
        records.push(Record::new(fields[0], fields[1..].to_vec()));
        rest = next;
    }
    Some(records)
}
