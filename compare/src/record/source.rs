//! What the source of a reader of procfs-core tells: errors name the line of it where they arose.

/// Where an error arose.
#[derive(Clone, Copy, Debug, PartialEq, Eq)]
pub enum Place {
    /// As a line of the text was taken.
    Taking,
    /// As the record was made: the field, from 1.
    Field(usize),
    /// In a function that several fields use.
    Helper,
}

/// The reader of a record, `from_buf_read`: a loop over the lines, then a struct literal.
pub struct Source {
    /// The lines from the function's head to the literal, and the literal's, from 1.
    head: usize,
    literal: usize,
    end: usize,
    fields: Vec<Field>,
}

struct Field {
    line: usize,
    /// The name in the text that the field is read from.
    name: String,
}

impl Source {
    /// Panics where the source has another form than is known here.
    pub fn of(source: &str, record: &str) -> Source {
        let lines: Vec<&str> = source.lines().map(str::trim).collect();
        let after = |from: usize, found: &dyn Fn(&str) -> bool| {
            let place = lines[from..].iter().position(|line| found(line));
            from + place.expect("the source has its known form")
        };
        let declared = after(0, &|line| line == format!("pub struct {record} {{"));
        let head = after(declared, &|line| line.starts_with("fn from_buf_read<"));
        let literal = after(head, &|line| {
            line.starts_with("let ") && line.ends_with(&format!(" = {record} {{"))
        });
        let end = after(literal, &|line| line == "};");

        let mut fields: Vec<Field> = Vec::new();
        let mut idents = Vec::new();
        for (index, line) in lines.iter().enumerate().take(end).skip(literal + 1) {
            if let Some(ident) = ident(line) {
                idents.push(ident);
                fields.push(Field {
                    line: index + 1,
                    name: String::new(),
                });
            }
            let field = fields.last_mut().expect("the literal begins with a field");
            if let (true, Some(name)) = (field.name.is_empty(), line.split('"').nth(1)) {
                field.name = name.to_string();
            }
        }
        let declared: Vec<&str> = lines[declared..head]
            .iter()
            .filter_map(|line| ident(line.strip_prefix("pub ")?))
            .collect();
        assert_eq!(idents, declared, "fields are made in the struct's order");
        Source {
            head: head + 1,
            literal: literal + 1,
            end: end + 1,
            fields,
        }
    }

    pub fn place(&self, line: usize) -> Place {
        if self.head < line && line < self.literal {
            Place::Taking
        } else if self.literal < line && line < self.end {
            Place::Field(self.fields.partition_point(|field| field.line <= line))
        } else {
            Place::Helper
        }
    }

    /// For each field, the name in the text.
    pub fn names(&self) -> Vec<&str> {
        self.fields.iter().map(|field| &*field.name).collect()
    }
}

/// The field that begins in a line of a struct.
fn ident(line: &str) -> Option<&str> {
    let (ident, _) = line.split_once(": ")?;
    let fits = |byte: u8| byte.is_ascii_lowercase() || byte == b'_';
    ident.bytes().all(fits).then_some(ident)
}
