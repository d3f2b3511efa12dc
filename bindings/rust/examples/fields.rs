//! fields LAYOUT: what tests/layouts/fields.c prints of the records on standard input, by the structs.

use std::io::{self, Read, Write};

use fantanolive::layouts::{
    Contact, Control, Detail, Line, PageFoot, PageHeading, PageLine, Rct, Rec, Reject,
    RejectControl, Row, Total,
};
use fantanolive::{Kind, Record};

fn hex(bytes: &[u8]) -> String {
    bytes.iter().map(|byte| format!("{byte:02x}")).collect()
}

fn pass<R: Record>(file: &[u8]) -> Result<String, Box<dyn std::error::Error>> {
    let mut out = String::new();
    for bytes in file.chunks(R::WIDTH) {
        let record = R::read(bytes).ok_or("a record of another length")?;
        let values = record.texts().into_iter().zip(record.numbers());
        for (field, (text, number)) in R::FIELDS.iter().zip(values) {
            let is_set = field.kind == Kind::Set;
            let characters = text.chars().filter(|_| !is_set);
            let latin: Vec<u8> = characters.map(u8::try_from).collect::<Result<_, _>>()?;
            let number = number.map_or("-".to_string(), |number| number.to_string());
            out += &format!("{} {} {number}\n", field.name, hex(&latin));
        }
        out += &format!("= {}\n", hex(&record.write()?));
    }
    Ok(out)
}

fn main() -> Result<(), Box<dyn std::error::Error>> {
    let mut file = Vec::new();
    io::stdin().read_to_end(&mut file)?;
    let name = std::env::args().nth(1).unwrap_or_default();
    let out = match name.as_str() {
        Row::NAME => pass::<Row>(&file)?,
        Detail::NAME => pass::<Detail>(&file)?,
        Control::NAME => pass::<Control>(&file)?,
        Reject::NAME => pass::<Reject>(&file)?,
        RejectControl::NAME => pass::<RejectControl>(&file)?,
        Rec::NAME => pass::<Rec>(&file)?,
        Rct::NAME => pass::<Rct>(&file)?,
        Contact::NAME => pass::<Contact>(&file)?,
        Line::NAME => pass::<Line>(&file)?,
        Total::NAME => pass::<Total>(&file)?,
        PageLine::NAME => pass::<PageLine>(&file)?,
        PageHeading::NAME => pass::<PageHeading>(&file)?,
        PageFoot::NAME => pass::<PageFoot>(&file)?,
        other => return Err(format!("no layout {other}").into()),
    };
    io::stdout().write_all(out.as_bytes())?;
    Ok(())
}
