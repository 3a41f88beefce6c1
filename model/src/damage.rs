//! Lines that are no call's line, made from fields that were one.

use crate::line::LINE_BYTES;
use crate::random::Random;

pub const KINDS: [&str; 36] = [
    "needless zero",
    "upper-case hex",
    "odd hex digits",
    "missing tab",
    "doubled tab",
    "trailing tab",
    "leading tab",
    "CR before the newline",
    "NUL inside",
    "empty line",
    "256 bytes",
    "257 bytes",
    "5000 bytes",
    "call after 256 bytes of junk",
    "longer than a read buffer",
    "4294967296",
    "20 digits",
    "11 digits",
    "unknown call 0",
    "unknown call 24",
    "unknown call 99",
    "unknown larger call",
    "65-byte item",
    "no hex digit",
    "item where none is meant",
    "plus sign",
    "minus sign",
    "space at the end",
    "space for a tab",
    "space before",
    "missing field",
    "extra field",
    "empty number",
    "high byte",
    "letter in a number",
    "one byte changed",
];

/// Fields joined by tabs, with a newline.
pub fn join(fields: &[Vec<u8>]) -> Vec<u8> {
    let mut line = fields.join(&b'\t');
    line.push(b'\n');
    line
}

/// A line with damage of this kind. It has one newline, at its end. "one byte changed"
/// can by chance still be a call's line.
pub fn damaged(kind: &str, fields: &[Vec<u8>], random: &mut Random) -> Vec<u8> {
    let mut fields = fields.to_vec();
    let some_field = random.below(fields.len() as u32) as usize;
    match kind {
        "needless zero" => {
            let place = number_place(&fields, random);
            let zeros = random.between(1, 3);
            for _ in 0..zeros {
                fields[place].insert(0, b'0');
            }
            join(&fields)
        }
        "upper-case hex" => {
            let letter = random.pick(b"ABCDEF");
            send_with(&fields, &[b"0a".as_slice(), &[b'3', letter]].concat())
        }
        "odd hex digits" => {
            let digits = 2 * random.below(64) as usize + 1;
            send_with(&fields, &vec![b'7'; digits])
        }
        "missing tab" => {
            if fields.len() == 1 {
                fields.push(b"3".to_vec());
            }
            // Without its tab a short line can be another call's line; then the call is none.
            let mut line = join(&fields);
            let tabs = places_of(&line, b'\t');
            line.remove(random.pick(&tabs));
            line
        }
        "doubled tab" => {
            if fields.len() == 1 {
                fields.push(b"3".to_vec());
            }
            let mut line = join(&fields);
            let tabs = places_of(&line, b'\t');
            line.insert(random.pick(&tabs), b'\t');
            line
        }
        "trailing tab" => before_newline(&join(&fields), b"\t"),
        "leading tab" => [b"\t".as_slice(), &join(&fields)].concat(),
        "CR before the newline" => before_newline(&join(&fields), b"\r"),
        "NUL inside" => insert_inside(&join(&fields), 0, random),
        "empty line" => b"\n".to_vec(),
        "256 bytes" => padded(&join(&fields), LINE_BYTES, random),
        "257 bytes" => padded(&join(&fields), LINE_BYTES + 1, random),
        "5000 bytes" => padded(&join(&fields), 5_000, random),
        "call after 256 bytes of junk" => {
            let junk = random.between(255, 258) as usize;
            [vec![random.pick(b"1 \t0x"); junk], join(&fields)].concat()
        }
        "longer than a read buffer" => {
            let length = random.between(65_530, 70_000) as usize;
            padded(&join(&fields), length, random)
        }
        "4294967296" => {
            let place = number_place(&fields, random);
            fields[place] = random.pick(&["4294967296", "4294967297", "4294967312", "9999999999"]).into();
            join(&fields)
        }
        "20 digits" => {
            let place = number_place(&fields, random);
            fields[place] =
                random.pick(&["18446744073709551616", "18446744073709551617", "10000000000000000000"]).into();
            join(&fields)
        }
        "11 digits" => {
            let place = number_place(&fields, random);
            fields[place] = random.pick(&["42949672960", "10000000000", "42949672950"]).into();
            join(&fields)
        }
        "unknown call 0" => with_call(fields, "0"),
        "unknown call 24" => with_call(fields, "24"),
        "unknown call 99" => with_call(fields, "99"),
        "unknown larger call" => {
            let call =
                random.pick(&["25", "170", "190", "230", "257", "273", "276", "279", "65537", "65559", "4294967295"]);
            with_call(fields, call)
        }
        "65-byte item" => {
            let digits = random.pick(&[129usize, 130, 132, 200]);
            send_with(&fields, &vec![b'0'; digits])
        }
        "no hex digit" => {
            let digit = random.pick(b"g/:`@G -.x");
            let place = random.below(2);
            let pair = if place == 0 { [digit, b'1'] } else { [b'1', digit] };
            send_with(&fields, &[b"ab".as_slice(), &pair].concat())
        }
        "item where none is meant" => {
            let item = random.pick(&["", "ab", "0f0f", "0"]);
            fields.push(item.into());
            join(&fields)
        }
        "plus sign" => {
            let place = number_place(&fields, random);
            fields[place].insert(0, b'+');
            join(&fields)
        }
        "minus sign" => {
            let place = number_place(&fields, random);
            fields[place].insert(0, b'-');
            join(&fields)
        }
        "space at the end" => before_newline(&join(&fields), b" "),
        "space for a tab" => {
            if fields.len() == 1 {
                fields.push(b"3".to_vec());
            }
            let mut line = join(&fields);
            let tabs = places_of(&line, b'\t');
            line[random.pick(&tabs)] = b' ';
            line
        }
        "space before" => [b" ".as_slice(), &join(&fields)].concat(),
        "missing field" => {
            // A call with no argument loses its number and leaves an empty line.
            fields.remove(some_field);
            join(&fields)
        }
        "extra field" => {
            let place = random.between(1, fields.len() as u32) as usize;
            fields.insert(place, b"1".to_vec());
            join(&fields)
        }
        "empty number" => {
            let place = number_place(&fields, random);
            fields[place].clear();
            join(&fields)
        }
        "high byte" => {
            let byte = random.between(128, 255) as u8;
            insert_inside(&join(&fields), byte, random)
        }
        "letter in a number" => {
            let place = number_place(&fields, random);
            let letter = random.pick(b"abcdefxulL.,_");
            let at = random.below(fields[place].len() as u32 + 1) as usize;
            fields[place].insert(at, letter);
            join(&fields)
        }
        "one byte changed" => {
            let mut line = join(&fields);
            let at = random.below(line.len() as u32 - 1) as usize;
            let byte = random.below(256) as u8;
            if byte != b'\n' {
                line[at] = byte;
            }
            line
        }
        _ => panic!("no such damage: {kind}"),
    }
}

/// A field that is a number: any but a send's item.
fn number_place(fields: &[Vec<u8>], random: &mut Random) -> usize {
    let is_send = fields[0] == b"13";
    loop {
        let place = random.below(fields.len() as u32) as usize;
        if !(is_send && place == 2) {
            return place;
        }
    }
}

/// A send with this item, to the object that the fields name if they do.
fn send_with(fields: &[Vec<u8>], item: &[u8]) -> Vec<u8> {
    let object = fields.get(1).cloned().unwrap_or_else(|| b"0".to_vec());
    join(&[b"13".to_vec(), object, item.to_vec(), b"0".to_vec()])
}

fn with_call(mut fields: Vec<Vec<u8>>, call: &str) -> Vec<u8> {
    fields[0] = call.into();
    join(&fields)
}

fn places_of(line: &[u8], byte: u8) -> Vec<usize> {
    (0..line.len()).filter(|&at| line[at] == byte).collect()
}

fn before_newline(line: &[u8], bytes: &[u8]) -> Vec<u8> {
    [&line[..line.len() - 1], bytes, b"\n"].concat()
}

fn insert_inside(line: &[u8], byte: u8, random: &mut Random) -> Vec<u8> {
    let mut line = line.to_vec();
    let at = random.below(line.len() as u32) as usize;
    line.insert(at, byte);
    line
}

/// The line filled up to this length with its newline.
fn padded(line: &[u8], length: usize, random: &mut Random) -> Vec<u8> {
    let filler = random.pick(b"0 \t1\0a\r");
    let mut line = line[..line.len() - 1].to_vec();
    line.resize(length - 1, filler);
    line.push(b'\n');
    line
}
