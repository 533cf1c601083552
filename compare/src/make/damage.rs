//! Lines of another shape.

use super::random::Random;

/// Damages one line of a sheet, any line, and leaves the others.
pub fn damage_sheet(random: &mut Random, sheet: &[u8]) -> Vec<u8> {
    let mut lines: Vec<Vec<u8>> = sheet.split_inclusive(|b| *b == b'\n').map(<[u8]>::to_vec).collect();
    if lines.is_empty() {
        lines.push(b"s 0\n".to_vec());
    }
    match random.below(12) {
        0 => lines.push(b"\n".to_vec()),
        1 => lines.insert(0, b"\xef\xbb\xbf".to_vec()),
        2 => lines.iter_mut().for_each(|line| *line = with_return(line)),
        _ => {
            let i = line_to_damage(random, &lines);
            lines[i] = damage_line(random, &lines[i]);
        }
    }
    lines.concat()
}

/// Half the time an opening, as only these have a reading and a frame.
fn line_to_damage(random: &mut Random, lines: &[Vec<u8>]) -> usize {
    let openings: Vec<usize> = (0..lines.len()).filter(|i| lines[*i][0] == b'o').collect();
    if !openings.is_empty() && random.percent(50) {
        return *random.pick(&openings);
    }
    random.below(lines.len() as u32) as usize
}

fn with_return(line: &[u8]) -> Vec<u8> {
    let line = line.strip_suffix(b"\n").unwrap_or(line);
    [line, b"\r\n"].concat()
}

fn damage_line(random: &mut Random, line: &[u8]) -> Vec<u8> {
    let text = String::from_utf8_lossy(line).trim_end().to_string();
    let mut damaged = match random.below(4) {
        0 => damage_number(random, &text).into_bytes(),
        1 => damage_hex(random, &text).into_bytes(),
        2 => damage_spaces(random, &text).into_bytes(),
        _ => damage_bytes(random, &text),
    };
    damaged.push(b'\n');
    damaged
}

/// Another number in place of the seat or the reading. Some of these are
/// still good numbers, at the upper end.
fn damage_number(random: &mut Random, text: &str) -> String {
    let mut fields: Vec<String> = text.split(' ').map(str::to_string).collect();
    let at = if fields.len() > 2 { random.between(1, 2) } else { 1 } as usize;
    let old = fields[at].clone();
    fields[at] = match random.below(6) {
        0..=1 => format!("{}{old}", "0".repeat(random.between(1, 11) as usize)),
        2 => at_the_upper_end(random),
        3 => random.pick(&["00", "", "-0", "+0", "0x0"]).to_string(),
        4 => format!("{}{old}", random.pick(&["+", "-", "0x", ".", "_"])),
        _ => format!("{old}{}", random.pick(&[".", ".0", "a", "e0", "_0", ",", "u"])),
    };
    fields.join(" ")
}

/// Numbers around the largest one allowed, and some that wrap round to a
/// small one in 32 or 64 bits.
fn at_the_upper_end(random: &mut Random) -> String {
    let known = [
        "4294967294",
        "4294967295",
        "4294967296",
        "4294967297",
        "4294967300",
        "5000000000",
        "42949672950",
        "04294967295",
        "18446744073709551615",
        "18446744073709551616",
        "340282366920938463463374607431768211456",
    ];
    match random.below(4) {
        0 => "9".repeat(random.between(10, 60) as usize),
        _ => random.pick(&known).to_string(),
    }
}

/// Damage to the frame; a step is given one it should not have.
fn damage_hex(random: &mut Random, text: &str) -> String {
    let Some(end) = text.rfind(' ').filter(|_| text.starts_with('o')) else {
        return format!("{text} 010000");
    };
    let (front, hex) = text.split_at(end + 1);
    match random.below(10) {
        0 => format!("{front}{}A", &hex[..hex.len() - 1]),
        1 => format!("{front}{}g", &hex[..hex.len() - 1]),
        2 => format!("{front}{}", &hex[..hex.len() - 1]),
        3 => format!("{front}0{hex}"),
        4 => format!("{front}0x{hex}"),
        5 => front.to_string(),
        6 => front.trim_end().to_string(),
        7 => format!("{front}{}", &hex[..1]),
        8 => format!("{front}{}", hex.to_uppercase()),
        _ => format!("{front}{}B{}", &hex[..hex.len() / 2], &hex[hex.len() / 2 + 1..]),
    }
}

fn damage_spaces(random: &mut Random, text: &str) -> String {
    match random.below(9) {
        0 => text.replacen(' ', "  ", 1),
        1 => format!("{text} "),
        2 => format!(" {text}"),
        3 => text.replacen(' ', "\t", 1),
        4 => text.replacen(' ', "", 1),
        5 => String::new(),
        6 => " ".to_string(),
        7 => match text.rfind(' ') {
            Some(last) => format!("{} {}", &text[..last], &text[last..]),
            None => text.to_string(),
        },
        _ => format!("{text} 0"),
    }
}

fn damage_bytes(random: &mut Random, text: &str) -> Vec<u8> {
    let mut bytes = text.as_bytes().to_vec();
    let at = random.below(bytes.len() as u32) as usize;
    match random.below(8) {
        0 => bytes[0] = *random.pick(b"SOxce#0"),
        1 => bytes.insert(0, *random.pick(b"so\r")),
        2 => bytes.push(*random.pick(b"\r\0\t#;")),
        3 => bytes[at] = *random.pick(b"\0\r\x0b\x7f\x80\xff"),
        4 => bytes.truncate(at),
        5 => bytes[at] = b'\n',
        6 => bytes.insert(at, random.below(256) as u8),
        _ => bytes[at] = random.below(256) as u8,
    }
    bytes
}
