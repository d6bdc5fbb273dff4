//! Lines that are no calls, or only just: a call's line with a small mistake in it.

use crate::random::Random;

pub fn line(call: &[u8], random: &mut Random) -> Vec<u8> {
    let mut line = call.to_vec();
    match random.below(14) {
        0 => line.clear(),
        1 => line = any_bytes(random, 70),
        2 => line.resize(57 + random.below(16) as usize, b'1'),
        3 => line.resize(random.below(20_000) as usize, b' '),
        4 => drop(line.pop()),
        5 => line.push(any_byte(random)),
        6 => line.insert(0, b' '),
        7 => line.push(b' '),
        8 => line.push(b'\r'),
        9 => line.extend(b"0000000001"),
        10 => in_first_space(&mut line, b" 0"),
        11 => in_first_space(
            &mut line,
            random.of(&[b"  ".as_slice(), b"\t", b" -", b" +", b" 000"]),
        ),
        12 => line.make_ascii_uppercase(),
        _ => {
            let at = random.below(line.len() as u64) as usize;
            line[at] = any_byte(random);
        }
    }
    line
}

/// Another text in the place of the first space, if there is one.
fn in_first_space(line: &mut Vec<u8>, text: &[u8]) {
    if let Some(at) = line.iter().position(|&byte| byte == b' ') {
        line.splice(at..at + 1, text.iter().copied());
    }
}

/// Any byte but a newline.
fn any_byte(random: &mut Random) -> u8 {
    match random.below(4) {
        0 => random.of(b"\0\r\t .-09:/az\xff"),
        _ => Some(random.below(256) as u8)
            .filter(|&byte| byte != b'\n')
            .unwrap_or(b' '),
    }
}

fn any_bytes(random: &mut Random, end: u64) -> Vec<u8> {
    (0..random.below(end)).map(|_| any_byte(random)).collect()
}
