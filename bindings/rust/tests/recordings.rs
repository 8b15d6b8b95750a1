//! Joined through Rust, a stored recording gives its stored lines.

use nyrkovash::*;
use std::fmt::Write;
use std::path::Path;

const MOST_ROOMS: usize = 65_536;

/// The next so many bytes, where they are there.
fn part<'a>(rest: &mut &'a [u8], length: usize) -> Result<&'a [u8], String> {
    if rest.len() < length {
        return Err("cut short\n".into());
    }
    let (part, behind) = rest.split_at(length);
    *rest = behind;
    Ok(part)
}

fn number(rest: &mut &[u8], width: usize) -> Result<usize, String> {
    Ok(part(rest, width)?
        .iter()
        .fold(0, |sum, byte| sum << 8 | *byte as usize))
}

/// Plays the recording, and says with which line it ends where it is not whole.
fn play(mut rest: &[u8], lines: &mut String) -> Result<(), String> {
    let (channels, room) = (number(&mut rest, 2)?, number(&mut rest, 4)?);
    let refused = format!("setup refused {NO_JOINER}\n");
    if !(1..=CHANNELS).contains(&channels)
        || !(SMALLEST_ROOM..=MOST_ROOMS / channels).contains(&room)
    {
        return Err(refused);
    }
    let ids = (0..channels).map(|_| number(&mut rest, 2).map(|id| id as u16));
    let ids = ids.collect::<Result<Vec<u16>, String>>()?;
    let (mut joiner, mut taken) = (Joiner::default(), Taken::default());
    let mut rooms = vec![0; channels * room];
    if setup(&mut joiner, &ids, room as u32, rooms.len()) != OK {
        return Err(refused);
    }
    for datagram_number in 0.. {
        if rest.is_empty() {
            break;
        }
        let length = number(&mut rest, 2)?;
        let line = match take(
            &mut joiner,
            &mut rooms,
            part(&mut rest, length)?,
            &mut taken,
        ) {
            OK => {
                let outcome = ["", "repeated", "delivered", "held", "stray", "too long"]
                    [taken.outcome as usize];
                format!("{outcome} {} {}", taken.missed, taken.bytes)
            }
            number => format!("refused {number}"),
        };
        writeln!(lines, "{datagram_number} {line}").unwrap();
    }
    Ok(())
}

#[test]
fn stored_lines() {
    let folder = Path::new(env!("CARGO_MANIFEST_DIR")).join("../../recordings");
    let mut count = 0;
    for entry in std::fs::read_dir(folder).unwrap() {
        let path = entry.unwrap().path();
        if path.extension() != Some("rec".as_ref()) {
            continue;
        }
        let mut lines = String::new();
        if let Err(last) = play(&std::fs::read(&path).unwrap(), &mut lines) {
            lines += &last;
        }
        let stored = std::fs::read_to_string(path.with_extension("lines")).unwrap();
        assert!(lines == stored, "{}: not its stored lines", path.display());
        count += 1;
    }
    assert!(count > 0);
}
