//! Bytes written by hand: pairs of hex digits in groups, `41*24` for one byte 24 times.

pub fn bytes(text: &str) -> Vec<u8> {
    let mut out = Vec::new();
    for group in text.split_whitespace() {
        // A bar only shows the reader where something begins.
        if group == "|" {
            continue;
        }
        let (digits, times) = match group.split_once('*') {
            None => (group, 1),
            Some((digits, times)) => (digits, times.parse().expect("a count after the star")),
        };
        assert!(digits.len() % 2 == 0, "half a byte in {group}");
        for _ in 0..times {
            for i in (0..digits.len()).step_by(2) {
                out.push(u8::from_str_radix(&digits[i..i + 2], 16).expect("hex digits"));
            }
        }
    }
    out
}

#[cfg(test)]
mod tests {
    use super::bytes;

    #[test]
    fn groups_and_stars() {
        assert_eq!(bytes("0001 | ff"), [0, 1, 255]);
        assert_eq!(bytes("41*3 00"), [0x41, 0x41, 0x41, 0]);
        assert_eq!(bytes(""), []);
    }
}
