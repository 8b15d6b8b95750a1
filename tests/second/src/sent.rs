//! Demand 3 told from what was sent: the account of `genuine` alone, no joining.

use crate::genuine::{Arrival, Channel, Traffic};

/// For each message and piece of a channel, what the line of its first copy must say.
fn story(channel: &Channel) -> Vec<Vec<String>> {
    let mut out = Vec::new();
    let mut lost_since_an_arrival: Option<usize> = None;
    for message in &channel.messages {
        let count = message.pieces.len();
        let mut all_so_far_arrived = true;
        let mut length_so_far = 0;
        let mut words = Vec::new();
        for (place, piece) in message.pieces.iter().enumerate() {
            length_so_far += piece.bytes.len();
            if piece.copies == 0 {
                all_so_far_arrived = false;
                lost_since_an_arrival = lost_since_an_arrival.map(|lost| lost + 1);
                words.push(String::new());
                continue;
            }
            let missed = lost_since_an_arrival.unwrap_or(0);
            lost_since_an_arrival = Some(0);
            words.push(if !all_so_far_arrived {
                format!("stray {missed} 0")
            } else if place + 1 == count {
                format!("delivered {missed} {length_so_far}")
            } else {
                format!("held {missed} {length_so_far}")
            });
        }
        out.push(words);
    }
    out
}

/// The lines of a genuine recording.
pub fn lines(traffic: &Traffic) -> String {
    let stories: Vec<_> = traffic.channels.iter().map(story).collect();
    let mut out = String::new();
    for (number, arrival) in traffic.arrivals.iter().enumerate() {
        let words = match arrival {
            Arrival::Refused(refusal) => format!("refused {refusal}"),
            Arrival::Copy { again: true, .. } => "repeated 0 0".to_string(),
            Arrival::Copy {
                channel,
                message,
                piece,
                again: false,
            } => stories[*channel][*message][*piece].clone(),
        };
        out.push_str(&format!("{number} {words}\n"));
    }
    out
}

/// Demand 3 in its own words, on a program's output: each channel delivers exactly those of its
/// messages whose every piece arrived, in order, once each. Gives how many were delivered.
pub fn demand_3(traffic: &Traffic, output: &str) -> Result<usize, String> {
    let mut delivered: Vec<Vec<(usize, usize)>> = vec![Vec::new(); traffic.channels.len()];
    for line in output.lines() {
        let words: Vec<&str> = line.split(' ').collect();
        if words.get(1) != Some(&"delivered") {
            continue;
        }
        let number: usize = words[0]
            .parse()
            .map_err(|_| format!("no number in `{line}`"))?;
        let length: usize = words
            .get(3)
            .and_then(|word| word.parse().ok())
            .ok_or_else(|| format!("no length in `{line}`"))?;
        match traffic.arrivals.get(number) {
            Some(Arrival::Copy {
                channel,
                message,
                piece,
                again: false,
            }) if *piece + 1 == traffic.channels[*channel].messages[*message].pieces.len() => {
                delivered[*channel].push((*message, length))
            }
            _ => return Err(format!("`{line}`: that datagram completes no message")),
        }
    }
    let mut count = 0;
    for (channel, got) in traffic.channels.iter().zip(delivered) {
        let due: Vec<(usize, usize)> = channel
            .messages
            .iter()
            .enumerate()
            .filter(|(_, message)| message.pieces.iter().all(|piece| piece.copies > 0))
            .map(|(m, message)| {
                (
                    m,
                    message.pieces.iter().map(|piece| piece.bytes.len()).sum(),
                )
            })
            .collect();
        if got != due {
            let at = got.iter().zip(&due).take_while(|(a, b)| a == b).count();
            return Err(format!(
                "sender {}: {} delivered, {} arrived whole; from the first that differs, as \
                 (message, length): {:?} for {:?}",
                channel.sender,
                got.len(),
                due.len(),
                got.get(at),
                due.get(at)
            ));
        }
        count += due.len();
    }
    Ok(count)
}

#[cfg(test)]
mod tests {
    use super::*;
    use crate::joiner::{fates, Fate};
    use crate::replay::{parse, Recording};

    /// The lines from what was sent and the lines from joining are worked out by two roads.
    #[test]
    fn what_was_sent_and_the_model_agree() {
        for seed in 0..80 {
            let traffic = crate::genuine::traffic(seed);
            let modelled = crate::replay::lines(&traffic.recording);
            assert!(lines(&traffic) == modelled, "seed {seed}");
            demand_3(&traffic, &modelled).unwrap();
        }
    }

    /// Lines show no bytes, so the model's delivered bytes are compared here.
    #[test]
    fn the_model_delivers_the_bytes_that_were_sent() {
        let mut count = 0;
        for seed in 0..80 {
            let traffic = crate::genuine::traffic(seed);
            let Recording::Datagrams {
                setup,
                datagrams,
                cut,
            } = parse(&traffic.recording)
            else {
                panic!("seed {seed}: set-up refused");
            };
            assert!(!cut);
            for (arrival, fate) in traffic.arrivals.iter().zip(fates(&setup, &datagrams)) {
                if let (
                    Arrival::Copy {
                        channel, message, ..
                    },
                    Fate::Delivered { message: got, .. },
                ) = (arrival, fate)
                {
                    let pieces = &traffic.channels[*channel].messages[*message].pieces;
                    let sent: Vec<u8> = pieces
                        .iter()
                        .flat_map(|piece| piece.bytes.clone())
                        .collect();
                    assert!(got == sent, "seed {seed}");
                    count += 1;
                }
            }
        }
        assert!(count > 1000, "{count} delivered");
    }

    /// The check itself must fail on a joiner that loses, doubles or lengthens a message.
    #[test]
    fn a_wrong_output_fails() {
        let traffic = crate::genuine::traffic(7);
        let good = lines(&traffic);
        let one = good
            .lines()
            .find(|line| line.contains("delivered"))
            .unwrap();
        assert!(demand_3(&traffic, &good).is_ok());
        assert!(demand_3(
            &traffic,
            &good.replacen(one, &one.replace("delivered", "held"), 1)
        )
        .is_err());
        assert!(demand_3(&traffic, &good.replacen(one, &format!("{one}\n{one}"), 1)).is_err());
        assert!(demand_3(&traffic, &good.replacen(one, &format!("{one}9"), 1)).is_err());
    }
}
