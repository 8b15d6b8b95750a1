//! Joining and cutting.

use crate::measure::{opaque, shared, Calls, Case, Shared};
use crate::pair::{our_joiner, our_taken};
use crate::tables::{put_binding_header, Random};
use bench::plain::binding;
use bench::plain::joiner::{Joiner, Outcome};
use nyrkovash as ours;
use std::rc::Rc;

type Take = fn(&mut Joiner, &mut [u8], &[u8]) -> Result<Outcome, u32>;
type Cut = fn(&[u8], usize, usize, usize, usize, &mut [u8]) -> Result<usize, u32>;

/// One stream of datagrams, the channels by turns: messages of four pieces, or where two do not fit a room their first alone.
#[derive(Clone)]
struct Stream {
    ids: Vec<u16>,
    datagram: Shared<u8>,
    parts: &'static [u8],
    at: usize,
}

impl Stream {
    fn new(channels: u16, piece: usize) -> Stream {
        Stream {
            ids: (0..channels).map(|k| 0x100 + 3 * k).collect(),
            datagram: shared(Random(7).bytes(4 + piece)),
            parts: if piece > 30_000 { &[0] } else { &[0, 1, 1, 2] },
            at: 0,
        }
    }

    fn next(&mut self, datagram: &mut [u8]) -> usize {
        let channel = self.at % self.ids.len();
        let step = self.at / self.ids.len();
        let part = self.parts[step % self.parts.len()];
        put_binding_header(datagram, part, self.ids[channel], step as u16);
        self.at += 1;
        channel
    }
}

pub fn joining(channels: u16, piece: usize) -> Case {
    let room = if piece > 30_000 { 65_560 } else { 8_192 };
    let length = usize::from(channels) * room;
    let mut stream = Stream::new(channels, piece);
    let mut rooms = vec![0; length];
    let mut plain_rooms = rooms.clone();
    let mut state = ours::Joiner::default();
    let mut answer = ours::Taken::default();
    assert_eq!(ours::setup(&mut state, &stream.ids, room as u32, length), 0);
    let mut joiner = Joiner::new(&stream.ids, room as u32, length).unwrap();
    assert_eq!(state, our_joiner(&joiner));
    for _ in 0..40 * channels {
        let datagram = Rc::clone(&stream.datagram);
        let mut datagram = datagram.borrow_mut();
        stream.next(&mut datagram);
        assert_eq!(
            ours::take(&mut state, &mut rooms, &datagram, &mut answer),
            0
        );
        let outcome = joiner.take(&mut plain_rooms, &datagram).unwrap();
        assert_eq!(answer, our_taken(outcome));
        assert_eq!(state, our_joiner(&joiner));
    }
    assert!(rooms == plain_rooms);
    let (mut plain_stream, mut bare_stream) = (stream.clone(), stream.clone());
    let rooms = shared(rooms);
    let (plain_rooms, bare_rooms) = (Rc::clone(&rooms), Rc::clone(&rooms));
    let bare: Calls = Box::new(move |count| {
        let (datagram, mut rooms) = (Rc::clone(&bare_stream.datagram), bare_rooms.borrow_mut());
        let mut datagram = datagram.borrow_mut();
        for _ in 0..count {
            let channel = bare_stream.next(&mut datagram);
            opaque(&mut rooms[channel * room..][..piece]).copy_from_slice(&datagram[4..]);
        }
    });
    Case {
        ours: Box::new(move |count| {
            let (datagram, mut rooms) = (Rc::clone(&stream.datagram), rooms.borrow_mut());
            let mut datagram = datagram.borrow_mut();
            for _ in 0..count {
                stream.next(&mut datagram);
                assert_eq!(
                    ours::take(&mut state, &mut rooms, &datagram, &mut answer),
                    0
                );
            }
        }),
        plain: Box::new(move |count| {
            let take = opaque(Joiner::take as Take);
            let (datagram, mut rooms) =
                (Rc::clone(&plain_stream.datagram), plain_rooms.borrow_mut());
            let mut datagram = datagram.borrow_mut();
            for _ in 0..count {
                plain_stream.next(&mut datagram);
                assert!(take(&mut joiner, &mut rooms, &datagram).is_ok());
            }
        }),
        bare: (piece > 30_000).then(|| bare),
    }
}

pub fn cutting(piece: usize) -> Case {
    let bytes = Random(11).bytes(60_000);
    let count = binding::pieces(bytes.len(), piece).unwrap();
    let mut out = vec![0; 4 + piece];
    let mut plain_out = out.clone();
    let mut written = 0;
    for i in 0..count {
        assert_eq!(
            ours::cut(&bytes, piece, 0x102, 65_530, i, &mut out, &mut written),
            0
        );
        let length = binding::cut(&bytes, piece, 0x102, 65_530, i, &mut plain_out).unwrap();
        assert_eq!(written, length);
        assert!(out == plain_out);
    }
    let (mut at, mut plain_at) = (0, 0);
    let (bytes, out) = (Rc::new(bytes), shared(out));
    let (plain_bytes, plain_out) = (Rc::clone(&bytes), Rc::clone(&out));
    Case {
        ours: Box::new(move |calls| {
            let mut out = out.borrow_mut();
            for _ in 0..calls {
                assert_eq!(
                    ours::cut(&bytes, piece, 0x102, 65_530, at, &mut out, &mut written),
                    0
                );
                at = if at + 1 == count { 0 } else { at + 1 };
            }
        }),
        plain: Box::new(move |calls| {
            let cut = opaque(binding::cut as Cut);
            let mut out = plain_out.borrow_mut();
            for _ in 0..calls {
                assert!(cut(&plain_bytes, piece, 0x102, 65_530, plain_at, &mut out).is_ok());
                plain_at = if plain_at + 1 == count {
                    0
                } else {
                    plain_at + 1
                };
            }
        }),
        bare: None,
    }
}
