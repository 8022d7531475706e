//! Frames: seven bytes, 00 05, version 01, kind, train, from post, to post
//! (refusals 3, 4, 5).

/// Bytes of a frame.
pub const FRAME_BYTES: usize = 7;

/// The train byte of LA, LE and LB: a track gang has no train number.
pub const GANG: u8 = 255;

/// A train and the two posts a frame names. Any bytes can stand here.
#[derive(Debug, Clone, Copy, PartialEq, Eq)]
pub struct Move {
    pub train: u8,
    pub from: u8,
    pub to: u8,
}

/// The seven messages: request, authority, authority declined, arrival; and of
/// a run under local responsibility: asked for, given, given back.
#[derive(Debug, Clone, Copy, PartialEq, Eq)]
pub enum Message {
    Fa(Move),
    Fe(Move),
    Afe(Move),
    Am(Move),
    La(Move),
    Le(Move),
    Lb(Move),
}

impl Message {
    /// The kind byte, 1 to 7.
    pub fn kind(self) -> u8 {
        match self {
            Message::Fa(_) => 1,
            Message::Fe(_) => 2,
            Message::Afe(_) => 3,
            Message::Am(_) => 4,
            Message::La(_) => 5,
            Message::Le(_) => 6,
            Message::Lb(_) => 7,
        }
    }

    /// The train and posts named.
    pub fn movement(self) -> Move {
        match self {
            Message::Fa(m) | Message::Fe(m) | Message::Afe(m) | Message::Am(m) => m,
            Message::La(m) | Message::Le(m) | Message::Lb(m) => m,
        }
    }
}

/// Reads a frame as one of the seven messages or as a refusal.
pub fn read_frame(frame: &[u8]) -> Result<Message, u8> {
    let [high, low, version, kind, train, from, to] = *frame else {
        return Err(3);
    };
    if (high, low) != (0, 5) {
        return Err(3);
    }
    if version != 1 {
        return Err(4);
    }
    let m = Move { train, from, to };
    match kind {
        1 => Ok(Message::Fa(m)),
        2 => Ok(Message::Fe(m)),
        3 => Ok(Message::Afe(m)),
        4 => Ok(Message::Am(m)),
        5 => Ok(Message::La(m)),
        6 => Ok(Message::Le(m)),
        7 => Ok(Message::Lb(m)),
        _ => Err(5),
    }
}

/// Writes the seven bytes of a message.
pub fn write_frame(message: Message) -> [u8; FRAME_BYTES] {
    let m = message.movement();
    [0, 5, 1, message.kind(), m.train, m.from, m.to]
}
