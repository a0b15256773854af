//! Many cases in one stream: two 16-bit lengths, the image, the log; and the answer to such a stream.

use std::io::{self, Read, Write};

use crate::core::flaw::Flaw;
use crate::run::text::many_text;

/// An image and a log, as the files of a run hold them.
#[derive(Clone, Debug, Default, PartialEq, Eq)]
pub struct Case {
    pub image: Vec<u8>,
    pub log: Vec<u8>,
}

/// The most bytes that a frame can carry for an image or a log.
pub const MAX_PART: usize = 65_535;

/// The frame of a case, or none where a part is too long for one.
pub fn frame_of(case: &Case) -> Option<Vec<u8>> {
    let image_length = u16::try_from(case.image.len()).ok()?;
    let log_length = u16::try_from(case.log.len()).ok()?;
    let mut frame = Vec::with_capacity(4 + case.image.len() + case.log.len());
    frame.extend(image_length.to_le_bytes());
    frame.extend(log_length.to_le_bytes());
    frame.extend(&case.image);
    frame.extend(&case.log);
    Some(frame)
}

/// What the next bytes of a stream of frames hold.
#[derive(Debug, PartialEq, Eq)]
pub enum Frame {
    Case(Case),
    /// The stream ends between frames.
    End,
    /// The stream ends inside a frame.
    Torn,
}

pub fn read_frame(input: &mut impl Read) -> io::Result<Frame> {
    let head = read_up_to(input, 4)?;
    if head.is_empty() {
        return Ok(Frame::End);
    }
    if head.len() < 4 {
        return Ok(Frame::Torn);
    }
    let image_length = usize::from(u16::from_le_bytes([head[0], head[1]]));
    let log_length = usize::from(u16::from_le_bytes([head[2], head[3]]));
    let mut image = read_up_to(input, image_length + log_length)?;
    if image.len() < image_length + log_length {
        return Ok(Frame::Torn);
    }
    let log = image.split_off(image_length);
    Ok(Frame::Case(Case { image, log }))
}

fn read_up_to(input: &mut impl Read, length: usize) -> io::Result<Vec<u8>> {
    let mut bytes = Vec::with_capacity(length);
    input.take(length as u64).read_to_end(&mut bytes)?;
    Ok(bytes)
}

/// Answers every case of a stream, as the program `many` does.
pub fn answer_stream(input: &mut impl Read, output: &mut impl Write, flaw: Flaw) -> io::Result<()> {
    loop {
        match read_frame(input)? {
            Frame::Case(case) => output.write_all(&many_text(&case.image, &case.log, flaw))?,
            Frame::End => return output.flush(),
            Frame::Torn => {
                output.write_all(b"torn\n")?;
                return output.flush();
            }
        }
    }
}
