//! The example's content: the presentation `tone` with the tracks `a` and `b`.

use crate::book::{Refusal, Session};
use crate::message::Request;
use crate::range::put_time;
use crate::text::Text;

/// Units of the presentation, and the milliseconds that each lasts.
pub const UNITS: u32 = 500;
pub const UNIT_MS: u64 = 20;

struct Track {
    name: &'static str,
    payload_type: u8,
    encoding: &'static str,
    /// Ticks of the timestamp that a unit lasts.
    ticks: u32,
}

const TRACKS: [Track; 2] = [
    Track {
        name: "a",
        payload_type: 0,
        encoding: "PCMU",
        ticks: 160,
    },
    Track {
        name: "b",
        payload_type: 8,
        encoding: "PCMA",
        ticks: 160,
    },
];

pub enum Target<'a> {
    /// With its URI, to which a slash and the names of tracks are joined.
    Presentation(&'a [u8]),
    Track(u16),
}

/// What a URI names.
pub fn find(uri: &[u8]) -> Option<Target<'_>> {
    let rest = uri.strip_prefix(b"rtsp://")?;
    let slash = rest.iter().position(|byte| *byte == b'/')?;
    let path = rest[slash..]
        .split(|byte| matches!(byte, b'?' | b'#'))
        .next()?;
    let path = path.strip_prefix(b"/tone")?;
    if matches!(path, b"" | b"/") {
        let base = uri.len() - rest.len() + slash + "/tone".len();
        return Some(Target::Presentation(&uri[..base]));
    }
    let name = path.strip_prefix(b"/")?;
    let index = TRACKS
        .iter()
        .position(|track| track.name.as_bytes() == name)?;
    Some(Target::Track(index as u16))
}

fn sdp() -> Text {
    let mut text = Text::with_capacity(256);
    text.put("v=0\r\no=- 1 1 IN IP4 127.0.0.1\r\ns=tone\r\nc=IN IP4 0.0.0.0\r\nt=0 0\r\n");
    text.put("a=control:*\r\na=range:npt=0.000-10.000\r\n");
    for track in &TRACKS {
        text.put("m=audio 0 RTP/AVP ")
            .put_decimal(track.payload_type);
        text.put("\r\na=rtpmap:").put_decimal(track.payload_type);
        text.put(" ").put(track.encoding).put("/8000\r\n");
        text.put("a=control:").put(track.name).put("\r\n");
    }
    text
}

pub fn describe(out: &mut Text, request: &Request<'_>) -> Result<(), Refusal> {
    let Some(Target::Presentation(base)) = find(request.uri) else {
        return Err(Refusal::NotFound);
    };
    let sdp = sdp();
    let body = sdp.as_bytes();
    out.put_start(request.cseq);
    out.put("\r\nContent-Base: ").put(base);
    out.put("/\r\nContent-Type: application/sdp\r\nContent-Length: ");
    out.put_decimal(body.len() as u64).put("\r\n\r\n").put(body);
    Ok(())
}

/// The values of the parameters that a body names, of a session whose point is this unit.
pub fn parameters(body: &[u8], point: u32) -> Option<Text> {
    let mut text = Text::with_capacity(64);
    for name in std::str::from_utf8(body).ok()?.lines() {
        match name {
            "position" => {
                text.put("position: ");
                put_time(&mut text, point);
                text.put("\r\n");
            }
            "duration" => {
                text.put("duration: 10.000\r\n");
            }
            _ => return None,
        }
    }
    Some(text)
}

/// Puts the value of RTP-Info, in the order of the tracks, where so many units were sent in earlier plays.
pub fn put_rtp_info(out: &mut Text, base: &[u8], session: &Session, sent: u32) {
    let mut comma = "";
    for (track, index) in TRACKS.iter().zip(0..) {
        let Some(stream) = session.streams().find(|it| it.track == index) else {
            continue;
        };
        let seq = stream.seq.wrapping_add(sent as u16);
        let rtptime = stream.rtptime.wrapping_add(sent.wrapping_mul(track.ticks));
        out.put(comma)
            .put("url=\"")
            .put(base)
            .put("/")
            .put(track.name);
        out.put("\" ssrc=").put_hex::<8>(stream.ssrc);
        out.put(":seq=").put_decimal(seq);
        out.put(";rtptime=").put_decimal(rtptime);
        comma = ",";
    }
}
