//! What each method does, and its response.

use crate::book::{Book, Clock, Phase, Refusal, Stream};
use crate::content::{self, Target, UNIT_MS, UNITS};
use crate::message::Request;
use crate::range::{Range, put_range};
use crate::text::Text;
use crate::transport::{self, Delivery, Granted};

const PUBLIC: &str =
    "OPTIONS, DESCRIBE, SETUP, PLAY, PAUSE, TEARDOWN, GET_PARAMETER, SET_PARAMETER";

/// Seconds that a session lives without a request.
const TIMEOUT: u64 = 60;

/// Bits per second of a track of the example.
const RATE: u64 = 80_000;

/// The only connection.
const CONN: u64 = 1;

/// What is drawn for sessions and streams, each number once.
struct Numbers {
    next: u64,
    id: u128,
    ssrc: u32,
}

/// A session that a request has named and renewed.
struct Renewed {
    session: u64,
    id: u128,
    /// The unit at which its next play begins.
    point: u32,
}

pub struct Server {
    book: Book,
    numbers: Numbers,
    clock: Clock,
}

fn id_in(value: &[u8]) -> Option<u128> {
    if value.len() != 32 {
        return None;
    }
    u128::from_str_radix(std::str::from_utf8(value).ok()?, 16).ok()
}

impl Server {
    /// No session yet. The clock stands still, as that of `rtspd stdio` does.
    pub fn new() -> Server {
        Server {
            book: Book::new(),
            numbers: Numbers {
                next: 2,
                id: 0,
                ssrc: 0,
            },
            clock: Clock {
                now: 0,
                unit_ms: UNIT_MS,
            },
        }
    }

    fn expiry(&self) -> u64 {
        self.clock.now + TIMEOUT * 1_000
    }

    fn setup(&mut self, out: &mut Text, request: &Request<'_>) -> Result<(), Refusal> {
        let Some(Target::Track(track)) = content::find(request.uri) else {
            return Err(Refusal::NotFound);
        };
        let asked = request.transport.ok_or(Refusal::NoTransport)?;
        let delivery = transport::read(asked).ok_or(Refusal::NoTransport)?;
        self.numbers.id += 1;
        self.numbers.ssrc += 1;
        let (id, ssrc) = (self.numbers.id, self.numbers.ssrc);
        let granted = self.admit(id, delivery, Stream::new(track, ssrc))?;
        out.put_start(request.cseq).put_session(id);
        out.put(";timeout=").put_decimal(TIMEOUT);
        out.put("\r\nTransport: ");
        granted.put(out);
        out.put(";ssrc=").put_hex::<8>(ssrc);
        out.put("\r\nAccept-Ranges: npt\r\n");
        out.put("Media-Properties: Random-Access=0.020, Immutable, Unlimited\r\n");
        out.put("Media-Range: npt=0.000-10.000\r\n\r\n");
        Ok(())
    }

    /// Opens a session with a stream, in four steps.
    fn admit(
        &mut self,
        id: u128,
        delivery: Delivery,
        mut stream: Stream,
    ) -> Result<Granted, Refusal> {
        let (session, admission) = (self.numbers.next, self.numbers.next + 1);
        self.numbers.next += 2;
        self.book.open(session, id, CONN, self.expiry())?;
        self.book.hold_rate(session, admission, RATE)?;
        let granted = match delivery {
            Delivery::Connection { wish } => {
                Granted::Channels(self.book.hold_channels(session, admission, CONN, wish)?)
            }
            Delivery::Udp { ports } => {
                stream.ports = ports;
                Granted::Ports {
                    player: ports,
                    server: self.book.hold_pair(session, admission)?,
                }
            }
        };
        self.book.commit(session, admission, stream)?;
        Ok(granted)
    }

    fn named(&self, request: &Request<'_>) -> Result<(u64, u128), Refusal> {
        let id = id_in(request.session.ok_or(Refusal::NoSession)?).ok_or(Refusal::NoSession)?;
        Ok((self.book.session_of(id)?, id))
    }

    fn renewed(&mut self, request: &Request<'_>) -> Result<Renewed, Refusal> {
        let (session, id) = self.named(request)?;
        let found = self.book.touch(session, self.expiry())?;
        let point = found.phase.point(self.clock);
        Ok(Renewed { session, id, point })
    }

    fn play(&mut self, out: &mut Text, request: &Request<'_>) -> Result<(), Refusal> {
        let Some(Target::Presentation(base)) = content::find(request.uri) else {
            return Err(Refusal::NotFound);
        };
        let Renewed { session, id, point } = self.renewed(request)?;
        let range = request.range.map_or(Ok(Range::default()), Range::read)?;
        let (from, stop) = range.units(point)?;
        let playing = self.book.play(session, from, stop, self.clock)?;
        let Phase::Playing {
            from, stop, sent, ..
        } = playing.phase
        else {
            return Err(Refusal::WrongState);
        };
        out.put_start(request.cseq).put_session(id);
        out.put("\r\nRange: ");
        put_range(out, from, stop);
        out.put("\r\nSeek-Style: RAP\r\nRTP-Info: ");
        content::put_rtp_info(out, base, playing, sent);
        out.put("\r\n\r\n");
        Ok(())
    }

    fn pause(&mut self, out: &mut Text, request: &Request<'_>) -> Result<(), Refusal> {
        let Some(Target::Presentation(_)) = content::find(request.uri) else {
            return Err(Refusal::NotFound);
        };
        let Renewed { session, id, .. } = self.renewed(request)?;
        let paused = self.book.pause(session, self.clock)?;
        out.put_start(request.cseq).put_session(id);
        out.put("\r\nRange: ");
        put_range(out, paused.phase.point(self.clock), UNITS);
        out.put("\r\n\r\n");
        Ok(())
    }

    fn teardown(&mut self, out: &mut Text, request: &Request<'_>) -> Result<(), Refusal> {
        content::find(request.uri).ok_or(Refusal::NotFound)?;
        let (session, _) = self.named(request)?;
        self.book.end(session)?;
        out.put_start(request.cseq).put("\r\n\r\n");
        Ok(())
    }

    fn get_parameter(&mut self, out: &mut Text, request: &Request<'_>) -> Result<(), Refusal> {
        content::find(request.uri).ok_or(Refusal::NotFound)?;
        let Renewed { id, point, .. } = self.renewed(request)?;
        let values = content::parameters(request.body, point).ok_or(Refusal::NotFound)?;
        let body = values.as_bytes();
        out.put_start(request.cseq).put_session(id);
        out.put("\r\nContent-Type: text/parameters\r\nContent-Length: ");
        out.put_decimal(body.len() as u64).put("\r\n\r\n").put(body);
        Ok(())
    }

    fn options(out: &mut Text, request: &Request<'_>) {
        out.put_start(request.cseq);
        out.put("\r\nPublic: ").put(PUBLIC).put("\r\n\r\n");
    }

    /// Does what a request asks for, and puts its response behind what is there.
    pub fn answer(&mut self, out: &mut Text, request: &Request<'_>) -> Result<(), Refusal> {
        match request.method {
            b"OPTIONS" => Server::options(out, request),
            b"DESCRIBE" => content::describe(out, request)?,
            b"SETUP" => self.setup(out, request)?,
            b"PLAY" => self.play(out, request)?,
            b"PAUSE" => self.pause(out, request)?,
            b"TEARDOWN" => self.teardown(out, request)?,
            b"GET_PARAMETER" => self.get_parameter(out, request)?,
            _ => return Err(Refusal::NotFound),
        }
        Ok(())
    }
}
