//! Transports, as a player asks for them and as it gets them.

use crate::text::Text;

/// The player's address, which it may name as where packets go to.
const PEER: &str = "127.0.0.1";

/// Parameters that aren't served; of `mode` one value is.
const UNSERVED: [&[u8]; 7] = [
    b"multicast",
    b"ttl",
    b"layers",
    b"setup",
    b"connection",
    b"MIKEY",
    b"RTCP-mux",
];

/// How a player wants its packets.
#[derive(Clone, Copy)]
pub enum Delivery {
    /// Over the connection, on the even channel that it wishes for and the next, where it named one.
    Connection { wish: Option<u8> },
    /// Over UDP, to these ports of its for RTP and RTCP.
    Udp { ports: (u16, u16) },
}

/// How a player gets its packets.
pub enum Granted {
    Channels(u8),
    Ports { player: (u16, u16), server: u16 },
}

fn is_unserved(name: &[u8], value: Option<&[u8]>) -> bool {
    if name.eq_ignore_ascii_case(b"mode") {
        let value = value.unwrap_or_default();
        return !(value.eq_ignore_ascii_case(b"PLAY") || value.eq_ignore_ascii_case(b"\"PLAY\""));
    }
    UNSERVED.iter().any(|it| name.eq_ignore_ascii_case(it))
}

fn even_pair(channels: &[u8]) -> Option<u8> {
    let (first, second) = std::str::from_utf8(channels).ok()?.split_once('-')?;
    let (first, second) = (first.parse::<u8>().ok()?, second.parse::<u16>().ok()?);
    (first % 2 == 0 && second == u16::from(first) + 1).then_some(first)
}

/// The port of a quoted address, and the text behind it.
fn quoted_port(text: &str) -> Option<(u16, &str)> {
    let (address, rest) = text.strip_prefix('"')?.split_once('"')?;
    let (host, port) = address.split_once(':')?;
    let port = port.parse().ok().filter(|port| *port != 0)?;
    (host.is_empty() || host == PEER).then_some((port, rest))
}

fn two_ports(addresses: &[u8]) -> Option<(u16, u16)> {
    let (rtp, rest) = quoted_port(std::str::from_utf8(addresses).ok()?)?;
    let (rtcp, rest) = quoted_port(rest.strip_prefix('/')?)?;
    rest.is_empty().then_some((rtp, rtcp))
}

fn delivery(spec: &[u8]) -> Option<Delivery> {
    let mut parts = spec
        .split(|byte| *byte == b';')
        .map(|part| part.trim_ascii());
    let protocol = parts.next()?;
    let (mut channels, mut addresses) = (None, None);
    for part in parts {
        let (name, value) = match part.iter().position(|byte| *byte == b'=') {
            Some(end) => (&part[..end], Some(&part[end + 1..])),
            None => (part, None),
        };
        if name.eq_ignore_ascii_case(b"interleaved") {
            channels = channels.or(value);
        } else if name.eq_ignore_ascii_case(b"dest_addr") {
            addresses = addresses.or(value);
        } else if part.is_empty() || is_unserved(name, value) {
            return None;
        }
    }
    if protocol.eq_ignore_ascii_case(b"RTP/AVP/TCP") && addresses.is_none() {
        let wish = even_pair(channels?);
        return Some(Delivery::Connection { wish });
    }
    if protocol.eq_ignore_ascii_case(b"RTP/AVP") || protocol.eq_ignore_ascii_case(b"RTP/AVP/UDP") {
        let ports = two_ports(addresses?)?;
        return Some(Delivery::Udp { ports });
    }
    None
}

/// What the first transport of a header that can be served asks for. No separator may be in quotes.
pub fn read(header: &[u8]) -> Option<Delivery> {
    header.split(|byte| *byte == b',').find_map(delivery)
}

impl Granted {
    pub fn put(&self, out: &mut Text) {
        match *self {
            Granted::Channels(channel) => {
                out.put("RTP/AVP/TCP;unicast;interleaved=");
                out.put_decimal(channel).put("-").put_decimal(channel + 1);
            }
            Granted::Ports { player, server } => {
                out.put("RTP/AVP;unicast;dest_addr=");
                put_ports(out, player);
                out.put(";src_addr=");
                put_ports(out, (server, server + 1));
            }
        }
    }
}

/// Puts two ports as quoted addresses.
fn put_ports(out: &mut Text, (rtp, rtcp): (u16, u16)) {
    out.put("\":").put_decimal(rtp);
    out.put("\"/\":").put_decimal(rtcp).put("\"");
}
