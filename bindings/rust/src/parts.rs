// The parts of what a command writes.

/// An HTTP request. A client adds to it what is its own, as `host`, and sends the parts as they stand.
#[derive(Clone, Debug, PartialEq, Eq, Hash)]
pub struct Request {
    /// The method, a token.
    pub method: String,
    /// The target: a path and a query, or a whole URL where the endpoint of the job is one.
    pub target: String,
    /// The headers, each name in lower case and once, with the bytes of its value.
    pub headers: Vec<(String, Vec<u8>)>,
    /// The body, which may be empty.
    pub body: Vec<u8>,
}

impl Request {
    /// The request of the text that `request`, `rpc` and `gateway` write. `None` where it has not their form.
    pub fn parse(text: &[u8]) -> Option<Request> {
        let (first, rest) = line(text)?;
        let mut words = std::str::from_utf8(first).ok()?.splitn(2, ' ');
        let (method, target) = (words.next()?.to_owned(), words.next()?.to_owned());
        let (headers, body) = message(rest)?;
        Some(Request {
            method,
            target,
            headers,
            body,
        })
    }

    /// The value of the header with this name, in any case. `None` where there is none.
    pub fn header(&self, name: &str) -> Option<&[u8]> {
        value_of(&self.headers, name)
    }
}

/// An HTTP response.
#[derive(Clone, Debug, PartialEq, Eq, Hash)]
pub struct Response {
    /// The status, a number of three digits.
    pub status: u16,
    /// The headers, each name in lower case and once, with the bytes of its value.
    pub headers: Vec<(String, Vec<u8>)>,
    /// The body, which may be empty.
    pub body: Vec<u8>,
}

impl Response {
    /// The response of the text that the command `answer` writes. `None` where it has not its form.
    pub fn parse(text: &[u8]) -> Option<Response> {
        let (first, rest) = line(text)?;
        let (headers, body) = message(rest)?;
        let is_status = first.len() == 3 && first.iter().all(u8::is_ascii_digit);
        let status = std::str::from_utf8(first).ok()?.parse().ok()?;
        is_status.then_some(Response {
            status,
            headers,
            body,
        })
    }

    /// The value of the header with this name, in any case. `None` where there is none.
    pub fn header(&self, name: &str) -> Option<&[u8]> {
        value_of(&self.headers, name)
    }
}

/// The value of a response.
#[derive(Clone, Debug, PartialEq, Eq, Hash)]
pub struct Output {
    /// The full name of the error that the response is, of a job with a `code`.
    pub error: Option<String>,
    /// The value as JSON, on one line without its end.
    pub json: String,
}

impl Output {
    /// The value of the text that `response` writes. `None` where it has not its form.
    pub fn parse(text: &[u8]) -> Option<Output> {
        let lines = std::str::from_utf8(text).ok()?.strip_suffix('\n')?;
        // The value is the last line: a name may have line feeds, and the value's are escaped.
        Some(match lines.rsplit_once('\n') {
            Some((error, json)) => Output {
                error: Some(error.to_owned()),
                json: json.to_owned(),
            },
            None => Output {
                error: None,
                json: lines.to_owned(),
            },
        })
    }
}

/// The operation of a request, and the input that has it.
#[derive(Clone, Debug, PartialEq, Eq, Hash)]
pub struct Routed {
    /// The full name of the operation.
    pub operation: String,
    /// The input as JSON, on one line without its end.
    pub input: String,
}

impl Routed {
    /// The operation and the input of the text that `route` writes. `None` where it has not its form.
    pub fn parse(text: &[u8]) -> Option<Routed> {
        let Output { error, json } = Output::parse(text)?;
        Some(Routed {
            operation: error?,
            input: json,
        })
    }
}

/// The lines of the text that `requests` or `responses` writes, each without its end. `None` where it has not its form.
pub(crate) fn lines(text: &[u8]) -> Option<Vec<String>> {
    let text = std::str::from_utf8(text).ok()?;
    if text.is_empty() {
        return Some(Vec::new());
    }
    let lines = text.strip_suffix('\n')?;
    Some(lines.split('\n').map(str::to_owned).collect())
}

// The first line without its end, and what stands behind that.
fn line(text: &[u8]) -> Option<(&[u8], &[u8])> {
    let end = text.iter().position(|byte| *byte == b'\n')?;
    Some((&text[..end], &text[end + 1..]))
}

// The value of the header with this name, in any case.
fn value_of<'h>(headers: &'h [(String, Vec<u8>)], name: &str) -> Option<&'h [u8]> {
    let found = headers
        .iter()
        .find(|header| header.0.eq_ignore_ascii_case(name));
    found.map(|header| header.1.as_slice())
}

// Each name with the bytes of its value.
type Headers = Vec<(String, Vec<u8>)>;

// The headers of a message, up to the empty line behind them, and its body.
fn message(mut rest: &[u8]) -> Option<(Headers, Vec<u8>)> {
    let mut headers = Vec::new();
    loop {
        let (first, behind) = line(rest)?;
        rest = behind;
        if first.is_empty() {
            return Some((headers, rest.to_vec()));
        }
        headers.push(header(first)?);
    }
}

// The name and the value of a header's line.
fn header(line: &[u8]) -> Option<(String, Vec<u8>)> {
    let end = line.windows(2).position(|pair| pair == b": ")?;
    let name = std::str::from_utf8(&line[..end]).ok()?;
    Some((name.to_owned(), line[end + 2..].to_vec()))
}

#[cfg(test)]
mod tests {
    use super::*;

    #[test]
    fn a_request_has_its_parts() {
        let text =
            b"PUT /b/x%0A?q=a%20b\nx-a: 1: 2\nx-b: \xc3\xa9\xff\nx-empty: \n\nline\n\nx-c: 3\n\xff";
        let request = Request::parse(text).unwrap();
        assert_eq!(request.method, "PUT");
        assert_eq!(request.target, "/b/x%0A?q=a%20b");
        let names = request.headers.iter().map(|it| it.0.as_str());
        assert_eq!(names.collect::<Vec<_>>(), ["x-a", "x-b", "x-empty"]);
        assert_eq!(request.header("X-A"), Some(&b"1: 2"[..]));
        assert_eq!(request.header("x-b"), Some(&b"\xc3\xa9\xff"[..]));
        assert_eq!(request.header("x-empty"), Some(&b""[..]));
        assert_eq!(request.header("x-c"), None);
        assert_eq!(request.body, b"line\n\nx-c: 3\n\xff");
    }

    #[test]
    fn a_request_may_have_no_headers_and_no_body() {
        let request = Request::parse(b"GET /b\n\n").unwrap();
        assert_eq!((request.headers.len(), request.body.len()), (0, 0));
    }

    #[test]
    fn other_texts_are_no_request() {
        for text in [
            "",
            "GET",
            "GET /b",
            "GET\n\n",
            "GET /b\n",
            "GET /b\nx-a: 1\n",
            "GET /b\nx-a\n\n",
        ] {
            assert_eq!(Request::parse(text.as_bytes()), None, "{text:?}");
        }
    }

    #[test]
    fn a_response_has_its_parts() {
        let response = Response::parse(b"206\netag: \"q\"\n\n{}\n").unwrap();
        assert_eq!(
            (response.status, response.body.as_slice()),
            (206, &b"{}\n"[..])
        );
        assert_eq!(response.header("ETag"), Some(&b"\"q\""[..]));
        for text in [
            "",
            "206",
            "206\n",
            "206\nx-a\n\n",
            "20\n\n",
            "+20\n\n",
            "2000\n\n",
        ] {
            assert_eq!(Response::parse(text.as_bytes()), None, "{text:?}");
        }
    }

    #[test]
    fn requests_have_lines() {
        let text = b"{\"status\":2}\n{\"status\":3,\"fault\":\"Custom: a\"}\n";
        let wanted = ["{\"status\":2}", "{\"status\":3,\"fault\":\"Custom: a\"}"];
        assert_eq!(lines(text).unwrap(), wanted);
        assert_eq!(lines(b""), Some(Vec::new()));
        assert_eq!(lines(b"{\"status\":2}"), None);
        assert_eq!(lines(b"\xff\n"), None);
    }

    #[test]
    fn an_output_may_have_an_error() {
        let output = Output::parse(b"{\"Code\":206}\n").unwrap();
        assert_eq!(
            (output.error, output.json.as_str()),
            (None, "{\"Code\":206}")
        );
        let output = Output::parse(b"ex#Gone\n{}\n").unwrap();
        assert_eq!(
            (output.error.as_deref(), output.json.as_str()),
            (Some("ex#Gone"), "{}")
        );
        let output = Output::parse(b"ex#Two\nlines\n{\"a\":\"\\n\"}\n").unwrap();
        assert_eq!(
            (output.error.as_deref(), output.json.as_str()),
            (Some("ex#Two\nlines"), "{\"a\":\"\\n\"}")
        );
        assert_eq!(Output::parse(b"{}"), None);
        assert_eq!(Output::parse(b"\xff\n"), None);
    }

    #[test]
    fn a_route_has_an_operation_and_an_input() {
        let routed = Routed::parse(b"ex#Get\n{\"Bucket\":\"b\"}\n").unwrap();
        assert_eq!(
            (routed.operation.as_str(), routed.input.as_str()),
            ("ex#Get", "{\"Bucket\":\"b\"}")
        );
        assert_eq!(Routed::parse(b"{}\n"), None);
    }
}
