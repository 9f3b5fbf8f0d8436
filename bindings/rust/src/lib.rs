//! HTTP requests and responses of Smithy operations, by the proved library `smithy_bind`.
//!
//! ```no_run
//! # fn main() -> Result<(), Box<dyn std::error::Error>> {
//! let job = std::fs::read("examples/get_object.json")?;
//! let request = smithy_bind::request(&job)?;
//! assert_eq!(request.method, "GET");
//! assert_eq!(request.target, "/b/x/y%20z?max=3");
//! assert_eq!(request.header("x-id"), Some(&b"7"[..]));
//! # Ok(())
//! # }
//! ```
//!
//! A job is JSON: a model, the name of an operation, and an input, an output, a response or a request. `docs/JOBS.md` of
//! the repository has its format, and what each command gives. [`answer`] gives the text of a command as it stands; the
//! other functions give its parts. A refusal of what is no job has the line that says why, which [`explain`] gives of any
//! job.
#![warn(missing_docs)]

mod command;
mod parts;
mod refusal;

pub use command::{answer, explain, Command};
pub use parts::{Output, Request, Response, Routed};
pub use refusal::{Fault, Refusal};

/// The HTTP request of a job's input.
///
/// # Errors
///
/// The [`Refusal`] of the command `request`.
pub fn request(job: impl AsRef<[u8]>) -> Result<Request, Refusal> {
    parted(Command::Request, job, Request::parse)
}

/// The HTTP requests of a job's inputs: for each, in order, a line of JSON without its end. It is an object with the
/// `status` 0 and the `method`, the `target`, the `headers` and the `body` of the request; 3 and the line of the `fault`; or
/// 2 where the value is no input. `docs/JOBS.md` has its form.
///
/// # Errors
///
/// The [`Refusal`] of the command `requests`.
pub fn requests(job: impl AsRef<[u8]>) -> Result<Vec<String>, Refusal> {
    parted(Command::Requests, job, parts::lines)
}

/// The `POST` of a job's input as one JSON body, of content type `application/json`, without `X-Amz-Target`.
///
/// # Errors
///
/// The [`Refusal`] of the command `rpc`.
pub fn rpc(job: impl AsRef<[u8]>) -> Result<Request, Refusal> {
    parted(Command::Rpc, job, Request::parse)
}

/// The value that a job's response hands out.
///
/// # Errors
///
/// The [`Refusal`] of the command `response`.
pub fn response(job: impl AsRef<[u8]>) -> Result<Output, Refusal> {
    parted(Command::Response, job, Output::parse)
}

/// The values that a job's responses hand out: for each, in order, a line of JSON without its end. It is an object with the
/// `status` 0, the `error` that was found for a code, and the `value`; 3 and the line of the `fault`; or 2 where there is no
/// job of this response alone. `docs/JOBS.md` has its form.
///
/// # Errors
///
/// The [`Refusal`] of the command `responses`.
pub fn responses(job: impl AsRef<[u8]>) -> Result<Vec<String>, Refusal> {
    parted(Command::Responses, job, parts::lines)
}

/// The input that a job's request is of, as one line of JSON without its end.
///
/// # Errors
///
/// The [`Refusal`] of the command `recover`.
pub fn recover(job: impl AsRef<[u8]>) -> Result<String, Refusal> {
    let output = parted(Command::Recover, job, Output::parse)?;
    Ok(output.json)
}

/// The operation that a job's request is of, and its input.
///
/// # Errors
///
/// The [`Refusal`] of the command `route`.
pub fn route(job: impl AsRef<[u8]>) -> Result<Routed, Refusal> {
    parted(Command::Route, job, Routed::parse)
}

/// The `POST` of the input that a job's request is of, or the request of the input that it posts.
///
/// # Errors
///
/// The [`Refusal`] of the command `gateway`.
pub fn gateway(job: impl AsRef<[u8]>) -> Result<Request, Refusal> {
    parted(Command::Gateway, job, Request::parse)
}

/// The HTTP response of a job's output.
///
/// # Errors
///
/// The [`Refusal`] of the command `answer`.
pub fn serve(job: impl AsRef<[u8]>) -> Result<Response, Refusal> {
    parted(Command::Answer, job, Response::parse)
}

/// The HTTP request of a job's input by the protocol of AWS that the job names, or what [`request`] gives where it names none.
///
/// # Errors
///
/// The [`Refusal`] of the command `aws request`.
pub fn aws_request(job: impl AsRef<[u8]>) -> Result<Request, Refusal> {
    parted(Command::AwsRequest, job, Request::parse)
}

/// The value that a job's response hands out by the protocol of AWS that the job names, or what [`response`] gives where it names none.
/// An error that was found by its code, which the response may tell itself, has its name.
///
/// # Errors
///
/// The [`Refusal`] of the command `aws response`.
pub fn aws_response(job: impl AsRef<[u8]>) -> Result<Output, Refusal> {
    parted(Command::AwsResponse, job, Output::parse)
}

// The parts of a command's text. A text that has none is of a library that isn't this crate's.
fn parted<T>(
    command: Command,
    job: impl AsRef<[u8]>,
    parse: impl Fn(&[u8]) -> Option<T>,
) -> Result<T, Refusal> {
    let text = answer(command, job)?;
    parse(&text).ok_or(Refusal::Unknown { status: 0, text })
}
