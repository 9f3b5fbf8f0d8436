// The commands, in one table, and their calls.
use crate::refusal::{Fault, Refusal};

// What each export of crates/smithy_bind_c is, whose slices are passed as a pointer and a length.
type Call = unsafe extern "C" fn(*const u8, usize, *mut u8, usize, *mut usize) -> u8;

macro_rules! exports {
    ($($export:ident)*) => {
        extern "C" {
            $(fn $export(
                job: *const u8,
                job_len: usize,
                text: *mut u8,
                text_room: usize,
                text_len: *mut usize,
            ) -> u8;)*
        }
    };
}

macro_rules! commands {
    ($($(#[$about:meta])* $command:ident $word:literal $export:ident $($explain:ident)?,)*) => {
        exports! { $($export $($explain)?)* }

        /// A command that reads a job.
        #[derive(Clone, Copy, Debug, PartialEq, Eq, Hash)]
        #[non_exhaustive]
        pub enum Command {
            $($(#[$about])* $command,)*
        }

        impl Command {
            /// Each command.
            pub const ALL: &'static [Command] = &[$(Command::$command),*];

            /// The word that the program has for it, or two words with a blank between them.
            pub const fn word(self) -> &'static str {
                match self {
                    $(Command::$command => $word,)*
                }
            }

            fn call(self) -> Call {
                match self {
                    $(Command::$command => $export,)*
                }
            }

            // What explains its jobs. `None` where nothing does.
            fn explain(self) -> Option<Call> {
                match self {
                    $(Command::$command => [$($explain as Call)?].first().copied(),)*
                }
            }
        }
    };
}

commands! {
    /// The HTTP request of a job's input.
    Request "request" smithy_bind_request smithy_bind_explain_request,
    /// The HTTP requests of a job's inputs, a line of JSON for each.
    Requests "requests" smithy_bind_requests smithy_bind_explain_requests,
    /// The value that a job's response hands out.
    Response "response" smithy_bind_response smithy_bind_explain_response,
    /// The values that a job's responses hand out, a line of JSON for each.
    Responses "responses" smithy_bind_responses smithy_bind_explain_responses,
    /// The `POST` of a job's input as one JSON body.
    Rpc "rpc" smithy_bind_rpc smithy_bind_explain_rpc,
    /// The input that a job's request is of.
    Recover "recover" smithy_bind_recover smithy_bind_explain_recover,
    /// The operation that a job's request is of, and its input.
    Route "route" smithy_bind_route smithy_bind_explain_route,
    /// The request of the same input on the other side: the `POST` of a request's, or the request of a `POST`'s.
    Gateway "gateway" smithy_bind_gateway smithy_bind_explain_gateway,
    /// The HTTP response of a job's output: a line of the status, the headers, an empty line, the body.
    Answer "answer" smithy_bind_answer smithy_bind_explain_answer,
    /// The HTTP request of a job's input by the protocol of AWS that the job names.
    AwsRequest "aws request" smithy_aws_request,
    /// The value that a job's response hands out by the protocol of AWS that the job names.
    AwsResponse "aws response" smithy_aws_response,
}

impl Command {
    /// The command of a word of the program, as `request`, or of two, as `aws request`. `None` where it is none.
    pub fn named(word: &str) -> Option<Command> {
        Command::ALL
            .iter()
            .copied()
            .find(|command| command.word() == word)
    }
}

// What most texts fit into.
const FIRST_ROOM: usize = 4096;

/// The text that the program's command writes for a job.
///
/// # Errors
///
/// The [`Refusal`] of the command.
pub fn answer(command: Command, job: impl AsRef<[u8]>) -> Result<Vec<u8>, Refusal> {
    let job = job.as_ref();
    match called(command.call(), job)? {
        (2, _) => Err(Refusal::NoJob(why(command, job)?)),
        (status, text) => ended(status, text),
    }
}

/// One line that says of a job why it is none of the command, without its end: `NotJson: byte N`, where the bytes are no JSON
/// from there on; `NoJob: POINTER: what is asked there`, by a JSON Pointer (RFC 6901); or `NotChecked:` and the rule that its
/// schema breaks. It is `Job` where the job is one. `None` of a command whose jobs nothing explains.
///
/// # Errors
///
/// [`Refusal::OutOfMemory`] and [`Refusal::TooLong`].
pub fn explain(command: Command, job: impl AsRef<[u8]>) -> Result<Option<String>, Refusal> {
    let told = why(command, job.as_ref())?;
    Ok(told.map(|line| line.to_string()))
}

// The line that explains a job.
fn why(command: Command, job: &[u8]) -> Result<Option<Fault>, Refusal> {
    let Some(explain) = command.explain() else {
        return Ok(None);
    };
    let (status, text) = called(explain, job)?;
    ended(status, text).map(|line| Some(Fault::new(line)))
}

// What a call ends with, and its whole text.
fn called(call: Call, job: &[u8]) -> Result<(u8, Vec<u8>), Refusal> {
    let mut text = vec![0; FIRST_ROOM];
    loop {
        let mut len = 0;
        // SAFETY: the pointers are those of two slices, with their lengths, and of `len`; none of the three lies in
        // another.
        let status = unsafe {
            call(
                job.as_ptr(),
                job.len(),
                text.as_mut_ptr(),
                text.len(),
                &mut len,
            )
        };
        if len <= text.len() {
            text.truncate(len);
            return Ok((status, text));
        }
        // The text was not written: there is room for it the next time.
        text.try_reserve_exact(len - text.len())
            .map_err(|_| Refusal::OutOfMemory)?;
        text.resize(len, 0);
    }
}

// The text of a call that ended with this status, or why there is none.
fn ended(status: u8, text: Vec<u8>) -> Result<Vec<u8>, Refusal> {
    match status {
        0 => Ok(text),
        2 => Err(Refusal::NoJob(None)),
        3 => Err(Refusal::Fault(Fault::new(text))),
        6 => Err(Refusal::OutOfMemory),
        7 => Err(Refusal::TooLong),
        _ => Err(Refusal::Unknown { status, text }),
    }
}

#[cfg(test)]
mod tests {
    use super::*;

    #[test]
    fn each_command_has_a_word_of_its_own() {
        for command in Command::ALL {
            assert_eq!(Command::named(command.word()), Some(*command));
        }
        assert_eq!(Command::named("--help"), None);
    }

    #[test]
    fn each_status_has_its_refusal() {
        assert_eq!(ended(0, b"a".to_vec()), Ok(b"a".to_vec()));
        for status in 1..=u8::MAX {
            let refusal = ended(status, b"Custom: a\n".to_vec()).unwrap_err();
            assert_eq!(refusal.status(), status);
        }
    }
}
