// Why a command gives no output.
use std::error::Error;
use std::fmt;

/// Why there is no output.
#[derive(Clone, Debug, PartialEq, Eq)]
#[non_exhaustive]
pub enum Refusal {
    /// The bytes are no job, or its schema can't be worked by, with the line that says why: that of [`explain`](crate::explain).
    /// `None` where nothing says it.
    NoJob(Option<Fault>),
    /// The input can't be sent, the response can't be read, the output can't be written, no input has the request, or no
    /// operation is found.
    Fault(Fault),
    /// There was not enough memory.
    OutOfMemory,
    /// The job has more than 16,777,216 bytes.
    TooLong,
    /// What no command of this version ends with: another version of the library is linked.
    Unknown {
        /// The status of the call.
        status: u8,
        /// Its text.
        text: Vec<u8>,
    },
}

impl Refusal {
    /// The exit status that the program has for it.
    pub fn status(&self) -> u8 {
        match self {
            Refusal::NoJob(_) => 2,
            Refusal::Fault(_) => 3,
            Refusal::OutOfMemory => 6,
            Refusal::TooLong => 7,
            Refusal::Unknown { status, .. } => *status,
        }
    }
}

impl fmt::Display for Refusal {
    fn fmt(&self, f: &mut fmt::Formatter<'_>) -> fmt::Result {
        match self {
            Refusal::NoJob(None) => f.write_str(
                "no job, or one whose schema is not checked: docs/JOBS.md of smithy_bind has the form of a job",
            ),
            Refusal::NoJob(Some(fault)) | Refusal::Fault(fault) => fault.fmt(f),
            Refusal::OutOfMemory => f.write_str("out of memory"),
            Refusal::TooLong => f.write_str("the job has more than 16777216 bytes"),
            Refusal::Unknown { status, .. } => {
                write!(f, "an answer of another version of smithy_bind, of status {status}")
            }
        }
    }
}

// A fault is told as itself, so it is no source: its line would be told twice.
impl Error for Refusal {}

/// The line that says why a job has no output, or is none.
#[derive(Clone, PartialEq, Eq)]
pub struct Fault {
    line: Vec<u8>,
}

impl Fault {
    pub(crate) fn new(line: Vec<u8>) -> Fault {
        Fault { line }
    }

    /// The line as the program writes it, with its end.
    pub fn line(&self) -> &[u8] {
        &self.line
    }

    /// What stands before the line's first `: `, as `InvalidInput` or `NoJob`.
    pub fn kind(&self) -> String {
        self.halves().0
    }

    /// What stands behind it.
    pub fn text(&self) -> String {
        self.halves().1
    }

    fn halves(&self) -> (String, String) {
        let line = self.to_string();
        let (kind, text) = line.split_once(": ").unwrap_or((&line, ""));
        (kind.to_owned(), text.to_owned())
    }
}

impl fmt::Display for Fault {
    fn fmt(&self, f: &mut fmt::Formatter<'_>) -> fmt::Result {
        f.write_str(String::from_utf8_lossy(&self.line).trim_end_matches('\n'))
    }
}

impl fmt::Debug for Fault {
    fn fmt(&self, f: &mut fmt::Formatter<'_>) -> fmt::Result {
        write!(f, "Fault({:?})", self.to_string())
    }
}

impl Error for Fault {}

#[cfg(test)]
mod tests {
    use super::*;

    #[test]
    fn a_fault_is_told_as_its_line() {
        let fault = Fault::new(b"InvalidInput: invalid input: a: b\n".to_vec());
        assert_eq!(fault.kind(), "InvalidInput");
        assert_eq!(fault.text(), "invalid input: a: b");
        let refusal = Refusal::Fault(fault);
        assert_eq!(refusal.to_string(), "InvalidInput: invalid input: a: b");
        assert!(refusal.source().is_none());
        assert!(format!("{refusal:?}").contains("invalid input: a: b"));
    }

    #[test]
    fn no_job_is_told_as_its_line() {
        let fault = Fault::new(b"NoJob: /input: an object\n".to_vec());
        assert_eq!(fault.kind(), "NoJob");
        assert_eq!(fault.text(), "/input: an object");
        assert_eq!(
            Refusal::NoJob(Some(fault)).to_string(),
            "NoJob: /input: an object"
        );
        assert!(Refusal::NoJob(None).to_string().contains("docs/JOBS.md"));
    }
}
