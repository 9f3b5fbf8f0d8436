"""HTTP requests and responses of Smithy operations, by the proved library smithy_bind.

    import smithy_bind
    library = smithy_bind.Library("./libsmithy_bind.so")
    request = library.request(open("examples/get_object.json").read())
    print(request.method, request.target, request.headers, request.body)

A job is JSON, as a str, as bytes or as a dict: a model, the name of an operation, and an input, an output, a response or a request.
docs/JOBS.md of the repository has its form, and what each command gives. Where a call has no output it raises a Refusal, or
MemoryError. NoJob, which is raised of what is no job, has the line that says why, and `explain` gives that of any job.
"""

from smithy_bind._library import COMMANDS, EXPLAINED, Job, Library
from smithy_bind._parts import Output, Request, Response, Routed
from smithy_bind._refusals import Fault, NoJob, Refusal, TooLong, UnknownAnswer

__all__ = [
    "COMMANDS",
    "EXPLAINED",
    "Fault",
    "Job",
    "Library",
    "NoJob",
    "Output",
    "Refusal",
    "Request",
    "Response",
    "Routed",
    "TooLong",
    "UnknownAnswer",
]

__version__ = "0.1.0"
