"""Answers the job on standard input by a command, and ends as the program does, but for failed reading and writing:
example.py LIBRARY request < JOB, example.py LIBRARY explain request < JOB, example.py LIBRARY aws request < JOB"""

import sys

import smithy_bind


def answered(library, words, job):
    """The text of a command, or of what explains it."""
    if words[0] == "explain":
        return f"{library.explain(words[1], job)}\n".encode()
    return library.answer(" ".join(words), job)


def is_command(words):
    if len(words) == 2 and words[0] == "explain":
        return words[1] in smithy_bind.EXPLAINED
    return words in [tuple(it.split()) for it in smithy_bind.COMMANDS]


def main(path, *words):
    if not is_command(words):
        return 1
    library, job = smithy_bind.Library(path), sys.stdin.buffer.read()
    try:
        text, status = answered(library, words, job), 0
    except smithy_bind.Fault as fault:
        text, status = fault.line, fault.status
    except smithy_bind.Refusal as refusal:
        text, status = b"", refusal.status
    except MemoryError:
        text, status = b"", 6
    sys.stdout.buffer.write(text)
    return status


if __name__ == "__main__":
    sys.exit(main(*sys.argv[1:]))
