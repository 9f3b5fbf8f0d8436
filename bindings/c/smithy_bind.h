/* The commands of the program smithy_bind, from the bytes of a job into a buffer of the caller, and the parts of what they write.
 *
 *     size_t len;
 *     enum smithy_bind_status status = smithy_bind_call(smithy_bind_request, job, job_len, NULL, 0, &len);
 *
 * asks for the length of a text, and with room for it
 *
 *     status = smithy_bind_call(smithy_bind_request, job, job_len, text, len, &len);
 *
 * writes it. docs/JOBS.md has the format of a job and what each command writes.
 */
#ifndef SMITHY_BIND_H
#define SMITHY_BIND_H

#include <stddef.h>
#include <stdint.h>
#include <string.h>

#define SMITHY_BIND_VERSION "0.1.0"

/* The commands by their names. ROW is a macro of one word. */
#define SMITHY_BIND_COMMANDS(ROW) \
    ROW(request)  /* the HTTP request of a job's input */ \
    ROW(requests) /* the HTTP requests of a job's inputs, a line of JSON for each */ \
    ROW(response) /* the value that a job's response hands out, as JSON */ \
    ROW(responses) /* the values that a job's responses hand out, a line of JSON for each */ \
    ROW(rpc)      /* the POST of a job's input as one JSON body, of content type application/json, without X-Amz-Target */ \
    ROW(recover)  /* the input that a job's request is of, as JSON */ \
    ROW(route)    /* the operation that a job's request is of, by its full name and a line feed, and its input, as JSON */ \
    ROW(gateway)  /* the POST of the input that a job's request is of, or the request of the input that it posts */ \
    ROW(answer)   /* the HTTP response of a job's output: a line of the status, the headers, an empty line, the body */

/* Those whose jobs are explained, which all of these are. */
#define SMITHY_BIND_EXPLAINED(ROW) SMITHY_BIND_COMMANDS(ROW)

/* The commands by the protocol of AWS that a job names: each is called `aws` and one of these words. Nothing explains their jobs. */
#define SMITHY_AWS_COMMANDS(ROW) \
    ROW(request)  /* the HTTP request of a job's input */ \
    ROW(response) /* the value that a job's response hands out, as JSON, of an error behind its full name and a line feed */

/* What a call ends with: an exit status of the program. */
enum smithy_bind_status {
    SMITHY_BIND_DONE = 0,    /* the text is the output */
    SMITHY_BIND_NO_JOB = 2,  /* the bytes are no job, or its schema can't be worked by: smithy_bind_explain says why */
    SMITHY_BIND_FAULT = 3,   /* the text is the line that says why there is no output */
    SMITHY_BIND_MEMORY = 6,  /* there was not enough memory */
    SMITHY_BIND_TOO_LONG = 7 /* the job has more than 16,777,216 bytes */
};

#ifdef __cplusplus
extern "C" {
#endif

/* A command. It answers a status, and sets *text_len to the length in bytes of the whole text, 0 at a status that has none. A
 * text of at most text_room bytes stands at the front of the buffer, and what is behind it is as before. Of a longer one nothing
 * is written: make the call again with room for *text_len bytes.
 *
 * No pointer may be null, also where its length is 0: smithy_bind_call takes such. The job, the buffer and *text_len lie
 * apart. While a call runs, nothing else writes the job, and nothing else reads or writes the buffer or *text_len. A call keeps
 * nothing when it is over, so calls may run in several threads at a time; but none in a signal handler, or in the forked child
 * of a process with threads. Memory is that of malloc, realloc and free, which are of one allocator; it aligns a block to each
 * power of two up to 16 that divides its size.
 */
typedef uint8_t smithy_bind_command(const uint8_t *job, size_t job_len, uint8_t *text, size_t text_room, size_t *text_len);

/* The commands themselves: smithy_bind_request, smithy_bind_response and so on. */
#define SMITHY_BIND_DECLARED(name) smithy_bind_command smithy_bind_##name;
SMITHY_BIND_COMMANDS(SMITHY_BIND_DECLARED)
#undef SMITHY_BIND_DECLARED

/* Those by a protocol of AWS: smithy_aws_request and smithy_aws_response. */
#define SMITHY_BIND_DECLARED(name) smithy_bind_command smithy_aws_##name;
SMITHY_AWS_COMMANDS(SMITHY_BIND_DECLARED)
#undef SMITHY_BIND_DECLARED

/* What explains them: smithy_bind_explain_request and so on. Its text is one line, that the job is one of the command, or why it is
 * none; its status is SMITHY_BIND_DONE, SMITHY_BIND_MEMORY or SMITHY_BIND_TOO_LONG. */
#define SMITHY_BIND_DECLARED(name) smithy_bind_command smithy_bind_explain_##name;
SMITHY_BIND_EXPLAINED(SMITHY_BIND_DECLARED)
#undef SMITHY_BIND_DECLARED

/* Answers a job by a command, as the command does; a null job or buffer is one of length 0. */
static inline enum smithy_bind_status smithy_bind_call(smithy_bind_command *command, const void *job, size_t job_len,
                                                       void *text, size_t text_room, size_t *text_len)
{
    uint8_t none[2] = {0, 0};
    if (job == NULL) {
        job = &none[0];
        job_len = 0;
    }
    if (text == NULL) {
        text = &none[1];
        text_room = 0;
    }
    return (enum smithy_bind_status)command((const uint8_t *)job, job_len, (uint8_t *)text, text_room, text_len);
}

/* The command with this name, as `request` or `aws request`, or null where there is none. */
static inline smithy_bind_command *smithy_bind_command_named(const char *name)
{
#define SMITHY_BIND_NAMED(it) \
    if (strcmp(name, #it) == 0) \
        return smithy_bind_##it;
    SMITHY_BIND_COMMANDS(SMITHY_BIND_NAMED)
#undef SMITHY_BIND_NAMED
#define SMITHY_BIND_NAMED(it) \
    if (strcmp(name, "aws " #it) == 0) \
        return smithy_aws_##it;
    SMITHY_AWS_COMMANDS(SMITHY_BIND_NAMED)
#undef SMITHY_BIND_NAMED
    return NULL;
}

/* What explains the jobs of a command, or null where there is none. */
static inline smithy_bind_command *smithy_bind_explain_of(smithy_bind_command *command)
{
#define SMITHY_BIND_PAIRED(it) \
    if (command == smithy_bind_##it) \
        return smithy_bind_explain_##it;
    SMITHY_BIND_EXPLAINED(SMITHY_BIND_PAIRED)
#undef SMITHY_BIND_PAIRED
    return NULL;
}

/* Says of a job in one line why it is none of the command, or `Job`: `NotJson: byte N`, where the bytes are no JSON from there on;
 * `NoJob: POINTER: what is asked there`, by a JSON Pointer (RFC 6901); or `NotChecked:` and the rule that its schema breaks.
 * SMITHY_BIND_NO_JOB, without a text, where nothing explains the command. A null job or buffer is one of length 0. */
static inline enum smithy_bind_status smithy_bind_explain(smithy_bind_command *command, const void *job, size_t job_len,
                                                          void *text, size_t text_room, size_t *text_len)
{
    smithy_bind_command *explain = smithy_bind_explain_of(command);
    *text_len = 0;
    return explain == NULL ? SMITHY_BIND_NO_JOB : smithy_bind_call(explain, job, job_len, text, text_room, text_len);
}

/* What a status means, in a few words. */
static inline const char *smithy_bind_status_text(enum smithy_bind_status status)
{
    switch (status) {
    case SMITHY_BIND_DONE:
        return "done";
    case SMITHY_BIND_NO_JOB:
        return "no job, or one whose schema is not checked: explain says why";
    case SMITHY_BIND_FAULT:
        return "no output: the line says why";
    case SMITHY_BIND_MEMORY:
        return "out of memory";
    case SMITHY_BIND_TOO_LONG:
        return "the job has more than 16777216 bytes";
    }
    return "a status of another version";
}

/* A part of a text: so many bytes, with no 0 behind them. */
struct smithy_bind_part {
    const char *bytes;
    size_t len;
};

/* The parts of a request, which lie in its text. The headers are read by smithy_bind_next_header. */
struct smithy_bind_request_parts {
    struct smithy_bind_part method, target, headers, body;
};

/* The parts of a response, in the same way. */
struct smithy_bind_response_parts {
    struct smithy_bind_part status, headers, body;
};

/* Takes from a text what stands before the first `end` of `end_len` bytes, and that end. 1, or 0 where there is none. */
static inline int smithy_bind_take(struct smithy_bind_part *text, const char *end, size_t end_len, struct smithy_bind_part *taken)
{
    size_t at = 0;
    while (at + end_len <= text->len && memcmp(text->bytes + at, end, end_len) != 0)
        at++;
    if (at + end_len > text->len)
        return 0;
    taken->bytes = text->bytes;
    taken->len = at;
    text->bytes += at + end_len;
    text->len -= at + end_len;
    return 1;
}

/* Takes the next header from the headers of a request or a response: its name, in lower case, and the bytes of its value. 1, or 0
 * where there is none left. */
static inline int smithy_bind_next_header(struct smithy_bind_part *headers, struct smithy_bind_part *name,
                                          struct smithy_bind_part *value)
{
    return smithy_bind_take(headers, ": ", 2, name) && smithy_bind_take(headers, "\n", 1, value);
}

/* Takes the headers of a message, up to the empty line behind them, and that line; what is left is the body. 1, or 0 where there is
 * no such line. */
static inline int smithy_bind_take_headers(struct smithy_bind_part *rest, struct smithy_bind_part *headers)
{
    struct smithy_bind_part line;
    *headers = *rest;
    do {
        if (!smithy_bind_take(rest, "\n", 1, &line))
            return 0;
    } while (line.len > 0);
    headers->len = (size_t)(line.bytes - headers->bytes);
    return 1;
}

/* The parts of the text that `request`, `rpc` and `gateway` write. 1, or 0 where it has not their form. */
static inline int smithy_bind_parts_of(const void *text, size_t text_len, struct smithy_bind_request_parts *parts)
{
    parts->body.bytes = (const char *)text;
    parts->body.len = text_len;
    return smithy_bind_take(&parts->body, " ", 1, &parts->method) && smithy_bind_take(&parts->body, "\n", 1, &parts->target) &&
           smithy_bind_take_headers(&parts->body, &parts->headers);
}

/* Takes the next line, without its end, from the text that `requests` or `responses` writes: a JSON object for each input or response,
 * in order, with `status` 0 and the request's `method`, `target`, `headers` and `body`, or the response's `value`, beside the `error`
 * of a code; 3 and the line of the `fault`; or 2 where there is no job of it alone. docs/JOBS.md has their form. 1, or 0 where there is none left. */
static inline int smithy_bind_next_line(struct smithy_bind_part *lines, struct smithy_bind_part *line)
{
    return smithy_bind_take(lines, "\n", 1, line);
}

/* The parts of the text that `answer` writes: a status of three digits, and the others as of a request. 1, or 0 where it has
 * not its form. */
static inline int smithy_bind_response_parts_of(const void *text, size_t text_len, struct smithy_bind_response_parts *parts)
{
    parts->body.bytes = (const char *)text;
    parts->body.len = text_len;
    return smithy_bind_take(&parts->body, "\n", 1, &parts->status) && parts->status.len == 3 &&
           smithy_bind_take_headers(&parts->body, &parts->headers);
}

#ifdef __cplusplus
}
#endif

#endif
