/* Tests the header over the library: tests < examples/get_object.json. The last line is `N passed, M failed`. */
#include "smithy_bind.h"

#include <stdio.h>
#include <stdlib.h>

enum { ROOM = 65536 };

static int passed, failed;

static void expect(const char *what, int holds)
{
    if (holds) {
        passed++;
    } else {
        failed++;
        printf("C: %s: it is not so\n", what);
    }
}

static int is(struct smithy_bind_part part, const char *text)
{
    return part.len == strlen(text) && memcmp(part.bytes, text, part.len) == 0;
}

/* A made command: its text is the job, at the status 3. */
static uint8_t echo(const uint8_t *job, size_t job_len, uint8_t *text, size_t text_room, size_t *text_len)
{
    *text_len = job_len;
    if (job == NULL || text == NULL)
        return 255;
    if (job_len <= text_room)
        memcpy(text, job, job_len);
    return 3;
}

static void made_answers(void)
{
    char text[4] = "....";
    size_t len = 99;
    expect("a null job has no bytes", smithy_bind_call(echo, NULL, 7, text, 4, &len) == SMITHY_BIND_FAULT && len == 0);
    expect("a null buffer asks for the length", smithy_bind_call(echo, "abc", 3, NULL, 0, &len) == SMITHY_BIND_FAULT && len == 3);
    expect("a null buffer has no room", smithy_bind_call(echo, "abc", 3, NULL, 9, &len) == SMITHY_BIND_FAULT && len == 3);
    smithy_bind_call(echo, "abc", 3, text, 4, &len);
    expect("a text stands at the front", memcmp(text, "abc.", 4) == 0);
    expect("a status has a text", strcmp(smithy_bind_status_text(SMITHY_BIND_DONE), "done") == 0);
    expect("another status too", smithy_bind_status_text((enum smithy_bind_status)5) != NULL);
}

static void parts_of_a_request(void)
{
    const char text[] = "PUT /b?q=a%20b\nx-a: 1: 2\nx-empty: \n\nline\n\nx-c: 3\n";
    struct smithy_bind_request_parts parts;
    struct smithy_bind_part name, value;
    expect("a request has parts", smithy_bind_parts_of(text, sizeof text - 1, &parts));
    expect("its method", is(parts.method, "PUT"));
    expect("its target", is(parts.target, "/b?q=a%20b"));
    expect("its body", is(parts.body, "line\n\nx-c: 3\n"));
    expect("its first header", smithy_bind_next_header(&parts.headers, &name, &value) && is(name, "x-a") && is(value, "1: 2"));
    expect("its second", smithy_bind_next_header(&parts.headers, &name, &value) && is(name, "x-empty") && is(value, ""));
    expect("it has no third", !smithy_bind_next_header(&parts.headers, &name, &value));
}

static void parts_of_a_response(void)
{
    const char text[] = "206\nx-a: 1\n\nline\n";
    struct smithy_bind_response_parts parts;
    struct smithy_bind_part name, value;
    expect("a response has parts", smithy_bind_response_parts_of(text, sizeof text - 1, &parts));
    expect("its status", is(parts.status, "206"));
    expect("its body, past its headers", is(parts.body, "line\n"));
    expect("its header", smithy_bind_next_header(&parts.headers, &name, &value) && is(name, "x-a") && is(value, "1"));
    expect("it has no second", !smithy_bind_next_header(&parts.headers, &name, &value));
    expect("a request is none", !smithy_bind_response_parts_of("GET /b\n\n", 8, &parts));
}

static void lines_of_requests(void)
{
    const char text[] = "{\"status\":2}\n{\"status\":3,\"fault\":\"Custom: a\"}\n";
    struct smithy_bind_part lines = {text, sizeof text - 1}, line;
    expect("an input has a line", smithy_bind_next_line(&lines, &line) && is(line, "{\"status\":2}"));
    expect("so has the second", smithy_bind_next_line(&lines, &line) && is(line, "{\"status\":3,\"fault\":\"Custom: a\"}"));
    expect("there is no third", !smithy_bind_next_line(&lines, &line));
}

static void texts_without_parts(void)
{
    static const char *const texts[] = {"", "GET", "GET /b", "GET\n\n", "GET /b\n", "GET /b\nx-a: 1\n"};
    struct smithy_bind_request_parts parts;
    for (size_t it = 0; it < sizeof texts / sizeof *texts; it++)
        expect(texts[it], !smithy_bind_parts_of(texts[it], strlen(texts[it]), &parts));
}

static void by_aws(const char *job, size_t job_len)
{
    char text[ROOM], other[ROOM];
    size_t len = 0, other_len = 99;
    expect("a job without a protocol has a request",
           smithy_bind_call(smithy_aws_request, job, job_len, text, ROOM, &len) == SMITHY_BIND_DONE);
    expect("as by the other command",
           smithy_bind_call(smithy_bind_request, job, job_len, other, ROOM, &other_len) == SMITHY_BIND_DONE && len == other_len &&
               memcmp(text, other, len) == 0);
    expect("nothing explains it", smithy_bind_explain_of(smithy_aws_request) == NULL);
}

static void explained(const char *job, size_t job_len)
{
    char text[ROOM];
    size_t len = 99;
    expect("a job is one",
           smithy_bind_explain(smithy_bind_request, job, job_len, text, ROOM, &len) == SMITHY_BIND_DONE && len == 4 &&
               memcmp(text, "Job\n", len) == 0);
    expect("no bytes are no JSON", smithy_bind_explain(smithy_bind_request, NULL, 0, text, ROOM, &len) == SMITHY_BIND_DONE &&
                                       len > 9 && memcmp(text, "NotJson: ", 9) == 0);
    expect("a command may have no explanation",
           smithy_bind_explain(echo, job, job_len, text, ROOM, &len) == SMITHY_BIND_NO_JOB && len == 0);
    expect("and so has none", smithy_bind_explain_of(NULL) == NULL);
}

static void request_of(const char *job, size_t job_len)
{
    char text[ROOM];
    size_t asked = 0, len = 0;
    struct smithy_bind_request_parts parts;
    struct smithy_bind_part name, value;
    expect("the request is found by its name", smithy_bind_command_named("request") == smithy_bind_request);
    expect("one of two words is", smithy_bind_command_named("aws response") == smithy_aws_response);
    expect("no other is", smithy_bind_command_named("--help") == NULL && smithy_bind_command_named("aws rpc") == NULL);
    expect("the length is told", smithy_bind_call(smithy_bind_request, job, job_len, NULL, 0, &asked) == SMITHY_BIND_DONE);
    expect("the text is written", smithy_bind_call(smithy_bind_request, job, job_len, text, ROOM, &len) == SMITHY_BIND_DONE);
    expect("the length is the text's", asked == len && len == strlen("GET /b/x/y%20z?max=3\nx-id: 7\n\n"));
    expect("it is a request", len <= ROOM && smithy_bind_parts_of(text, len, &parts));
    expect("with its target", is(parts.target, "/b/x/y%20z?max=3"));
    expect("and its header", smithy_bind_next_header(&parts.headers, &name, &value) && is(name, "x-id") && is(value, "7"));
    expect("no job is none", smithy_bind_call(smithy_bind_request, NULL, 0, NULL, 0, &len) == SMITHY_BIND_NO_JOB && len == 0);
}

int main(void)
{
    static char job[ROOM];
    size_t job_len = fread(job, 1, ROOM, stdin);
    made_answers();
    parts_of_a_request();
    parts_of_a_response();
    lines_of_requests();
    texts_without_parts();
    request_of(job, job_len);
    by_aws(job, job_len);
    explained(job, job_len);
    printf("%d passed, %d failed\n", passed, failed);
    return failed == 0 ? EXIT_SUCCESS : EXIT_FAILURE;
}
