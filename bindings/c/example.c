/* Answers the job on standard input by a command, and ends as the program does: example request < JOB,
 * example explain request < JOB and example aws request < JOB */
#include "smithy_bind.h"

#include <stdio.h>
#include <stdlib.h>

/* one byte more than a job may have, so that a longer one is seen to be too long; and what most texts fit into */
enum { JOB_ROOM = 16777217, FIRST_ROOM = 4096 };

/* the ends of the program that no call has */
enum { NO_COMMAND = 1, READING_FAILED = 4, WRITING_FAILED = 5 };

/* Writes the text of the answer, and gives the status. A text that does not fit is asked for again, with its length. */
static int answer(smithy_bind_command *command, const uint8_t *job, size_t job_len)
{
    int status = SMITHY_BIND_MEMORY;
    uint8_t *text = NULL;
    size_t room = 0;
    size_t len = FIRST_ROOM;
    while (len > room) {
        uint8_t *more = realloc(text, len);
        if (more == NULL) {
            free(text);
            return SMITHY_BIND_MEMORY;
        }
        text = more;
        room = len;
        status = smithy_bind_call(command, job, job_len, text, room, &len);
    }
    if (fwrite(text, 1, len, stdout) != len || fflush(stdout) != 0)
        status = WRITING_FAILED;
    free(text);
    return status;
}

/* The command by a protocol of AWS that this word names behind `aws`, or null where it names none. */
static smithy_bind_command *named_by_aws(const char *word)
{
    if (strcmp(word, "request") == 0)
        return smithy_aws_request;
    if (strcmp(word, "response") == 0)
        return smithy_aws_response;
    return NULL;
}

/* The command that these words name, or null where they name none. */
static smithy_bind_command *named(int count, char **words)
{
    if (count == 1 && strchr(words[0], ' ') == NULL)
        return smithy_bind_command_named(words[0]);
    if (count == 2 && strcmp(words[0], "explain") == 0)
        return smithy_bind_explain_of(smithy_bind_command_named(words[1]));
    if (count == 2 && strcmp(words[0], "aws") == 0)
        return named_by_aws(words[1]);
    return NULL;
}

int main(int count, char **words)
{
    smithy_bind_command *command = named(count - 1, words + 1);
    if (command == NULL)
        return NO_COMMAND;
    uint8_t *job = malloc(JOB_ROOM);
    if (job == NULL)
        return SMITHY_BIND_MEMORY;
    size_t job_len = fread(job, 1, JOB_ROOM, stdin);
    int status = ferror(stdin) ? READING_FAILED : answer(command, job, job_len);
    free(job);
    return status;
}
