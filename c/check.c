/* Runs each call of balgwir.h on a table of cases, and says how many passed. */
#include "balgwir.h"

#include <limits.h>
#include <stdio.h>
#include <string.h>

#define REQUIRED BALGWIR_TAG_REQUIRED
#define NO BALGWIR_TAG_NO
#define NONE BALGWIR_TAG_NONE

static int passed = 0;
static int failed = 0;

static void check(int good, const char *what, const char *detail)
{
    if (good) {
        passed++;
    } else {
        failed++;
        printf("FAILED: %s: %s\n", what, detail);
    }
}

static const uint8_t *bytes(const char *text)
{
    return (const uint8_t *)text;
}

/* Calls balgwir_tag and holds the answer, and what lies in `out` afterwards, to what is expected: where the call is refused, what lay there before. */
static void expect_tag(const char *what, const char *line, size_t line_len, int covered, const char *section,
                       size_t section_len, int status, int tag, const char *path)
{
    struct balgwir_tagged_mail out = {12345, 67890, -7};
    int answer = balgwir_tag(bytes(line), line_len, covered, bytes(section), section_len, &out);

    check(answer == status, what, "answer");
    if (status != BALGWIR_OK) {
        check(out.path_place == 12345 && out.path_len == 67890 && out.tag == -7, what, "out stays");
        return;
    }
    check(out.tag == tag, what, "tag");
    check(out.path_place == strlen("MAIL FROM:<") && out.path_len == strlen(path), what, "place and length");
    check(out.path_place + out.path_len <= line_len && memcmp(line + out.path_place, path, strlen(path)) == 0, what,
          "path");
}

/* The two fields that together are refused. */
#define TWICE "TLS-Required: No\r\nTLS-Required: No\r\n"
/* A section that breaks its form. */
#define BROKEN "Subject: t\r\n\n"

struct tag_case {
    const char *line;
    int covered;
    const char *section;
    int status;
    int tag;
    const char *path;
};

static const struct tag_case tag_cases[] = {
    /* RFC 8689, appendix A.1 and A.2 */
    {"MAIL FROM:<roger@example.org> REQUIRETLS\r\n", 1, "", 0, REQUIRED, "roger@example.org"},
    {"MAIL FROM:<roger@example.org>\r\n", 1,
     "From: Roger Reporter <roger@example.org>\r\n"
     "To: Andy Admin <admin@example.com>\r\n"
     "Subject: Certificate problem?\r\n"
     "TLS-Required: No\r\n"
     "Date: Fri, 18 Jan 2019 10:26:55 -0800\r\n"
     "Message-ID: <5c421a6f79c0e_d153ff8286d45c468473@mail.example.org>\r\n"
     "\r\n"
     "Andy, there seems to be a problem with the TLS certificate\r\n"
     "on your mail server. Are you aware of this?\r\n"
     "\r\n"
     "Roger\r\n",
     0, NO, "roger@example.org"},

    /* paths and options */
    {"MAIL FROM:<>\r\n", 0, "", 0, NONE, ""},
    {"mail from:<A.b@C.example> requiretls Size=0 ret=hdrs\r\n", 1, "", 0, REQUIRED, "A.b@C.example"},
    {"MAIL FROM:<a@b> RET=FULL\r\n", 0, "", 0, NONE, "a@b"},
    {"MAIL FROM:<a@b> SIZE=12345678901234567890\r\n", 0, "", 0, NONE, "a@b"},
    {"MAIL FROM:<a@b> SIZE=123456789012345678901\r\n", 0, "", 3, 0, ""},
    {"MAIL FROM:<a@b> SIZE=\r\n", 0, "", 3, 0, ""},
    {"MAIL FROM:<a@b> REQUIRETLS=1\r\n", 1, "", 3, 0, ""},
    {"MAIL FROM:<a@b> RET=NONE\r\n", 0, "", 3, 0, ""},
    {"MAIL FROM:<a@b> SIZE=1 SIZE=2\r\n", 0, "", 4, 0, ""},
    {"MAIL FROM:<a@b> RET=FULL RET=HDRS\r\n", 0, "", 4, 0, ""},
    {"MAIL FROM:<a@b> REQUIRETLS REQUIRETLS\r\n", 1, "", 4, 0, ""},
    {"MAIL FROM:<a@b> REQUIRETLS\r\n", 0, "", 5, 0, ""},

    /* broken forms */
    {"", 0, "", 2, 0, ""},
    {"MAIL FROM:<a@b>", 0, "", 2, 0, ""},
    {"MAIL FROM:<a@b>\n", 0, "", 2, 0, ""},
    {"MAIL FROM:<a@b> \r\n", 0, "", 2, 0, ""},
    {"MAIL FROM:<a@b>  RET=FULL\r\n", 0, "", 2, 0, ""},
    {"MAIL FROM:<a@b>RET=FULL\r\n", 0, "", 2, 0, ""},
    {"MAIL FROM: <a@b>\r\n", 0, "", 2, 0, ""},
    {"MAIL FROM:<a@b\r\n", 0, "", 2, 0, ""},
    {"MAIL FROM:<a>\r\n", 0, "", 2, 0, ""},
    {"MAIL FROM:<a@b> X\tY\r\n", 0, "", 2, 0, ""},
    {"RCPT TO:<a@b>\r\n", 0, "", 2, 0, ""},

    /* the flag: 0 is no, anything else is yes */
    {"MAIL FROM:<a@b> REQUIRETLS\r\n", -1, "", 0, REQUIRED, "a@b"},
    {"MAIL FROM:<a@b> REQUIRETLS\r\n", 256, "", 0, REQUIRED, "a@b"},
    {"MAIL FROM:<a@b> REQUIRETLS\r\n", INT_MIN, "", 0, REQUIRED, "a@b"},

    /* fields: any letter case, folded, repeated, of another value, outside the header */
    {"MAIL FROM:<a@b>\r\n", 0, "tls-required:no\r\n", 0, NO, "a@b"},
    {"MAIL FROM:<a@b>\r\n", 0, "TLS-Required:\r\n No\r\n", 0, NO, "a@b"},
    {"MAIL FROM:<a@b>\r\n", 0, "TLS-Required:\r\n\t\r\n  NO\r\nSubject: t\r\n", 0, NO, "a@b"},
    {"MAIL FROM:<a@b>\r\n", 0, "TLS-Required: Yes\r\n", 0, NONE, "a@b"},
    {"MAIL FROM:<a@b>\r\n", 0, "TLS-Required: No \r\n", 0, NONE, "a@b"},
    {"MAIL FROM:<a@b>\r\n", 0, "TLS-Required: No\r\n way\r\n", 0, NONE, "a@b"},
    {"MAIL FROM:<a@b>\r\n", 0, "TLS-Required:\r\n", 0, NONE, "a@b"},
    {"MAIL FROM:<a@b>\r\n", 0, "Subject: t\r\n TLS-Required: No\r\n", 0, NONE, "a@b"},
    {"MAIL FROM:<a@b>\r\n", 0, "Subject: t\r\n\r\nTLS-Required: No\r\n", 0, NONE, "a@b"},
    {"MAIL FROM:<a@b>\r\n", 0, "TLS-Required: No\r\n\r\nTLS-Required: No\r\n", 0, NO, "a@b"},
    {"MAIL FROM:<a@b>\r\n", 0, TWICE, 6, 0, ""},
    {"MAIL FROM:<a@b>\r\n", 0, "TLS-Required: Yes\r\nSubject: t\r\nTLS-Required: \r\n No\r\n", 6, 0, ""},
    {"MAIL FROM:<a@b> REQUIRETLS\r\n", 1, TWICE, 0, REQUIRED, "a@b"},

    /* a section that breaks its form, with the option too */
    {"MAIL FROM:<a@b>\r\n", 0, BROKEN, 9, 0, ""},
    {"MAIL FROM:<a@b> REQUIRETLS\r\n", 1, BROKEN, 9, 0, ""},
    {"MAIL FROM:<a@b>\r\n", 0, "Subject: t", 9, 0, ""},
    {"MAIL FROM:<a@b>\r\n", 0, "Subject: t\rx\r\n", 9, 0, ""},
    {"MAIL FROM:<a@b>\r\n", 0, "Subject: \x80\r\n", 9, 0, ""},

    /* two faults at once: the lower number is answered (those with a line too long are below) */
    {"MAIL FROM:<a@b>  X=1\r\n", 0, "", 2, 0, ""},
    {"MAIL FROM:<a@b> SIZE=1 SIZE=1 \r\n", 0, "", 2, 0, ""},
    {"MAIL FROM:<a@b> REQUIRETLS \r\n", 0, "", 2, 0, ""},
    {"MAIL FROM:<a@b> \r\n", 0, TWICE, 2, 0, ""},
    {"MAIL FROM:<a@b> \r\n", 0, BROKEN, 2, 0, ""},
    {"MAIL FROM:<a@b> SIZE=1 SIZE=1 X=1\r\n", 0, "", 3, 0, ""},
    {"MAIL FROM:<a@b> REQUIRETLS X=1\r\n", 0, "", 3, 0, ""},
    {"MAIL FROM:<a@b> X=1\r\n", 0, TWICE, 3, 0, ""},
    {"MAIL FROM:<a@b> X=1\r\n", 0, BROKEN, 3, 0, ""},
    {"MAIL FROM:<a@b> REQUIRETLS SIZE=1 SIZE=1\r\n", 0, "", 4, 0, ""},
    {"MAIL FROM:<a@b> SIZE=1 SIZE=1\r\n", 0, TWICE, 4, 0, ""},
    {"MAIL FROM:<a@b> SIZE=1 SIZE=1\r\n", 0, BROKEN, 4, 0, ""},
    {"MAIL FROM:<a@b> REQUIRETLS\r\n", 0, TWICE, 5, 0, ""},
    {"MAIL FROM:<a@b> REQUIRETLS\r\n", 0, BROKEN, 5, 0, ""},
    {"MAIL FROM:<a@b>\r\n", 0, TWICE BROKEN, 9, 0, ""},
};

static void check_tags(void)
{
    size_t i;

    for (i = 0; i < sizeof tag_cases / sizeof tag_cases[0]; i++) {
        const struct tag_case *c = &tag_cases[i];

        expect_tag(c->line, c->line, strlen(c->line), c->covered, c->section, strlen(c->section), c->status, c->tag,
                   c->path);
    }
    expect_tag("a section with byte 0", "MAIL FROM:<>\r\n", 14, 0, "a\0b\r\n", 5, 9, 0, "");
    expect_tag("null section of length 0", "MAIL FROM:<>\r\n", 14, 0, NULL, 0, 0, NONE, "");
    expect_tag("null line of length 0", NULL, 0, 0, NULL, 0, 2, 0, "");
}

/* A line of `n` bytes: the front, as many `x` as it takes, and the back. */
static void long_line(char *line, size_t n, const char *front, const char *back)
{
    memset(line, 'x', n);
    memcpy(line, front, strlen(front));
    memcpy(line + n - strlen(back), back, strlen(back));
}

struct length_case {
    const char *front;
    const char *back;
    const char *section;
    int at_523;
};

/* Each is refused by 1 at 524 bytes, whatever else is wrong with it, and by its own number at 523. */
static const struct length_case length_cases[] = {
    {"MAIL FROM:<a@b> X=", "\r\n", "", 3},
    {"MAIL FROM:<a@b> X=", "", "", 2},
    {"MAIL FROM:<a@b> X=", " \r\n", "", 2},
    {"GARBLED", "\r\n", "", 2},
    {"MAIL FROM:<a@b> X=", " SIZE=1 SIZE=1\r\n", "", 3},
    {"MAIL FROM:<a@b> X=", " REQUIRETLS\r\n", "", 3},
    {"MAIL FROM:<a@b> X=", "\r\n", TWICE, 3},
    {"MAIL FROM:<a@b> X=", "\r\n", BROKEN, 3},
};

static void check_lengths(void)
{
    char line[524];
    size_t i;

    for (i = 0; i < sizeof length_cases / sizeof length_cases[0]; i++) {
        const struct length_case *c = &length_cases[i];

        long_line(line, 523, c->front, c->back);
        expect_tag("523 bytes", line, 523, 0, c->section, strlen(c->section), c->at_523, 0, "");
        long_line(line, 524, c->front, c->back);
        expect_tag("524 bytes", line, 524, 0, c->section, strlen(c->section), 1, 0, "");
    }
}

/* A section of `n` bytes whose lines have `width` bytes, but for a shorter last one. */
static void fill_section(char *section, size_t n, size_t width)
{
    size_t at;

    memset(section, 'x', n);
    for (at = 0; at < n; at += width + 2) {
        size_t end = n - at < width + 2 ? n : at + width + 2;

        memcpy(section + end - 2, "\r\n", 2);
    }
}

static void check_sections(void)
{
    static char section[32769];
    static const char line[] = "MAIL FROM:<>\r\n";

    fill_section(section, 1000, 998);
    expect_tag("a line of 998", line, strlen(line), 0, section, 1000, 0, NONE, "");
    fill_section(section, 1001, 999);
    expect_tag("a line of 999", line, strlen(line), 0, section, 1001, 9, 0, "");
    fill_section(section, 32768, 62);
    expect_tag("32,768 bytes", line, strlen(line), 0, section, 32768, 0, NONE, "");
    fill_section(section, 32769, 61);
    expect_tag("32,769 bytes", line, strlen(line), 0, section, 32769, 9, 0, "");
}

struct write_case {
    const char *path;
    int require_tls;
    size_t room;
    int status;
    const char *line;
};

static const struct write_case write_cases[] = {
    {"roger@example.org", 1, 523, 0, "MAIL FROM:<roger@example.org> REQUIRETLS\r\n"},
    {"roger@example.org", 0, 600, 0, "MAIL FROM:<roger@example.org>\r\n"},
    {"", 0, 523, 0, "MAIL FROM:<>\r\n"},
    {"", 1, 600, 0, "MAIL FROM:<> REQUIRETLS\r\n"},
    {"a@b", -1, 600, 0, "MAIL FROM:<a@b> REQUIRETLS\r\n"},
    {"a@b", 512, 600, 0, "MAIL FROM:<a@b> REQUIRETLS\r\n"},
    {"a", 0, 600, 8, ""},
    {"a@b>", 1, 600, 8, ""},
    {"a b@c", 0, 600, 8, ""},
    {"a@b\r\nDATA", 0, 600, 8, ""},
    {"a@b", 0, 522, 10, ""},
    {"a@b", 1, 0, 10, ""},
    {"a", 0, 522, 8, ""},
};

static void expect_written(const char *what, const char *path, size_t path_len, int require_tls, size_t room, int status,
                           const char *line, size_t line_len)
{
    uint8_t buffer[600];
    uint8_t before[600];
    size_t len = 4711;
    int answer;

    memset(buffer, 0xa5, sizeof buffer);
    memset(before, 0xa5, sizeof before);
    answer = balgwir_write_mail_line(bytes(path), path_len, require_tls, room == 0 ? NULL : buffer, room, &len);
    check(answer == status, what, "answer of writing");
    if (status != BALGWIR_OK) {
        check(len == 4711 && memcmp(buffer, before, sizeof buffer) == 0, what, "buffer and length stay");
        return;
    }
    check(len == line_len && memcmp(buffer, line, line_len) == 0, what, "line");
    check(memcmp(buffer + line_len, before, sizeof buffer - line_len) == 0, what, "what lies behind the line stays");
    expect_tag(what, (const char *)buffer, len, 1, "", 0, 0, require_tls ? REQUIRED : NONE, path_len == 0 ? "" : path);
}

static void check_written(void)
{
    /* the longest path: 64 bytes, an at sign, and labels of 63, 63, 63 and 61 with the dots between them */
    char path[319];
    char line[344];
    size_t i;

    for (i = 0; i < sizeof write_cases / sizeof write_cases[0]; i++) {
        const struct write_case *c = &write_cases[i];

        expect_written(c->path, c->path, strlen(c->path), c->require_tls, c->room, c->status, c->line, strlen(c->line));
    }
    expect_written("null path of length 0", NULL, 0, 0, 523, 0, "MAIL FROM:<>\r\n", 14);
    memset(path, 'x', sizeof path);
    path[64] = '@';
    path[64 + 64] = path[64 + 128] = path[64 + 192] = '.';
    path[318] = '\0';
    snprintf(line, sizeof line, "MAIL FROM:<%s> REQUIRETLS\r\n", path);
    expect_written("a path of 318", path, 318, 1, 523, 0, line, 343);
    path[318] = 'x';
    expect_written("a path of 319", path, 319, 1, 523, 8, "", 0);
}

struct reply_case {
    const char *reply;
    int code;
    const char *word;
    int listed;
};

static const struct reply_case reply_cases[] = {
    /* RFC 8689, appendix A.1, after the handshake */
    {"250-mail.example.net Hello example.org [192.0.2.1]\r\n250-SIZE 52428800\r\n250-8BITMIME\r\n250-PIPELINING\r\n"
     "250-REQUIRETLS\r\n250 HELP\r\n",
     250, "REQUIRETLS", 1},
    /* on the last line, on the first, with a parameter, in another letter case, another word */
    {"250-a\r\n250 REQUIRETLS\r\n", 250, "REQUIRETLS", 1},
    {"250-REQUIRETLS\r\n250 HELP\r\n", 250, "REQUIRETLS", 0},
    {"250-a\r\n250 REQUIRETLS 1\r\n", 250, "REQUIRETLS", 0},
    {"250-a\r\n250 RequireTls\r\n", 250, "requireTLS", 1},
    {"250-a\r\n250 REQUIRETLS\r\n", 250, "STARTTLS", 0},
    {"250-a\r\n250 REQUIRETLS\r\n", 250, "REQUIRE", 0},
    {"250-a\r\n250 SIZE 100\r\n", 250, "SIZE 100", 0},
    {"250-a\r\n250-STARTTLS\r\n250\r\n", 250, "STARTTLS", 1},
    /* digits alone, and the borders of the code */
    {"250\r\n", 250, "REQUIRETLS", 0},
    {"200 ok\r\n", 200, "ok", 0},
    {"559 no\r\n", 559, "no", 0},
    {"220 mx\r\n", 220, "mx", 0},
    /* malformed replies list nothing */
    {"", 0, "REQUIRETLS", 0},
    {"250-a\r\n250 REQUIRETLS", 0, "REQUIRETLS", 0},
    {"250-a\r\n250 REQUIRETLS\n", 0, "REQUIRETLS", 0},
    {"250-a\r\n250-REQUIRETLS\r\n", 0, "REQUIRETLS", 0},
    {"250-a\r\n251 REQUIRETLS\r\n", 0, "REQUIRETLS", 0},
    {"250-a\r\n250 REQUIRETLS\r\n250 b\r\n", 0, "REQUIRETLS", 0},
    {"250 a\r\nREQUIRETLS\r\n", 0, "REQUIRETLS", 0},
    {"199 a\r\n", 0, "a", 0},
    {"260 a\r\n", 0, "a", 0},
    {"600 a\r\n", 0, "a", 0},
};

static void check_replies(void)
{
    char reply[513];
    size_t i;

    for (i = 0; i < sizeof reply_cases / sizeof reply_cases[0]; i++) {
        const struct reply_case *c = &reply_cases[i];
        size_t n = strlen(c->reply);

        check(balgwir_reply_code(bytes(c->reply), n) == c->code, c->reply, "code");
        check(balgwir_reply_lists(bytes(c->reply), n, bytes(c->word), strlen(c->word)) == c->listed, c->reply, c->word);
    }
    long_line(reply, 512, "220 ", "\r\n");
    check(balgwir_reply_code(bytes(reply), 512) == 220, "a line of 512", "code");
    long_line(reply, 513, "220 ", "\r\n");
    check(balgwir_reply_code(bytes(reply), 513) == 0, "a line of 513", "code");
    check(balgwir_reply_code(NULL, 0) == 0, "null reply of length 0", "code");
    check(balgwir_reply_lists(bytes("250-a\r\n250 \r\n"), 13, NULL, 0) == 0, "null word of length 0", "lists");
}

int main(void)
{
    check_tags();
    check_lengths();
    check_sections();
    check_written();
    check_replies();
    printf("%d passed, %d failed\n", passed, failed);
    return failed == 0 ? 0 : 1;
}
