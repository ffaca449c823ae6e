/*
 * balgwir.h: MAIL lines with their tags, and SMTP replies, for a receiving mail daemon in C or C++.
 *
 * Link crates/balgwir_c/out/libbalgwir_c.a, which `rt lib` in crates/balgwir_c builds. It needs no other library.
 *
 * Bytes. Each text is a pointer and a length in bytes. It needs no byte 0 at its end, and may hold one. The pointer may be null where the
 * length is 0; else it points to that many bytes, which the call may read until it returns. An `out` pointer is never null, and points
 * to an object of its type, aligned for that type. What a call writes to overlaps nothing else that is passed to it.
 *
 * Flags. 0 is no, and any other number is yes.
 *
 * State. The calls keep none, allocate nothing, call nothing outside the library, and keep no pointer once they return. Any number of
 * threads may call them at once, as long as no thread writes to what another's call was passed. Every call returns, whatever the bytes are.
 */
#ifndef BALGWIR_H
#define BALGWIR_H

#include <stddef.h>
#include <stdint.h>

#ifdef __cplusplus
extern "C" {
#endif

/* What a call answers: accepted, or why it is refused. Where several checks fail, the lowest number is given. */
enum balgwir_status {
    BALGWIR_OK = 0,                    /* accepted */
    BALGWIR_MAIL_LINE_TOO_LONG = 1,    /* a MAIL line above 523 bytes, its CRLF counted */
    BALGWIR_MAIL_LINE_FORM = 2,        /* a MAIL line that breaks its form */
    BALGWIR_UNKNOWN_OPTION = 3,        /* an option of a MAIL line, or its value, that is not known */
    BALGWIR_REPEATED_OPTION = 4,       /* one option of a MAIL line twice */
    BALGWIR_REQUIRETLS_IN_CLEAR = 5,   /* REQUIRETLS on a MAIL line that came without TLS */
    BALGWIR_REPEATED_TLS_REQUIRED = 6, /* two or more TLS-Required fields in a well-formed header section, without REQUIRETLS */
    BALGWIR_BAD_ADDRESS = 8,           /* a path that is ill-formed */
    BALGWIR_BAD_CONTENT = 9,           /* a header section that breaks its form */
    BALGWIR_SHORT_BUFFER = 10          /* a buffer under BALGWIR_MAIL_LINE_MAX bytes */
};

/* How a message's sender wants it carried. 0 is no tag, so that a struct of zeros does not pass for a message without one. */
enum balgwir_tag_number {
    BALGWIR_TAG_REQUIRED = 1, /* over TLS to hosts that meet the requirement, or not at all: the option REQUIRETLS */
    BALGWIR_TAG_NO = 2,       /* in the clear if need be: a TLS-Required field that says No */
    BALGWIR_TAG_NONE = 3      /* neither */
};

/* The most bytes of a MAIL line, its CRLF counted, and the least of a buffer to write one into. */
#define BALGWIR_MAIL_LINE_MAX 523

/* What a MAIL line and a header section say. */
struct balgwir_tagged_mail {
    size_t path_place; /* where the path lies in the line: its first byte is line[path_place] */
    size_t path_len;   /* how many bytes it has: 0 where the path is empty, as in `MAIL FROM:<>` */
    int tag;           /* BALGWIR_TAG_REQUIRED, BALGWIR_TAG_NO or BALGWIR_TAG_NONE */
};

/*
 * Reads a MAIL line and the header section of its message.
 *
 * line, line_len: `MAIL FROM:<path>`, options each after one blank, CRLF, in any letter case. A path is empty or an address: a
 *   dot-string of 1 to 64 bytes, an at sign, a host name. Options are REQUIRETLS, SIZE= with 1 to 20 digits, RET=FULL and RET=HDRS.
 * covered: whether the line came under TLS.
 * section, section_len: 0 to 32,768 bytes of 1 to 127, in lines of at most 998 and CRLF. The header is the lines before the first
 *   empty one, or all. What stands behind it is not looked at, but has to have that form too.
 * out: where what they say goes, if the call is accepted; else it stays as it was. It need not be initialised.
 *
 * The tag is BALGWIR_TAG_REQUIRED where the line has REQUIRETLS, whatever the header says. Else it is BALGWIR_TAG_NO where the header has a
 * TLS-Required field with the value No, in any letter case, behind white space or none, folded lines included; another value, or no such
 * field, is BALGWIR_TAG_NONE.
 *
 * Returns 0, 1, 2, 3, 4, 5, 6 or 9 (enum balgwir_status). The line's refusals come before the section's. If 0 is returned,
 * path_place + path_len <= line_len.
 */
int balgwir_tag(const uint8_t *line, size_t line_len, int covered, const uint8_t *section, size_t section_len,
                struct balgwir_tagged_mail *out);

/*
 * Writes `MAIL FROM:<path>`, then ` REQUIRETLS` or nothing, then CRLF to the front of a buffer.
 *
 * path, path_len: the path, empty or an address as above.
 * require_tls: whether the line has the option.
 * buffer, buffer_len: where the line goes: BALGWIR_MAIL_LINE_MAX bytes or more, however short the line. What lies behind the line stays, and
 *   all of it where the call is refused. It need not be initialised.
 * out_len: where the length of the line goes, if the call is accepted; else it stays as it was. It is at most BALGWIR_MAIL_LINE_MAX.
 *
 * Returns 0, 8 or 10 (enum balgwir_status).
 */
int balgwir_write_mail_line(const uint8_t *path, size_t path_len, int require_tls, uint8_t *buffer, size_t buffer_len,
                            size_t *out_len);

/*
 * The code of a reply: 200 to 559, or 0 where the reply is malformed.
 *
 * reply, reply_len: a whole reply: lines of at most 512 bytes with CRLF, each of the code's three digits, then a hyphen, or on the last
 *   line a blank, then text; the last line may be its digits alone. All lines have one code, and nothing follows the last.
 */
int balgwir_reply_code(const uint8_t *reply, size_t reply_len);

/*
 * Whether a reply lists a word: 1 where a line from the second on has it alone as its text, in any letter case, else 0. A word is
 * a letter or digit, then letters, digits and hyphens; anything else is listed nowhere. A malformed reply lists nothing, so that 1 always comes
 * from a well-formed one; balgwir_reply_code tells whether it is malformed.
 */
int balgwir_reply_lists(const uint8_t *reply, size_t reply_len, const uint8_t *word, size_t word_len);

#ifdef __cplusplus
}
#endif

#endif
