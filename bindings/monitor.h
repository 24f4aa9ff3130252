/*
 * Egshurmal: the monitor of a simulated MExE phone.
 *
 * `./run library` proves the library and writes it to
 * target/staticlib/libmonitor.a, for programs on x86-64:
 *
 *     cc -Ibindings simulator.c target/staticlib/libmonitor.a
 *
 * bindings/examples/lesson.c is such a program, and docs/EMBEDDING.md goes
 * through the first hour. bindings/monitor.rs has the same names for Rust.
 *
 * Every function answers for any bytes and any length, ends, and touches
 * nothing but the buffers that it is lent.
 *
 * What no function can test, and the caller owes: a pointer is not null, not
 * even with the length 0, and has that many bytes behind it; the buffers of
 * one call do not overlap; and nobody else writes them during the call.
 */
#ifndef EGSHURMAL_MONITOR_H
#define EGSHURMAL_MONITOR_H

#include <stddef.h>
#include <stdint.h>

#ifdef __cplusplus
extern "C" {
#endif

/* ---- sizes and limits */

/*
 * The largest image, an event, an answer of monitor_run, a line of monitor_why,
 * room for every line and for the longest sentence with the 0 at its end, the
 * largest timeline, a record of it and room for every event of
 * monitor_timeline, in bytes.
 */
#define MONITOR_IMAGE_MAX 2536
#define MONITOR_EVENT_SIZE 24
#define MONITOR_ANSWER_SIZE 6
#define MONITOR_LINE_SIZE 3
#define MONITOR_WHY_SIZE 192
#define MONITOR_SENTENCE_SIZE 56
#define MONITOR_TIMELINE_MAX 32008
#define MONITOR_TIMED_SIZE 32
#define MONITOR_EVENTS_SIZE 48000

/*
 * The header of an image, a certificate, a card, an executable, a row of the
 * table, and the header of a timeline, in bytes.
 */
#define MONITOR_HEADER_SIZE 40
#define MONITOR_CERTIFICATE_SIZE 24
#define MONITOR_CARD_SIZE 8
#define MONITOR_EXECUTABLE_SIZE 12
#define MONITOR_ROW_SIZE 4
#define MONITOR_TIMELINE_HEADER_SIZE 8

/*
 * The versions that the library reads, and the most that there can be: of an
 * image certificate slots, cards, executable slots and actions (of these at
 * least one); ids that a message lists; links of a chain, its root included;
 * lines of an explanation; records of a timeline, and events that it stands for.
 */
#define MONITOR_IMAGE_VERSION 1
#define MONITOR_TIMELINE_VERSION 1
#define MONITOR_CERTIFICATES_MAX 64
#define MONITOR_CARDS_MAX 8
#define MONITOR_EXECUTABLES_MAX 64
#define MONITOR_ACTIONS_MAX 32
#define MONITOR_LISTED_MAX 8
#define MONITOR_LINKS_MAX 4
#define MONITOR_LINES_MAX 64
#define MONITOR_TIMED_MAX 1000
#define MONITOR_EVENTS_MAX 2000

/* ---- answers */

/*
 * The parts of what monitor_open and monitor_step answer, a number with links
 * in its bits 0 to 7, domain in 8 to 15, code in 16 to 23, rule in 24 to 31
 * and offset in 32 to 47.
 */
#define MONITOR_CODE(answer) ((uint8_t)((answer) >> 16))
#define MONITOR_DOMAIN(answer) ((uint8_t)((answer) >> 8))
#define MONITOR_LINKS(answer) ((uint8_t)(answer))
#define MONITOR_RULE(answer) ((uint8_t)((answer) >> 24))
#define MONITOR_OFFSET(answer) ((uint16_t)((uint64_t)(answer) >> 32))

/* The parts of an answer of monitor_run: bytes points to the first of its six. */
#define MONITOR_RUN_CODE(bytes) ((bytes)[0])
#define MONITOR_RUN_DOMAIN(bytes) ((bytes)[1])
#define MONITOR_RUN_LINKS(bytes) ((bytes)[2])
#define MONITOR_RUN_RULE(bytes) ((bytes)[3])
#define MONITOR_RUN_OFFSET(bytes) ((uint16_t)((bytes)[4] * 256 + (bytes)[5]))

/*
 * The parts of what monitor_why answers: the number of lines in its bits 0 to
 * 15, and code, rule and offset by the macros above.
 */
#define MONITOR_LINES(answer) ((uint16_t)(answer))

/* The parts of a line of monitor_why: bytes points to the first of its three. */
#define MONITOR_LINE_SAID(bytes) ((bytes)[0])
#define MONITOR_LINE_ID(bytes) ((uint16_t)((bytes)[1] * 256 + (bytes)[2]))

/*
 * The parts of what monitor_timeline answers: the number of events in its bits
 * 0 to 15, and code, rule and offset by the macros above.
 */
#define MONITOR_EVENTS(answer) ((uint16_t)(answer))

/*
 * A field of two or of four bytes: bytes points to the first of them. All
 * numbers of an image, an event and a timeline are high byte first.
 */
#define MONITOR_GET16(bytes) ((uint16_t)((bytes)[0] * 256 + (bytes)[1]))
#define MONITOR_GET32(bytes) \
    ((uint32_t)MONITOR_GET16(bytes) * 65536 + MONITOR_GET16((bytes) + 2))

/* What an event is told: the lowest code that applies. */
enum monitor_code {
    MONITOR_CODE_DONE = 0,                 /* done, or granted */
    MONITOR_CODE_IMAGE = 1,                /* the image breaks a rule */
    MONITOR_CODE_MALFORMED = 2,            /* the event is not 24 bytes or breaks its form */
    MONITOR_CODE_UNKNOWN_ID = 3,           /* no record has an id that it names */
    MONITOR_CODE_NOT_ALLOWED = 4,          /* the actor may not, or is another owner */
    MONITOR_CODE_TIME_RUNS_BACK = 5,       /* the new time is below the clock */
    MONITOR_CODE_UNKNOWN_CARD = 6,         /* the card, or the place, is not in the table */
    MONITOR_CODE_CARD_OUT_OF_TURN = 7,     /* card in with one present, card out with none */
    MONITOR_CODE_CARD_ABSENT = 8,          /* the certificate is on a card that is not in */
    MONITOR_CODE_ID_TAKEN = 9,             /* install: another of the table has the id */
    MONITOR_CODE_KEY_OF_OTHER_DOMAIN = 10, /* a certificate of another domain has the key */
    MONITOR_CODE_OTHER_OPERATOR = 11,      /* the card is another operator's than the root */
    MONITOR_CODE_NO_SUCH_ROOT = 12,        /* it is no root, or no third party root for a message */
    MONITOR_CODE_ANOTHER_IS_VALID = 13,    /* mark valid, replace: while another root is valid */
    MONITOR_CODE_NO_FREE_SLOT = 14,        /* install: every slot is taken */
    MONITOR_CODE_NEVER_GRANTED = 15,       /* request: the table says never */
    MONITOR_CODE_NO_PERMISSION = 16,       /* request: the user has not permitted it */
    MONITOR_CODE_WRONG_RECOVERY = 17,      /* replace: the recovery record does not serve it */
    MONITOR_CODE_PAST_ITS_DATE = 18,       /* mark valid, replace: it expires before the clock */
    MONITOR_CODE_TIMELINE = 19             /* the timeline breaks its form */
};

/* The rules of an image, in the order in which they are asked. */
enum monitor_rule {
    MONITOR_RULE_HEADER = 1,       /* I1: the header, and the buffer's length */
    MONITOR_RULE_CERTIFICATES = 2, /* I2: the fields of each certificate */
    MONITOR_RULE_CARDS = 3,        /* I3: cards, the card present, places of certificates */
    MONITOR_RULE_KEYS = 4,         /* I4: ids, keys of one domain, owners of roots on cards */
    MONITOR_RULE_VALID_ROOTS = 5,  /* I5: how many roots are valid at a time */
    MONITOR_RULE_TABLE = 6,        /* I6: the bytes of the table */
    MONITOR_RULE_EXECUTABLES = 7,  /* I7: the fields of each executable */
    MONITOR_RULE_CHAINS = 8        /* I8: an executable with a domain chains to it */
};

/* What a line says of the certificate or the executable with its id. */
enum monitor_said {
    MONITOR_SAID_LINK = 1,      /* a certificate of the chain */
    MONITOR_SAID_UNSIGNED = 2,  /* an executable without a key */
    MONITOR_SAID_UNHELD = 3,    /* an executable whose key no certificate has */
    MONITOR_SAID_UNTRUSTED = 4, /* an executable in domain 0 despite a chain */
    /* a certificate that is not good, and why */
    MONITOR_SAID_RECOVERY = 10, /* it is a recovery key */
    MONITOR_SAID_ABSENT = 11,   /* it is on an absent card */
    MONITOR_SAID_INVALID = 12,  /* it is marked invalid */
    MONITOR_SAID_DISABLED = 13, /* it is disabled */
    MONITOR_SAID_PAST = 14,     /* it is past its date */
    MONITOR_SAID_UNSERVED = 15  /* it has no good signer within three links */
};

/* ---- what stands in a field */

/* The domain of a certificate, which is never 0, or of an executable. */
enum monitor_domain {
    MONITOR_DOMAIN_UNTRUSTED = 0,
    MONITOR_DOMAIN_OPERATOR = 1,
    MONITOR_DOMAIN_MANUFACTURER = 2,
    MONITOR_DOMAIN_THIRD_PARTY = 3
};

/* Who does an event. */
enum monitor_actor {
    MONITOR_ACTOR_DEVICE = 0,
    MONITOR_ACTOR_USER = 1,
    MONITOR_ACTOR_OPERATOR = 2,
    MONITOR_ACTOR_MANUFACTURER = 3,
    MONITOR_ACTOR_ADMINISTRATOR = 4
};

/*
 * The kind of an event. The fields that it has beside kind and actor, and who
 * may do it; every other field is 0:
 *
 *    1  key: the new time                                    device
 *    2  second: a card                                       device
 *    3                                                       device
 *    4  second: the card that is in, or 0                    device
 *    5  id, second: place, third: kind, fourth: domain,
 *       key, verifying, owner, expiry                        its actor (a)
 *    6  id, owner *                                          its actor (b)
 *    7  id, owner *                                          its actor (c)
 *    8  id, owner *                                          its actor (c)
 *    9  third: mode, fourth: how many ids are listed, ids    administrator
 *   10  id, key: the signing key, or 0                       all but the device
 *   11  id                                                   all but the device
 *   12  id                                                   device
 *   13  id, second: action                                   user
 *   14  id, second: action                                   user
 *   15  id, second: action                                   device
 *   16  id: a root, second: a recovery record, key,
 *       verifying: the recovery key, owner, expiry           its actor (d)
 *
 * "Its actor" is the operator for a certificate of the operator's domain, and
 * the manufacturer for one of the manufacturer's; for a third party one it is
 * (a) anybody but the device, (b) user or administrator, (c) the administrator,
 * (d) nobody, where either record is one.
 *
 * * An operator or a manufacturer says in owner who it is, and has to be the
 * certificate's owner; every other actor has 0 there.
 */
enum monitor_kind {
    MONITOR_KIND_CLOCK = 1,
    MONITOR_KIND_CARD_IN = 2,
    MONITOR_KIND_CARD_OUT = 3,
    MONITOR_KIND_POWER_UP = 4,
    MONITOR_KIND_INSTALL_CERTIFICATE = 5,
    MONITOR_KIND_DELETE_CERTIFICATE = 6,
    MONITOR_KIND_MARK_VALID = 7,
    MONITOR_KIND_MARK_INVALID = 8,
    MONITOR_KIND_MESSAGE = 9,
    MONITOR_KIND_INSTALL_EXECUTABLE = 10,
    MONITOR_KIND_DELETE_EXECUTABLE = 11,
    MONITOR_KIND_VERIFY = 12,
    MONITOR_KIND_GIVE = 13,
    MONITOR_KIND_WITHDRAW = 14,
    MONITOR_KIND_REQUEST = 15,
    MONITOR_KIND_REPLACE = 16
};

/* The kind of a certificate. */
enum monitor_certificate_kind {
    MONITOR_CERTIFICATE_KIND_ROOT = 0,
    MONITOR_CERTIFICATE_KIND_ISSUED = 1,
    MONITOR_CERTIFICATE_KIND_RECOVERY = 2
};

/* The mark of a certificate. */
enum monitor_mark {
    MONITOR_MARK_INVALID = 0,
    MONITOR_MARK_VALID = 1
};

/* Whether a certificate is enabled. */
enum monitor_enabled {
    MONITOR_DISABLED = 0,
    MONITOR_ENABLED = 1
};

/* The mode of a message, and the standing one of an image. */
enum monitor_mode {
    MONITOR_MODE_DISABLE_ALL = 0,
    MONITOR_MODE_ENABLE_ALL = 1,
    MONITOR_MODE_ENABLE_LISTED = 2
};

/* What a byte of the table lets an executable of its domain do. */
enum monitor_table {
    MONITOR_TABLE_NEVER = 0,
    MONITOR_TABLE_WITH_PERMISSION = 1,
    MONITOR_TABLE_FREELY = 2
};

/* ---- where a field stands, in bytes from the first of its record */

/*
 * The header of an image. Behind it stand certificates, cards, executables and
 * the table, in that order and with no gap.
 */
#define MONITOR_HEADER_VERSION 0           /* two bytes: 1 */
#define MONITOR_HEADER_CERTIFICATE_SLOTS 2 /* two: 0 to 64 */
#define MONITOR_HEADER_CARD_COUNT 4        /* two: 0 to 8 */
#define MONITOR_HEADER_EXECUTABLE_SLOTS 6  /* two: 0 to 64 */
#define MONITOR_HEADER_ACTION_COUNT 8      /* two: 1 to 32 */
#define MONITOR_HEADER_MODE 10             /* two: the standing mode */
#define MONITOR_HEADER_CARD 12             /* two: the card present, or 0 */
#define MONITOR_HEADER_BLANK 14            /* two: 0 */
#define MONITOR_HEADER_CLOCK 16            /* four: the time, in seconds */
#define MONITOR_HEADER_CERTIFICATES_AT 20  /* four: where the certificates start, 40 */
#define MONITOR_HEADER_CARDS_AT 24         /* four: where the cards start */
#define MONITOR_HEADER_EXECUTABLES_AT 28   /* four: where the executables start */
#define MONITOR_HEADER_TABLE_AT 32         /* four: where the table starts */
#define MONITOR_HEADER_TOTAL 36            /* four: the length of the image */

/* A certificate. A free slot is all 0. */
#define MONITOR_CERTIFICATE_ID 0         /* two bytes, not 0 */
#define MONITOR_CERTIFICATE_PLACE 2      /* two: 0 for the phone, or a card's number */
#define MONITOR_CERTIFICATE_KIND 4       /* one */
#define MONITOR_CERTIFICATE_DOMAIN 5     /* one: 1 to 3 */
#define MONITOR_CERTIFICATE_MARK 6       /* one */
#define MONITOR_CERTIFICATE_ENABLED 7    /* one */
#define MONITOR_CERTIFICATE_KEY 8        /* four, not 0 */
#define MONITOR_CERTIFICATE_VERIFYING 12 /* four: the key that verifies an issued one, else 0 */
#define MONITOR_CERTIFICATE_OWNER 16     /* four */
#define MONITOR_CERTIFICATE_EXPIRY 20    /* four: its last second */

/* A card that the phone knows. */
#define MONITOR_CARD_NUMBER 0   /* two bytes, not 0 */
#define MONITOR_CARD_BLANK 2    /* two: 0 */
#define MONITOR_CARD_OPERATOR 4 /* four */

/* An executable: an application. A free slot is all 0. */
#define MONITOR_EXECUTABLE_ID 0          /* two bytes, not 0 */
#define MONITOR_EXECUTABLE_DOMAIN 2      /* one: 0 to 3 */
#define MONITOR_EXECUTABLE_BLANK 3       /* one: 0 */
#define MONITOR_EXECUTABLE_SIGNING 4     /* four: the signing key, or 0 */
#define MONITOR_EXECUTABLE_PERMISSIONS 8 /* four: a bit an action, action 0 the lowest */

/* A row of the table, one for each action: a byte for each domain. */
#define MONITOR_ROW_UNTRUSTED 0
#define MONITOR_ROW_OPERATOR 1
#define MONITOR_ROW_MANUFACTURER 2
#define MONITOR_ROW_THIRD 3

/* An event. */
#define MONITOR_EVENT_KIND 0       /* one byte */
#define MONITOR_EVENT_ACTOR 1      /* one */
#define MONITOR_EVENT_ID 2         /* two */
#define MONITOR_EVENT_SECOND 4     /* two */
#define MONITOR_EVENT_THIRD 6      /* one */
#define MONITOR_EVENT_FOURTH 7     /* one */
#define MONITOR_EVENT_KEY 8        /* four */
#define MONITOR_EVENT_VERIFYING 12 /* four */
#define MONITOR_EVENT_OWNER 16     /* four */
#define MONITOR_EVENT_EXPIRY 20    /* four */
#define MONITOR_EVENT_LISTED 8     /* of a message: eight ids of two bytes, unused ones 0 */

/* The header of a timeline. Behind it stand its records. */
#define MONITOR_TIMELINE_HEADER_VERSION 0    /* two bytes: 1 */
#define MONITOR_TIMELINE_HEADER_COUNT 2      /* two: how many records, 0 to 1,000 */
#define MONITOR_TIMELINE_HEADER_RECORDS_AT 4 /* four: where they start, 8 */

/* A record of a timeline. */
#define MONITOR_TIMED_SECOND 0 /* four bytes: when it is done */
#define MONITOR_TIMED_BLANK 4  /* four: 0 */
#define MONITOR_TIMED_EVENT 8  /* an event that is no clock event */

/* ---- the functions */

/*
 * 0 where the bytes are an image that keeps every rule. Where they are not,
 * whatever is wrong with them (too short, too long, damaged): code 1, domain 0
 * and links 0, the first broken rule, 1 to 8, and an offset.
 *
 * For rule 1 the offset is the first byte of the first wrong field of the
 * header, or the length of a buffer shorter than 40 bytes. For rules 2 to 8 it
 * is the first byte of the lowest record that breaks the rule alone or together
 * with lower ones, or 12 where the card present is not in the table.
 *
 * Compare the whole number with 0: its lowest byte is 0 in either case.
 */
uint64_t monitor_open(const uint8_t *image, size_t image_length);

/*
 * One event on an image: the answer as a number (see the macros), and the image
 * after the event in its place. Code 1 where the image is not accepted, 2
 * where the event is not 24 bytes or breaks its form; every code but 0 leaves
 * the image byte for byte and has domain 0 and links 0. Rule and offset are 0
 * for every code but 1, where they are those of monitor_open.
 */
uint64_t monitor_step(uint8_t *image, size_t image_length,
                      const uint8_t *event, size_t event_length);

/*
 * The events of a buffer one after the other, as monitor_step would answer
 * them, on an image that is opened once. An answer is six bytes: code,
 * domain, links, rule, and the offset, high byte first. It stops where the
 * events end or the answers have no room for six bytes more, and returns the
 * number of events answered, so that a caller with little room goes on at 24
 * times that number. Bytes left over at the end of the events are one event,
 * with code 2; code 1 is every answer where the image is not accepted.
 */
size_t monitor_run(uint8_t *image, size_t image_length,
                   const uint8_t *events, size_t events_length,
                   uint8_t *answers, size_t answers_length);

/*
 * Why the executable with this id has its domain or has none: the answer as a
 * number (see the macros), and lines of three bytes: what is said, and an id,
 * high byte first. Code 0 has 1 to 64 lines, and the buffer gets as many as it
 * has room for: MONITOR_WHY_SIZE bytes have room for every line.
 *
 * Where the executable's key chains to a domain they are the certificates of a
 * shortest chain, root first, at each link from the signer up the lowest id
 * that serves, and behind them the executable where it is in domain 0 all the
 * same. Where it does not they are the certificates with that key, by id, each
 * with the first of its reasons, in the order of their numbers; or the
 * executable, where it has no key or no certificate has it.
 *
 * Code 1 where the image is not accepted: the number that monitor_open answers.
 * Code 3 where no executable has the id, and for the id 0. Every code but 0
 * has no lines and leaves the buffer byte for byte.
 */
uint64_t monitor_why(const uint8_t *image, size_t image_length, uint16_t id,
                     uint8_t *lines, size_t lines_length);

/*
 * The events of a timeline for an image: the answer as a number (see the
 * macros), and events of 24 bytes, those of the records in order, with a clock
 * event put in wherever the next second is above the clock. The buffer gets as
 * many whole events as it has room for: MONITOR_EVENTS_SIZE bytes have room for
 * every one. Running the timeline is monitor_run on them, with the same image.
 *
 * A timeline is a header, two bytes each of the version, 1, and of the number
 * of records, at most 1,000, and four of their offset, 8, and then exactly so
 * many records of 32 bytes: four bytes of the second, four that are zero, and
 * an event that is no clock event; all numbers high byte first. Seconds never
 * fall, and the first is not below the image's clock.
 *
 * Code 1 where the image is not accepted: the number that monitor_open answers.
 * Code 19 where the timeline breaks its form, wherever it does. Every code but
 * 0 has no events and leaves the buffer byte for byte.
 */
uint64_t monitor_timeline(const uint8_t *image, size_t image_length,
                          const uint8_t *timeline, size_t timeline_length,
                          uint8_t *events, size_t events_length);

/* ---- beside the library: functions that stand here whole, and are not proved */

/*
 * How long the image is that the bytes begin with, as its header tells: where
 * the bytes are fewer, the rest is still to be read. Where the header tells a
 * length that no image has, it is the header's own, and where the bytes are no
 * whole header, theirs: monitor_open tells what is wrong with them.
 */
static inline size_t monitor_image_length(const uint8_t *bytes, size_t length)
{
    if (length < MONITOR_HEADER_SIZE)
        return length;
    size_t total = MONITOR_GET32(bytes + MONITOR_HEADER_TOTAL);
    int is_length = total >= MONITOR_HEADER_SIZE && total <= MONITOR_IMAGE_MAX;
    return is_length ? total : MONITOR_HEADER_SIZE;
}

/*
 * The words for what a line says: # stands for its id, ^ for the id of the line
 * above it, and ? for the number of what is said, where that has no words.
 */
static inline const char *monitor_said_words(uint8_t said, int is_first)
{
    switch (said) {
    case MONITOR_SAID_LINK:
        return is_first ? "certificate # is a trusted root"
                        : "certificate # is verified by certificate ^";
    case MONITOR_SAID_UNSIGNED:
        return "application # is unsigned";
    case MONITOR_SAID_UNHELD:
        return "no certificate has the key of application #";
    case MONITOR_SAID_UNTRUSTED:
        return "application # is untrusted until it is verified";
    case MONITOR_SAID_RECOVERY:
        return "certificate # is a recovery key";
    case MONITOR_SAID_ABSENT:
        return "certificate # is on an absent card";
    case MONITOR_SAID_INVALID:
        return "certificate # is marked invalid";
    case MONITOR_SAID_DISABLED:
        return "certificate # is disabled";
    case MONITOR_SAID_PAST:
        return "certificate # is past its date";
    case MONITOR_SAID_UNSERVED:
        return "certificate # has no good signer within three links";
    default:
        return "? is said of #";
    }
}

/* A number put at a place, by hand since not every program has stdio.h: the place behind it. */
static inline char *monitor_put_number(char *at, unsigned number)
{
    if (number > 9)
        at = monitor_put_number(at, number / 10);
    *at = (char)('0' + number % 10);
    return at + 1;
}

/*
 * What a line of monitor_why says, in the words of the lessons and of the
 * program why: of the lines, the one with this number, from 0 on. It looks at
 * the line above, too, since a link of a chain is verified by that one; the
 * first is the root. The sentence is written with a 0 at its end to a buffer of
 * MONITOR_SENTENCE_SIZE bytes, and is what comes back.
 */
static inline const char *monitor_line_sentence(const uint8_t *lines, size_t number,
                                                char *sentence)
{
    const uint8_t *line = lines + number * MONITOR_LINE_SIZE;
    const char *words = monitor_said_words(MONITOR_LINE_SAID(line), number == 0);
    char *at = sentence;
    for (; *words != 0; words++) {
        if (*words == '#')
            at = monitor_put_number(at, MONITOR_LINE_ID(line));
        else if (*words == '^')
            at = monitor_put_number(at, MONITOR_LINE_ID(line - MONITOR_LINE_SIZE));
        else if (*words == '?')
            at = monitor_put_number(at, MONITOR_LINE_SAID(line));
        else
            *at++ = *words;
    }
    *at = 0;
    return sentence;
}

#ifdef __cplusplus
}
#endif

#endif
