/* Lughemra for C: checks of BSON 1.1 documents and of MongoDB's OP_MSG, walks over both, and messages that come in pieces,
 * over bytes that the caller holds; building of documents and of messages in a room of the caller's; and, by a handle, the client's
 * end or the server's of a connection, and a pool of connections.
 *
 * Each function reads `length` bytes at `bytes`, and keeps nothing but what a handle holds. What it returns is proved, for all
 * bytes, from what the caller owes:
 *
 *   - `length` bytes can be read at `bytes`, at any alignment, and `length` is at most PTRDIFF_MAX; where it is 0, any pointer
 *     will do; a null pointer is an empty input, whatever the length, and an empty room;
 *   - so it is with each other pointer and its length; a room can be written, and as many structs as a room of them has places
 *     take at most PTRDIFF_MAX bytes;
 *   - no one else writes to them, or to a struct that is handed in, during the call;
 *   - a room, a struct, an element or a number that a function writes to overlaps nothing else that is handed in;
 *   - a pointer to a struct is null, or points to one, aligned as C has it.
 *
 * Nothing else is owed, but of a handle, which has a section of its own below: any content, any `limit` and any number in a struct
 * that is handed in have an answer. Calls may run at once in several threads, on each handle one at a time. An offset is counted
 * from `bytes`.
 *
 * The functions for documents take no memory, but for those that write texts or canonical forms. Those that check whole
 * messages take some in proportion to the number of names in a body, by malloc, realloc and free of the program, and give it
 * back before they return. If there is none, the answer is the same, but takes time in proportion to the square of the number
 * of names. Those that write texts take up to twice as much as the text, and three times for a moment as that grows;
 * lughemra_write_message takes as much as the message twice, and while it is checked what a check takes; each tells where
 * there is none. malloc, realloc and free must
 * come from one allocator. Don't call what takes memory from a signal handler, nor from the forked child of a process with
 * threads.
 *
 * A call took less than 44 KiB of the stack wherever it was measured. Documents that nest 200 deep take the most. */
#ifndef LUGHEMRA_H
#define LUGHEMRA_H

#include <stdbool.h>
#include <stddef.h>
#include <stdint.h>
#include <string.h>

#if SIZE_MAX != UINT64_MAX
#error "lughemra is built for a size_t of 64 bits"
#endif

#define LUGHEMRA_VERSION "0.1.0"
#define LUGHEMRA_VERSION_MAJOR 0
#define LUGHEMRA_VERSION_MINOR 1
#define LUGHEMRA_VERSION_PATCH 0

/* The greatest limit on a message's length. */
#define LUGHEMRA_MAX_LIMIT UINT32_C(48000000)

#ifdef __cplusplus
#ifdef __GNUC__
/* A function may have the name of a struct here, and a cast is one of C. */
#pragma GCC diagnostic push
#pragma GCC diagnostic ignored "-Wshadow"
#pragma GCC diagnostic ignored "-Wold-style-cast"
#endif
extern "C" {
#endif

/* ---- faults */

/* The first fault of some bytes: the first check that fails, in the order in which they are made. */
struct lughemra_fault {
    /* Its number, or 0 if there is no fault. */
    uint32_t number;
    /* Its offset, or 0 if there is no fault. */
    size_t offset;
};

/* The numbers of a document's faults.
 *
 * The checks are made in this order. First, where the bytes are to be one document and are four or more, whether its
 * length is that of all of them (LENGTH). Then the length of the document: four bytes of it (TRUNCATED), at least 5
 * (LENGTH), and no more than the bytes that are left (TRUNCATED); then its last byte (END); then its elements, one
 * after another. Of an element first the type byte (END for 00, KIND), then the name (TRUNCATED, NAME), then the value:
 * its own length before its content, a string's text before its last byte (TEXT, TEXT_END), a binary's length before
 * the inner count of subtype 02 (OLD_BINARY), a pattern before its options, the code before its scope (SCOPE where they
 * don't fill its length). A document, an array or a scope inside is checked whole, beginning with its depth (DEPTH), which
 * for a code with scope comes before its length, before the next element.
 *
 * The offset is that of the type byte of the innermost element at fault. But for the last byte of a document, an array or
 * a scope (END), and for the length of a document or an array that is below 5 (LENGTH), it is that of its first byte; and
 * where no element is at fault, that of the outer document. */
enum lughemra_document_fault {
    LUGHEMRA_TRUNCATED = 1,  /* an item reaches past its container, or a cstring has no 00 */
    LUGHEMRA_LENGTH = 2,     /* a length below its least value, or not that of all bytes in the check of one document */
    LUGHEMRA_END = 3,        /* the last byte of a container isn't 00, or a 00 stands before it as a type byte */
    LUGHEMRA_KIND = 4,       /* a type byte that stands for no kind */
    LUGHEMRA_NAME = 5,       /* a name, a pattern or options that isn't UTF-8 */
    LUGHEMRA_TEXT = 6,       /* the text of a string isn't UTF-8 */
    LUGHEMRA_TEXT_END = 7,   /* the last byte of a string isn't 00 */
    LUGHEMRA_BOOLEAN = 8,    /* a boolean byte that is neither 00 nor 01 */
    LUGHEMRA_OLD_BINARY = 9, /* a binary of subtype 02 whose inner count isn't that of the rest */
    LUGHEMRA_SCOPE = 10,     /* the parts of a code with scope don't fill its length */
    LUGHEMRA_DEPTH = 11      /* a container deeper than 200 */
};

/* The numbers of a message's faults.
 *
 * The checks are made in this order. First the header: messageLength, then opCode; then whether the bytes are as many
 * as messageLength (ENDED_INSIDE among messages back to back, LENGTH in the check of one message). Then the flags:
 * whether they are there, unknown bits, checksumPresent. Then the sections, one after another, each by its kind byte and
 * its content. Then whether there is a body, the names of the body, and the identifiers of the sequences.
 *
 * The offset is 0, 12 or 16 bytes into the message for faults of messageLength, of opCode and of the flags; that of the
 * kind byte for faults of a section and of names; that of the document for one that has a fault of its own; that behind
 * the message if it has no body; and that of the message if the bytes end inside it. */
enum lughemra_message_fault {
    /* a messageLength below 16 or above the limit, or, in the check of one message, not that of all bytes, or fewer bytes than
     * the 16 of a header */
    LUGHEMRA_MSG_LENGTH = 1,
    LUGHEMRA_MSG_OPCODE = 2,            /* an opCode that isn't 2013 */
    LUGHEMRA_MSG_FLAGS = 3,             /* an unknown bit is set among the flag bits 2 to 15 */
    LUGHEMRA_MSG_CHECKSUM = 4,          /* checksumPresent is set */
    LUGHEMRA_MSG_SECTION_KIND = 5,      /* a section's kind byte is neither 0 nor 1 */
    LUGHEMRA_MSG_SECTION_SIZE = 6,      /* a document sequence with no size, or with one below 5 or past the message */
    LUGHEMRA_MSG_DOCUMENT = 7,          /* the document at the offset has a fault of its own */
    LUGHEMRA_MSG_NO_BODY = 8,           /* no section is a body */
    LUGHEMRA_MSG_TWO_BODIES = 9,        /* a second section is a body */
    LUGHEMRA_MSG_REPEATED_FIELD = 10,   /* a top-level name of the body stands twice */
    LUGHEMRA_MSG_SEQUENCE_NAME = 11,    /* a sequence's identifier has no 00 in the section, or isn't UTF-8 */
    LUGHEMRA_MSG_SEQUENCE_IN_BODY = 12, /* a sequence's identifier is a top-level name of the body */
    LUGHEMRA_MSG_TRUNCATED = 13,        /* fewer than four bytes of flags */
    LUGHEMRA_MSG_ENDED_INSIDE = 14,     /* the bytes end inside the message that begins at the offset */
    LUGHEMRA_LIMIT_TOO_LARGE = 255      /* the limit is above LUGHEMRA_MAX_LIMIT: nothing was read */
};

/* Returns the name of a document's fault, as "Truncated", or "" if no such fault has this number. LUGHEMRA_TOO_LARGE,
 * LUGHEMRA_NO_MEMORY and LUGHEMRA_OUT_OF_RANGE have none here. */
static inline const char *lughemra_document_fault_name(uint32_t number)
{
    static const char *const names[] = {"",     "Truncated", "Length",  "End",       "Kind",  "Name",
                                        "Text", "TextEnd",   "Boolean", "OldBinary", "Scope", "Depth"};
    return number < sizeof names / sizeof names[0] ? names[number] : "";
}

/* Returns the name of a message's fault, as "Opcode", or "" if no such fault has this number. LUGHEMRA_TOO_LARGE and
 * LUGHEMRA_NO_MEMORY have none here. */
static inline const char *lughemra_message_fault_name(uint32_t number)
{
    static const char *const names[] = {
        "",       "Length",    "Opcode",        "Flags",        "Checksum",       "SectionKind", "SectionSize", "Document",
        "NoBody", "TwoBodies", "RepeatedField", "SequenceName", "SequenceInBody", "Truncated",   "EndedInside"};
    if (number == LUGHEMRA_LIMIT_TOO_LARGE)
        return "LimitTooLarge";
    return number < sizeof names / sizeof names[0] ? names[number] : "";
}

/* ---- results */

struct lughemra_documents_check {
    /* The number of documents that stand whole before the end of the bytes or before the first fault. */
    size_t documents;
    /* The number of bytes that these documents take: what stands behind them begins at this offset. */
    size_t bytes_read;
    /* The first fault, by an enum lughemra_document_fault. */
    struct lughemra_fault fault;
};

struct lughemra_documents_walk {
    /* The number of documents that stand whole before the end of the bytes or before the first fault. */
    size_t documents;
    /* The number of bytes that these documents take: what stands behind them begins at this offset. */
    size_t bytes_read;
    /* The number of elements in these documents, at all depths: those of a document, an array or a scope inside are
     * counted, and so is the element that holds it. */
    size_t elements;
    /* The number of bytes, at all depths, of all names, of the texts of strings, codes and symbols, of the namespaces of
     * DBPointers, of patterns and options, all without their last 00, and of the data of binaries, in subtype 02
     * without the inner count. */
    size_t sizes;
    /* The first fault, by an enum lughemra_document_fault. */
    struct lughemra_fault fault;
};

struct lughemra_message_check {
    /* The first fault, by an enum lughemra_message_fault. */
    struct lughemra_fault fault;
    /* If that is LUGHEMRA_MSG_DOCUMENT, the document's own fault, by an enum lughemra_document_fault. Its offset is
     * counted from the document's first byte, which stands at `fault.offset`. Else number 0 and offset 0. */
    struct lughemra_fault document_fault;
};

struct lughemra_messages_check {
    /* The number of messages that stand whole before the end of the bytes or before the first fault. */
    size_t messages;
    /* The number of bytes that these messages take. What stands behind them begins at this offset; after
     * LUGHEMRA_MSG_ENDED_INSIDE a caller can go on from there once it has more bytes. */
    size_t bytes_read;
    /* The first fault, by an enum lughemra_message_fault. */
    struct lughemra_fault fault;
    /* The document's own fault, as in struct lughemra_message_check. */
    struct lughemra_fault document_fault;
};

/* What stands in front of bytes that more may follow. */
enum lughemra_front_state {
    LUGHEMRA_FRONT_OPEN = 0,  /* more bytes are wanted */
    LUGHEMRA_FRONT_WHOLE = 1, /* a message */
    LUGHEMRA_FRONT_BAD = 2    /* bytes that no message begins with */
};

struct lughemra_message_front {
    /* An enum lughemra_front_state. */
    uint32_t state;
    /* If it is OPEN, how many bytes there have to be, from the first on, before more can be told: 16, or as many as the
     * header announces. If it is WHOLE, the length of the message. Else 0. */
    size_t length;
    /* If it is BAD, the first fault, by an enum lughemra_message_fault. */
    struct lughemra_fault fault;
    /* The document's own fault, as in struct lughemra_message_check. */
    struct lughemra_fault document_fault;
};

/* A part of the bytes: `length` of them from `offset` on. */
struct lughemra_view {
    size_t offset;
    size_t length;
};

/* Flags of a message, in flagBits. */
#define LUGHEMRA_MORE_TO_COME (UINT32_C(1) << 1)
#define LUGHEMRA_EXHAUST_ALLOWED (UINT32_C(1) << 16)

/* The numbers of a message. If there is a fault, they are 0. */
struct lughemra_message_parts {
    /* The first fault, by an enum lughemra_message_fault. */
    struct lughemra_fault fault;
    /* The document's own fault, as in struct lughemra_message_check. */
    struct lughemra_fault document_fault;
    /* requestID and responseTo. */
    int32_t id;
    int32_t response_to;
    /* flagBits. checksumPresent isn't among them: a message with a checksum is a fault. */
    uint32_t flag_bits;
    /* Bits 1 and 16 of flagBits. */
    bool more_to_come;
    bool exhaust_allowed;
    /* The offset of the first section. If there is a fault, it is past all bytes. */
    size_t sections;
};

enum lughemra_section_kind {
    LUGHEMRA_SECTIONS_END = 0,     /* behind the last section */
    LUGHEMRA_SECTION_BODY = 1,     /* the body */
    LUGHEMRA_SECTION_SEQUENCE = 2, /* a document sequence */
    LUGHEMRA_NO_SECTION = 255      /* no section stands there, or the offset is past the bytes */
};

/* A section of a message. */
struct lughemra_section {
    /* An enum lughemra_section_kind. */
    uint32_t kind;
    /* The identifier of a document sequence, in UTF-8, which a byte 00 follows. */
    struct lughemra_view identifier;
    /* The document of the body, or those of the sequence, one after another. */
    struct lughemra_view documents;
    /* The offset after the section, or its own if there is none. */
    size_t next;
};

/* The kinds of values: their type bytes. */
enum lughemra_kind {
    LUGHEMRA_NO_ELEMENT = 0x00, /* there is no element */
    LUGHEMRA_DOUBLE = 0x01,
    LUGHEMRA_STRING = 0x02,
    LUGHEMRA_DOCUMENT = 0x03,
    LUGHEMRA_ARRAY = 0x04,
    LUGHEMRA_BINARY = 0x05,
    LUGHEMRA_UNDEFINED = 0x06,
    LUGHEMRA_OBJECT_ID = 0x07,
    LUGHEMRA_BOOL = 0x08,
    LUGHEMRA_DATETIME = 0x09,
    LUGHEMRA_NULL = 0x0a,
    LUGHEMRA_REGEX = 0x0b,
    LUGHEMRA_DB_POINTER = 0x0c,
    LUGHEMRA_CODE = 0x0d,
    LUGHEMRA_SYMBOL = 0x0e,
    LUGHEMRA_CODE_WITH_SCOPE = 0x0f,
    LUGHEMRA_INT32 = 0x10,
    LUGHEMRA_TIMESTAMP = 0x11,
    LUGHEMRA_INT64 = 0x12,
    LUGHEMRA_DECIMAL128 = 0x13,
    LUGHEMRA_MAX_KEY = 0x7f,
    LUGHEMRA_MIN_KEY = 0xff
};

/* Where a walk stands in a document, an array or a scope. It may be copied, and a copy goes on by itself. */
struct lughemra_iter {
    /* The offset of the document's first byte. */
    size_t start;
    /* The offset of the next element. */
    size_t at;
    /* The offset of the document's last byte. */
    size_t end;
    /* The depth of the document: 1 for the outermost one. */
    uint32_t depth;
};

struct lughemra_first {
    /* The fault of the document's length or of its last byte, by an enum lughemra_document_fault. */
    struct lughemra_fault fault;
    /* The iterator at the first element. If there is a fault, it gives LUGHEMRA_OUT_OF_RANGE. */
    struct lughemra_iter iter;
};

/* An element: its name and its value, whose parts are views of the bytes. What a kind doesn't have is 0, or a view of length 0. */
struct lughemra_element {
    /* The element's first fault, by an enum lughemra_document_fault, or LUGHEMRA_OUT_OF_RANGE. */
    struct lughemra_fault fault;
    /* The kind, an enum lughemra_kind. It is LUGHEMRA_NO_ELEMENT behind the last element and where there is a fault. */
    uint32_t kind;
    /* The subtype of a binary. */
    uint32_t subtype;
    union {
        /* Of INT32, INT64, DATETIME (milliseconds since 1970) and BOOL (0 or 1). */
        int64_t integer;
        /* Of DOUBLE. */
        double real;
        struct {
            /* Of TIMESTAMP. */
            uint32_t increment;
            uint32_t seconds;
        } timestamp;
        uint64_t bits;
    } value;
    /* The name, in UTF-8. */
    struct lughemra_view name;
    /* In UTF-8: the text of STRING, CODE, SYMBOL and CODE_WITH_SCOPE, the namespace of DB_POINTER, the pattern of REGEX.
     * A byte 00 follows each, and a text or a namespace may have more of them inside, so it isn't a C string; a pattern has none.
     * The text of a STRING is UTF-8 where the document was checked. */
    struct lughemra_view text;
    /* The document of DOCUMENT, ARRAY and CODE_WITH_SCOPE; the data of BINARY, of subtype 02 without its inner count; the
     * 12 bytes of OBJECT_ID and of that in DB_POINTER; the 16 bytes of DECIMAL128 and the 8 of DOUBLE; the options of
     * REGEX, in UTF-8, which a byte 00 follows. */
    struct lughemra_view bytes;
};

/* The fault of an iterator whose offsets are out of range of the bytes: nothing was read. */
#define LUGHEMRA_OUT_OF_RANGE 255

/* What became of a text, or of a canonical form. */
struct lughemra_text {
    /* The document's first fault, by an enum lughemra_document_fault, or LUGHEMRA_NO_MEMORY, or LUGHEMRA_TOO_LARGE. Then nothing
     * is written. */
    struct lughemra_fault fault;
    /* The number of bytes of the text, whether it was written or not. If there is a fault, 0. */
    size_t length;
    /* Whether the text was written: it has as many bytes as the room, or fewer. Else nothing is written. */
    bool written;
};

/* The fault of a text or a message for which memory ran out; and that of a canonical form that would have more than
 * 2,147,483,647 bytes, or of a message that would have more than its limit. */
#define LUGHEMRA_NO_MEMORY 254
#define LUGHEMRA_TOO_LARGE 253

/* The numbers of a message that is written. */
struct lughemra_message_numbers {
    /* requestID and responseTo. */
    int32_t id;
    int32_t response_to;
    /* flagBits: LUGHEMRA_MORE_TO_COME and LUGHEMRA_EXHAUST_ALLOWED, or 0. */
    uint32_t flag_bits;
};

/* What became of a message. */
struct lughemra_written {
    /* Why there is no message, by an enum lughemra_message_fault: FLAGS at 16 where any other bit is set, DOCUMENT at 21 where the
     * body isn't one document, or else the first fault that a check of the message would tell; or LUGHEMRA_TOO_LARGE,
     * LUGHEMRA_NO_MEMORY or LUGHEMRA_LIMIT_TOO_LARGE. Then nothing is written. */
    struct lughemra_fault fault;
    /* The document's own fault, as in struct lughemra_message_check. */
    struct lughemra_fault document_fault;
    /* The number of bytes of the message, whether it was written or not. If there is a fault, 0. */
    size_t length;
    /* Whether the message was written: it has as many bytes as the room, or fewer. Else nothing is written. */
    bool written;
};

/* Where a document or an array stands that is built in the program's room. It may be copied; of two copies one goes on. */
struct lughemra_builder {
    /* The offset of its first byte. */
    size_t start;
    /* The offset after its last pair. */
    size_t end;
    /* The number of its pairs. */
    size_t count;
    /* Its depth: 1 for the outermost document. */
    uint32_t depth;
    /* LUGHEMRA_DOCUMENT or LUGHEMRA_ARRAY. */
    uint32_t kind;
};

/* The numbers of a value that is appended. What its kind doesn't have isn't looked at. */
struct lughemra_value {
    /* The kind, an enum lughemra_kind. */
    uint32_t kind;
    /* The subtype of a binary. */
    uint32_t subtype;
    /* The `value` of a struct lughemra_element. Of BOOL 0 is false, and anything else true. Of TIMESTAMP the upper 32 bits are
     * the seconds, and the lower 32 the increment: (uint64_t)seconds << 32 | increment, with an increment of type uint32_t. */
    uint64_t bits;
};

enum lughemra_refusal {
    LUGHEMRA_DONE = 0,
    LUGHEMRA_BAD_KIND = 1,    /* no such kind, or for lughemra_begin one that is neither DOCUMENT nor ARRAY */
    LUGHEMRA_BAD_NAME = 2,    /* the name isn't UTF-8, or has a 00 */
    LUGHEMRA_BAD_VALUE = 3,   /* no value of this kind, or one that holds a document */
    LUGHEMRA_TOO_DEEP = 4,    /* the container would be deeper than 200 */
    LUGHEMRA_NO_ROOM = 5      /* the room has fewer than `wanted` bytes */
                              /* LUGHEMRA_TOO_LARGE: the document, or the sequences, would have more than 2,147,483,647
                               * bytes */
                              /* LUGHEMRA_OUT_OF_RANGE: a pointer to a struct or to a number is null, the numbers of a
                               * builder are out of range, `inner` doesn't stand behind `outer` or isn't one deeper, as
                               * where it was ended before, *end is greater than the room's length, or an element's views
                               * are past the bytes, or these are null */
};

/* What became of a call that builds. Where it isn't done, nothing changed. */
struct lughemra_built {
    /* An enum lughemra_refusal, LUGHEMRA_TOO_LARGE or LUGHEMRA_OUT_OF_RANGE. */
    uint32_t refusal;
    /* How many bytes the room has to have for what was asked, and for the ends of all containers that are open. Where
     * lughemra_finish is done, the number of bytes of the document. Where it isn't done, and not for want of room, 0. */
    size_t wanted;
};

/* What the program holds of a core, which is in memory of its own between two calls. It begins with none: {NULL, false}. */
struct lughemra_core {
    /* Where it is. The program doesn't write to this field, nor read or write what it points to. */
    void *at;
    /* Whether there is one. The program doesn't write to this field. */
    bool there;
};

/* Why a call with a handle isn't made. Then nothing changed, unless lughemra_server_answer closed its server. The first three
 * and the sixth are the numbers that scripts have. */
enum lughemra_core_refusal {
    LUGHEMRA_CLOSED = 1,        /* the client, the server or the pool is closed */
    LUGHEMRA_WINDOW_FULL = 2,   /* as many calls await a reply as the window allows */
    /* the request, or a reply to it, would have more bytes than the limit; not LUGHEMRA_TOO_LARGE, which is 253 */
    LUGHEMRA_CALL_TOO_LARGE = 3,
    LUGHEMRA_BAD_CONTENT = 4,   /* the body and the sequences aren't those of a message, or the answers aren't bodies of messages */
                                /* LUGHEMRA_NO_ROOM, 5: the room is too short */
    LUGHEMRA_NUMBERS_SPENT = 6, /* the greatest call number was given */
    LUGHEMRA_NOT_READY = 7,     /* no reply is ready, or no such request waits */
    LUGHEMRA_TOO_MANY = 8,      /* fewer bytes wait than were sent */
    LUGHEMRA_IN_USE = 9,        /* the handle has a core */
    LUGHEMRA_BAD_COUNT = 10,    /* the request may not get as many answers, or none at all are given */
    LUGHEMRA_POOL_FULL = 11,    /* no connection is idle, and as many are lent as may, or no id is left */
    LUGHEMRA_NOT_LENT = 12,     /* no connection with this id is lent */
                                /* LUGHEMRA_NO_MEMORY, 254 */
    LUGHEMRA_NO_CORE = 255      /* the handle has no core, or one of another kind, or the pointer to it is null */
};

/* Why a client or a server isn't made, besides LUGHEMRA_IN_USE, LUGHEMRA_NO_MEMORY and LUGHEMRA_NO_CORE. */
enum lughemra_client_refusal {
    LUGHEMRA_BAD_FIRST_ID = 1, /* it isn't from 1 to 2,147,483,647 */
    LUGHEMRA_BAD_WINDOW = 2,   /* it isn't from 1 to 1,024 */
    LUGHEMRA_BAD_LIMIT = 3     /* it isn't from 26 to 48,000,000 */
};

/* Why a client was closed. */
enum lughemra_client_cause {
    LUGHEMRA_OPEN = 0,
    LUGHEMRA_CLOSED_BY_MESSAGE = 1,   /* the bytes begin no message */
    LUGHEMRA_UNKNOWN_REPLY = 2,       /* no call that awaits a reply bears its responseTo */
    LUGHEMRA_MORE_NOT_ALLOWED = 3,    /* a reply says that more will come, and its call doesn't allow it */
    LUGHEMRA_STREAM_BROKEN = 4,       /* a call has had a part, and a message answers neither its request nor that part */
    LUGHEMRA_CLOSED_BY_END = 5,       /* no more bytes come */
    LUGHEMRA_CLOSED_BY_END_INSIDE = 6 /* no more bytes come, and the last ones ended inside a message */
};

/* Why a server was closed, besides LUGHEMRA_CLOSED_BY_MESSAGE, _BY_END and _BY_END_INSIDE. It is LUGHEMRA_OPEN, too. */
enum lughemra_server_cause {
    LUGHEMRA_REPLY_TOO_LARGE = 7, /* a reply would have had more bytes than the limit */
    LUGHEMRA_REPLY_NO_MEMORY = 8  /* there was no memory for the replies to a request */
};

/* What became of a call. */
struct lughemra_call_made {
    /* An enum lughemra_core_refusal, or 0 if the call was made. */
    uint32_t refusal;
    /* The request's requestID, if the call was made, else 0. */
    int32_t id;
    /* The call's number among those of its client, counted from 0, if the call was made, else 0. */
    uint64_t number;
    /* If it is BAD_CONTENT, by an enum lughemra_message_fault: DOCUMENT at 21 where the body isn't one document, or else the
     * first fault that a message with it would have. */
    struct lughemra_fault fault;
    /* The document's own fault, as in struct lughemra_message_check. */
    struct lughemra_fault document_fault;
};

/* The bytes that wait to be sent. */
struct lughemra_output {
    /* 0, or LUGHEMRA_NO_CORE. */
    uint32_t refusal;
    /* How many of them were copied. */
    size_t copied;
    /* How many wait. */
    size_t waiting;
};

/* The reply that is ready. */
struct lughemra_reply {
    /* 0 if it was copied, else LUGHEMRA_NO_ROOM, NOT_READY, NO_MEMORY or NO_CORE. Then nothing changed. */
    uint32_t refusal;
    /* No other reply to that call comes. False where the reply neither was copied nor has no room. */
    bool last;
    /* The number of the call that it belongs to, or 0 where the reply neither was copied nor has no room. */
    uint64_t call;
    /* The number of its bytes, if it was copied or has no room, else 0. */
    size_t length;
};

/* How a client stands. */
struct lughemra_client {
    /* 0, or LUGHEMRA_NO_CORE. */
    uint32_t refusal;
    /* An enum lughemra_client_cause: 0 if it is open. */
    uint32_t cause;
    /* If it is UNKNOWN_REPLY, the responseTo, else 0. */
    int32_t id;
    /* A reply is ready. */
    bool ready;
    /* If it is CLOSED_BY_MESSAGE, the first fault, by an enum lughemra_message_fault. Its offset is counted from the first byte
     * of that message, whichever pieces it came in. */
    struct lughemra_fault fault;
    /* The document's own fault, as in struct lughemra_message_check. */
    struct lughemra_fault document_fault;
};

/* What became of a piece of bytes. */
struct lughemra_fed {
    /* 0, or LUGHEMRA_NO_MEMORY or LUGHEMRA_NO_CORE: then nothing changed, and the piece may be fed again. */
    uint32_t refusal;
    /* How many of its first bytes were taken. */
    size_t taken;
    /* How the client stands then. */
    struct lughemra_client state;
};

struct lughemra_count {
    /* 0, or LUGHEMRA_NO_CORE. */
    uint32_t refusal;
    /* The count, or 0. */
    size_t count;
};

/* How a server stands. */
struct lughemra_server {
    /* 0, or LUGHEMRA_NO_CORE. */
    uint32_t refusal;
    /* Why it was closed, by an enum lughemra_server_cause: 0 if it is open. */
    uint32_t cause;
    /* As many requests wait as the window allows. No bytes are taken then. */
    bool full;
    /* How many requests wait. */
    size_t waiting;
    /* If it is CLOSED_BY_MESSAGE, the first fault, by an enum lughemra_message_fault. Its offset is counted from the first byte
     * of that message, whichever pieces it came in. */
    struct lughemra_fault fault;
    /* The document's own fault, as in struct lughemra_message_check. */
    struct lughemra_fault document_fault;
};

/* What became of a piece of bytes that a server was fed. */
struct lughemra_server_fed {
    /* 0, or LUGHEMRA_NO_MEMORY or LUGHEMRA_NO_CORE: then nothing changed, and the piece may be fed again. */
    uint32_t refusal;
    /* How many of its first bytes were taken. */
    size_t taken;
    /* How the server stands then. */
    struct lughemra_server state;
};

/* A request that waits. */
struct lughemra_request {
    /* 0 if it was copied, else LUGHEMRA_NO_ROOM, NOT_READY, NO_MEMORY or NO_CORE. Then nothing changed. */
    uint32_t refusal;
    /* More than one answer may be given. False where the request neither was copied nor has no room. */
    bool takes_more;
    /* The number of its bytes, if it was copied or has no room, else 0. */
    size_t length;
};

/* What became of an answer. */
struct lughemra_answer_given {
    /* 0 if the request was answered, else LUGHEMRA_CLOSED, CALL_TOO_LARGE, BAD_CONTENT, NOT_READY, BAD_COUNT, NO_MEMORY or
     * NO_CORE. The server is closed where it is CALL_TOO_LARGE, and may be where it is NO_MEMORY; else nothing changed. */
    uint32_t refusal;
    /* If it is BAD_CONTENT, the fault, by an enum lughemra_message_fault, that a message would have whose body is the first of the
     * documents that is no answer, at that document's offset: DOCUMENT, REPEATED_FIELD, or LENGTH. */
    struct lughemra_fault fault;
    /* The document's own fault, as in struct lughemra_message_check. */
    struct lughemra_fault document_fault;
};

/* Why a pool isn't made, besides LUGHEMRA_IN_USE, LUGHEMRA_NO_MEMORY and LUGHEMRA_NO_CORE. */
enum lughemra_pool_refusal {
    LUGHEMRA_BAD_MAX = 4 /* the greatest number of connections isn't from 1 to 1,024 */
};

/* What became of a check out. */
struct lughemra_checked_out {
    /* 0 if a connection is lent, else LUGHEMRA_CLOSED, POOL_FULL or NO_CORE. Then nothing changed. */
    uint32_t refusal;
    /* The id is new: the program has to open the connection. Else it was idle, and is open. */
    bool is_new;
    /* The connection's id, or 0 if none is lent. */
    uint64_t id;
};

/* What became of a check in. */
struct lughemra_checked_in {
    /* 0 if the connection was lent, else LUGHEMRA_NOT_LENT or NO_CORE. Then nothing changed. */
    uint32_t refusal;
    /* The connection is idle now. Where it was lent and isn't kept, the pool has dropped it: the program has to close it. */
    bool kept;
};

/* ---- the functions of the library, to which no pointer may be null: use those below */

struct lughemra_fault lughemra_check_document_nonnull(const uint8_t *bytes, size_t length);
bool lughemra_is_canonical_nonnull(const uint8_t *bytes, size_t length);
struct lughemra_documents_check lughemra_check_documents_nonnull(const uint8_t *bytes, size_t length);
struct lughemra_documents_walk lughemra_walk_documents_nonnull(const uint8_t *bytes, size_t length);
struct lughemra_message_check lughemra_check_message_nonnull(const uint8_t *bytes, size_t length, uint32_t limit);
struct lughemra_messages_check lughemra_check_messages_nonnull(const uint8_t *bytes, size_t length, uint32_t limit);
struct lughemra_message_front lughemra_message_front_nonnull(const uint8_t *bytes, size_t length, uint32_t limit);
struct lughemra_message_parts lughemra_message_parts_nonnull(const uint8_t *bytes, size_t length, uint32_t limit);
struct lughemra_section lughemra_section_nonnull(const uint8_t *bytes, size_t length, size_t at);
void lughemra_next_document_nonnull(const uint8_t *bytes, size_t length, struct lughemra_view *left,
                                    struct lughemra_view *first);
struct lughemra_text lughemra_dump_nonnull(const uint8_t *bytes, size_t length, uint8_t *room, size_t room_length);
struct lughemra_text lughemra_json_nonnull(const uint8_t *bytes, size_t length, bool relaxed, uint8_t *room,
                                           size_t room_length);
struct lughemra_text lughemra_pickle_nonnull(const uint8_t *bytes, size_t length, uint8_t *room, size_t room_length);
struct lughemra_text lughemra_canonical_nonnull(const uint8_t *bytes, size_t length, uint8_t *room, size_t room_length);
struct lughemra_first lughemra_first_nonnull(const uint8_t *bytes, size_t length);
void lughemra_next_nonnull(const uint8_t *bytes, size_t length, struct lughemra_iter *iter,
                           struct lughemra_element *element);
size_t lughemra_next_elements_nonnull(const uint8_t *bytes, size_t length, struct lughemra_iter *iter,
                                      struct lughemra_element *room, size_t room_length);
void lughemra_find_nonnull(const uint8_t *bytes, size_t length, const uint8_t *name, size_t name_length,
                           struct lughemra_iter *iter, struct lughemra_element *element);
void lughemra_get_nonnull(const uint8_t *bytes, size_t length, const uint8_t *name, size_t name_length,
                          struct lughemra_element *element);
struct lughemra_iter lughemra_enter_nonnull(const struct lughemra_iter *iter, const struct lughemra_element *element);
struct lughemra_built lughemra_append_nonnull(uint8_t *room, size_t room_length, struct lughemra_builder *builder,
                                              const uint8_t *name, size_t name_length, const struct lughemra_value *value,
                                              const uint8_t *text, size_t text_length, const uint8_t *bytes, size_t length);
struct lughemra_built lughemra_begin_nonnull(uint8_t *room, size_t room_length, const struct lughemra_builder *outer,
                                             const uint8_t *name, size_t name_length, uint32_t kind,
                                             struct lughemra_builder *inner);
struct lughemra_built lughemra_end_nonnull(uint8_t *room, size_t room_length, struct lughemra_builder *outer,
                                           const struct lughemra_builder *inner);
struct lughemra_built lughemra_finish_nonnull(uint8_t *room, size_t room_length, const struct lughemra_builder *builder);
struct lughemra_built lughemra_append_sequence_nonnull(uint8_t *room, size_t room_length, size_t *end,
                                                       const uint8_t *identifier, size_t identifier_length,
                                                       const uint8_t *documents, size_t length);
struct lughemra_written lughemra_write_message_nonnull(const struct lughemra_message_numbers *numbers, const uint8_t *body,
                                                       size_t body_length, const uint8_t *sequences,
                                                       size_t sequences_length, uint32_t limit, uint8_t *room,
                                                       size_t room_length);

uint32_t lughemra_client_new_nonnull(struct lughemra_core *core, int32_t first_id, size_t window, uint32_t limit);
uint32_t lughemra_free_nonnull(struct lughemra_core *core);
struct lughemra_call_made lughemra_client_call_nonnull(struct lughemra_core *core, const uint8_t *body, size_t body_length,
                                                       const uint8_t *sequences, size_t sequences_length);
struct lughemra_call_made lughemra_client_call_exhaust_nonnull(struct lughemra_core *core, const uint8_t *body,
                                                               size_t body_length, const uint8_t *sequences,
                                                               size_t sequences_length);
struct lughemra_call_made lughemra_client_send_unacknowledged_nonnull(struct lughemra_core *core, const uint8_t *body,
                                                                      size_t body_length, const uint8_t *sequences,
                                                                      size_t sequences_length);
struct lughemra_output lughemra_client_output_nonnull(struct lughemra_core *core, uint8_t *room, size_t room_length);
uint32_t lughemra_client_sent_nonnull(struct lughemra_core *core, size_t n);
struct lughemra_fed lughemra_client_feed_nonnull(struct lughemra_core *core, const uint8_t *piece, size_t length);
struct lughemra_reply lughemra_client_reply_nonnull(struct lughemra_core *core, uint8_t *room, size_t room_length);
uint32_t lughemra_client_release_nonnull(struct lughemra_core *core);
uint32_t lughemra_client_end_nonnull(struct lughemra_core *core);
struct lughemra_client lughemra_client_state_nonnull(struct lughemra_core *core);
struct lughemra_count lughemra_client_outstanding_nonnull(struct lughemra_core *core);
uint32_t lughemra_server_new_nonnull(struct lughemra_core *core, size_t window, uint32_t limit);
struct lughemra_server_fed lughemra_server_feed_nonnull(struct lughemra_core *core, const uint8_t *piece, size_t length);
struct lughemra_request lughemra_server_request_nonnull(struct lughemra_core *core, size_t k, uint8_t *room, size_t room_length);
struct lughemra_answer_given lughemra_server_answer_nonnull(struct lughemra_core *core, size_t k, const uint8_t *documents,
                                                            size_t length);
struct lughemra_output lughemra_server_output_nonnull(struct lughemra_core *core, uint8_t *room, size_t room_length);
uint32_t lughemra_server_sent_nonnull(struct lughemra_core *core, size_t n);
uint32_t lughemra_server_end_nonnull(struct lughemra_core *core);
struct lughemra_server lughemra_server_state_nonnull(struct lughemra_core *core);

uint32_t lughemra_pool_new_nonnull(struct lughemra_core *core, size_t max);
struct lughemra_checked_out lughemra_pool_check_out_nonnull(struct lughemra_core *core);
struct lughemra_checked_in lughemra_pool_check_in_nonnull(struct lughemra_core *core, uint64_t id, bool healthy);
uint32_t lughemra_pool_clear_nonnull(struct lughemra_core *core);
uint32_t lughemra_pool_close_nonnull(struct lughemra_core *core);

/* Returns `bytes`, or if that is null the address of a byte, which is no one's to read. */
static inline const uint8_t *lughemra_nonnull(const uint8_t *bytes)
{
    static const uint8_t byte = 0;
    return bytes != NULL ? bytes : &byte;
}

/* Returns `room`, or if that is null the address of a byte, which is no one's to write. */
static inline uint8_t *lughemra_nonnull_room(uint8_t *room)
{
    static uint8_t byte;
    return room != NULL ? room : &byte;
}

/* Returns `length`, or 0 if `bytes` is null. */
static inline size_t lughemra_length(const uint8_t *bytes, size_t length)
{
    return bytes != NULL ? length : 0;
}

/* ---- documents */

/* Checks that the bytes are exactly one document. Returns the first fault, by an enum lughemra_document_fault. */
static inline struct lughemra_fault lughemra_check_document(const uint8_t *bytes, size_t length)
{
    return lughemra_check_document_nonnull(lughemra_nonnull(bytes), lughemra_length(bytes, length));
}

/* Returns true if the bytes are exactly one document, in canonical form: the names of each array in it are "0", "1" and
 * so on. */
static inline bool lughemra_is_canonical(const uint8_t *bytes, size_t length)
{
    return lughemra_is_canonical_nonnull(lughemra_nonnull(bytes), lughemra_length(bytes, length));
}

/* Checks the documents that stand back to back. */
static inline struct lughemra_documents_check lughemra_check_documents(const uint8_t *bytes, size_t length)
{
    return lughemra_check_documents_nonnull(lughemra_nonnull(bytes), lughemra_length(bytes, length));
}

/* Checks the documents that stand back to back, and counts all that stands in those before the first fault. */
static inline struct lughemra_documents_walk lughemra_walk_documents(const uint8_t *bytes, size_t length)
{
    return lughemra_walk_documents_nonnull(lughemra_nonnull(bytes), lughemra_length(bytes, length));
}

/* ---- messages, each of at most `limit` bytes */

/* Checks that the bytes are exactly one message. */
static inline struct lughemra_message_check lughemra_check_message(const uint8_t *bytes, size_t length, uint32_t limit)
{
    return lughemra_check_message_nonnull(lughemra_nonnull(bytes), lughemra_length(bytes, length), limit);
}

/* Checks the messages that stand back to back. */
static inline struct lughemra_messages_check lughemra_check_messages(const uint8_t *bytes, size_t length, uint32_t limit)
{
    return lughemra_check_messages_nonnull(lughemra_nonnull(bytes), lughemra_length(bytes, length), limit);
}

/* Tells what stands in front of the bytes: a message of at most `limit` bytes, a part of one, or a fault. A fault of the
 * header is told as soon as its 16 bytes are there, and any other once all announced bytes are. A reader that asks each
 * time the wanted bytes are there asks three times for a message. */
static inline struct lughemra_message_front lughemra_message_front(const uint8_t *bytes, size_t length, uint32_t limit)
{
    return lughemra_message_front_nonnull(lughemra_nonnull(bytes), lughemra_length(bytes, length), limit);
}

/* Checks that the bytes are exactly one message, as lughemra_check_message does, and returns its numbers. */
static inline struct lughemra_message_parts lughemra_message_parts(const uint8_t *bytes, size_t length, uint32_t limit)
{
    return lughemra_message_parts_nonnull(lughemra_nonnull(bytes), lughemra_length(bytes, length), limit);
}

/* Returns the section at an offset of a message: the body, or a document sequence. The first stands at `parts.sections`,
 * and the next one at `section.next`; of a message that was checked they come in order, and then LUGHEMRA_SECTIONS_END. Of
 * other bytes no document in it is checked, but for the length and the last byte of a body. Where no section stands, `next` is
 * `at`: a loop goes on only while the kind is LUGHEMRA_SECTION_BODY or LUGHEMRA_SECTION_SEQUENCE. */
static inline struct lughemra_section lughemra_section(const uint8_t *bytes, size_t length, size_t at)
{
    return lughemra_section_nonnull(lughemra_nonnull(bytes), lughemra_length(bytes, length), at);
}

/* Moves `left` behind the document at its front, and `first` to that document. Returns false if no document's length and
 * last byte stand there; then `left` stays as it is, and `first` is {0, 0}. At the end `left->length` is 0; where it isn't, what
 * stands there is no document, or `left` is past the bytes. The documents of a section come in order. All of the bytes are the
 * view {0, length}. If a pointer to a view is null, returns false and does nothing. */
static inline bool lughemra_next_document(const uint8_t *bytes, size_t length, struct lughemra_view *left,
                                          struct lughemra_view *first)
{
    if (left == NULL || first == NULL)
        return false;
    lughemra_next_document_nonnull(lughemra_nonnull(bytes), lughemra_length(bytes, length), left, first);
    return first->length != 0;
}

/* ---- walks: each element is checked as it is read, so that the bytes needn't be checked before. But the text of a string
 * needn't be tested for UTF-8, and then its view has its bytes, whatever they are: who wants UTF-8 of bytes that weren't
 * checked checks the document first. */

/* Begins a walk over the document that the bytes are. Checks its length and its last byte, but none of its elements. */
static inline struct lughemra_first lughemra_first(const uint8_t *bytes, size_t length)
{
    return lughemra_first_nonnull(lughemra_nonnull(bytes), lughemra_length(bytes, length));
}

/* Reads the next element, and moves the iterator behind it. Returns false behind the last element and at a fault, which
 * is in `element->fault`; the iterator then stays where it is. The bytes are those that the walk began with. If a pointer
 * to a struct is null, returns false and does nothing. */
static inline bool lughemra_next(const uint8_t *bytes, size_t length, struct lughemra_iter *iter,
                                 struct lughemra_element *element)
{
    if (iter == NULL || element == NULL)
        return false;
    lughemra_next_nonnull(lughemra_nonnull(bytes), lughemra_length(bytes, length), iter, element);
    return element->kind != LUGHEMRA_NO_ELEMENT;
}

/* Reads the next elements into the room, of `room_length` elements, as so many calls of lughemra_next do, and moves the iterator
 * behind them. Returns how many there are. If they are fewer than `room_length`, the place behind them is what the last call
 * gives: LUGHEMRA_NO_ELEMENT, and the fault if there is one. If a pointer to a struct is null, returns 0 and does nothing. */
static inline size_t lughemra_next_elements(const uint8_t *bytes, size_t length, struct lughemra_iter *iter,
                                            struct lughemra_element *room, size_t room_length)
{
    if (iter == NULL || room == NULL)
        return 0;
    return lughemra_next_elements_nonnull(lughemra_nonnull(bytes), lughemra_length(bytes, length), iter, room, room_length);
}

/* Returns an iterator over the document, array or scope that the element holds, which `iter` read. If it holds none, or
 * a pointer is null, what is returned gives LUGHEMRA_OUT_OF_RANGE. */
static inline struct lughemra_iter lughemra_enter(const struct lughemra_iter *iter, const struct lughemra_element *element)
{
    static const struct lughemra_iter none = {0, 1, 0, 0};
    return iter != NULL && element != NULL ? lughemra_enter_nonnull(iter, element) : none;
}

/* Goes on to the next element with this name, of `name_length` bytes, without a 00 at its end, and moves the iterator behind it.
 * Returns false if there is none, and the iterator then stands behind the last element: another name is looked for with a copy
 * that was made before. Returns false, too, where a fault comes before it; the iterator then stands at the element that has the
 * fault. Where it returns false, element->fault has the fault, or the number 0 if there is no such element. If a pointer to a
 * struct is null, returns false and does nothing. A null name is the empty one. */
static inline bool lughemra_find(const uint8_t *bytes, size_t length, const char *name, size_t name_length,
                                 struct lughemra_iter *iter, struct lughemra_element *element)
{
    const uint8_t *sought = (const uint8_t *)name;
    if (iter == NULL || element == NULL)
        return false;
    lughemra_find_nonnull(lughemra_nonnull(bytes), lughemra_length(bytes, length), lughemra_nonnull(sought),
                          lughemra_length(sought, name_length), iter, element);
    return element->kind != LUGHEMRA_NO_ELEMENT;
}

/* Reads the first element with this name, of `name_length` bytes, without a 00 at its end, of the document that the bytes are:
 * what lughemra_first and lughemra_find do. Returns false if there is none, or a fault comes before it, as lughemra_find does. */
static inline bool lughemra_get(const uint8_t *bytes, size_t length, const char *name, size_t name_length,
                                struct lughemra_element *element)
{
    const uint8_t *sought = (const uint8_t *)name;
    if (element == NULL)
        return false;
    lughemra_get_nonnull(lughemra_nonnull(bytes), lughemra_length(bytes, length), lughemra_nonnull(sought),
                         lughemra_length(sought, name_length), element);
    return element->kind != LUGHEMRA_NO_ELEMENT;
}

/* ---- texts, which take memory for the text while they run */

/* Writes the text of the document that the bytes are to the front of the room, of `room_length` bytes: a line with its size,
 * and one for each element, at all depths, as `bsonwire dump` writes it. The text has no 00 at its end. If it has no
 * room, nothing is written, and its length is told; a null pointer is no room. */
static inline struct lughemra_text lughemra_dump(const uint8_t *bytes, size_t length, uint8_t *room, size_t room_length)
{
    return lughemra_dump_nonnull(lughemra_nonnull(bytes), lughemra_length(bytes, length), lughemra_nonnull_room(room),
                                 lughemra_length(room, room_length));
}

/* The same, as MongoDB Extended JSON v2: one object, with no white space. It is canonical, or relaxed: then an INT32, an INT64
 * and a finite DOUBLE are JSON numbers, a DECIMAL128 isn't, and dates from 1970 to 9999 are ISO-8601. */
static inline struct lughemra_text lughemra_json(const uint8_t *bytes, size_t length, bool relaxed, uint8_t *room,
                                                 size_t room_length)
{
    return lughemra_json_nonnull(lughemra_nonnull(bytes), lughemra_length(bytes, length), relaxed,
                                 lughemra_nonnull_room(room), lughemra_length(room, room_length));
}

/* The same, as a pickle of protocol 4, from which Python's `pickle.loads` makes a tuple: the document as a dict, whose arrays are
 * lists; a list of the dicts of all documents and scopes inside; and the number of the names in all dicts. Of elements with one name a
 * dict keeps the last, so where the dicts have fewer names than that, one stands twice. These kinds are what a function returns,
 * which a program registers by `copyreg.add_extension` under the sum of 0x4C554700 and the kind, and without which `pickle.loads`
 * raises ValueError: BINARY of another subtype than 0 (subtype, data), OBJECT_ID and DECIMAL128 (data), DATETIME (milliseconds), REGEX
 * (pattern, options), DB_POINTER (namespace, data), CODE and SYMBOL (text), CODE_WITH_SCOPE (text, dict), TIMESTAMP (seconds,
 * increment), and UNDEFINED, MIN_KEY and MAX_KEY, of nothing. */
static inline struct lughemra_text lughemra_pickle(const uint8_t *bytes, size_t length, uint8_t *room, size_t room_length)
{
    return lughemra_pickle_nonnull(lughemra_nonnull(bytes), lughemra_length(bytes, length), lughemra_nonnull_room(room),
                                   lughemra_length(room, room_length));
}

/* Writes the document in canonical form, in which each array has the names "0", "1" and so on, in the same way. It can be longer
 * than the document, where an array's names were shorter. */
static inline struct lughemra_text lughemra_canonical(const uint8_t *bytes, size_t length, uint8_t *room, size_t room_length)
{
    return lughemra_canonical_nonnull(lughemra_nonnull(bytes), lughemra_length(bytes, length), lughemra_nonnull_room(room),
                                      lughemra_length(room, room_length));
}

/* ---- building: a document is put together in a room of the program's, from its front on, and takes no memory. The struct
 * says where it stands, so that a room that is too short may be moved to a longer one, and the call made again. The room
 * overlaps nothing else that is handed in. A call that isn't done leaves its pair out, and lughemra_end and lughemra_finish don't
 * tell that: look at each refusal. */

/* Returns the builder of a document at the front of a room, with no pairs. */
struct lughemra_builder lughemra_build(void);

/* Returns what is told where a pointer is null. */
static inline struct lughemra_built lughemra_not_built(void)
{
    static const struct lughemra_built none = {LUGHEMRA_OUT_OF_RANGE, 0};
    return none;
}

/* Appends a pair of this name, of `name_length` bytes, to what the builder builds. The text is that of STRING, CODE and SYMBOL,
 * the namespace of DB_POINTER or the pattern of REGEX; the bytes are the data of BINARY, of subtype 02 without its inner
 * count, the 12 or 16 bytes of OBJECT_ID, of that in DB_POINTER and of DECIMAL128, or the options of REGEX. Lengths don't count a
 * 00 at the end: in a STRING, a CODE, a SYMBOL or a namespace it would be a part of the text. In an array the name is the index,
 * and the given one isn't looked at. A name may be there already. */
static inline struct lughemra_built lughemra_append(uint8_t *room, size_t room_length, struct lughemra_builder *builder,
                                                    const char *name, size_t name_length, struct lughemra_value value,
                                                    const char *text, size_t text_length, const uint8_t *bytes,
                                                    size_t length)
{
    const uint8_t *named = (const uint8_t *)name, *words = (const uint8_t *)text;
    if (builder == NULL)
        return lughemra_not_built();
    return lughemra_append_nonnull(lughemra_nonnull_room(room), lughemra_length(room, room_length), builder,
                                   lughemra_nonnull(named), lughemra_length(named, name_length), &value,
                                   lughemra_nonnull(words), lughemra_length(words, text_length), lughemra_nonnull(bytes),
                                   lughemra_length(bytes, length));
}

/* Appends a value that is a number alone: of BOOL, DATETIME, INT32, INT64, NULL, UNDEFINED, MIN_KEY or MAX_KEY. That the kind
 * is one of these isn't checked: of a DOUBLE or a TIMESTAMP the number would be the bits, and a STRING would be empty. An INT32
 * that has no room in 32 bits is LUGHEMRA_BAD_VALUE. */
static inline struct lughemra_built lughemra_append_integer(uint8_t *room, size_t room_length,
                                                            struct lughemra_builder *builder, const char *name,
                                                            size_t name_length, uint32_t kind, int64_t integer)
{
    struct lughemra_value value = {kind, 0, (uint64_t)integer};
    return lughemra_append(room, room_length, builder, name, name_length, value, NULL, 0, NULL, 0);
}

/* Appends a DOUBLE. */
static inline struct lughemra_built lughemra_append_double(uint8_t *room, size_t room_length,
                                                           struct lughemra_builder *builder, const char *name,
                                                           size_t name_length, double real)
{
    struct lughemra_value value = {LUGHEMRA_DOUBLE, 0, 0};
    memcpy(&value.bits, &real, sizeof value.bits);
    return lughemra_append(room, room_length, builder, name, name_length, value, NULL, 0, NULL, 0);
}

/* Appends a text: a STRING, a CODE or a SYMBOL. That the kind is one of these isn't checked: of another one what isn't given
 * here would be 0 or empty. */
static inline struct lughemra_built lughemra_append_text(uint8_t *room, size_t room_length,
                                                         struct lughemra_builder *builder, const char *name,
                                                         size_t name_length, uint32_t kind, const char *text,
                                                         size_t text_length)
{
    struct lughemra_value value = {kind, 0, 0};
    return lughemra_append(room, room_length, builder, name, name_length, value, text, text_length, NULL, 0);
}

/* Appends a BINARY of this subtype, an OBJECT_ID or a DECIMAL128. That the kind is one of these isn't checked: of another one
 * what isn't given here would be 0 or empty. */
static inline struct lughemra_built lughemra_append_bytes(uint8_t *room, size_t room_length,
                                                          struct lughemra_builder *builder, const char *name,
                                                          size_t name_length, uint32_t kind, uint32_t subtype,
                                                          const uint8_t *bytes, size_t length)
{
    struct lughemra_value value = {kind, subtype, 0};
    return lughemra_append(room, room_length, builder, name, name_length, value, NULL, 0, bytes, length);
}

/* Appends an element that was read from these bytes, but for one that holds a document: a document or an array is opened by
 * lughemra_begin, and its elements are appended; a CODE_WITH_SCOPE can't be built. */
static inline struct lughemra_built lughemra_append_element(uint8_t *room, size_t room_length,
                                                            struct lughemra_builder *builder, const uint8_t *bytes,
                                                            size_t length, const struct lughemra_element *element)
{
    struct lughemra_value value;
    if (bytes == NULL || element == NULL || element->name.offset > length || element->text.offset > length ||
        element->bytes.offset > length || element->name.length > length - element->name.offset ||
        element->text.length > length - element->text.offset || element->bytes.length > length - element->bytes.offset)
        return lughemra_not_built();
    value.kind = element->kind;
    value.subtype = element->subtype;
    value.bits = element->value.bits;
    return lughemra_append(room, room_length, builder, (const char *)bytes + element->name.offset, element->name.length,
                           value, (const char *)bytes + element->text.offset, element->text.length,
                           bytes + element->bytes.offset, element->bytes.length);
}

/* Opens a document or an array, LUGHEMRA_DOCUMENT or LUGHEMRA_ARRAY, as the value of the next pair of `outer`, and makes `inner`
 * its builder. Until lughemra_end, only `inner` is appended to, and nothing else is opened in `outer`: that isn't always refused,
 * and the bytes may be no document then. Where it isn't done, `inner` isn't set, and isn't to be used. */
static inline struct lughemra_built lughemra_begin(uint8_t *room, size_t room_length, const struct lughemra_builder *outer,
                                                   const char *name, size_t name_length, uint32_t kind,
                                                   struct lughemra_builder *inner)
{
    const uint8_t *named = (const uint8_t *)name;
    if (outer == NULL || inner == NULL)
        return lughemra_not_built();
    return lughemra_begin_nonnull(lughemra_nonnull_room(room), lughemra_length(room, room_length), outer,
                                  lughemra_nonnull(named), lughemra_length(named, name_length), kind, inner);
}

/* Ends the document or the array `inner`, which is a pair of `outer` then. */
static inline struct lughemra_built lughemra_end(uint8_t *room, size_t room_length, struct lughemra_builder *outer,
                                                 const struct lughemra_builder *inner)
{
    if (outer == NULL || inner == NULL)
        return lughemra_not_built();
    return lughemra_end_nonnull(lughemra_nonnull_room(room), lughemra_length(room, room_length), outer, inner);
}

/* Ends the outermost document: the first `wanted` bytes of the room are it. The builder of one inside isn't refused, and the bytes
 * are no document then; what is still open inside is left out, and isn't to be ended any more: that isn't refused, and the bytes
 * are no document then. It doesn't change the builder: more may be appended, and it ended again. */
static inline struct lughemra_built lughemra_finish(uint8_t *room, size_t room_length,
                                                    const struct lughemra_builder *builder)
{
    if (builder == NULL)
        return lughemra_not_built();
    return lughemra_finish_nonnull(lughemra_nonnull_room(room), lughemra_length(room, room_length), builder);
}

/* ---- messages of the program's own */

/* Appends a document sequence to those in the first `*end` bytes of the room, and moves `*end` behind it; 0 is where the first
 * one goes. The documents stand one behind the other; lughemra_write_message checks them. The identifier, of
 * `identifier_length` bytes, is UTF-8 without a 00, else LUGHEMRA_BAD_NAME. Where *end is greater than the room's length, as with
 * a null room behind the first sequence, it is LUGHEMRA_OUT_OF_RANGE, and no length is told. */
static inline struct lughemra_built lughemra_append_sequence(uint8_t *room, size_t room_length, size_t *end,
                                                             const char *identifier, size_t identifier_length,
                                                             const uint8_t *documents, size_t length)
{
    const uint8_t *named = (const uint8_t *)identifier;
    if (end == NULL)
        return lughemra_not_built();
    return lughemra_append_sequence_nonnull(lughemra_nonnull_room(room), lughemra_length(room, room_length), end,
                                            lughemra_nonnull(named), lughemra_length(named, identifier_length),
                                            lughemra_nonnull(documents), lughemra_length(documents, length));
}

/* Writes a message of at most `limit` bytes to the front of the room, of `room_length` bytes: with these numbers, the document
 * that `body` is, and the sequences that lughemra_append_sequence put, which may be none. A null pointer to the numbers
 * stands for 0, 0 and 0. Takes as much memory as the message twice, and what a check of it takes. If the message has no room, nothing is written, and
 * its length is told; a null pointer is no room. */
static inline struct lughemra_written lughemra_write_message(const struct lughemra_message_numbers *numbers,
                                                             const uint8_t *body, size_t body_length,
                                                             const uint8_t *sequences, size_t sequences_length,
                                                             uint32_t limit, uint8_t *room, size_t room_length)
{
    static const struct lughemra_message_numbers none = {0, 0, 0};
    return lughemra_write_message_nonnull(numbers != NULL ? numbers : &none, lughemra_nonnull(body),
                                          lughemra_length(body, body_length), lughemra_nonnull(sequences),
                                          lughemra_length(sequences, sequences_length), limit,
                                          lughemra_nonnull_room(room), lughemra_length(room, room_length));
}

/* ---- handles, each of one end of a connection, whose bytes go in and out by way of the program, or of a pool of connections
 *
 * A handle holds a client, a server or a pool, which has memory of its own until lughemra_free gives it back. Of the program a
 * handle wants this:
 *
 *   - it begins as {NULL, false}, its fields are written by these functions alone, and no one reads or writes what it points to;
 *   - it has one owner: a copy of the struct isn't used beside the original, nor after a call with that;
 *   - one call at a time, in any thread, also of those that only tell; what is handed in lies neither in the handle nor where it points to;
 *   - malloc, realloc and free are of one allocator all the while.
 *
 * Nothing is lent: what waits to be sent, replies and requests are copied into the program's room. A call may take memory; where
 * there is none, it says so, and nothing changed, but that lughemra_server_answer may have closed its server. Each takes a null
 * pointer to a handle for one of no core, and what is for one kind of core takes a handle of another kind for that, too. */

/* Frees the core of a handle, which has none then. Returns 0, or LUGHEMRA_NO_CORE where it had none. */
static inline uint32_t lughemra_free(struct lughemra_core *core)
{
    return core != NULL ? lughemra_free_nonnull(core) : (uint32_t)LUGHEMRA_NO_CORE;
}

/* Returns the name of an enum lughemra_core_refusal, as "WindowFull", or "" if there is none of this number. The
 * numbers of an enum lughemra_client_refusal, lughemra_pool_refusal or lughemra_refusal mean other things, and would be named as
 * those of this one. */
static inline const char *lughemra_core_refusal_name(uint32_t number)
{
    static const char *const words[] = {"",       "Closed",       "WindowFull", "TooLarge", "BadContent",
                                        "NoRoom", "NumbersSpent", "NotReady",   "TooMany",  "InUse",
                                        "BadCount", "PoolFull",   "NotLent"};
    if (number == LUGHEMRA_NO_MEMORY)
        return "NoMemory";
    if (number == LUGHEMRA_NO_CORE)
        return "NoCore";
    return number < sizeof words / sizeof words[0] ? words[number] : "";
}

/* ---- the client's end of a connection */

/* Puts a client into a handle of no core. Its requests have ids from `first_id` on, from 1 again after 2,147,483,647, past those
 * of calls that await a reply; at most `window` calls await a reply, and messages both ways have at most `limit` bytes. Returns
 * 0, or why not: an enum lughemra_client_refusal, LUGHEMRA_IN_USE, LUGHEMRA_NO_MEMORY or LUGHEMRA_NO_CORE. Once the 16 bytes of
 * a good header are fed, memory is taken for all bytes that it announces, so `limit` is also what a peer can have taken by 16
 * bytes. */
static inline uint32_t lughemra_client_new(struct lughemra_core *core, int32_t first_id, size_t window, uint32_t limit)
{
    return core != NULL ? lughemra_client_new_nonnull(core, first_id, window, limit) : (uint32_t)LUGHEMRA_NO_CORE;
}

static inline struct lughemra_call_made lughemra_not_made(void)
{
    static const struct lughemra_call_made none = {LUGHEMRA_NO_CORE, 0, 0, {0, 0}, {0, 0}};
    return none;
}

/* Makes a call that has one reply: with the document that `body` is, and the sequences that lughemra_append_sequence put, which
 * may be none. Its request waits to be sent then. That these are no content of a message (LUGHEMRA_BAD_CONTENT), or of none of
 * 48,000,000 bytes (LUGHEMRA_CALL_TOO_LARGE), is told before that the client is closed or its window full. */
static inline struct lughemra_call_made lughemra_client_call(struct lughemra_core *core, const uint8_t *body,
                                                             size_t body_length, const uint8_t *sequences,
                                                             size_t sequences_length)
{
    if (core == NULL)
        return lughemra_not_made();
    return lughemra_client_call_nonnull(core, lughemra_nonnull(body), lughemra_length(body, body_length),
                                        lughemra_nonnull(sequences), lughemra_length(sequences, sequences_length));
}

/* The same, of a call that may have more than one reply. */
static inline struct lughemra_call_made lughemra_client_call_exhaust(struct lughemra_core *core, const uint8_t *body,
                                                                     size_t body_length, const uint8_t *sequences,
                                                                     size_t sequences_length)
{
    if (core == NULL)
        return lughemra_not_made();
    return lughemra_client_call_exhaust_nonnull(core, lughemra_nonnull(body), lughemra_length(body, body_length),
                                                lughemra_nonnull(sequences),
                                                lughemra_length(sequences, sequences_length));
}

/* The same, of a call that has no reply, and is never LUGHEMRA_WINDOW_FULL. */
static inline struct lughemra_call_made lughemra_client_send_unacknowledged(struct lughemra_core *core,
                                                                            const uint8_t *body, size_t body_length,
                                                                            const uint8_t *sequences,
                                                                            size_t sequences_length)
{
    if (core == NULL)
        return lughemra_not_made();
    return lughemra_client_send_unacknowledged_nonnull(core, lughemra_nonnull(body), lughemra_length(body, body_length),
                                                       lughemra_nonnull(sequences),
                                                       lughemra_length(sequences, sequences_length));
}

/* Copies the first bytes that wait to be sent to the front of the room, of `room_length` bytes, as many as it has room for, and
 * tells how many wait. They wait until lughemra_client_sent. */
static inline struct lughemra_output lughemra_client_output(struct lughemra_core *core, uint8_t *room, size_t room_length)
{
    static const struct lughemra_output none = {LUGHEMRA_NO_CORE, 0, 0};
    if (core == NULL)
        return none;
    return lughemra_client_output_nonnull(core, lughemra_nonnull_room(room), lughemra_length(room, room_length));
}

/* Takes the first `n` bytes that wait off, since they were sent. Returns 0, LUGHEMRA_TOO_MANY or LUGHEMRA_NO_CORE. */
static inline uint32_t lughemra_client_sent(struct lughemra_core *core, size_t n)
{
    return core != NULL ? lughemra_client_sent_nonnull(core, n) : (uint32_t)LUGHEMRA_NO_CORE;
}

static inline struct lughemra_client lughemra_no_client(void)
{
    static const struct lughemra_client none = {LUGHEMRA_NO_CORE, 0, 0, false, {0, 0}, {0, 0}};
    return none;
}

/* Feeds the client the first bytes of a piece that came, up to the end of the current message, or to the 16th byte of a bad
 * header, and tells how many it took. It takes none while a reply is ready, or once it is closed; the refusal is 0 then, so look
 * at the state, too. A message that becomes whole makes a reply ready, or closes the client, as bad bytes do. */
static inline struct lughemra_fed lughemra_client_feed(struct lughemra_core *core, const uint8_t *piece, size_t length)
{
    struct lughemra_fed none = {LUGHEMRA_NO_CORE, 0, {LUGHEMRA_NO_CORE, 0, 0, false, {0, 0}, {0, 0}}};
    if (core == NULL)
        return none;
    return lughemra_client_feed_nonnull(core, lughemra_nonnull(piece), lughemra_length(piece, length));
}

/* Copies the reply that is ready to the front of the room, of `room_length` bytes, as a message with no ids and no flags, for
 * lughemra_message_parts, whose first section is the body, and tells the call that it belongs to. If it has no room, nothing is
 * written, and its length is told. It stays ready until lughemra_client_release. */
static inline struct lughemra_reply lughemra_client_reply(struct lughemra_core *core, uint8_t *room, size_t room_length)
{
    static const struct lughemra_reply none = {LUGHEMRA_NO_CORE, false, 0, 0};
    if (core == NULL)
        return none;
    return lughemra_client_reply_nonnull(core, lughemra_nonnull_room(room), lughemra_length(room, room_length));
}

/* Lets go of the reply that is ready, so that more bytes are taken. Where none is, nothing changes. Returns 0 or
 * LUGHEMRA_NO_CORE. */
static inline uint32_t lughemra_client_release(struct lughemra_core *core)
{
    return core != NULL ? lughemra_client_release_nonnull(core) : (uint32_t)LUGHEMRA_NO_CORE;
}

/* Tells the client that no more bytes come, which closes it, if it is open. However a client was closed, a reply that is ready
 * stays ready, what waits to be sent can still be copied and sent, the calls that await a reply are still counted, and the first
 * cause stays. Returns 0 or LUGHEMRA_NO_CORE. */
static inline uint32_t lughemra_client_end(struct lughemra_core *core)
{
    return core != NULL ? lughemra_client_end_nonnull(core) : (uint32_t)LUGHEMRA_NO_CORE;
}

/* Returns how the client stands. */
static inline struct lughemra_client lughemra_client_state(struct lughemra_core *core)
{
    return core != NULL ? lughemra_client_state_nonnull(core) : lughemra_no_client();
}

/* Counts the calls that await a reply. */
static inline struct lughemra_count lughemra_client_outstanding(struct lughemra_core *core)
{
    static const struct lughemra_count none = {LUGHEMRA_NO_CORE, 0};
    return core != NULL ? lughemra_client_outstanding_nonnull(core) : none;
}

/* Returns the name of an enum lughemra_client_cause, as "UnknownReply", or "" if there is none of this number. */
static inline const char *lughemra_client_cause_name(uint32_t number)
{
    static const char *const words[] = {"",      "Message",    "UnknownReply", "MoreNotAllowed", "StreamBroken",
                                        "Ended", "EndedInside"};
    return number < sizeof words / sizeof words[0] ? words[number] : "";
}

/* ---- the server's end of a connection */

/* Puts a server into a handle of no core. At most `window` requests wait in it, and messages both ways have at most `limit`
 * bytes. Returns 0, or why not: LUGHEMRA_BAD_WINDOW, LUGHEMRA_BAD_LIMIT, LUGHEMRA_IN_USE, LUGHEMRA_NO_MEMORY or
 * LUGHEMRA_NO_CORE. Once the 16 bytes of a good header are fed, memory is taken for all bytes that it announces, so `limit` is
 * also what a peer can have taken by 16 bytes. The requests that wait are kept too, up to `window` times `limit` bytes, and the
 * replies until they are sent, whatever their size: feed no more while much waits to be sent. */
static inline uint32_t lughemra_server_new(struct lughemra_core *core, size_t window, uint32_t limit)
{
    return core != NULL ? lughemra_server_new_nonnull(core, window, limit) : (uint32_t)LUGHEMRA_NO_CORE;
}

/* Feeds the server the first bytes of a piece that came, up to the end of the current message, or to the 16th byte of a bad
 * header, and tells how many it took. It takes none while as many requests wait as the window allows, or once it is closed; the
 * refusal is 0 then, so look at the state, too. A message that becomes whole waits behind
 * the others. Bad bytes close the server. The requests that wait then can still be copied, but not answered: a program that
 * wants each good request answered does so before it feeds more. */
static inline struct lughemra_server_fed lughemra_server_feed(struct lughemra_core *core, const uint8_t *piece, size_t length)
{
    static const struct lughemra_server_fed none = {
        LUGHEMRA_NO_CORE, 0, {LUGHEMRA_NO_CORE, 0, false, 0, {0, 0}, {0, 0}}};
    if (core == NULL)
        return none;
    return lughemra_server_feed_nonnull(core, lughemra_nonnull(piece), lughemra_length(piece, length));
}

/* Copies the request of index `k` among those that wait, in the order in which they came, to the front of the room, of
 * `room_length` bytes, as a message with no ids and with its flags, for lughemra_message_parts, whose first section is the body.
 * If it has no room, nothing is written, and its length is told. It waits until it is answered. A request whose flags say that
 * more will come wants no reply: it is answered like any other, with one document, and nothing is sent. */
static inline struct lughemra_request lughemra_server_request(struct lughemra_core *core, size_t k, uint8_t *room,
                                                              size_t room_length)
{
    static const struct lughemra_request none = {LUGHEMRA_NO_CORE, false, 0};
    if (core == NULL)
        return none;
    return lughemra_server_request_nonnull(core, k, lughemra_nonnull_room(room), lughemra_length(room, room_length));
}

/* Answers the request of index `k` among those that wait, with documents that stand back to back: each is the body of an answer.
 * A request gets one, or, if it takes more, any number of them but none. Its replies wait to be sent then, with ids from 1 on: the
 * first answers the request, each later one the reply before it, and all but the last say that more will come. It waits no
 * longer, so those behind it have the next lower index. Where a reply would have more bytes than the limit, or there is no memory
 * for the replies, the request has left, nothing of its replies waits, and the server is closed. */
static inline struct lughemra_answer_given lughemra_server_answer(struct lughemra_core *core, size_t k,
                                                                  const uint8_t *documents, size_t length)
{
    static const struct lughemra_answer_given none = {LUGHEMRA_NO_CORE, {0, 0}, {0, 0}};
    if (core == NULL)
        return none;
    return lughemra_server_answer_nonnull(core, k, lughemra_nonnull(documents), lughemra_length(documents, length));
}

/* Copies the first bytes that wait to be sent, as lughemra_client_output does. What waits may be sent after the server is
 * closed, too. */
static inline struct lughemra_output lughemra_server_output(struct lughemra_core *core, uint8_t *room, size_t room_length)
{
    static const struct lughemra_output none = {LUGHEMRA_NO_CORE, 0, 0};
    if (core == NULL)
        return none;
    return lughemra_server_output_nonnull(core, lughemra_nonnull_room(room), lughemra_length(room, room_length));
}

/* Takes the first `n` bytes that wait off, since they were sent. Returns 0, LUGHEMRA_TOO_MANY or LUGHEMRA_NO_CORE. */
static inline uint32_t lughemra_server_sent(struct lughemra_core *core, size_t n)
{
    return core != NULL ? lughemra_server_sent_nonnull(core, n) : (uint32_t)LUGHEMRA_NO_CORE;
}

/* Tells the server that no more bytes come, which closes it, if it is open. The requests that wait can't be answered then, so
 * answer them before. Returns 0 or LUGHEMRA_NO_CORE. */
static inline uint32_t lughemra_server_end(struct lughemra_core *core)
{
    return core != NULL ? lughemra_server_end_nonnull(core) : (uint32_t)LUGHEMRA_NO_CORE;
}

/* Returns how the server stands. */
static inline struct lughemra_server lughemra_server_state(struct lughemra_core *core)
{
    static const struct lughemra_server none = {LUGHEMRA_NO_CORE, 0, false, 0, {0, 0}, {0, 0}};
    return core != NULL ? lughemra_server_state_nonnull(core) : none;
}

/* Returns the name of why a server was closed, as "ReplyTooLarge", or "" if there is no cause of this number. */
static inline const char *lughemra_server_cause_name(uint32_t number)
{
    static const char *const words[] = {"",      "Message",     "",              "",        "",
                                        "Ended", "EndedInside", "ReplyTooLarge", "NoMemory"};
    return number < sizeof words / sizeof words[0] ? words[number] : "";
}

/* ---- a pool of connections, which lends them by their ids and opens none: the program keeps what belongs to an id, as a socket
 * and a client. No call but lughemra_pool_new takes memory. */

/* Puts a pool of at most `max` connections, 1 to 1,024, into a handle of no core. Returns 0, or why not: LUGHEMRA_BAD_MAX,
 * LUGHEMRA_IN_USE, LUGHEMRA_NO_MEMORY or LUGHEMRA_NO_CORE. */
static inline uint32_t lughemra_pool_new(struct lughemra_core *core, size_t max)
{
    return core != NULL ? lughemra_pool_new_nonnull(core, max) : (uint32_t)LUGHEMRA_NO_CORE;
}

/* Lends a connection: the idle one that was returned last, else a new one, if fewer than `max` are lent. New ids go from 1
 * upwards, and none is given twice. */
static inline struct lughemra_checked_out lughemra_pool_check_out(struct lughemra_core *core)
{
    static const struct lughemra_checked_out none = {LUGHEMRA_NO_CORE, false, 0};
    return core != NULL ? lughemra_pool_check_out_nonnull(core) : none;
}

/* Takes back the connection with this id. It is idle then if it is healthy, the pool is open, and the pool wasn't cleared since
 * the connection was lent; else it is dropped. */
static inline struct lughemra_checked_in lughemra_pool_check_in(struct lughemra_core *core, uint64_t id, bool healthy)
{
    static const struct lughemra_checked_in none = {LUGHEMRA_NO_CORE, false};
    return core != NULL ? lughemra_pool_check_in_nonnull(core, id, healthy) : none;
}

/* Drops the idle connections, and each that is lent when it is returned, as after a server was lost. The pool doesn't tell the
 * ids of the idle ones: the program closes each that it keeps and hasn't lent. Returns 0 or LUGHEMRA_NO_CORE. */
static inline uint32_t lughemra_pool_clear(struct lughemra_core *core)
{
    return core != NULL ? lughemra_pool_clear_nonnull(core) : (uint32_t)LUGHEMRA_NO_CORE;
}

/* The same, and lends none from then on. Returns 0 or LUGHEMRA_NO_CORE. */
static inline uint32_t lughemra_pool_close(struct lughemra_core *core)
{
    return core != NULL ? lughemra_pool_close_nonnull(core) : (uint32_t)LUGHEMRA_NO_CORE;
}

#ifdef __cplusplus
}
#ifdef __GNUC__
#pragma GCC diagnostic pop
#endif
#endif

#endif
