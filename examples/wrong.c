/* Hands wrong arguments to the functions of lughemra.h, and bytes at each alignment. Each has an answer. */
#include <stdio.h>
#include <stdlib.h>
#include <string.h>

#include "lughemra.h"

/* {"a": int32 1, "b": {"c": null}} */
static const uint8_t document[] = {23, 0, 0, 0, 0x10, 'a', 0, 1, 0, 0, 0, 3, 'b', 0, 8, 0, 0, 0, 10, 'c', 0, 0, 0};

static int failed = 0;

static void expect(bool holds, const char *what)
{
    if (!holds) {
        printf("FAILED %s\n", what);
        failed = 1;
    }
}

/* Returns the fault of the element at an iterator. */
static uint32_t fault_at(size_t start, size_t at, size_t end, uint32_t depth)
{
    struct lughemra_iter iter = {start, at, end, depth};
    struct lughemra_element element;
    bool found = lughemra_next(document, sizeof document, &iter, &element);
    expect(found == (element.kind != 0), "next returns whether there is an element");
    expect(found || iter.at == at, "a walk stays at a fault");
    return element.fault.number;
}

static void try_null(void)
{
    struct lughemra_iter iter = {0, 4, 22, 1};
    struct lughemra_element element;
    expect(lughemra_check_document(NULL, 7).number == LUGHEMRA_TRUNCATED, "null with a length is no bytes");
    expect(lughemra_check_messages(NULL, SIZE_MAX, 100).messages == 0, "null with SIZE_MAX is no bytes");
    expect(lughemra_message_front(NULL, 99, 100).length == 16, "null has no header");
    expect(lughemra_first(NULL, 0).fault.number == LUGHEMRA_TRUNCATED, "null is no document");
    expect(!lughemra_next(document, sizeof document, NULL, &element), "next without an iterator");
    expect(!lughemra_next(document, sizeof document, &iter, NULL) && iter.at == 4, "next without room");
    expect(!lughemra_next(NULL, 23, &iter, &element) && element.fault.number == LUGHEMRA_OUT_OF_RANGE, "next of null");
    expect(!lughemra_find(document, sizeof document, "b", 1, NULL, &element), "find without an iterator");
    expect(!lughemra_find(document, sizeof document, "b", 1, &iter, NULL), "find without room");
    expect(!lughemra_find(document, sizeof document, NULL, 1, &iter, &element) && iter.at == 22, "find of a null name");
    expect(lughemra_get(document, sizeof document, "b", 1, &element) && element.kind == LUGHEMRA_DOCUMENT, "get of a name");
    expect(!lughemra_get(document, sizeof document, "c", 1, &element) && element.fault.number == 0, "get of no name");
    expect(!lughemra_get(document, 22, "a", 1, &element) && element.fault.number == LUGHEMRA_LENGTH, "get of a cut document");
    expect(!lughemra_get(document, sizeof document, "a", 1, NULL), "get without room");
    iter = lughemra_enter(NULL, &element);
    expect(!lughemra_next(document, sizeof document, &iter, &element), "enter without an iterator");
    iter = lughemra_enter(&iter, NULL);
    expect(!lughemra_next(document, sizeof document, &iter, &element), "enter without an element");
}

static void try_ranges(void)
{
    expect(fault_at(0, 4, 22, 1) == 0, "the first element");
    expect(fault_at(0, 22, 22, 1) == 0, "behind the last element");
    expect(fault_at(0, 23, 22, 1) == LUGHEMRA_OUT_OF_RANGE, "past the end");
    expect(fault_at(0, 4, 23, 1) == LUGHEMRA_OUT_OF_RANGE, "an end past the bytes");
    expect(fault_at(0, SIZE_MAX, SIZE_MAX, 1) == LUGHEMRA_OUT_OF_RANGE, "SIZE_MAX");
    expect(fault_at(SIZE_MAX, 4, 22, UINT32_MAX) == 0, "any start and depth");
    expect(fault_at(0, 11, 22, UINT32_MAX) == LUGHEMRA_DEPTH, "a document too deep");
    expect(fault_at(7, 8, 22, 1) == LUGHEMRA_END, "an offset inside an element");
}

static void try_enter(void)
{
    struct lughemra_iter iter = {0, 4, 22, 1}, inner;
    struct lughemra_element element;
    lughemra_next(document, sizeof document, &iter, &element);
    inner = lughemra_enter(&iter, &element);
    expect(!lughemra_next(document, sizeof document, &inner, &element), "an int32 can't be entered");
    expect(element.fault.number == LUGHEMRA_OUT_OF_RANGE, "an int32 gives a walk out of range");
    memset(&element, 0xff, sizeof element);
    element.kind = LUGHEMRA_DOCUMENT;
    inner = lughemra_enter(&iter, &element);
    expect(!lughemra_next(document, sizeof document, &inner, &element), "a view past all bytes can't be entered");
}

/* Reads elements into rooms of each length up to one more than there are, and compares them with those of single steps. */
static void try_many(void)
{
    for (size_t size = 0; size <= 3; size++) {
        struct lughemra_iter many = {0, 4, 22, 1}, one = many;
        struct lughemra_element room[4], element;
        size_t count;
        memset(room, 0xff, sizeof room);
        count = lughemra_next_elements(document, sizeof document, &many, room, size);
        expect(count == (size < 2 ? size : 2), "as many elements as there are, or as the room has places for");
        for (size_t k = 0; k < count; k++)
            expect(lughemra_next(document, sizeof document, &one, &element) && room[k].kind == element.kind
                       && room[k].name.offset == element.name.offset, "the elements of single steps");
        expect(many.at == one.at, "the iterator of single steps");
        expect(room[count].kind == (count < size ? LUGHEMRA_NO_ELEMENT : UINT32_MAX), "what stands behind the elements");
    }
    expect(lughemra_next_elements(document, sizeof document, NULL, NULL, 5) == 0, "elements without an iterator");
}

static void try_views(void)
{
    struct lughemra_view left = {0, sizeof document}, first = {1, 1};
    expect(lughemra_next_document(document, sizeof document, &left, &first), "a document in a view");
    expect(first.length == sizeof document && left.length == 0, "the only document in a view");
    expect(!lughemra_next_document(document, sizeof document, &left, &first), "no further document");
    left.offset = SIZE_MAX;
    left.length = 2;
    expect(!lughemra_next_document(document, sizeof document, &left, &first) && first.length == 0, "a view past all bytes");
    expect(left.offset == SIZE_MAX, "such a view stays");
    expect(!lughemra_next_document(document, sizeof document, NULL, &first), "next document without a view");
    expect(!lughemra_next_document(document, sizeof document, &left, NULL), "next document without room");
}

static void try_sections(void)
{
    expect(lughemra_section(document, sizeof document, sizeof document).kind == LUGHEMRA_SECTIONS_END, "behind the sections");
    expect(lughemra_section(document, sizeof document, SIZE_MAX).kind == LUGHEMRA_NO_SECTION, "a section past all bytes");
    expect(lughemra_section(document, sizeof document, 0).kind == LUGHEMRA_NO_SECTION, "a kind byte that isn't one");
    expect(lughemra_section(document, sizeof document, 22).kind == LUGHEMRA_NO_SECTION, "a body of no bytes");
    expect(lughemra_section(document, sizeof document, 7).kind == LUGHEMRA_NO_SECTION, "a sequence past the bytes");
    expect(lughemra_message_parts(document, sizeof document, 100).sections == SIZE_MAX, "no sections of no message");
}

/* Writes texts into rooms of each length up to that of the text, and one more. */
static void try_rooms(void)
{
    uint8_t room[64];
    size_t wanted = lughemra_json(document, sizeof document, false, NULL, 7).length;
    expect(wanted == strlen("{\"a\":{\"$numberInt\":\"1\"},\"b\":{\"c\":null}}"), "the length of a text with no room");
    for (size_t size = 0; size <= wanted + 1; size++) {
        struct lughemra_text text;
        memset(room, 'z', sizeof room);
        text = lughemra_json(document, sizeof document, false, room, size);
        expect(text.length == wanted && text.written == (size >= wanted), "a text in too little room");
        expect(room[0] == (text.written ? '{' : 'z'), "too little room stays as it is");
        expect(room[wanted] == 'z', "what is behind the text stays as it is");
    }
    expect(lughemra_dump(NULL, 5, room, sizeof room).fault.number == LUGHEMRA_TRUNCATED, "null has no text");
    expect(!lughemra_dump(document, sizeof document, NULL, 100).written, "a null room has no bytes");
    expect(lughemra_pickle(document, sizeof document, NULL, 100).length > sizeof document, "a pickle with no room");
    expect(lughemra_canonical(document, sizeof document, NULL, 100).length == sizeof document, "a form with no room");
}

/* Appends an int32 in a room of this length, at its end, with the builder's numbers. */
static struct lughemra_built built_in(size_t room_length, struct lughemra_builder builder, uint32_t kind)
{
    struct lughemra_builder before = builder;
    struct lughemra_built built;
    uint8_t *room = malloc(room_length + 1), *copy = malloc(room_length + 1);
    if (!room || !copy)
        exit(2);
    memset(room, 0xee, room_length + 1);
    memcpy(copy, room, room_length + 1);
    built = lughemra_append_integer(room, room_length, &builder, "a", 1, kind, 7);
    if (built.refusal != LUGHEMRA_DONE)
        expect(memcmp(room, copy, room_length + 1) == 0 && memcmp(&builder, &before, sizeof builder) == 0,
               "a refusal changes nothing");
    expect(room[room_length] == 0xee, "nothing behind the room is written");
    free(room);
    free(copy);
    return built;
}

static void try_builders(void)
{
    struct lughemra_builder first = lughemra_build(), inner, wrong;
    struct lughemra_value value = {LUGHEMRA_OBJECT_ID, 0, 0};
    uint8_t room[16], bytes[12] = {0};
    for (size_t length = 0; length < 16; length++) {
        struct lughemra_built built = built_in(length, first, LUGHEMRA_INT32);
        expect(built.wanted == 12 && built.refusal == (length < 12 ? LUGHEMRA_NO_ROOM : LUGHEMRA_DONE), "a room of each length");
        built = lughemra_finish(room, length, &first);
        expect(built.wanted == 5 && built.refusal == (length < 5 ? LUGHEMRA_NO_ROOM : LUGHEMRA_DONE), "the end in each room");
    }
    for (uint32_t kind = 0; kind < 300; kind++) {
        uint32_t refusal = built_in(15, first, kind).refusal;
        bool alone = (kind == 6 || (kind >= 8 && kind <= 10) || (kind >= 16 && kind <= 18) || kind == 1 || kind == 127 ||
                      kind == 255 || kind == 2 || kind == 5 || kind == 11 || kind == 13 || kind == 14);
        bool known = kind == 0xff || kind == 0x7f || (kind >= 1 && kind <= 0x13);
        expect(refusal == (!known ? LUGHEMRA_BAD_KIND : !alone ? LUGHEMRA_BAD_VALUE : refusal), "each kind");
    }
    for (size_t k = 0; k < 64; k++) {
        wrong = first;
        wrong.end = (size_t)1 << k;
        expect(built_in(15, wrong, LUGHEMRA_NULL).refusal != 1, "an end of each size");
        wrong = first;
        wrong.start = (size_t)1 << k;
        expect(built_in(15, wrong, LUGHEMRA_NULL).refusal == LUGHEMRA_OUT_OF_RANGE, "a start behind the end");
        wrong = first;
        wrong.count = (size_t)1 << k;
        expect(built_in(15, wrong, LUGHEMRA_NULL).refusal == (k < 3 ? LUGHEMRA_DONE : LUGHEMRA_OUT_OF_RANGE), "a count of each size");
    }
    wrong = first;
    wrong.end = (size_t)INT32_MAX - 4;
    expect(built_in(15, wrong, LUGHEMRA_NULL).refusal == LUGHEMRA_NO_ROOM, "2,147,483,647 bytes");
    wrong.end++;
    expect(built_in(15, wrong, LUGHEMRA_NULL).refusal == LUGHEMRA_TOO_LARGE, "2,147,483,648 bytes");
    wrong = first;
    wrong.depth = 0;
    expect(built_in(15, wrong, LUGHEMRA_NULL).refusal == LUGHEMRA_OUT_OF_RANGE, "depth 0");
    wrong.depth = 201;
    expect(built_in(15, wrong, LUGHEMRA_NULL).refusal == LUGHEMRA_OUT_OF_RANGE, "depth 201");
    wrong.depth = 200;
    expect(lughemra_begin(room, 16, &wrong, "a", 1, LUGHEMRA_ARRAY, &inner).refusal == LUGHEMRA_TOO_DEEP, "a container of depth 201");
    expect(lughemra_begin(room, 16, &first, "a", 1, LUGHEMRA_NULL, &inner).refusal == LUGHEMRA_BAD_KIND, "a null is opened");
    expect(lughemra_begin(room, 16, &first, "a\0", 2, LUGHEMRA_ARRAY, &inner).refusal == LUGHEMRA_BAD_NAME, "a name with 00");
    wrong = first;
    wrong.end = (size_t)INT32_MAX - 1;
    expect(lughemra_finish(room, 16, &wrong).wanted == INT32_MAX, "a document of 2,147,483,647 bytes");
    wrong.end++;
    expect(lughemra_finish(room, 16, &wrong).refusal == LUGHEMRA_OUT_OF_RANGE, "a document of 2,147,483,648 bytes");
    wrong = first;
    expect(lughemra_begin(room, 16, &wrong, "a", 1, LUGHEMRA_ARRAY, &inner).wanted == 13, "an array inside");
    for (size_t length = 0; length < 13; length++) {
        struct lughemra_built built = lughemra_end(room, length, &wrong, &inner);
        expect(built.refusal == LUGHEMRA_NO_ROOM && built.wanted == 13, "the room is shorter than it was");
    }
    expect(lughemra_end(room, 13, &wrong, &inner).refusal == LUGHEMRA_DONE && wrong.end == 12, "an array ends");
    inner = first;
    expect(lughemra_end(room, 16, &first, &inner).refusal == LUGHEMRA_OUT_OF_RANGE, "a container ends in itself");
    expect(lughemra_append(room, 16, &first, "a", 1, value, NULL, 0, bytes, 11).refusal == LUGHEMRA_BAD_VALUE, "11 bytes");
    expect(lughemra_append(room, 16, &first, "\xff", 1, value, NULL, 0, bytes, 12).refusal == LUGHEMRA_BAD_NAME, "no UTF-8");
    expect(lughemra_append(NULL, 16, &first, "a", 1, value, NULL, 0, bytes, 12).wanted == 20, "null is no room");
    expect(lughemra_append(room, 16, NULL, "a", 1, value, NULL, 0, bytes, 12).refusal == LUGHEMRA_OUT_OF_RANGE, "no builder");
    expect(lughemra_begin(room, 16, &first, "a", 1, LUGHEMRA_ARRAY, NULL).refusal == LUGHEMRA_OUT_OF_RANGE, "no inner builder");
    expect(lughemra_end(room, 16, NULL, &first).refusal == LUGHEMRA_OUT_OF_RANGE, "no outer builder");
    expect(lughemra_finish(room, 16, NULL).refusal == LUGHEMRA_OUT_OF_RANGE, "nothing is finished");
}

/* Walks over a copy of the document at each alignment, which ends where its block does. */
static void try_alignments(void)
{
    for (size_t shift = 0; shift < 16; shift++) {
        uint8_t *block = malloc(shift + sizeof document);
        struct lughemra_element element;
        struct lughemra_first first;
        if (!block)
            return;
        memcpy(block + shift, document, sizeof document);
        first = lughemra_first(block + shift, sizeof document);
        expect(lughemra_find(block + shift, sizeof document, "b", 1, &first.iter, &element), "a field at each alignment");
        expect(element.bytes.offset == 14 && element.bytes.length == 8, "its view at each alignment");
        free(block);
    }
}

/* Writes a message into rooms of each length, and with what no message has. */
static void try_writing(void)
{
    const struct lughemra_message_numbers numbers = {1, 2, 0}, noise = {-1, -1, UINT32_MAX};
    uint8_t room[64], before[64];
    size_t end = 0, far = SIZE_MAX;
    memset(room, 0xee, sizeof room);
    memcpy(before, room, sizeof room);
    for (size_t length = 0; length <= 44; length++) {
        struct lughemra_written written = lughemra_write_message(&numbers, document, sizeof document, NULL, 0, 100, room, length);
        bool has_room = length >= 44;
        expect(written.fault.number == 0 && written.length == 44 && written.written == has_room, "a message in a room");
        expect(memcmp(room + (has_room ? 44 : 0), before, sizeof room - (has_room ? 44 : 0)) == 0, "what is behind a message stays");
    }
    expect(lughemra_check_message(room, 44, 44).fault.number == 0, "what was written is a message");
    expect(lughemra_write_message(NULL, document, sizeof document, NULL, 9, 44, NULL, 99).length == 44, "null numbers and room");
    expect(lughemra_write_message(&numbers, NULL, 5, NULL, 0, 100, room, 64).document_fault.number == LUGHEMRA_TRUNCATED, "no body");
    expect(lughemra_write_message(&numbers, document, 23, NULL, 0, 43, room, 64).fault.number == LUGHEMRA_TOO_LARGE, "a limit");
    expect(lughemra_write_message(&noise, document, 23, NULL, 0, 100, room, 64).fault.number == LUGHEMRA_MSG_FLAGS, "noise as flags");
    expect(lughemra_write_message(&numbers, document, 23, NULL, 0, UINT32_MAX, room, 64).fault.number
           == LUGHEMRA_LIMIT_TOO_LARGE, "a limit too large");
    expect(lughemra_write_message(&numbers, document, 23, document, 23, 100, room, 64).fault.number
           == LUGHEMRA_MSG_SECTION_KIND, "sequences that aren't any");
    expect(lughemra_append_sequence(room, sizeof room, NULL, "q", 1, NULL, 0).refusal == LUGHEMRA_OUT_OF_RANGE, "no end");
    expect(lughemra_append_sequence(room, sizeof room, &far, "q", 1, NULL, 0).refusal == LUGHEMRA_OUT_OF_RANGE, "an end past the room");
    expect(lughemra_append_sequence(room, 6, &end, "q", 1, NULL, 9).wanted == 7 && end == 0, "a room too short for a sequence");
    expect(lughemra_append_sequence(room, 64, &end, "\377", 1, NULL, 0).refusal == LUGHEMRA_BAD_NAME && end == 0, "no name");
    expect(lughemra_append_sequence(room, 64, &end, NULL, 3, NULL, 0).refusal == 0 && end == 6, "an empty name and no documents");
}

/* Calls with handles of no core, and with one that is used wrongly. */
static void try_handles(void)
{
    struct lughemra_core none = {NULL, false}, core = {NULL, false};
    uint8_t room[64];
    expect(lughemra_free(NULL) == LUGHEMRA_NO_CORE && lughemra_free(&none) == LUGHEMRA_NO_CORE, "nothing is freed");
    expect(lughemra_client_call(NULL, document, 23, NULL, 0).refusal == LUGHEMRA_NO_CORE, "a call of null");
    expect(lughemra_client_call(&none, document, 23, NULL, 0).refusal == LUGHEMRA_NO_CORE, "a call of no core");
    expect(lughemra_client_output(&none, room, 64).refusal == LUGHEMRA_NO_CORE, "output of no core");
    expect(lughemra_client_feed(&none, document, 23).state.refusal == LUGHEMRA_NO_CORE, "a piece for no core");
    expect(lughemra_client_reply(&none, room, 64).refusal == LUGHEMRA_NO_CORE, "a reply of no core");
    expect(lughemra_client_sent(&none, 1) == LUGHEMRA_NO_CORE && lughemra_client_release(&none) == LUGHEMRA_NO_CORE
           && lughemra_client_end(&none) == LUGHEMRA_NO_CORE, "the rest of no core");
    expect(lughemra_client_new(NULL, 1, 1, 100) == LUGHEMRA_NO_CORE, "a client in null");
    expect(lughemra_client_new(&core, 0, 1, 100) == LUGHEMRA_BAD_FIRST_ID && !core.there, "a first id of 0");
    expect(lughemra_client_new(&core, 1, 1025, 100) == LUGHEMRA_BAD_WINDOW && !core.there, "a window of 1,025");
    expect(lughemra_client_new(&core, 1, 1, UINT32_MAX) == LUGHEMRA_BAD_LIMIT && !core.there, "any limit");
    expect(lughemra_client_new(&core, INT32_MAX, 1, 44) == 0 && core.there, "a client");
    expect(lughemra_client_new(&core, 1, 1, 100) == LUGHEMRA_IN_USE, "a client in a handle that has one");
    expect(lughemra_client_call(&core, document, 22, NULL, 0).document_fault.number == LUGHEMRA_LENGTH, "a call of no document");
    expect(lughemra_client_call(&core, NULL, 9, NULL, 0).fault.offset == 21, "a call of null bytes");
    expect(lughemra_client_sent(&core, 1) == LUGHEMRA_TOO_MANY, "more was sent than waits");
    expect(lughemra_client_call(&core, document, 23, NULL, 0).id == INT32_MAX, "a call");
    expect(lughemra_client_call(&core, document, 23, NULL, 0).refusal == LUGHEMRA_WINDOW_FULL, "a full window");
    expect(lughemra_client_send_unacknowledged(&core, document, 23, NULL, 0).number == 1, "a call with no reply");
    memset(room, 0xee, sizeof room);
    expect(lughemra_client_output(&core, room, 3).copied == 3 && room[3] == 0xee, "output in a short room");
    expect(lughemra_client_output(&core, NULL, 9).waiting == 88, "output in no room");
    expect(lughemra_client_reply(&core, room, 64).refusal == LUGHEMRA_NOT_READY, "no reply");
    expect(lughemra_client_feed(&core, document, 23).state.cause == LUGHEMRA_CLOSED_BY_MESSAGE, "bytes that are no message");
    expect(lughemra_client_state(&core).fault.number == LUGHEMRA_MSG_OPCODE, "why it was closed");
    expect(lughemra_client_call(&core, document, 23, NULL, 0).refusal == LUGHEMRA_CLOSED, "a call of a closed client");
    expect(lughemra_client_outstanding(&core).count == 1 && lughemra_client_outstanding(&none).count == 0, "calls that await a reply");
    expect(lughemra_free(&core) == 0 && !core.there && lughemra_free(&core) == LUGHEMRA_NO_CORE, "freed once");
    expect(lughemra_client_state(&core).refusal == LUGHEMRA_NO_CORE, "freed for good");
}

/* Makes a call and goes through its reply, with bytes and rooms that stand so many bytes behind the front of their blocks, and end
 * where these do. */
static void try_shifted(struct lughemra_core *core, size_t shift)
{
    uint8_t *body = malloc(shift + sizeof document), *room = malloc(shift + 44), *reply = malloc(shift + 44);
    struct lughemra_message_numbers numbers = {7, 0, 0};
    if (!body || !room || !reply)
        exit(2);
    memcpy(body + shift, document, sizeof document);
    numbers.response_to = lughemra_client_call(core, body + shift, sizeof document, body + shift, 0).id;
    expect(lughemra_client_output(core, room + shift, 44).waiting == 44 && room[shift] == 44, "output at each alignment");
    expect(lughemra_client_sent(core, 44) == 0, "it is sent");
    expect(lughemra_write_message(&numbers, document, sizeof document, NULL, 0, 44, reply + shift, 44).written, "a reply");
    expect(lughemra_client_feed(core, reply + shift, 0).taken == 0, "a piece of no bytes");
    expect(lughemra_client_feed(core, reply + shift, 44).state.ready, "a piece at each alignment");
    expect(lughemra_client_reply(core, room + shift, 44).length == 44, "a reply at each alignment");
    expect(memcmp(room + shift + 21, document, sizeof document) == 0, "its body at each alignment");
    expect(lughemra_client_release(core) == 0, "it is let go");
    free(body);
    free(room);
    free(reply);
}

/* Hands a client null pointers with lengths above PTRDIFF_MAX, numbers out of range, and bytes at each alignment; and moves its handle. */
static void try_clients(void)
{
    struct lughemra_core core = {NULL, false}, moved;
    expect(lughemra_client_new(&core, 1, SIZE_MAX, 100) == LUGHEMRA_BAD_WINDOW && !core.there, "the greatest window");
    expect(lughemra_client_new(&core, INT32_MIN, 1, 100) == LUGHEMRA_BAD_FIRST_ID && !core.there, "the least id");
    expect(lughemra_client_new(&core, 1, 1, 25) == LUGHEMRA_BAD_LIMIT && !core.there, "a limit of 25");
    expect(lughemra_client_new(&core, 1, 1, 100) == 0, "a client");
    expect(lughemra_client_call(&core, NULL, SIZE_MAX, NULL, SIZE_MAX).document_fault.number == LUGHEMRA_TRUNCATED, "null of SIZE_MAX");
    expect(lughemra_client_call(&core, NULL, 0, NULL, 0).document_fault.number == LUGHEMRA_TRUNCATED, "null of 0");
    expect(lughemra_client_call(&core, document, 0, NULL, 0).document_fault.number == LUGHEMRA_TRUNCATED, "no bytes");
    expect(lughemra_client_output(&core, NULL, SIZE_MAX).copied == 0, "output in null of SIZE_MAX");
    expect(lughemra_client_sent(&core, SIZE_MAX) == LUGHEMRA_TOO_MANY && lughemra_client_sent(&core, 0) == 0, "SIZE_MAX are sent");
    expect(lughemra_client_feed(&core, NULL, SIZE_MAX).taken == 0 && lughemra_client_feed(&core, NULL, 0).refusal == 0, "null is fed");
    expect(lughemra_client_reply(&core, NULL, SIZE_MAX).refusal == LUGHEMRA_NOT_READY, "a reply in null of SIZE_MAX");
    for (size_t shift = 0; shift < 16; shift++)
        try_shifted(&core, shift);
    moved = core;
    expect(lughemra_client_call(&moved, document, sizeof document, NULL, 0).number == 16, "a handle that was moved");
    expect(lughemra_client_end(&moved) == 0 && lughemra_client_end(&moved) == 0, "an end that is told twice");
    expect(lughemra_client_state(&moved).cause == LUGHEMRA_CLOSED_BY_END, "it is closed by the first");
    expect(lughemra_free(&moved) == 0 && lughemra_free(&moved) == LUGHEMRA_NO_CORE, "it is freed once");
    expect(lughemra_client_new(&moved, 1, 1, 100) == 0 && lughemra_free(&moved) == 0, "a handle that is used again");
}

/* The same of a server, and calls for a client. */
static void try_servers(void)
{
    struct lughemra_core none = {NULL, false}, core = {NULL, false};
    uint8_t room[64];
    expect(lughemra_server_new(NULL, 1, 100) == LUGHEMRA_NO_CORE, "a server in null");
    expect(lughemra_server_feed(NULL, document, 23).state.refusal == LUGHEMRA_NO_CORE, "a piece for null");
    expect(lughemra_server_request(NULL, 0, room, 64).refusal == LUGHEMRA_NO_CORE, "a request of null");
    expect(lughemra_server_answer(NULL, 0, document, 23).refusal == LUGHEMRA_NO_CORE, "an answer of null");
    expect(lughemra_server_output(NULL, room, 64).refusal == LUGHEMRA_NO_CORE, "output of null");
    expect(lughemra_server_state(NULL).refusal == LUGHEMRA_NO_CORE && lughemra_server_sent(NULL, 0) == LUGHEMRA_NO_CORE
           && lughemra_server_end(NULL) == LUGHEMRA_NO_CORE, "the rest of null");
    expect(lughemra_server_feed(&none, document, 23).refusal == LUGHEMRA_NO_CORE, "a piece for no core");
    expect(lughemra_server_new(&core, 0, 100) == LUGHEMRA_BAD_WINDOW && !core.there, "a window of 0");
    expect(lughemra_server_new(&core, 1, 25) == LUGHEMRA_BAD_LIMIT && !core.there, "a limit of 25");
    expect(lughemra_server_new(&core, 1, 100) == 0 && core.there, "a server");
    expect(lughemra_server_new(&core, 1, 100) == LUGHEMRA_IN_USE && lughemra_client_new(&core, 1, 1, 100) == LUGHEMRA_IN_USE, "a full handle");
    expect(lughemra_client_call(&core, document, 23, NULL, 0).refusal == LUGHEMRA_NO_CORE, "a call of a server");
    memset(room, 0xee, sizeof room);
    expect(lughemra_client_output(&core, room, 64).refusal == LUGHEMRA_NO_CORE && room[0] == 0xee, "output of a client, of a server");
    expect(lughemra_client_feed(&core, document, 23).taken == 0 && lughemra_client_state(&core).refusal == LUGHEMRA_NO_CORE, "a piece for a client");
    expect(lughemra_server_request(&core, SIZE_MAX, NULL, 9).refusal == LUGHEMRA_NOT_READY, "a request of any index");
    expect(lughemra_server_answer(&core, 0, NULL, 9).refusal == LUGHEMRA_NOT_READY, "an answer to none");
    expect(lughemra_server_sent(&core, 1) == LUGHEMRA_TOO_MANY, "more was sent than waits");
    expect(lughemra_server_output(&core, NULL, 9).waiting == 0, "nothing waits");
    expect(lughemra_server_feed(&core, NULL, 9).taken == 0, "a piece of null bytes");
    expect(lughemra_server_feed(&core, document, 23).state.cause == LUGHEMRA_CLOSED_BY_MESSAGE, "bytes that are no message");
    expect(lughemra_server_state(&core).fault.number == LUGHEMRA_MSG_OPCODE, "why it was closed");
    expect(lughemra_server_answer(&core, 0, document, 23).refusal == LUGHEMRA_CLOSED, "an answer of a closed server");
    expect(lughemra_server_end(&core) == 0 && lughemra_server_state(&core).cause == LUGHEMRA_CLOSED_BY_MESSAGE, "the first cause stays");
    expect(lughemra_free(&core) == 0 && lughemra_server_state(&core).refusal == LUGHEMRA_NO_CORE, "freed for good");
}

/* Has a server answer a request, with bytes and rooms that stand so many bytes behind the front of their blocks, and end where these do. */
static void try_shifted_server(struct lughemra_core *core, size_t shift)
{
    const struct lughemra_message_numbers numbers = {7, 0, 0};
    uint8_t *piece = malloc(shift + 44), *room = malloc(shift + 44), *answer = malloc(shift + sizeof document);
    if (!piece || !room || !answer)
        exit(2);
    memcpy(answer + shift, document, sizeof document);
    expect(lughemra_write_message(&numbers, document, sizeof document, NULL, 0, 44, piece + shift, 44).written, "a request");
    expect(lughemra_server_feed(core, piece + shift, 44).state.waiting == 1, "a piece for a server at each alignment");
    expect(lughemra_server_feed(core, piece + shift, 44).taken == 0, "a full server takes none");
    expect(lughemra_server_request(core, 0, room + shift, 43).refusal == LUGHEMRA_NO_ROOM, "a room of a byte too few");
    expect(lughemra_server_request(core, 0, room + shift, 44).length == 44, "a request at each alignment");
    expect(memcmp(room + shift + 21, document, sizeof document) == 0, "its body at each alignment");
    expect(lughemra_server_answer(core, 0, answer + shift, 0).refusal == LUGHEMRA_BAD_COUNT, "no answers");
    expect(lughemra_server_answer(core, 0, NULL, SIZE_MAX).refusal == LUGHEMRA_BAD_COUNT, "null of SIZE_MAX is no answers");
    expect(lughemra_server_answer(core, 0, answer + shift, 22).document_fault.number != 0, "a cut answer");
    expect(lughemra_server_answer(core, 0, answer + shift, sizeof document).refusal == 0, "an answer at each alignment");
    expect(lughemra_server_output(core, room + shift, 44).waiting == 44 && room[shift] == 44, "output of a server at each alignment");
    expect(lughemra_server_sent(core, 44) == 0, "it is sent");
    free(piece);
    free(room);
    free(answer);
}

/* Hands a server null pointers with lengths above PTRDIFF_MAX, and bytes at each alignment; and moves its handle. */
static void try_server_bytes(void)
{
    struct lughemra_core core = {NULL, false}, moved;
    expect(lughemra_server_new(&core, SIZE_MAX, 100) == LUGHEMRA_BAD_WINDOW && !core.there, "the greatest window of a server");
    expect(lughemra_server_new(&core, 1, 100) == 0, "a server");
    expect(lughemra_server_feed(&core, NULL, SIZE_MAX).taken == 0 && lughemra_server_feed(&core, document, 0).taken == 0, "no bytes");
    expect(lughemra_server_output(&core, NULL, SIZE_MAX).copied == 0, "output of a server in null of SIZE_MAX");
    expect(lughemra_server_sent(&core, SIZE_MAX) == LUGHEMRA_TOO_MANY && lughemra_server_sent(&core, 0) == 0, "SIZE_MAX are sent");
    for (size_t shift = 0; shift < 16; shift++)
        try_shifted_server(&core, shift);
    moved = core;
    expect(lughemra_server_state(&moved).refusal == 0, "a handle of a server that was moved");
    expect(lughemra_free(&moved) == 0 && lughemra_free(&moved) == LUGHEMRA_NO_CORE, "it is freed once");
}

/* Calls of pools with handles of none, and with numbers out of range. */
static void try_pools(void)
{
    struct lughemra_core none = {NULL, false}, client = {NULL, false}, pool = {NULL, false};
    struct lughemra_core *without[] = {NULL, &none, &client};
    struct lughemra_checked_out out = {0, true, 0};
    expect(lughemra_client_new(&client, 1, 1, 100) == 0 && lughemra_pool_new(&client, 1) == LUGHEMRA_IN_USE, "a pool in a client");
    for (int i = 0; i < 3; i++) {
        out = lughemra_pool_check_out(without[i]);
        expect(out.refusal == LUGHEMRA_NO_CORE && !out.is_new && out.id == 0, "no pool lends");
        expect(lughemra_pool_check_in(without[i], 1, true).refusal == LUGHEMRA_NO_CORE, "no pool takes back");
        expect(lughemra_pool_clear(without[i]) == LUGHEMRA_NO_CORE && lughemra_pool_close(without[i]) == LUGHEMRA_NO_CORE,
               "the rest of no pool");
    }
    expect(lughemra_client_state(&client).refusal == 0 && lughemra_free(&client) == 0, "the client is left");
    expect(lughemra_pool_new(NULL, 1) == LUGHEMRA_NO_CORE, "a pool in null");
    expect(lughemra_pool_new(&pool, 0) == LUGHEMRA_BAD_MAX && !pool.there, "a pool of 0");
    expect(lughemra_pool_new(&pool, 1025) == LUGHEMRA_BAD_MAX && !pool.there, "a pool of 1,025");
    expect(lughemra_pool_new(&pool, SIZE_MAX) == LUGHEMRA_BAD_MAX && !pool.there, "a pool of any number");
    expect(lughemra_pool_new(&pool, 1024) == 0 && lughemra_pool_new(&pool, 1) == LUGHEMRA_IN_USE, "a pool");
    expect(lughemra_client_new(&pool, 1, 1, 100) == LUGHEMRA_IN_USE && lughemra_client_end(&pool) == LUGHEMRA_NO_CORE,
           "a client in a pool");
    for (uint64_t id = 1; id <= 1024 && out.refusal != LUGHEMRA_POOL_FULL; id++) {
        out = lughemra_pool_check_out(&pool);
        expect(out.refusal == 0 && out.is_new && out.id == id, "new ids rise");
    }
    expect(lughemra_pool_check_out(&pool).refusal == LUGHEMRA_POOL_FULL, "a full pool");
    expect(lughemra_pool_check_in(&pool, 0, true).refusal == LUGHEMRA_NOT_LENT, "the id 0");
    expect(lughemra_pool_check_in(&pool, UINT64_MAX, true).refusal == LUGHEMRA_NOT_LENT, "the greatest id");
    expect(lughemra_free(&pool) == 0 && lughemra_pool_check_out(&pool).refusal == LUGHEMRA_NO_CORE, "freed for good");
}

int main(void)
{
    try_null();
    try_ranges();
    try_enter();
    try_many();
    try_views();
    try_sections();
    try_rooms();
    try_builders();
    try_writing();
    try_handles();
    try_clients();
    try_servers();
    try_server_bytes();
    try_pools();
    try_alignments();
    if (!failed)
        printf("ok\n");
    return failed;
}
