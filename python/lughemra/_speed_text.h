/* Makes texts of bytes that the library has checked to be UTF-8 and that no one can change since: CPython's own decoder would check them once
 * more, a character after another. */
#include "_speed.h"

#ifdef __SSE2__
#include <emmintrin.h>

/* Texts that are shorter are left to CPython. */
#define SHORTEST 32

/* Returns a bit for each of 16 bytes that begins a character. */
static inline unsigned leads_of(const uint8_t *at)
{
    return (unsigned)_mm_movemask_epi8(_mm_cmpgt_epi8(_mm_loadu_si128((const __m128i *)at), _mm_set1_epi8(-65)));
}

/* Counts the characters, and tells the greatest byte, which is the lead of a character of the widest kind. */
static size_t measured(const uint8_t *at, size_t length, uint8_t *greatest)
{
    size_t count = 0, k = 0;
    uint8_t bytes[16], most = 0;
    __m128i found = _mm_setzero_si128();
    for (; k + 16 <= length; k += 16) {
        found = _mm_max_epu8(found, _mm_loadu_si128((const __m128i *)(at + k)));
        count += (size_t)__builtin_popcount(leads_of(at + k));
    }
    _mm_storeu_si128((__m128i *)bytes, found);
    for (int j = 0; j < 16; j++)
        most = bytes[j] > most ? bytes[j] : most;
    for (; k < length; k++) {
        count += (int8_t)at[k] > -65;
        most = at[k] > most ? at[k] : most;
    }
    *greatest = most;
    return count;
}

/* Returns the character of at most three bytes that begins here. Behind each text stand two more bytes: its 00, and the document's. */
static inline Py_UCS2 character_at(const uint8_t *at)
{
    unsigned first = at[0], second = at[1] & 0x3F, third = at[2] & 0x3F;
    unsigned two = (first & 0x1F) << 6 | second, three = (first & 0x0F) << 12 | second << 6 | third;
    return (Py_UCS2)(first < 0x80 ? first : first < 0xE0 ? two : three);
}

/* Writes the characters, none of which has four bytes. */
static void write_characters(const uint8_t *at, size_t length, Py_UCS2 *to)
{
    size_t k = 0;
    for (; k + 16 <= length; k += 16)
        for (unsigned leads = leads_of(at + k); leads != 0; leads &= leads - 1)
            *to++ = character_at(at + k + __builtin_ctz(leads));
    for (; k < length; k++)
        if ((int8_t)at[k] > -65)
            *to++ = character_at(at + k);
}

/* Returns the text of these bytes. */
static PyObject *checked_text(const uint8_t *at, size_t length)
{
    uint8_t greatest;
    size_t count;
    PyObject *made;
    if (length < SHORTEST)
        return PyUnicode_DecodeUTF8((const char *)at, (Py_ssize_t)length, NULL);
    count = measured(at, length, &greatest);
    /* A character above U+007F and none above U+00FF, or one above U+FFFF: the lead byte is C2 or C3, or F0 to F4. */
    if ((greatest >= 0x80 && greatest < 0xC4) || greatest > 0xEF)
        return PyUnicode_DecodeUTF8((const char *)at, (Py_ssize_t)length, NULL);
    made = PyUnicode_New((Py_ssize_t)count, greatest < 0x80 ? 0x7F : 0xFFFF);
    if (made != NULL && greatest < 0x80)
        memcpy(PyUnicode_1BYTE_DATA(made), at, length);
    else if (made != NULL)
        write_characters(at, length, PyUnicode_2BYTE_DATA(made));
    return made;
}
#else
/* Returns the text of these bytes. */
static PyObject *checked_text(const uint8_t *at, size_t length)
{
    return PyUnicode_DecodeUTF8((const char *)at, (Py_ssize_t)length, NULL);
}
#endif
