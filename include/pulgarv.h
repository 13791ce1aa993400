/* The call of Pulgarv for programs in C and C++. Link with target/staticlib/libfacade_c.a. */
#ifndef PULGARV_H
#define PULGARV_H

#include <stddef.h>
#include <stdint.h>

#ifdef __cplusplus
extern "C" {
#endif

/*
 * Admits a table, given as the table_len bytes of its file.
 *
 * The text of the answer is put at the front of the place, which has place_len bytes: the listing of an
 * admitted table, or the refused line of any other, as docs/FORMATS.md describes them. The call answers the
 * length of the text. No zero byte follows the text, and the bytes of the place behind it stay as they were.
 *
 * If the place is shorter than the text, the call answers -21, its only negative answer, and the whole place
 * stays as it was. 8192 bytes always suffice.
 *
 * The table bytes are only read. Any bytes are allowed, and none at all; bytes that are no table file give a
 * refused line. Both pointers must be valid and not null, also where their length is 0, and the place must not
 * overlap the table bytes.
 */
int64_t pulgarv_admit(const uint8_t *table, size_t table_len, uint8_t *place, size_t place_len);

#ifdef __cplusplus
}
#endif

#endif
