/* Looking up an address in an image, for C99 and C++: how many entries hold the address, and their
 * values. An image is a saved map, the bytes that iset_write_image of iset.h writes; docs/IMAGE.md
 * has the format. The calls read it where it is, for example in a file that is mapped read-only.
 *
 * A whole trap handler is examples/trap_handler.c. A program that only looks up needs this header
 * and one archive, which `./archive` proves and writes, x86-64 code:
 *
 *     gcc -std=c99 -I include handler.c target/staticlib/libiset_image.a
 *
 * An entry is a range with a value. It holds an address if start <= address < end. Tree order is by
 * start, then by end; equal ranges are in the order in which the map keeps them. Each call answers
 * what iset_read_image into large enough memory and then iset_drain from Included address to
 * Included address would find. That is proved (docs/THEOREMS.md, Request7).
 *
 * A call takes any bytes and any numbers, and tests the whole image each time. So it takes a time
 * that grows with the number of entries: it goes twice over all of them. The caller must ensure two
 * things: `image` points to at least `image_len` bytes that can be read, and nothing changes them
 * during the call. If a mapped file is cut meanwhile, the system ends the process.
 *
 * The calls may be made in a signal handler, and by several threads at once. They write nothing but
 * their own stack. They keep nothing between calls, allocate nothing, take no lock, make no system
 * call and leave errno alone.
 *
 * Stack: the recursion of a call goes as deep as the image's tree, and on no bytes deeper than 34
 * calls: first those of the test, and after all of them have returned, those of the search. The
 * compiled code takes 10,592 bytes at the deepest, 304 for each call of the test. A handler's
 * stack should have ISET_IMAGE_STACK bytes for a call, besides what the handler and the system
 * take. These numbers are measured, not proved: tests/c/stacks.c measures what the calls take, on a
 * stack of 64 KiB, and holds it to ISET_IMAGE_STACK. */
#ifndef ISET_IMAGE_H
#define ISET_IMAGE_H

#include <stddef.h>
#include <stdint.h>

#define ISET_IMAGE_STACK 12288

/* What iset_image_refusal returns. If several apply, the first of this list is returned. Treat
 * every number but ISET_IMAGE_OK as a refusal. The numbers are those of enum iset_refusal in
 * iset.h. */
enum iset_image_no {
    ISET_IMAGE_OK = 0,
    ISET_IMAGE_BAD_IMAGE = 12, /* the bytes have not the layout or the length of an image */
    ISET_IMAGE_NO_ROOM = 1,    /* the image has more than 65,535 entries; no map has so many */
    ISET_IMAGE_BROKEN = 2,     /* the map in the image does not pass the check of a map */
    ISET_IMAGE_NO_SUCH = 3     /* k is not below the number of entries that hold the address */
};

#ifdef __cplusplus
extern "C" {
#endif

/* How many entries hold the address. 0 if none does, and if the image is refused: then
 * iset_image_refusal with k = 0 says which, ISET_IMAGE_NO_SUCH if none does. */
uint64_t iset_image_count(const uint8_t *image, size_t image_len, uint64_t address);

/* The value of the k-th of these entries in tree order, counted from 0. 0 if this is refused; a
 * value can be 0 too, and iset_image_refusal tells the two apart. */
uint64_t iset_image_value(const uint8_t *image, size_t image_len, uint64_t address, uint64_t k);

/* The number of iset_image_value's refusal for the same arguments, or ISET_IMAGE_OK. */
uint64_t iset_image_refusal(const uint8_t *image, size_t image_len, uint64_t address, uint64_t k);

#ifdef __cplusplus
}
#endif

#endif
