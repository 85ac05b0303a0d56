/* A trap handler that looks the trapping address up in a saved map. The program saves a map of
 * "loaded code", sixteen pages without access, and maps the file read-only. Then it touches
 * addresses in these pages. Each touch traps, and the handler asks the image which functions hold
 * the address, and what their numbers are. To build and run it on x86-64 Linux:
 *
 *     ./archive
 *     gcc -std=c99 -I include examples/trap_handler.c target/staticlib/libiset_image.a \
 *         target/staticlib/libiset.a -o trap_handler && ./trap_handler
 *
 * It prints the lines of examples/trap_handler.expected. libiset.a is for the part that builds and
 * saves the map. A program that only looks up needs libiset_image.a alone. */
#define _DEFAULT_SOURCE
#include <inttypes.h>
#include <signal.h>
#include <stdio.h>
#include <stdlib.h>
#include <string.h>
#include <sys/mman.h>
#include <unistd.h>

#include "iset.h"
#include "iset_image.h"

#define PAGES 16
#define PAGE 4096
#define ENTRIES 5
#define MOST 3

static void stop(const char *what) {
    fprintf(stderr, "trap_handler: %s\n", what);
    exit(1);
}

/* ---- the handler, and what it shares with the program */

static uint8_t *code;         /* the pages of loaded code */
static const uint8_t *image;  /* the image that is asked */
static size_t image_len;
static struct {
    uint64_t address, count, no, values[MOST];
} volatile trapped;

/* The attribute is for the emulator qemu 8.2, which does not align a handler's stack as x86-64 code
 * expects it. Linux does. */
__attribute__((force_align_arg_pointer))
static void on_trap(int number, siginfo_t *info, void *context) {
    (void)number, (void)context;
    uintptr_t at = (uintptr_t)info->si_addr;
    if (at < (uintptr_t)code || at >= (uintptr_t)code + PAGES * PAGE) _exit(2);
    trapped.address = at;
    trapped.count = iset_image_count(image, image_len, at);
    trapped.no = iset_image_refusal(image, image_len, at, 0);
    for (uint64_t k = 0; k < trapped.count && k < MOST; k++)
        trapped.values[k] = iset_image_value(image, image_len, at, k);
    /* Opens the page, so that the access that trapped goes on. */
    if (mprotect((void *)(at - at % PAGE), PAGE, PROT_READ)) _exit(2);
}

/* The handler runs on a stack of its own, of 64 KiB. */
static void install(void) {
    stack_t stack;
    struct sigaction action;
    memset(&stack, 0, sizeof stack);
    memset(&action, 0, sizeof action);
    stack.ss_size = 65536;
    stack.ss_sp = malloc(stack.ss_size);
    action.sa_sigaction = on_trap;
    action.sa_flags = SA_SIGINFO | SA_ONSTACK;
    if (!stack.ss_sp || sigaltstack(&stack, NULL) || sigaction(SIGSEGV, &action, NULL))
        stop("the handler cannot be installed");
}

/* Touches a byte of the loaded code, and prints what the handler found. */
static void touch(size_t offset) {
    trapped.count = trapped.no = 99;
    (void)*(volatile const uint8_t *)(code + offset);
    if (mprotect(code + offset - offset % PAGE, PAGE, PROT_NONE)) stop("a page cannot be closed");
    printf("trap at %zu: ", offset);
    if (trapped.address != (uintptr_t)code + offset) printf("another address\n");
    else if (trapped.no == ISET_IMAGE_NO_SUCH) printf("no function\n");
    else if (trapped.no != ISET_IMAGE_OK) printf("the image is refused (%" PRIu64 ")\n", trapped.no);
    else {
        printf("%" PRIu64 " function%s:", trapped.count, trapped.count == 1 ? "" : "s");
        for (uint64_t k = 0; k < trapped.count && k < MOST; k++)
            printf(" %" PRIu64, trapped.values[k]);
        printf("\n");
    }
}

/* ---- the saved map */

/* Builds the map of five functions and writes its image. Each function has a number; 22 is a part
 * of 21 that was inlined, and 31 and 32 share their code. Returns the image's length. */
static size_t save(uint8_t *bytes, size_t bytes_len) {
    static const uint64_t functions[ENTRIES][3] = {{0, 100, 10}, {4096, 12288, 21},
        {8192, 8200, 22}, {20480, 20500, 31}, {20480, 20500, 32}};
    static uint64_t list[ENTRIES * 3], nodes[ISET_NODES_LEN(ENTRIES)];
    static uint8_t colours[ISET_COLOURS_LEN(ENTRIES)];
    uint64_t built[ISET_BUILD_ANSWER], written[ISET_WRITE_IMAGE_ANSWER];
    for (size_t i = 0; i < ENTRIES; i++) {
        list[3 * i] = (uintptr_t)code + functions[i][0];
        list[3 * i + 1] = (uintptr_t)code + functions[i][1];
        list[3 * i + 2] = functions[i][2];
    }
    if (iset_build(0, nodes, ISET_NODES_LEN(ENTRIES), colours, ISET_COLOURS_LEN(ENTRIES), list,
            ENTRIES * 3, built, ISET_BUILD_ANSWER) ||
        iset_write_image(built[ISET_BUILT_COUNT], built[ISET_BUILT_ROOT], nodes,
            ISET_NODES_LEN(ENTRIES), colours, ISET_COLOURS_LEN(ENTRIES), bytes, bytes_len, written,
            ISET_WRITE_IMAGE_ANSWER))
        stop("the map cannot be saved");
    return written[ISET_WRITTEN_LENGTH];
}

/* Writes bytes to a file and maps it read-only, in the place of the image that was asked before. In
 * the file they stand at the end of a page, and the page after that has no access: so a read past
 * them would end the program. */
static void map_file(const uint8_t *bytes, size_t len) {
    static const uint8_t before[PAGE];
    size_t front = (PAGE - len % PAGE) % PAGE, whole = front + len;
    FILE *file = tmpfile();
    if (!file || fwrite(before, 1, front, file) != front || fwrite(bytes, 1, len, file) != len ||
        fflush(file))
        stop("the file cannot be written");
    uint8_t *at = mmap(NULL, whole + PAGE, PROT_NONE, MAP_PRIVATE | MAP_ANONYMOUS, -1, 0);
    if (at == MAP_FAILED ||
        mmap(at, whole, PROT_READ, MAP_PRIVATE | MAP_FIXED, fileno(file), 0) == MAP_FAILED)
        stop("the file cannot be mapped");
    fclose(file);
    image = at + front;
    image_len = len;
}

int main(void) {
    static uint8_t bytes[ISET_IMAGE_LEN(ENTRIES)];
    code = mmap(NULL, PAGES * PAGE, PROT_NONE, MAP_PRIVATE | MAP_ANONYMOUS, -1, 0);
    if (code == MAP_FAILED) stop("there are no pages");
    install();
    size_t len = save(bytes, sizeof bytes);
    map_file(bytes, len);
    static const size_t offsets[] = {0, 99, 100, 4096, 8191, 8192, 8199, 8200, 12287, 12288, 20480,
        20499, 20500, 65535};
    for (size_t i = 0; i < sizeof offsets / sizeof *offsets; i++) touch(offsets[i]);
    printf("a file that was cut:\n");
    map_file(bytes, len - 1);
    touch(8192);
    printf("a file with one bit changed:\n");
    bytes[4] ^= 1; /* the root's slot */
    map_file(bytes, len);
    touch(8192);
    return 0;
}
