/* What the library has for C alone, beside the proved calls: texts of statuses, and wipes of the
 * stack. tools/library compiles it, with frame pointers and without stack protectors. */
#include "dukpt.h"

#include <string.h>

/* Longer than each text. No text is found by an address, so that nothing is filled in at a start. */
enum { TEXT_ROOM = 128 };

const char *dukpt_status_text(uint32_t status)
{
    static const char texts[][TEXT_ROOM] = {
#include "status_texts.inc"
    };
    if (status >= sizeof texts / sizeof *texts || texts[status][0] == 0)
        return "unknown status";
    return texts[status];
}

/* The frame of a wipe stands where those of its caller's calls stood: under the return address the
 * frame pointer, and right below that the array. The compiler sees the array used in assembly that
 * may do anything with it, so it does not leave out the zeros. */
#define WIPE(bytes)                                                                                \
    uint8_t below[bytes];                                                                          \
    memset(below, 0, sizeof below);                                                                \
    __asm__ volatile("" : : "r"(below) : "memory")

__attribute__((noinline)) void dukpt_wipe_stack(void)
{
    WIPE(DUKPT_STACK_BYTES);
}

__attribute__((noinline)) void dukpt_wipe_host_stack(void)
{
    WIPE(DUKPT_HOST_STACK_BYTES);
}
