/* A terminal over a stored image: terminal IMAGE [AMOUNT..]
 *
 * Each AMOUNT is a purchase: the request goes out on standard output, and the reply comes in on
 * standard input. Lines about it go to standard error. A purchase that has no reply stays open in
 * the file IMAGE.book, and the next start reverses it first: so no purchase is paid twice.
 *
 * The next image is in the file before the key is used, and a lock is held from reading to storing:
 * so no number is used twice, whenever the terminal stops, and however many run at once. An image
 * has one name: where it is a link, or has a second one, the terminal does not start. */
#define _DEFAULT_SOURCE
#include <dukpt.h>
#include <signal.h>
#include <stdarg.h>

#include "example.h"
#include "terminal_book.h"
#include "terminal_files.h"

/* The facility gives them to the terminal, in a key block: see key_block.c. */
static const uint8_t INITIAL[16] = {0x6A, 0xC2, 0x92, 0xFA, 0xA1, 0x31, 0x5B, 0x4D,
                                    0x85, 0x8A, 0xB3, 0xA3, 0xD7, 0xD5, 0x93, 0x3A};
static const uint8_t IKSN[10] = {0xFF, 0xFF, 0x98, 0x76, 0x54, 0x32, 0x10, 0xE0, 0x00, 0x00};
static const uint8_t PAN[] = "4012345678909", PIN[] = "1234";

/* The terminal: where its image is stored, the image, and the number that it uses. */
static struct {
    const char *path;
    uint8_t image[DUKPT_IMAGE_BYTES + 1], key[DUKPT_KEY_BYTES], ksn[DUKPT_KSN_BYTES];
    size_t image_size;
} terminal;

/* A frame, and how many bytes it has. */
struct frame {
    uint8_t bytes[DUKPT_FRAME_ROOM];
    uint32_t size;
};

/* Leaves no key in memory: neither in the terminal nor on the stack, where calls had them. */
static void wipe(void)
{
    explicit_bzero(&terminal.image, sizeof terminal.image);
    explicit_bzero(&terminal.key, sizeof terminal.key);
    dukpt_wipe_stack();
}

/* Writes a line to standard error, at once. */
static void say(const char *format, ...)
{
    char line[128];
    va_list values;
    va_start(values, format);
    int size = vsnprintf(line, sizeof line - 1, format, values);
    va_end(values);
    if (size < 0)
        exit(1);
    if (size > (int)sizeof line - 2)
        size = sizeof line - 2;
    line[size++] = '\n';
    if (write(STDERR_FILENO, line, (size_t)size) != size)
        exit(1);
}

/* A key serial number as a text. Two may be used in one line. */
static const char *text_of(const uint8_t ksn[DUKPT_KSN_BYTES])
{
    static char texts[2][2 * DUKPT_KSN_BYTES + 1];
    static int other;
    char *text = texts[other = !other];
    for (size_t at = 0; at < DUKPT_KSN_BYTES; at++)
        snprintf(text + 2 * at, 3, "%02X", ksn[at]);
    return text;
}

/* Keeps the last purchase. */
static void keep(const struct purchase *last)
{
    char name[PATH_ROOM];
    uint8_t book[BOOK_BYTES];
    write_book(last, book);
    store(beside(terminal.path, ".book", name), book, sizeof book);
}

/* Gives whether there is a last purchase. */
static int recall(struct purchase *last)
{
    char name[PATH_ROOM];
    uint8_t book[BOOK_BYTES + 1];
    ssize_t size = stored(beside(terminal.path, ".book", name), book, sizeof book);
    if (size >= 0 && !read_book(book, (size_t)size, last))
        fail(name, "damaged");
    return size >= 0;
}

/* Reads the image that is stored, or loads the terminal, which has no last purchase then. A file
 * that is longer than an image gives a byte more, and is none. */
static void restart(int has_last)
{
    uint8_t ksn[DUKPT_KSN_BYTES];
    ssize_t size = stored(terminal.path, terminal.image, sizeof terminal.image);
    if (size < 0 && has_last)
        fail(terminal.path, "there is no image, and a last purchase");
    terminal.image_size = size < 0 ? DUKPT_IMAGE_BYTES : (size_t)size;
    if (size < 0) {
        demand("registers_load", dukpt_registers_load(INITIAL, sizeof INITIAL, IKSN, sizeof IKSN,
                                                      terminal.image, DUKPT_IMAGE_BYTES));
        store(terminal.path, terminal.image, DUKPT_IMAGE_BYTES);
        say("loaded %s", text_of(IKSN));
    }
    uint32_t status =
        dukpt_registers_number(terminal.image, terminal.image_size, ksn, sizeof ksn);
    if (status != DUKPT_FAULT_SPENT)
        demand(terminal.path, status);
}

/* Uses the next number: the image without it is stored before anything has its key. */
static void take(void)
{
    uint8_t next_image[DUKPT_IMAGE_BYTES];
    demand("registers_next",
           dukpt_registers_next(terminal.image, terminal.image_size, next_image, sizeof next_image,
                                terminal.key, sizeof terminal.key, terminal.ksn,
                                sizeof terminal.ksn));
    memcpy(terminal.image, next_image, sizeof next_image);
    terminal.image_size = sizeof next_image;
    explicit_bzero(next_image, sizeof next_image);
    store(terminal.path, terminal.image, terminal.image_size);
}

/* Sends a frame, and reads the frame that comes back. The purchase stays open where none does. */
static struct frame answer_to(const struct frame *sent)
{
    struct frame answer;
    if (wrote_all(STDOUT_FILENO, sent->bytes, sent->size)
        && read_most(STDIN_FILENO, answer.bytes, 2) == 2
        && dukpt_frame_length(answer.bytes, 2, &answer.size) == DUKPT_OK
        && read_most(STDIN_FILENO, answer.bytes + 2, answer.size - 2) == (ssize_t)answer.size - 2)
        return answer;
    say("no reply");
    exit(1);
}

/* Ends the program where an answer is not the reply. The purchase stays open. */
static void accept_reply(const struct frame *answer, uint32_t status)
{
    uint8_t ksn[DUKPT_KSN_BYTES];
    uint32_t reason;
    if (status == DUKPT_OK)
        return;
    if (dukpt_read_refusal(answer->bytes, answer->size, ksn, sizeof ksn, &reason) == DUKPT_OK)
        say("refused %s %u", text_of(ksn), (unsigned)reason);
    else
        say("no reply: %s", dukpt_status_text(status));
    exit(1);
}

/* Reverses the open purchase, under a number of its own. */
static void reverse(struct purchase *last)
{
    struct frame sent, answer;
    uint8_t ksn[DUKPT_KSN_BYTES], reversed[DUKPT_KSN_BYTES];
    uint32_t state;
    take();
    demand("reversal_request",
           dukpt_reversal_request(terminal.key, sizeof terminal.key, terminal.ksn,
                                  sizeof terminal.ksn, last->ksn, sizeof last->ksn, sent.bytes,
                                  sizeof sent.bytes, &sent.size));
    say("reversing %s of %s", text_of(terminal.ksn), text_of(last->ksn));
    answer = answer_to(&sent);
    accept_reply(&answer, dukpt_check_reversal_reply(
                              terminal.key, sizeof terminal.key, terminal.ksn, sizeof terminal.ksn,
                              last->ksn, sizeof last->ksn, answer.bytes, answer.size));
    demand("read_reversal_reply",
           dukpt_read_reversal_reply(answer.bytes, answer.size, ksn, sizeof ksn, reversed,
                                     sizeof reversed, &state));
    last->outcome = UNDONE;
    keep(last);
    say(state == 1 ? "undone %s" : "none stands %s", text_of(last->ksn));
}

/* That two numbers follow the next one, which the reversals of its purchase may need. */
static void leave_two(void)
{
    uint8_t numbers[3][DUKPT_KSN_BYTES];
    demand(terminal.path, dukpt_registers_number(terminal.image, terminal.image_size, numbers[0],
                                                 sizeof numbers[0]));
    for (size_t at = 0; at < 2; at++)
        demand(terminal.path, dukpt_next_number(numbers[at], sizeof numbers[at], numbers[at + 1],
                                                sizeof numbers[at + 1]));
}

/* Pays: the purchase is kept as open before its request goes out, and closed by its reply. */
static void pay(uint32_t amount)
{
    struct purchase it = {.outcome = OPEN, .amount = amount};
    struct frame sent, answer;
    uint8_t ksn[DUKPT_KSN_BYTES], code[DUKPT_CODE_BYTES];
    leave_two();
    take();
    memcpy(it.ksn, terminal.ksn, sizeof it.ksn);
    demand("payment_request",
           dukpt_payment_request(terminal.key, sizeof terminal.key, it.ksn, sizeof it.ksn, PAN,
                                 sizeof PAN - 1, PIN, sizeof PIN - 1, amount, sent.bytes,
                                 sizeof sent.bytes, &sent.size));
    keep(&it);
    say("number %s", text_of(it.ksn));
    answer = answer_to(&sent);
    accept_reply(&answer, dukpt_check_reply(terminal.key, sizeof terminal.key, it.ksn,
                                            sizeof it.ksn, answer.bytes, answer.size));
    demand("read_reply", dukpt_read_reply(answer.bytes, answer.size, ksn, sizeof ksn, code,
                                          sizeof code));
    it.code = (uint8_t)(10 * (code[0] - '0') + code[1] - '0');
    it.outcome = it.code == 0 ? APPROVED : DECLINED;
    keep(&it);
    if (it.outcome == APPROVED)
        say("approved %s %u", text_of(it.ksn), (unsigned)amount);
    else
        say("declined %s %02u", text_of(it.ksn), (unsigned)it.code);
}

/* Tells the last purchase. */
static void tell(const struct purchase *last)
{
    const char *ksn = text_of(last->ksn);
    switch (last->outcome) {
    case OPEN:
        say("last open %s %u", ksn, (unsigned)last->amount);
        break;
    case APPROVED:
        say("last approved %s %u", ksn, (unsigned)last->amount);
        break;
    case DECLINED:
        say("last declined %s %02u", ksn, (unsigned)last->code);
        break;
    case UNDONE:
        say("last undone %s", ksn);
    }
}

/* Comes to rest, and pays if there is an amount. No other process has the image meanwhile. */
static void work(const uint32_t *amount)
{
    struct purchase last;
    int lock = locked(terminal.path), has_last = recall(&last);
    restart(has_last);
    if (has_last)
        tell(&last);
    if (has_last && last.outcome == OPEN)
        reverse(&last);
    if (amount != NULL)
        pay(*amount);
    wipe();
    close(lock);
}

/* Reads an amount in decimal. */
static uint32_t amount_of(const char *text)
{
    char *end;
    errno = 0;
    unsigned long amount = strtoul(text, &end, 10);
    if (text[strspn(text, "0123456789")] != 0 || end == text || errno != 0 || amount > UINT32_MAX)
        fail(text, "an amount is a number from 0 to 4294967295");
    return (uint32_t)amount;
}

int main(int count, char **arguments)
{
    if (count < 2) {
        fprintf(stderr, "usage: terminal IMAGE [AMOUNT..]\n");
        return 1;
    }
    for (int at = 2; at < count; at++)
        (void)amount_of(arguments[at]);
    static char path[PATH_ROOM];
    terminal.path = only_path(arguments[1], path);
    /* A host that is gone is no reply, and no end without a word. */
    signal(SIGPIPE, SIG_IGN);
    atexit(wipe);
    if (count == 2)
        work(NULL);
    for (int at = 2; at < count; at++) {
        uint32_t amount = amount_of(arguments[at]);
        work(&amount);
    }
    return 0;
}
