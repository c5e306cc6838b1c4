/* Makes digests and codes of what the host puts, both ways, in place of a run: a program of its own, for a check. */
#include "frame.h"
#include "hmac.h"
#include "port.h"
#include "registers.h"

/* The items, one behind the other: of each the lengths, the key and the message, each filled up to a multiple of 8 bytes. */
struct item {
    u64 key_length, length;
    u8 key[];
};

extern const struct {
    u64 count;
    struct item first;
} job;

void boot(void);
void on_exception(struct frame *frame);
void on_step(struct frame *frame);
void on_tick(void);
_Noreturn void on_own(void);

static size_t filled(u64 length)
{
    return (length + 7) / 8 * 8;
}

static void put_digest(const char *word, const u8 digest[DIGEST_BYTES])
{
    put(word);
    for (int i = 0; i < DIGEST_BYTES; i++) put_byte(digest[i]);
    put("\n");
}

static const struct item *try_item(const struct item *item)
{
    const u8 *message = item->key + filled(item->key_length);
    u8 digest[DIGEST_BYTES];
    struct hmac_key key;
    hmac_key_set(&key, item->key, item->key_length);
    hmac(&key, message, item->length, digest);
    put_digest("code ", digest);
    sha256(message, item->length, digest);
    put_digest("digest ", digest);
    return (const struct item *)(message + filled(item->length));
}

static void try_all(bool plain)
{
    const struct item *item = &job.first;
    sha256_choose(plain);
    for (u64 left = job.count; left; left--) item = try_item(item);
}

void boot(void)
{
    put(HAS_SHA256(get(id_aa64isar0_el1)) ? "instructions\n" : "no instructions\n");
    try_all(false);
    try_all(true);
    off();
}

_Noreturn void on_own(void)
{
    put("an exception\n");
    off();
}

void on_exception(struct frame *frame)
{
    (void)frame;
    on_own();
}

void on_step(struct frame *frame)
{
    on_exception(frame);
}

void on_tick(void)
{
    on_own();
}
