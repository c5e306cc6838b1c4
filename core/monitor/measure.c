#include "measure.h"
#include "chain.h"
#include "ends.h"
#include "log.h"
#include "memory.h"
#include "shelf.h"

enum { OPERATION_BYTES = 2, SERIAL_BYTES = 4, HEAD_BYTES = NONCE_BYTES + OPERATION_BYTES + DIGEST_BYTES };

static enum { UNMEASURED, MEASURING, SEALED } state;
static struct opening opening;
static struct violation violation;
static struct image image;
static u64 cells[CELLS];

void measure_boot(const struct job *session, const u8 *text)
{
    image = read_image(text, session->text_length, session->operation, cells);
    opening.operation = session->operation;
    opening.begin_at = image.begin_at;
    memcpy(opening.nonce, session->nonce, NONCE_BYTES);
    memcpy(opening.digest, image.digest, DIGEST_BYTES);
    opening.numbered = session->calls != 0;
    opening.calls = opening.numbered ? session->calls : 1;
    log_open(session->log_room);
    shelf_open(session->key, session->key_length);
}

u64 measured_words(void)
{
    return image.words;
}

bool measure_is_complete(void)
{
    return opening.serial == opening.calls;
}

/* What stands in the begin record for the image: of a numbered window its digest and number, hashed. */
static void window_digest(u8 digest[DIGEST_BYTES])
{
    u8 numbered[DIGEST_BYTES + SERIAL_BYTES];
    memcpy(numbered, opening.digest, DIGEST_BYTES);
    put_big(numbered + DIGEST_BYTES, opening.serial, SERIAL_BYTES);
    if (opening.numbered) sha256(numbered, sizeof numbered, digest);
    else memcpy(digest, opening.digest, DIGEST_BYTES);
}

/* Chain, bits, targets and violation begin anew with each window; the cells stay. */
static void open_window(void)
{
    u8 head[HEAD_BYTES], digest[DIGEST_BYTES];
    window_digest(digest);
    put_bytes(put_big(put_bytes(head, opening.nonce, NONCE_BYTES), opening.operation, OPERATION_BYTES), digest, DIGEST_BYTES);
    chain_start(head, sizeof head);
    log_clear();
    violation.stands = false;
    state = MEASURING;
}

void measure_begin(u64 operation, u64 at)
{
    if (state == MEASURING) end_stopped("Nested");
    if (state == UNMEASURED && operation == opening.operation && at == opening.begin_at) open_window();
}

void measure_end(u64 operation)
{
    if (state != MEASURING) return;
    if (operation != opening.operation) end_stopped("WrongEnd");
    shelf_seal(&opening, chain_digest(), &violation);
    opening.serial++;
    state = measure_is_complete() ? SEALED : UNMEASURED;
}

void measure_bit(u64 value)
{
    if (state == MEASURING) log_bit(value != 0);
}

void measure_target(u64 address)
{
    if (state == MEASURING) log_target(address);
}

void measure_return(u64 address)
{
    if (state == MEASURING) chain_absorb(address);
}

void measure_define(u64 cell, u64 value)
{
    if (cell < image.cells) cells[cell] = value;
}

void measure_use(u64 cell, u64 value)
{
    if (state != MEASURING || cell >= image.cells || value == cells[cell] || violation.stands) return;
    violation = (struct violation){.stands = true, .cell = cell, .expected = cells[cell], .found = value};
}
