/* The start of a run: the image's memory, its code and data out of the text, the session, and the way to the first instruction. */
#include "job.h"
#include "layout.h"
#include "measure.h"
#include "memory.h"
#include "pages.h"
#include "probe.h"
#include "steps.h"

extern u64 image_code[], image_globals[], image_stack[];

void boot(void);
void inputs_set(const u64 *first, u64 count);

void boot(void)
{
    clear(image_code, 4 * CODE_WORDS);
    clear(image_globals, GLOBALS_BYTES);
    clear(image_stack, STACK_BYTES);
    sha256_choose(job.options & PLAIN);
    inputs_set(job.rest, job.inputs);
    const u64 *text = steps_boot(&job, job.rest + job.inputs);
    measure_boot(&job, (const u8 *)text);
    pages_give_code(measured_words());
    probe_boot(&job);
    steps_start();
}
