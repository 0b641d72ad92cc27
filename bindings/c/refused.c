/* Runs the script of the standard input once for each growth that its core asks for, with that growth refused. The heap
   is this program's own. A refused growth is said by KW_NO_MEMORY, after which the core has no text and can be closed;
   or it is made do without, and the texts are those of the whole run. Prints how many growths there were. */
#include "heap.h"
#include "kaltewi.h"

#include <stdio.h>
#include <string.h>

static char script[1 << 20];
static uint8_t whole[1 << 20], printed[1 << 20];

/* Runs the script, and answers how it ended: with KW_DONE, or the status of the first line that lacked memory. */
static kw_status run(uint8_t *out, size_t *len)
{
    kw_core core = {0};
    size_t text = 0;
    kw_status status = kw_core_open(&core);
    *len = 0;
    for (char *line = script; status == KW_DONE && *line;) {
        size_t n = strcspn(line, "\n");
        status = kw_core_line(&core, (const uint8_t *)line, n);
        line += n + (line[n] == '\n');
        if (kw_core_text(&core, out + *len, sizeof whole - *len, &text) != KW_DONE || (status == KW_NO_MEMORY && text))
            status = KW_CLOSED;
        *len += text;
        if (status == KW_BAD_TEXT)
            status = KW_DONE;
    }
    kw_core_close(&core);
    return core.is_open ? KW_CLOSED : status;
}

int main(void)
{
    size_t len = 0, got = 0, n = fread(script, 1, sizeof script - 1, stdin);
    long growths = 0;
    script[n] = 0;
    if (run(whole, &len) != KW_DONE)
        return 2;
    do {
        was_refused = 0;
        left = growths;
        kw_status status = run(printed, &got);
        left = -1;
        if (status != KW_DONE && (status != KW_NO_MEMORY || !was_refused))
            return 3;
        if (got > len || (status == KW_DONE && got != len) || memcmp(printed, whole, got))
            return 4;
        growths += was_refused;
    } while (was_refused);
    printf("%ld growths\n", growths);
    return growths ? 0 : 5;
}
