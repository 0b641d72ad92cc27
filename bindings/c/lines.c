/* Runs a script, as `kaltewi script` does: each line of the standard input goes to a core, and what it prints to the
   standard output. The status is 1 where a line is bad, or memory lacked. Each text is first asked for with a room of
   no bytes, so that one which is too small is tried with each of them. */
#include "kaltewi.h"

#include <stdio.h>
#include <stdlib.h>
#include <string.h>

/* Prints what the last line printed. */
static int print_text(kw_core *core)
{
    uint8_t none[1] = {0};
    size_t len = 0;
    kw_status status = kw_core_text(core, none, 0, &len);
    if (status == KW_DONE)
        return len == 0;
    if (status != KW_TOO_SMALL)
        return 0;
    uint8_t *text = malloc(len);
    size_t again = 0;
    int is_good = text && kw_core_text(core, text, len - 1, &again) == KW_TOO_SMALL && again == len &&
                  kw_core_text(core, text, len, &again) == KW_DONE && again == len && fwrite(text, 1, len, stdout) == len;
    free(text);
    return is_good;
}

int main(void)
{
    kw_core core = {0};
    char *line = NULL;
    size_t size = 0;
    ssize_t n;
    int is_bad = 0, is_good = 1;
    if (kw_core_line(&core, (const uint8_t *)"[]", 2) != KW_CLOSED || kw_core_open(&core) != KW_DONE)
        return 2;
    while (is_good && (n = getline(&line, &size, stdin)) >= 0) {
        if (n > 0 && line[n - 1] == '\n')
            n--;
        kw_status status = kw_core_line(&core, (const uint8_t *)line, (size_t)n);
        is_bad |= status == KW_BAD_TEXT;
        is_good = (status == KW_DONE || status == KW_BAD_TEXT) && print_text(&core);
    }
    free(line);
    kw_core_close(&core);
    kw_core_close(&core);
    if (core.is_open || kw_core_line(&core, (const uint8_t *)"[]", 2) != KW_CLOSED)
        return 2;
    return is_good ? is_bad : 2;
}
