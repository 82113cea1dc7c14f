/* Stored pages by columns, and back, for a backup line:
 *
 *     backup columns < pages | gzip > pages.gz
 *     gzip -d < pages.gz | backup rows > pages
 *
 * A page is 129 words of 32 bits, the lowest byte first, as it stands in memory; any number of them
 * follow one another. docs/CALLING.md says when the stored pages are all that a backup needs. */
#include <stdio.h>
#include <string.h>

#include "kophdaen.h"

/* kophdaen_to_columns or kophdaen_from_columns. */
typedef uint64_t arrangement(const uint32_t *page, size_t page_words, uint32_t *out, size_t out_words);

/* Writes each page of the input as the call arranges it; what went wrong, or NULL. */
static const char *arrange_all(arrangement *arrange)
{
    enum { PAGE_WORDS = KOPHDAEN_PAGE_WORDS };
    uint32_t page[PAGE_WORDS], out[PAGE_WORDS];
    size_t bytes;
    while ((bytes = fread(page, 1, sizeof page, stdin)) == sizeof page) {
        if (KOPHDAEN_ANSWER(arrange(page, PAGE_WORDS, out, PAGE_WORDS)) != 0)
            return "a page is refused";
        if (fwrite(out, sizeof out, 1, stdout) != 1)
            return "writing failed";
    }
    if (ferror(stdin))
        return "reading failed";
    if (bytes != 0)
        return "the input ends inside a page";
    return fflush(stdout) == 0 ? NULL : "writing failed";
}

int main(int count, char **words)
{
    const char *to = count == 2 ? words[1] : "", *wrong;
    int columns = strcmp(to, "columns") == 0;
    if (!columns && strcmp(to, "rows") != 0) {
        fprintf(stderr, "usage: backup columns|rows < pages\n");
        return 2;
    }
    wrong = arrange_all(columns ? kophdaen_to_columns : kophdaen_from_columns);
    if (wrong == NULL)
        return 0;
    fprintf(stderr, "backup: %s\n", wrong);
    return 1;
}
