/*
 * large.c - disks of up to 16,777,216 sectors (W-207): the archive and the
 * reference run the same steps, each on its own disk of 8 GiB, which is memory
 * that is reserved and takes room only where it is written.
 *
 *   large [--long]      with --long also a fill of 1 GiB, and times
 *
 * First come sequences whose outcomes are written down as numbers, so that a
 * mistake which archive and reference share is noticed; then random exchanges.
 * Ends with 0 if no difference was found, 1 if one was, 2 if it was called
 * wrongly or there is no memory.
 */
#include "large.h"

#include <stdio.h>
#include <string.h>

#include "pages.h"
#include "twin.h"
#include "watch.h"

static void print_place(void)
{
    put_text(", in the sequence '");
    put_text(twin.sequence);
    put_text("', step ");
    put_number(twin.steps);
    put_text(" (");
    put_text(twin.step);
    put_text(" ");
    put_number(twin.number);
    put_text(")\n");
}

int main(int count, char **words)
{
    bool thorough = count == 2 && strcmp(words[1], "--long") == 0;
    bool known;

    if (count > 1 && !thorough) {
        fprintf(stderr, "usage: %s [--long]\n", words[0]);
        return 2;
    }
    known = pages_known();
    twin_make();
    watch_calls(print_place);
    run_sectors();
    run_fills();
    run_random();
    if (thorough) {
        run_gigabyte();
        run_times();
    }
    printf("large: %llu exchanges on disks of up to 16,777,216 sectors, %llu %s compared, no difference\n",
           (unsigned long long)twin.exchanges, (unsigned long long)twin.pages, known ? "touched pages" : "pages");
    return 0;
}
