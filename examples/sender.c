/* Asks the verdict of two sample pages, finds a sender, files another one, and prints what is refused.
 * sender PAGE BROKEN: two files of samples/, each a width byte and a page; the second page is not fit. */
#include "dorgumanna.h"

#include <stdio.h>
#include <string.h>

typedef struct {
    uint8_t width;
    uint8_t bytes[DORGUMANNA_PAGE_BYTES];
} sample;

static bool read_sample(const char *name, sample *s)
{
    FILE *file = fopen(name, "rb");
    if (file == NULL)
        return false;
    bool whole = fread(&s->width, 1, 1, file) == 1 && fread(s->bytes, 1, sizeof s->bytes, file) == sizeof s->bytes;
    fclose(file);
    return whole;
}

static void print_refusal(dorgumanna_answer answer)
{
    printf("refused, %d: %s", answer.number, dorgumanna_refusal_text(answer.number));
    if (answer.number == DORGUMANNA_NOT_FIT)
        printf(" (U%llu)", (unsigned long long)answer.a);
    printf("\n");
}

static void verdict(const sample *s, const char *name)
{
    dorgumanna_answer rule = dorgumanna_fit(s->bytes, sizeof s->bytes, s->width);
    printf("verdict of the %s page: ", name);
    if (rule.number != DORGUMANNA_DONE)
        print_refusal(rule);
    else if (rule.a == 0)
        printf("fit\n");
    else
        printf("not fit (U%llu)\n", (unsigned long long)rule.a);
}

static void find(const sample *s, size_t length, const char *key)
{
    dorgumanna_answer at =
        dorgumanna_find(s->bytes, length, s->width, (const uint8_t *)key, strlen(key));
    printf("find %s in %zu bytes: ", key, length);
    if (at.number != DORGUMANNA_DONE)
        print_refusal(at);
    else if (at.b == 0)
        printf("not there, %llu keys are smaller\n", (unsigned long long)at.a);
    else {
        dorgumanna_answer entry = dorgumanna_entry(s->bytes, length, s->width, (size_t)at.a);
        printf("slot %llu, value %llu\n", (unsigned long long)at.a, (unsigned long long)entry.a);
    }
}

static void file(sample *s, const char *key, uint64_t value)
{
    dorgumanna_answer at =
        dorgumanna_insert(s->bytes, sizeof s->bytes, s->width, (const uint8_t *)key, strlen(key), value);
    printf("file %s: ", key);
    if (at.number != DORGUMANNA_DONE)
        print_refusal(at);
    else
        printf("slot %llu\n", (unsigned long long)at.a);
}

int main(int argc, char **argv)
{
    static sample page, broken;
    if (argc != 3 || !read_sample(argv[1], &page) || !read_sample(argv[2], &broken)) {
        fprintf(stderr, "usage: sender PAGE BROKEN, each a width byte and a page\n");
        return 1;
    }
    verdict(&page, "first");
    verdict(&broken, "second");
    find(&page, sizeof page.bytes, "hub/osl/sender/00731 Fjordfrakt");
    find(&page, sizeof page.bytes, "hub/osl/sender/00512 Solheim");
    file(&page, "hub/osl/sender/00512 Solheim", 7);
    find(&page, sizeof page.bytes, "hub/osl/sender/00512 Solheim");
    file(&page, "hub/osl/sender/00512 Solheim", 8);
    file(&page, "hub/bgo/sender/00512 Solheim", 8);
    find(&page, sizeof page.bytes - 1, "hub/osl/sender/00512 Solheim");
    file(&broken, "075", 8);
    return 0;
}
