/* Compiles a script to an image, verifies it and lists it, from four threads at once. */
#include <pthread.h>
#include <stdio.h>
#include <string.h>

#include "stencil.h"

static const char SCRIPT[] = "function f(a) { return () => ({ a }) }";

static struct stencil_answer of_text(const char *text)
{
    return stencil_check((const uint8_t *)text, strlen(text));
}

/* What each thread does: the same, with room of its own. */
struct work {
    int is_done;
    size_t size;
    uint8_t listing[4096];
};

static void *compile(void *given)
{
    struct work *work = given;
    uint8_t image[4096];
    struct stencil_answer made = stencil_image((const uint8_t *)SCRIPT, strlen(SCRIPT), image, sizeof image);
    if (made.kind != STENCIL_FINE || stencil_verify(image, made.needed).kind != STENCIL_FINE)
        return NULL;
    struct stencil_answer listed = stencil_listing(image, made.needed, work->listing, sizeof work->listing);
    work->size = listed.needed;
    work->is_done = listed.kind == STENCIL_FINE;
    return NULL;
}

int main(void)
{
    struct stencil_answer fine = of_text("let a = () => 1;");
    printf("kind %u, %llu functions\n", fine.kind, (unsigned long long)fine.count);
    struct stencil_answer early = of_text("let a; () => { let b, b }");
    printf("kind %u, rule %u, byte %llu\n", early.kind, early.rule, (unsigned long long)early.offset);
    struct stencil_answer broken = of_text("x = 1.5;");
    printf("kind %u, byte %llu\n", broken.kind, (unsigned long long)broken.offset);

    uint8_t small[16];
    struct stencil_answer wanting = stencil_image((const uint8_t *)SCRIPT, strlen(SCRIPT), small, sizeof small);
    printf("kind %u, more than 16 bytes: %d\n", wanting.kind, wanting.needed > sizeof small);
    printf("kind %u\n", stencil_verify((const uint8_t *)SCRIPT, strlen(SCRIPT)).kind);

    static struct work works[4];
    pthread_t threads[4];
    for (int n = 0; n < 4; n++)
        if (pthread_create(&threads[n], NULL, compile, &works[n]))
            return 1;
    int same = 1;
    for (int n = 0; n < 4; n++) {
        pthread_join(threads[n], NULL);
        same = same && works[n].is_done && works[n].size == works[0].size
            && !memcmp(works[n].listing, works[0].listing, works[0].size);
    }
    printf("four threads, one listing: %d\n", same);
    fwrite(works[0].listing, 1, works[0].size, stdout);
    return 0;
}
