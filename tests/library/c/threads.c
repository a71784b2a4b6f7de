/* One machine made, stepped, copied and freed in three threads, one after the other; and eight machines in eight threads at once. Build it with
 * -fsanitize=thread. The last line is `N passed, M failed`. */
#include "brsp.h"
#include <pthread.h>
#include <stdio.h>
#include <string.h>

enum { THREADS = 8 };

typedef struct job {
    brsp_machine m, copy;
    uint32_t value, copied;
    int is_right;
} job;

static void *make(void *given)
{
    static const char text[] = "loop: addiu $1, $1, 1\nbne $1, $2, loop\nnop\nbreak\n";
    job *j = (job *)given;
    uint8_t image[64] = { 0 };
    uint32_t words[16];
    brsp_assembled out;
    j->is_right = brsp_assemble(0, (const uint8_t *)text, strlen(text), words, 16, &out) == BRSP_OK && brsp_new(&j->m, image, 64, 100) == BRSP_OK
        && brsp_load_words(&j->m, BRSP_IMEM, 0, words, out.count) == BRSP_OK;
    return NULL;
}

static void *step(void *given)
{
    job *j = (job *)given;
    brsp_stop stop;
    j->is_right &= brsp_step(&j->m) == BRSP_OK && brsp_run(&j->m, 299, &stop) == BRSP_OK && brsp_copy(&j->copy, &j->m) == BRSP_OK;
    return NULL;
}

static void *end(void *given)
{
    job *j = (job *)given;
    j->is_right &= brsp_reg(&j->m, 1, &j->value) == BRSP_OK && brsp_reg(&j->copy, 1, &j->copied) == BRSP_OK;
    brsp_free(&j->m);
    brsp_free(&j->copy);
    return NULL;
}

int main(void)
{
    static void *(*const parts[])(void *) = { make, step, end };
    static job jobs[1 + THREADS];
    pthread_t threads[THREADS];
    int k, i, passed = 0;
    for (k = 0; k < 3; k++) {
        if (pthread_create(&threads[0], NULL, parts[k], &jobs[0])) return 2;
        pthread_join(threads[0], NULL);
    }
    for (k = 0; k < 3; k++) {
        for (i = 0; i < THREADS; i++) if (pthread_create(&threads[i], NULL, parts[k], &jobs[1 + i])) return 2;
        for (i = 0; i < THREADS; i++) pthread_join(threads[i], NULL);
    }
    for (i = 0; i < 1 + THREADS; i++) passed += jobs[i].is_right && jobs[i].value == 100 && jobs[i].copied == 100 && !jobs[i].m.at;
    printf("%d passed, %d failed\n", passed, 1 + THREADS - passed);
    return passed != 1 + THREADS;
}
