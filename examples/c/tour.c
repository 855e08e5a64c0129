/*
 * A tour of the library: reads plan.bin, makes its table, writes table.bin, and plays the bus with all declared words. Of each
 * phase that carries words it prints the window, when its last word was sent, its waits and the most that it may wait.
 *
 *   cc -I include examples/c/tour.c crates/nizumokage/out/libnizumokage.a -o tour && ./tour
 */
#include <stdio.h>

#include "nizumokage.h"

enum { MOST_TASKS = 64, MOST_EDGES = 256, MOST_BYTES = 6 + 5 * MOST_TASKS + 7 * MOST_EDGES };

struct edge {
    uint32_t source, target, words;
};

/* What the tour needs of a plan that the library has read: fields of 6, 5 and 7 bytes, one behind the other. */
struct plan {
    uint8_t bytes[MOST_BYTES + 1];
    size_t length;
    uint32_t cores, d, tasks, edges;
    struct edge edge[MOST_EDGES];
};

struct phase {
    uint32_t core, start, end, words;
};

static int refused(const char *what, struct nz_answer a) {
    static const char *side[] = {"", " of the plan", " of the table"};
    if (a.number == NZ_GOOD) return 0;
    fprintf(stderr, "%s: refused %u at %llu%s\n", what, (unsigned)a.number, (unsigned long long)a.place, side[a.side]);
    return 1;
}

static int load(struct plan *p) {
    FILE *f = fopen("plan.bin", "rb");
    if (!f) {
        perror("plan.bin");
        return 1;
    }
    p->length = fread(p->bytes, 1, sizeof p->bytes, f);
    fclose(f);
    return 0;
}

/* Called behind nz_make, which refuses what is not a plan. */
static void decode(struct plan *p) {
    p->cores = p->bytes[3];
    p->d = p->bytes[5];
    p->tasks = p->edges = 0;
    for (size_t at = 6; at < p->length; at += p->bytes[at] == 2 ? 5 : 7) {
        const uint8_t *body = p->bytes + at + 3;
        if (p->bytes[at] == 2)
            p->tasks++;
        else
            p->edge[p->edges++] = (struct edge){body[0], body[1], body[2] * 256u + body[3]};
    }
}

/* Phase 2 i is task i's read, 2 i + 1 its write. Words of an edge between two cores are written and read over the bus. */
static void phases(const struct plan *p, const uint32_t *five, struct phase *phase) {
    for (uint32_t i = 0; i < p->tasks; i++, five += 5) {
        phase[2 * i] = (struct phase){five[0], five[1], five[2], 0};
        phase[2 * i + 1] = (struct phase){five[0], five[3], five[4], 0};
    }
    for (uint32_t e = 0; e < p->edges; e++) {
        struct phase *write = &phase[2 * p->edge[e].source + 1], *read = &phase[2 * p->edge[e].target];
        if (write->core == read->core) continue;
        write->words += p->edge[e].words;
        read->words += p->edge[e].words;
    }
}

/* At most the phase's slots times its counted rivals. */
static uint32_t bound(const struct plan *p, const struct phase *phase, const struct phase *x) {
    uint32_t rivals = 0;
    for (uint32_t k = 0; k < 2 * p->tasks; k++) {
        const struct phase *y = &phase[k];
        rivals += y->core != x->core && x->words && y->words && x->start < y->end && y->start < x->end;
    }
    if (rivals > p->cores - 1) rivals = p->cores - 1;
    return (x->words + p->d - 1) / p->d * rivals;
}

static int store(const uint8_t *table, size_t length) {
    FILE *f = fopen("table.bin", "wb");
    if (!f || fwrite(table, 1, length, f) != length || fclose(f)) {
        perror("table.bin");
        return 1;
    }
    return 0;
}

static void show(const struct plan *p, const struct phase *phase, const uint32_t *out) {
    static const char *kind[] = {"read", "write"};
    for (uint32_t k = 0; k < 2 * p->tasks; k++) {
        if (!phase[k].words) continue;
        printf("task %u %s on core %u: %u words in [%u, %u), sent by %u, %u waits of at most %u\n", (unsigned)k / 2, kind[k % 2],
               (unsigned)phase[k].core, (unsigned)phase[k].words, (unsigned)phase[k].start, (unsigned)phase[k].end,
               (unsigned)out[2 * k], (unsigned)out[2 * k + 1], (unsigned)bound(p, phase, &phase[k]));
    }
}

int main(void) {
    static struct plan p;
    static uint8_t table[20 * MOST_TASKS];
    static uint32_t five[5 * MOST_TASKS], words[2 * MOST_TASKS], out[4 * MOST_TASKS];
    static struct phase phase[2 * MOST_TASKS];
    if (load(&p)) return 1;

    struct nz_answer made = nz_make(p.bytes, p.length, table, sizeof table);
    if (refused("make", made)) return 1;
    decode(&p);
    size_t length = 20 * (size_t)p.tasks;
    if (store(table, length)) return 1;
    printf("makespan %llu\n", (unsigned long long)made.value);

    if (refused("read", nz_read(p.bytes, p.length, table, length, five, 5 * MOST_TASKS))) return 1;
    phases(&p, five, phase);
    for (uint32_t k = 0; k < 2 * p.tasks; k++) words[k] = phase[k].words;
    if (refused("run", nz_run(p.bytes, p.length, table, length, 0, words, 2 * p.tasks, out, 4 * MOST_TASKS))) return 1;
    show(&p, phase, out);
    return 0;
}
