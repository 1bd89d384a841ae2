/* peer ENGINE TIMES: the bench's engines in plain C, which benches/speed holds `replay` to.
   ENGINE is 0 state table, 1 ROM, 2 PLA, 3 sequencer, 4 the fixed store as a store, 5 the
   single-cycle machine. It does 1,000,000 cycles (instructions for 5) TIMES times, and prints for
   each the line that `replay` answers. Written as one would write it for speed: no proof, the
   refusals checked where they can come up, a loop of its own for each engine. */
#include <stdint.h>
#include <stdio.h>
#include <stdlib.h>
#include <string.h>

#define INLINE static inline __attribute__((always_inline))
#define APART static __attribute__((noinline))

enum { BUDGET = 1000000, WORDS = 64, NONE = 255 };
enum { MISALIGNED = 1, OUTSIDE = 2, NO_ENTRY = 3, UNKNOWN_FUNCTION = 4 };

typedef struct {
    uint32_t r[32], pc, ir, mdr, a, b, aluout, state, cycles, instructions;
} Machine;

typedef struct {
    uint32_t words[16];
    uint8_t rom1[64], rom2[64];
} Store;

typedef struct {
    uint32_t word, next;
} Given;

/* A loop over lw, add, sw, a beq that is not taken, slt and j; word 15 is 7. */
static const uint32_t program[] = {0x8c01003c, 0x00411020, 0xac020038,
                                   0x1001ffff, 0x0041182a, 0x08000000};
static const uint32_t words[16] = {0x25023, 0x00061, 0x00052, 0x0c003, 0x00808,
                                   0x0a000, 0x00113, 0x0000c, 0x10290, 0x20400};
static const uint8_t after[16] = {1, 0, 0, 4, 0, 0, 7};     /* states 1 and 2 dispatch */
static uint8_t rom1[64], rom2[64];
static uint32_t rom[1024];
static Store store;

static uint32_t pla(uint32_t state, uint32_t opcode) {
    uint32_t v = 0;
    if (state == 0) v |= 0x94081;
    if (state == 1) v |= 0x00180;
    if (state == 2) v |= 0x00140;
    if (state == 3) v |= 0x30004;
    if (state == 4) v |= 0x02020;
    if (state == 5) v |= 0x28000;
    if (state == 6) v |= 0x00447;
    if (state == 7) v |= 0x00030;
    if (state == 8) v |= 0x40a40;
    if (state == 9) v |= 0x81000;
    if (state == 1 && opcode == 0) v |= 6;
    if (state == 1 && opcode == 2) v |= 9;
    if (state == 1 && opcode == 4) v |= 8;
    if (state == 1 && opcode == 35) v |= 2;
    if (state == 1 && opcode == 43) v |= 2;
    if (state == 2 && opcode == 35) v |= 3;
    if (state == 2 && opcode == 43) v |= 5;
    return v;
}

/* A word of ROM or PLA: 0 out of states 1 and 2 is a missing entry. */
INLINE Given by_entry(uint32_t entry, uint32_t state) {
    Given g = {entry >> 4 << 2, entry & 15};
    if (!g.next && (state == 1 || state == 2)) g.next = NONE;
    return g;
}

INLINE Given by_address(uint32_t word, const uint8_t *one, const uint8_t *two, uint32_t state,
                        uint32_t opcode) {
    Given g = {word, 0};
    switch (word & 3) {
    case 0: g.next = 0; break;
    case 1: g.next = one[opcode]; break;
    case 2: g.next = two[opcode]; break;
    default: g.next = state + 1;
    }
    return g;
}

INLINE Given by_table(uint32_t state, uint32_t opcode) {
    if (state == 1) return (Given){words[state], rom1[opcode]};
    if (state == 2) return (Given){words[state], rom2[opcode]};
    return (Given){words[state], after[state]};
}

INLINE Given control(int engine, uint32_t state, uint32_t opcode) {
    switch (engine) {
    case 0: return by_table(state, opcode);
    case 1: return by_entry(rom[opcode * 16 + state], state);
    case 2: return by_entry(pla(state, opcode), state);
    case 3: return by_address(words[state], rom1, rom2, state, opcode);
    default: return by_address(store.words[state], store.rom1, store.rom2, state, opcode);
    }
}

INLINE uint32_t extended(uint32_t word) { return (uint32_t)(int32_t)(int16_t)word; }

INLINE uint32_t reg(const Machine *m, uint32_t at) { return at ? m->r[at] : 0; }

/* What the function of a word makes of two numbers; 0 if it is unknown. */
INLINE int operate(uint32_t word, uint32_t x, uint32_t y, uint32_t *v) {
    switch (word & 2047) {
    case 32: *v = x + y; return 1;
    case 34: *v = x - y; return 1;
    case 36: *v = x & y; return 1;
    case 37: *v = x | y; return 1;
    case 42: *v = (int32_t)x < (int32_t)y; return 1;
    default: return 0;
    }
}

/* The ALU under a control word; 0 if it goes by a function that is unknown. */
INLINE int alu(const Machine *m, uint32_t w, uint32_t *v) {
    uint32_t x = (w >> 4 & 1) ? m->a : m->pc, y;
    switch (w >> 5 & 3) {
    case 0: y = m->b; break;
    case 1: y = 4; break;
    case 2: y = extended(m->ir); break;
    default: y = extended(m->ir) * 4;
    }
    switch (w >> 7 & 3) {
    case 0: *v = x + y; return 1;
    case 1: *v = x - y; return 1;
    default: return operate(m->ir, x, y, v);
    }
}

INLINE uint32_t jump(uint32_t pc, uint32_t word) {
    return (pc & 0xf0000000u) | (word & 0x3ffffff) << 2;
}

INLINE void write_pc(Machine *m, uint32_t w, uint32_t v) {
    if (!((w >> 17 & 1) || ((w >> 16 & 1) && v == 0))) return;
    switch (w >> 9 & 3) {
    case 0: m->pc = v; break;
    case 1: m->pc = m->aluout; break;
    default: m->pc = jump(m->pc, m->ir);
    }
}

INLINE void write_register(Machine *m, uint32_t w, uint32_t rt, uint32_t rd) {
    if (!(w >> 3 & 1)) return;
    uint32_t at = (w >> 2 & 1) ? rd : rt;
    if (at) m->r[at] = (w >> 11 & 1) ? m->mdr : m->aluout;
}

/* One clock cycle; its refusal, or 0. */
INLINE uint32_t cycle(int engine, Machine *m, uint32_t *image, size_t n) {
    Given g = control(engine, m->state, m->ir >> 26);
    uint32_t w = g.word, at = (w >> 15 & 1) ? m->aluout : m->pc, read = 0, v;
    if (w >> 13 & 3) {
        if (at & 3) return MISALIGNED;
        if (at / 4 >= n) return OUTSIDE;
        read = image[at / 4];
    }
    if (!alu(m, w, &v)) return UNKNOWN_FUNCTION;
    if (g.next == NONE) return NO_ENTRY;
    if (w >> 13 & 1) image[at / 4] = m->b;
    uint32_t rs = m->ir >> 21 & 31, rt = m->ir >> 16 & 31, rd = m->ir >> 11 & 31;
    uint32_t a = reg(m, rs), b = reg(m, rt);
    write_register(m, w, rt, rd);
    write_pc(m, w, v);
    if (w >> 14 & 1) {
        m->mdr = read;
        if (w >> 12 & 1) m->ir = read;
    }
    m->a = a;
    m->b = b;
    m->aluout = v;
    m->state = g.next;
    m->cycles++;
    m->instructions += g.next == 0;
    return 0;
}

/* A loop of its own for each engine, over a machine in locals. */
INLINE uint32_t run(int engine, Machine *held, uint32_t *image, size_t n) {
    Machine m = *held;
    uint32_t refusal = 0;
    for (uint32_t k = 0; k < BUDGET; k++)
        if ((refusal = cycle(engine, &m, image, n))) break;
    *held = m;
    return refusal;
}

APART uint32_t run_table(Machine *m, uint32_t *image, size_t n) { return run(0, m, image, n); }
APART uint32_t run_rom(Machine *m, uint32_t *image, size_t n) { return run(1, m, image, n); }
APART uint32_t run_pla(Machine *m, uint32_t *image, size_t n) { return run(2, m, image, n); }
APART uint32_t run_sequencer(Machine *m, uint32_t *image, size_t n) { return run(3, m, image, n); }
APART uint32_t run_store(Machine *m, uint32_t *image, size_t n) { return run(4, m, image, n); }

/* One instruction of the single-cycle machine; its refusal, or 0. */
INLINE uint32_t instruction(Machine *m, uint32_t *image, size_t n) {
    if (m->pc & 3) return MISALIGNED;
    if (m->pc / 4 >= n) return OUTSIDE;
    uint32_t w = image[m->pc / 4], rt = w >> 16 & 31, rd = w >> 11 & 31, next = m->pc + 4, v;
    uint32_t a = reg(m, w >> 21 & 31), b = reg(m, rt), at = a + extended(w);
    switch (w >> 26) {
    case 0:
        if (!operate(w, a, b, &v)) return UNKNOWN_FUNCTION;
        if (rd) m->r[rd] = v;
        break;
    case 35:
    case 43:
        if (at & 3) return MISALIGNED;
        if (at / 4 >= n) return OUTSIDE;
        if (w >> 26 == 43) image[at / 4] = b;
        else if (rt) m->r[rt] = image[at / 4];
        break;
    case 4:
        if (a == b) next += extended(w) * 4;
        break;
    case 2: next = jump(next, w); break;
    default: return NO_ENTRY;
    }
    m->pc = next;
    m->instructions++;
    return 0;
}

APART uint32_t run_single(Machine *held, uint32_t *image, size_t n) {
    Machine m = *held;
    uint32_t refusal = 0;
    for (uint32_t k = 0; k < BUDGET; k++)
        if ((refusal = instruction(&m, image, n))) break;
    *held = m;
    return refusal;
}

static uint32_t (*const runs[])(Machine *, uint32_t *, size_t) = {
    run_table, run_rom, run_pla, run_sequencer, run_store, run_single};

static void fill_tables(void) {
    memset(rom1, NONE, sizeof rom1);
    memset(rom2, NONE, sizeof rom2);
    rom1[0] = 6;
    rom1[2] = 9;
    rom1[4] = 8;
    rom1[35] = rom1[43] = 2;
    rom2[35] = 3;
    rom2[43] = 5;
    for (uint32_t at = 0; at < 1024; at++) rom[at] = pla(at % 16, at / 16);
    memcpy(store.words, words, sizeof words);
    memcpy(store.rom1, rom1, sizeof rom1);
    memcpy(store.rom2, rom2, sizeof rom2);
}

/* The answer of `replay` to the same run. */
static void print_answer(int engine, uint32_t refusal, const Machine *m, const uint32_t *before,
                         const uint32_t *image) {
    uint32_t changed = 0;
    if (engine < 5)
        printf("%x %x %x %x %x %x %x %x %x %x", refusal, m->cycles, m->instructions, m->pc, m->ir,
               m->mdr, m->a, m->b, m->aluout, m->state);
    else
        printf("%x %x %x", refusal, m->instructions, m->pc);
    for (int at = 0; at < 32; at++) printf(" %x", m->r[at]);
    for (int at = 0; at < WORDS; at++) changed += image[at] != before[at];
    printf(" %x", changed);
    for (int at = 0; at < WORDS; at++)
        if (image[at] != before[at]) printf(" %x %x", at, image[at]);
    printf("\n");
}

int main(int count, char **arguments) {
    int engine = count > 2 ? atoi(arguments[1]) : -1, times = count > 2 ? atoi(arguments[2]) : 0;
    if (engine < 0 || engine > 5) {
        fprintf(stderr, "usage: peer ENGINE TIMES, ENGINE 0 to 5\n");
        return 2;
    }
    fill_tables();
    for (int turn = 0; turn < times; turn++) {
        uint32_t before[WORDS] = {0}, image[WORDS];
        memcpy(before, program, sizeof program);
        before[15] = 7;
        memcpy(image, before, sizeof image);
        Machine m = {0};
        uint32_t refusal = runs[engine](&m, image, WORDS);
        print_answer(engine, refusal, &m, before, image);
    }
    return 0;
}
