// An interpreter beside `schc step`, for comparison: each step fetches and decodes anew, where `schc step`
// keeps what it decoded; a segment is found without copying, and flags are kept as they were computed. Its table is that
// of the compiler's images, and it checks what `schc step` checks.
//
//     gcc -O2 -o step step.c && ./step IMAGE STEPS
#include <fcntl.h>
#include <stdint.h>
#include <stdio.h>
#include <stdlib.h>
#include <string.h>
#include <sys/stat.h>
#include <unistd.h>

typedef struct {
    uint64_t address, size;
    uint8_t *bytes;
    int read, write, execute;
} Segment;

typedef enum { UNKNOWN, SUM, DIFFERENCE, BITS, PRODUCT } Last;

typedef struct {
    uint64_t regs[16], at;
    Last last;
    uint64_t a, b;
    Segment segments[8];
    int count;
} Machine;

typedef enum { RAN, EXITED, STUCK } End;

static Segment *holding(Machine *m, uint64_t address, uint64_t size) {
    for (int i = 0; i < m->count; i++) {
        Segment *s = &m->segments[i];
        if (address >= s->address && address - s->address <= s->size && size <= s->size - (address - s->address))
            return s;
    }
    return NULL;
}

static int load(Machine *m, uint64_t address, uint64_t *word) {
    Segment *s = holding(m, address, 8);
    if (!s || !s->read) return 0;
    memcpy(word, s->bytes + (address - s->address), 8);
    return 1;
}

static int store(Machine *m, uint64_t address, uint64_t word) {
    Segment *s = holding(m, address, 8);
    if (!s || !s->write) return 0;
    memcpy(s->bytes + (address - s->address), &word, 8);
    return 1;
}

// Whether a condition holds, or -1 where a flag that it reads is unknown.
static int condition(const Machine *m, int c) {
    int overflow, sign, zero, carry;
    uint64_t r;
    switch (m->last) {
    case SUM:
        r = m->a + m->b, carry = r < m->a;
        overflow = (int)((~(m->a ^ m->b) & (m->a ^ r)) >> 63);
        break;
    case DIFFERENCE:
        r = m->a - m->b, carry = m->a < m->b;
        overflow = (int)(((m->a ^ m->b) & (m->a ^ r)) >> 63);
        break;
    case BITS:
        r = m->a, carry = overflow = 0;
        break;
    case PRODUCT: {
        int64_t low;
        if (c / 2 > 1) return -1;
        return __builtin_mul_overflow((int64_t)m->a, (int64_t)m->b, &low) ^ (c & 1);
    }
    default:
        return -1;
    }
    sign = (int)(r >> 63), zero = r == 0;
    static const int none = -1;
    int holds;
    switch (c / 2) {
    case 0: holds = overflow; break;
    case 1: holds = carry; break;
    case 2: holds = zero; break;
    case 3: holds = carry | zero; break;
    case 4: holds = sign; break;
    case 6: holds = sign ^ overflow; break;
    case 7: holds = zero | (sign ^ overflow); break;
    default: return none;
    }
    return holds ^ (c & 1);
}

typedef struct {
    int is_register, number;
    uint64_t address;
} Operand;

// The operand at p, and the bytes after it; `next` is added to a rip operand once the length is known.
static const uint8_t *operand(const Machine *m, const uint8_t *p, const uint8_t *end, int rex, Operand *o, int *reg, int *rip) {
    if (p >= end) return NULL;
    int mod = *p >> 6, low = *p & 7, high = (rex & 1) * 8;
    *reg = ((*p >> 3) & 7) + ((rex >> 2) & 1) * 8;
    p++, *rip = 0, o->is_register = mod == 3, o->number = low + high;
    if (mod == 3) return p;
    if (mod == 0 && low == 5) {
        int32_t d;
        if (high || end - p < 4) return NULL;
        memcpy(&d, p, 4);
        o->address = (uint64_t)(int64_t)d, *rip = 1;
        return p + 4;
    }
    if (low == 4) {
        if (p >= end || *p != 0x24) return NULL;
        p++;
    }
    o->address = m->regs[o->number];
    if (mod == 1) {
        if (p >= end) return NULL;
        o->address += (uint64_t)(int64_t)(int8_t)*p++;
    }
    if (mod == 2) {
        int32_t d;
        if (end - p < 4) return NULL;
        memcpy(&d, p, 4);
        o->address += (uint64_t)(int64_t)d, p += 4;
    }
    return p;
}

static int get(Machine *m, const Operand *o, uint64_t *v) {
    if (o->is_register) return *v = m->regs[o->number], 1;
    return load(m, o->address, v);
}

static int put(Machine *m, const Operand *o, uint64_t v) {
    if (o->is_register) return m->regs[o->number] = v, 1;
    return store(m, o->address, v);
}

static void keep(Machine *m, Last last, uint64_t a, uint64_t b) { m->last = last, m->a = a, m->b = b; }

// One of the six operations: 0 add, 1 or, 4 and, 5 sub, 6 xor, 7 cmp.
static int operate(Machine *m, int which, uint64_t a, uint64_t b, uint64_t *r) {
    switch (which) {
    case 0: *r = a + b, keep(m, SUM, a, b); return 1;
    case 1: *r = a | b, keep(m, BITS, *r, 0); return 1;
    case 4: *r = a & b, keep(m, BITS, *r, 0); return 1;
    case 5: *r = a - b, keep(m, DIFFERENCE, a, b); return 1;
    case 6: *r = a ^ b, keep(m, BITS, *r, 0); return 1;
    case 7: *r = a, keep(m, DIFFERENCE, a, b); return 1;
    }
    return 0;
}

static End system_call(Machine *m) {
    uint64_t n = m->regs[2];
    if (m->regs[0] == 60) return EXITED;
    if (m->regs[0] != 1 || m->regs[7] != 1) return STUCK;
    if (n) {
        Segment *s = holding(m, m->regs[6], n);
        if (!s || !s->read) return STUCK;
        ssize_t took = write(1, s->bytes + (m->regs[6] - s->address), n);
        m->regs[0] = took < 0 ? (uint64_t)-5 : (uint64_t)took;
    } else
        m->regs[0] = 0;
    m->regs[1] = m->regs[11] = 0, m->last = UNKNOWN;
    return RAN;
}

static End step(Machine *m) {
    Segment *code = holding(m, m->at, 1);
    if (!code || !code->execute) return STUCK;
    const uint8_t *p = code->bytes + (m->at - code->address), *begin = p, *end = code->bytes + code->size;
    int rex = 0, reg, rip, which;
    Operand o;
    uint64_t v, r;
    int32_t d;
    if ((*p & 0xf2) == 0x40) rex = *p++;
    if (p >= end) return STUCK;
    uint8_t op = *p++;
#define NEXT (m->at + (uint64_t)(p - begin))
#define OPERAND(more) \
    if (!(p = operand(m, p, end, rex, &o, &reg, &rip)) || end - p < (more)) return STUCK; \
    if (rip) o.address += NEXT + (more)
#define DONE return m->at = NEXT, RAN
    if (!rex) {
        switch (op) {
        case 0xe9:
            if (end - p < 4) return STUCK;
            memcpy(&d, p, 4), p += 4;
            return m->at = NEXT + (uint64_t)(int64_t)d, RAN;
        case 0xeb:
            if (p >= end) return STUCK;
            d = (int8_t)*p++;
            return m->at = NEXT + (uint64_t)(int64_t)d, RAN;
        case 0x0f:
            if (p >= end) return STUCK;
            op = *p++;
            if (op == 5) {
                End e = system_call(m);
                if (e == RAN) m->at = NEXT;
                return e;
            }
            if ((op & 0xf0) != 0x80 || end - p < 4) return STUCK;
            memcpy(&d, p, 4), p += 4;
            which = condition(m, op & 15);
            if (which < 0) return STUCK;
            return m->at = NEXT + (which ? (uint64_t)(int64_t)d : 0), RAN;
        }
        if ((op & 0xf0) != 0x70 || p >= end) return STUCK;
        d = (int8_t)*p++;
        which = condition(m, op & 15);
        if (which < 0) return STUCK;
        return m->at = NEXT + (which ? (uint64_t)(int64_t)d : 0), RAN;
    }
    if (!(rex & 8)) {
        OPERAND(0);
        if (op == 0x88 && !o.is_register) {
            Segment *s = holding(m, o.address, 1);
            if (!s || !s->write) return STUCK;
            s->bytes[o.address - s->address] = (uint8_t)m->regs[reg];
            DONE;
        }
        if (op == 0xff && reg == 4) {
            if (!get(m, &o, &v)) return STUCK;
            return m->at = v, RAN;
        }
        return STUCK;
    }
    if (op == 0x99) {
        if (rex != 0x48) return STUCK;
        m->regs[2] = (uint64_t)((int64_t)m->regs[0] >> 63);
        DONE;
    }
    if ((op & 0xf8) == 0xb8) {
        if (rex & 4 || end - p < 8) return STUCK;
        memcpy(&m->regs[(op & 7) + (rex & 1) * 8], p, 8), p += 8;
        DONE;
    }
    if (op == 0x0f) {
        if (p >= end) return STUCK;
        op = *p++;
        OPERAND(0);
        if (op == 0xb6 && !o.is_register) {
            Segment *s = holding(m, o.address, 1);
            if (!s || !s->read) return STUCK;
            m->regs[reg] = s->bytes[o.address - s->address];
            DONE;
        }
        if (op != 0xaf || !get(m, &o, &v)) return STUCK;
        keep(m, PRODUCT, m->regs[reg], v), m->regs[reg] *= v;
        DONE;
    }
    switch (op) {
    case 0x89: OPERAND(0); if (!put(m, &o, m->regs[reg])) return STUCK; DONE;
    case 0x8b: OPERAND(0); if (!get(m, &o, &v)) return STUCK; m->regs[reg] = v; DONE;
    case 0x8d: OPERAND(0); if (o.is_register) return STUCK; m->regs[reg] = o.address; DONE;
    case 0x85: OPERAND(0); if (!get(m, &o, &v)) return STUCK; keep(m, BITS, v & m->regs[reg], 0); DONE;
    case 0xc7:
        OPERAND(4);
        if (reg) return STUCK;
        memcpy(&d, p, 4), p += 4;
        if (!put(m, &o, (uint64_t)(int64_t)d)) return STUCK;
        DONE;
    case 0x81:
    case 0x83:
        OPERAND(op == 0x81 ? 4 : 1);
        if (op == 0x81)
            memcpy(&d, p, 4), p += 4;
        else
            d = (int8_t)*p++;
        if (!get(m, &o, &v) || !operate(m, reg, v, (uint64_t)(int64_t)d, &r)) return STUCK;
        if (reg != 7 && !put(m, &o, r)) return STUCK;
        DONE;
    case 0xc1: {
        OPERAND(1);
        int n = *p++;
        if (n > 63 || !get(m, &o, &v)) return STUCK;
        switch (reg) {
        case 4: v <<= n; break;
        case 5: v >>= n; break;
        case 7: v = (uint64_t)((int64_t)v >> n); break;
        default: return STUCK;
        }
        if (!put(m, &o, v)) return STUCK;
        m->last = UNKNOWN;
        DONE;
    }
    case 0xf7:
        OPERAND(0);
        if (!get(m, &o, &v)) return STUCK;
        if (reg == 3) {
            keep(m, DIFFERENCE, 0, v);
            if (!put(m, &o, -v)) return STUCK;
            DONE;
        }
        if (reg == 7) {
            __int128 n = (__int128)(((unsigned __int128)m->regs[2] << 64) | m->regs[0]), q;
            if (!v) return STUCK;
            q = n / (int64_t)v;
            if (q != (int64_t)q) return STUCK;
            m->regs[0] = (uint64_t)q, m->regs[2] = (uint64_t)(n % (int64_t)v), m->last = UNKNOWN;
            DONE;
        }
        return STUCK;
    }
    which = op >> 3;
    if (op > 0x3b || !(0xf3 >> which & 1)) return STUCK;
    if ((op & 7) == 1) {
        OPERAND(0);
        if (!get(m, &o, &v) || !operate(m, which, v, m->regs[reg], &r)) return STUCK;
        if (which != 7 && !put(m, &o, r)) return STUCK;
        DONE;
    }
    if ((op & 7) == 3) {
        OPERAND(0);
        if (!get(m, &o, &v) || !operate(m, which, m->regs[reg], v, &r)) return STUCK;
        m->regs[reg] = r;
        DONE;
    }
    return STUCK;
}

int main(int argc, char **argv) {
    static Machine m;
    struct stat status;
    int file = argc == 3 ? open(argv[1], O_RDONLY) : -1;
    if (file < 0 || fstat(file, &status)) return fprintf(stderr, "usage: step IMAGE STEPS\n"), 1;
    uint8_t *all = malloc((size_t)status.st_size);
    if (!all || read(file, all, (size_t)status.st_size) != status.st_size) return 2;
    uint16_t headers;
    memcpy(&m.at, all + 24, 8), memcpy(&headers, all + 56, 2);
    for (int i = 0; i < headers && m.count < 8; i++) {
        const uint8_t *h = all + 64 + 56 * i;
        uint32_t type, flags;
        uint64_t offset, stored;
        memcpy(&type, h, 4), memcpy(&flags, h + 4, 4), memcpy(&offset, h + 8, 8), memcpy(&stored, h + 32, 8);
        if (type != 1) continue;
        Segment *s = &m.segments[m.count++];
        memcpy(&s->address, h + 16, 8), memcpy(&s->size, h + 40, 8);
        s->bytes = calloc(s->size ? s->size : 1, 1);
        if (!s->bytes) return 10;
        memcpy(s->bytes, all + offset, stored);
        s->execute = flags & 1, s->write = flags >> 1 & 1, s->read = flags >> 2 & 1;
    }
    uint64_t steps = strtoull(argv[2], NULL, 10);
    for (uint64_t i = 0; i < steps; i++) {
        End e = step(&m);
        if (e == EXITED) return (int)(m.regs[7] & 255);
        if (e == STUCK) return fprintf(stderr, "stuck at %llx\n", (unsigned long long)m.at), 8;
    }
    fprintf(stderr, "steps spent\n");
    return 9;
}
