// An interpreter of the same machine in C, not proved: a mark to hold ourselves to. Instructions come decoded, with their targets looked up.
// It stops at a dump, at HALT, at a trap, and at a float that no 64-bit whole number is near.
#include <stdint.h>

typedef struct {
    uint64_t stack[1024];
    uint64_t height;
    uint64_t calls[1024];
    uint64_t call_height;
    uint8_t memory[1024];
    uint64_t flags;
    uint64_t ip;
} machine;

typedef struct {
    uint64_t op;
    uint64_t val;
    uint64_t target;
} inst;

#define LOW 0xFFFFFFFFFFFFull
#define SIGN 0x8000000000000000ull
#define I64 0x7FF2000000000000ull
#define U64 0x7FF3000000000000ull

static int64_t value(uint64_t c) {
    int64_t v = (int64_t)(c & LOW);
    return c & SIGN ? -v : v;
}

static uint64_t boxed(uint64_t tag, int64_t v) {
    uint64_t magnitude = v < 0 ? 0 - (uint64_t)v : (uint64_t)v;
    return tag | (magnitude & LOW) | (v < 0 ? SIGN : 0);
}

static double float_of(uint64_t c) {
    union { uint64_t u; double d; } x = { .u = c };
    return x.d;
}

static uint64_t bits(double d) {
    union { double d; uint64_t u; } x = { .d = d };
    return d != d ? 0x7FF8000000000000ull : x.u;
}

static int is_i64(uint64_t c) {
    return (c & 0x7FFF000000000000ull) == I64;
}

static uint64_t compared(uint64_t a, uint64_t b) {
    uint64_t order = a == b ? 1 : a < b ? 2 + 4 + 32 : 8 + 16 + 32;
    return order + (a == 0 ? 64 : 128);
}

// Runs `limit` steps at most; returns how many it took. It stops before an instruction that it doesn't know or that would trap.
uint64_t interpret(machine *m, const inst *code, uint64_t count, uint64_t limit) {
    uint64_t ip = m->ip, h = m->height, ch = m->call_height, flags = m->flags, steps = 0;
    uint64_t *s = m->stack;
    while (steps < limit && ip < count) {
        const inst *i = &code[ip];
        uint64_t op = i->op;
        switch (op) {
        case 0: case 21: case 30: ip++; break;
        case 1: if (h >= 1024) goto stop; s[h++] = i->val; ip++; break;
        case 2: if (h < 1) goto stop; h--; ip++; break;
        case 3: if (h < 1) goto stop; s[h - 1] = boxed(I64, value(s[h - 1]) + 1); ip++; break;
        case 4: if (h < 1) goto stop; s[h - 1] = boxed(I64, value(s[h - 1]) - 1); ip++; break;
        case 5: case 6: case 7: case 8: {
            if (h < 2 || !is_i64(s[h - 1]) || !is_i64(s[h - 2])) goto stop;
            int64_t a = value(s[h - 2]), b = value(s[h - 1]), r;
            if (op == 5) r = a + b;
            else if (op == 6) r = a - b;
            else if (op == 7) r = (int64_t)((uint64_t)a * (uint64_t)b);
            else if (b == 0) goto stop;
            else r = a / b;
            s[h - 2] = boxed(I64, r);
            h--, ip++;
            break;
        }
        case 9:
            if (h < 2) goto stop;
            flags = compared((uint64_t)value(s[h - 2]), (uint64_t)value(s[h - 1]));
            h--, ip++;
            break;
        case 10: {
            if (i->val >= h) goto stop;
            uint64_t at = h - 1 - i->val, top = s[h - 1];
            s[h - 1] = s[at], s[at] = top, ip++;
            break;
        }
        case 11: if (i->val >= h || h >= 1024) goto stop; s[h] = s[h - 1 - i->val]; h++, ip++; break;
        case 12: case 13: case 14: case 15: case 16: case 17: case 18: case 19:
            if (i->target >= count) goto stop;
            ip = flags >> (op - 12) & 1 ? i->target : ip + 1;
            break;
        case 20: if (i->target >= count) goto stop; ip = i->target; break;
        case 22: if (h < 1 || h >= 1024) goto stop; s[h++] = s[0]; ip++; break;
        case 23: if (h < 2) goto stop; s[h - 2] = bits(float_of(s[h - 2]) + float_of(s[h - 1])); h--, ip++; break;
        case 24: if (h < 2) goto stop; s[h - 2] = bits(float_of(s[h - 2]) - float_of(s[h - 1])); h--, ip++; break;
        case 25: if (h < 2) goto stop; s[h - 2] = bits(float_of(s[h - 2]) * float_of(s[h - 1])); h--, ip++; break;
        case 26: if (h < 2) goto stop; s[h - 2] = bits(float_of(s[h - 2]) / float_of(s[h - 1])); h--, ip++; break;
        case 28: if (ch >= 1024 || i->target >= count) goto stop; m->calls[ch++] = ip + 1; ip = i->target; break;
        case 29: if (ch < 1) goto stop; ip = m->calls[--ch]; break;
        case 31: case 32: {
            if (h < 1) goto stop;
            double d = float_of(s[h - 1]);
            if (d != d || d < -9e18 || d > 9e18 || (op == 32 && d < 0)) goto stop;
            s[h - 1] = boxed(op == 31 ? I64 : U64, (int64_t)d);
            ip++;
            break;
        }
        case 33: case 34: case 35: case 36: {
            if (h < 1 || ((s[h - 1] & 0x7FFF000000000000ull) != I64 && (s[h - 1] & 0x7FFF000000000000ull) != U64)) goto stop;
            int64_t v = value(s[h - 1]);
            if (v < 0 && op < 35) goto stop;
            if (op == 33) s[h - 1] = bits((double)v);
            else if (op == 36) s[h - 1] = bits((double)(uint64_t)v);
            else s[h - 1] = boxed(op == 34 ? U64 : I64, v);
            ip++;
            break;
        }
        case 38: case 40: case 42: case 44: {
            uint64_t at;
            if (h < 1 || (at = (uint64_t)value(s[h - 1])) >= 1024) goto stop;
            s[h - 1] = boxed(U64, m->memory[at]);
            ip++;
            break;
        }
        case 39: case 41: case 43: case 45: {
            uint64_t at;
            if (h < 2 || (at = (uint64_t)value(s[h - 2])) >= 1024) goto stop;
            m->memory[at] = (uint8_t)value(s[h - 1]);
            h -= 2, ip++;
            break;
        }
        default: goto stop;
        }
        steps++;
    }
stop:
    m->ip = ip, m->height = h, m->call_height = ch, m->flags = flags;
    return steps;
}
