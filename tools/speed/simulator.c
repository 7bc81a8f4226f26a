/* simulator IMAGE DEPTH STEPS SCHEDULE: a simulator of the machine written by hand, as the measure of its speed alone.
   SCHEDULE is round, a, e, fill, drain or seed:N. It decodes each word once, keeps each queue in a ring, and makes the same
   turns as the machine: of the kinds A, E, fill and drain, from the one that the turn prefers on, the first that has a step.
   What the program prints goes to standard output; end and steps go to standard error. It tests no image. */
#include <stdint.h>
#include <stdio.h>
#include <stdlib.h>
#include <string.h>

typedef uint32_t Word;
typedef uint64_t Count;

enum Use { NOTHING, TAKE, PUSH, LOAD, ADDRESS, ILLEGAL };
enum Queue { LD, AL, SA, SD, AB, EB, CQ };

typedef struct { unsigned char op, f3, f7, rd, r1, r2, use, queue; int imm; } Inst;
typedef struct { Count number, stamp; Word addr, value; unsigned char kind, full; } Slot;
typedef struct { Word addr, width; Count number; } Store;
typedef struct { Slot *slots; Word head, count; Count reserved; } Loads;
typedef struct { Word *words, head, count; } Fifo;
typedef struct {
  Inst *code;
  Word words, pc, x[32], size;
  unsigned char *private;
  int halted, trapped;
  Word status;
} Core;

static Core cores[2];                 /* A, E */
static unsigned char *memory;
static Word size, depth;
static int copies;
static Loads ld, al;
static Store *stores;
static Word store_head, store_count;
static Count issued;
static Fifo sd, ab, eb, cq;

static Word width_of(unsigned char f3) { return 1u << (f3 & 3); }

/* ---- decoding: the fields of a word, and the one access that it makes on a side */

static int is_formed(Inst *i, Word w, int *has_rd, int *has_r1, int *has_r2) {
  *has_rd = *has_r1 = 1;
  *has_r2 = 0;
  switch (i->op) {
    case 0x37: case 0x17:
      i->imm = w & 0xfffff000;
      *has_r1 = 0;
      return 1;
    case 0x6f:
      i->imm = (int)(w & 0x80000000) >> 11 | (int)(w & 0xff000) | (int)(w >> 9 & 0x800) | (int)(w >> 20 & 0x7fe);
      *has_r1 = 0;
      return 1;
    case 0x67: i->imm = (int)w >> 20; return i->f3 == 0;
    case 0x63:
      i->imm = (int)(w & 0x80000000) >> 19 | (int)(w << 4 & 0x800) | (int)(w >> 20 & 0x7e0) | (int)(w >> 7 & 0x1e);
      *has_rd = 0;
      *has_r2 = 1;
      return i->f3 != 2 && i->f3 != 3;
    case 0x03: i->imm = (int)w >> 20; return i->f3 < 3 || i->f3 == 4 || i->f3 == 5;
    case 0x23:
      i->imm = (int)(w & 0xfe000000) >> 20 | (int)(w >> 7 & 31);
      *has_rd = 0;
      *has_r2 = 1;
      return i->f3 < 3;
    case 0x13:
      i->imm = i->f3 == 1 || i->f3 == 5 ? i->r2 : (int)w >> 20;
      return i->f3 == 1 ? i->f7 == 0 : i->f3 != 5 || i->f7 == 0 || i->f7 == 32;
    case 0x33:
      *has_r2 = 1;
      return i->f7 == 0 || i->f7 == 1 || (i->f7 == 32 && (i->f3 == 0 || i->f3 == 5));
    case 0x73: *has_rd = *has_r1 = 0; return w == 0x73;
  }
  return 0;
}

static int uses;

static void use(Inst *i, int use, int queue) {
  i->use = use;
  i->queue = queue;
  uses++;
}

static int source(Inst *i, int side, int r) {
  if (r < 28) return 1;
  if (side == 0) {
    if (r == 31) use(i, TAKE, AL); else if (r == 29) use(i, TAKE, EB); else return 0;
  } else {
    if (r == 30) use(i, TAKE, LD); else if (r == 29) use(i, TAKE, AB); else if (r == 28 && copies) use(i, TAKE, CQ); else return 0;
  }
  return 1;
}

static int target(Inst *i, int side, int r) {
  if (r < 28) return 1;
  if (side == 0) {
    if (r >= 30 && i->op == 0x03) use(i, LOAD, r == 30 ? LD : AL); else if (r == 29) use(i, PUSH, AB); else if (r == 28 && copies) use(i, PUSH, CQ); else return 0;
  } else {
    if (r == 30) use(i, PUSH, SD); else if (r == 29) use(i, PUSH, EB); else return 0;
  }
  return 1;
}

static void decode(Inst *i, Word w, int side) {
  int has_rd, has_r1, has_r2, good;
  i->op = w & 127; i->rd = w >> 7 & 31; i->f3 = w >> 12 & 7; i->r1 = w >> 15 & 31; i->r2 = w >> 20 & 31; i->f7 = w >> 25;
  i->use = NOTHING;
  uses = 0;
  good = is_formed(i, w, &has_rd, &has_r1, &has_r2);
  if (good && has_rd) good = target(i, side, i->rd);
  if (good && has_r1) good = source(i, side, i->r1);
  if (good && has_r2) { if (side == 0 && i->op == 0x23 && i->r2 == 30) use(i, ADDRESS, SA); else good = source(i, side, i->r2); }
  if (!good || uses > 1) i->use = ILLEGAL;
}

/* ---- one instruction: 1 where it was done, 0 where the processor has no step */

static Loads *loads(int queue) { return queue == LD ? &ld : &al; }
static Fifo *fifo(int queue) { return queue == SD ? &sd : queue == AB ? &ab : queue == EB ? &eb : &cq; }

static Word extend(const unsigned char *p, int f3) {
  int16_t half; uint16_t unsigned_half; Word word;
  switch (f3) {
    case 0: return (Word)(int8_t)p[0];
    case 1: memcpy(&half, p, 2); return (Word)half;
    case 4: return p[0];
    case 5: memcpy(&unsigned_half, p, 2); return unsigned_half;
    default: memcpy(&word, p, 4); return word;
  }
}

static Word divided(Word p, Word q) { return !q ? ~0u : p == 0x80000000u && q == ~0u ? p : (Word)((int)p / (int)q); }
static Word left(Word p, Word q) { return !q ? p : p == 0x80000000u && q == ~0u ? 0 : (Word)((int)p % (int)q); }

static Word computed(const Inst *i, Word p, Word q) {
  if (i->op == 0x33 && i->f7 == 1)
    switch (i->f3) {
      case 0: return p * q;
      case 1: return (Word)((Count)((int64_t)(int)p * (int)q) >> 32);
      case 2: return (Word)((Count)((int64_t)(int)p * (int64_t)(Count)q) >> 32);
      case 3: return (Word)((Count)p * q >> 32);
      case 4: return divided(p, q);
      case 5: return q ? p / q : ~0u;
      case 6: return left(p, q);
      default: return q ? p % q : p;
    }
  switch (i->f3) {
    case 0: return i->op == 0x33 && i->f7 ? p - q : p + q;
    case 1: return p << (q & 31);
    case 2: return (int)p < (int)q;
    case 3: return p < q;
    case 4: return p ^ q;
    case 5: return i->f7 ? (Word)((int)p >> (q & 31)) : p >> (q & 31);
    case 6: return p | q;
    default: return p & q;
  }
}

static int is_taken(int f3, Word p, Word q) {
  switch (f3) {
    case 0: return p == q;
    case 1: return p != q;
    case 4: return (int)p < (int)q;
    case 5: return (int)p >= (int)q;
    case 6: return p < q;
    default: return p >= q;
  }
}

static int call(Core *c, int side) {
  if (side == 0) { c->halted = 1; return 1; }
  switch (c->x[17]) {
    case 0: c->halted = 1; c->status = c->x[10]; return 1;
    case 1: putchar(c->x[10] & 255); return 1;
    case 2: printf("%d", (int)c->x[10]); return 1;
    case 3: printf("%u", c->x[10]); return 1;
    case 4: printf("%x", c->x[10]); return 1;
    case 5: c->halted = c->trapped = 1; c->status = c->x[10]; return 1;
  }
  return 0;
}

static int is_ready(const Inst *i, Word *in) {
  Loads *l; Fifo *f;
  switch (i->use) {
    case TAKE:
      if (i->queue == LD || i->queue == AL) {
        l = loads(i->queue);
        if (!l->count || !l->slots[l->head].full) return 0;
        *in = l->slots[l->head].value;
      } else {
        f = fifo(i->queue);
        if (!f->count) return 0;
        *in = f->words[f->head];
      }
      return 1;
    case PUSH: return fifo(i->queue)->count < depth;
    case LOAD: return loads(i->queue)->count < depth;
    case ADDRESS: return store_count < depth;
  }
  return 1;
}

static void reserve(Inst *i, Word addr) {
  Loads *l = loads(i->queue);
  Slot *s = &l->slots[(l->head + l->count) % depth];
  s->number = l->reserved++; s->stamp = issued; s->addr = addr; s->kind = i->f3; s->full = 0;
  l->count++;
}

static void send(Inst *i, Word addr) {
  Store *s = &stores[(store_head + store_count) % depth];
  s->addr = addr; s->width = width_of(i->f3); s->number = issued++;
  store_count++;
}

static void take(int queue) {
  if (queue == LD || queue == AL) { Loads *l = loads(queue); l->head = (l->head + 1) % depth; l->count--; }
  else { Fifo *f = fifo(queue); f->head = (f->head + 1) % depth; f->count--; }
}

static void push(int queue, Word word) {
  Fifo *f = fifo(queue);
  f->words[(f->head + f->count) % depth] = word;
  f->count++;
}

static int step(int side) {
  Core *c = &cores[side];
  if (c->halted || c->pc & 3 || c->pc >= c->words * 4) return 0;
  Inst *i = &c->code[c->pc >> 2];
  Word in = 0, pc = c->pc, next = pc + 4, result = 0, w = width_of(i->f3);
  int writes = 1;
  if (i->use == ILLEGAL) return 0;
  if (i->use == LOAD || i->use == ADDRESS) {
    Word addr = c->x[i->r1] + i->imm;
    if (addr & (w - 1) || addr < 16 || addr > size - w || !is_ready(i, &in)) return 0;
    if (i->use == LOAD) reserve(i, addr); else send(i, addr);
    c->pc = next;
    return 1;
  }
  if (!is_ready(i, &in)) return 0;
  Word p = i->r1 >= 28 ? in : c->x[i->r1], q = i->r2 >= 28 ? in : c->x[i->r2], addr = p + i->imm;
  switch (i->op) {
    case 0x37: result = i->imm; break;
    case 0x17: result = pc + i->imm; break;
    case 0x6f: result = next; next = pc + i->imm; break;
    case 0x67: result = next; next = addr & ~1u; break;
    case 0x63: if (is_taken(i->f3, p, q)) next = pc + i->imm; writes = 0; break;
    case 0x03:
      if (addr & (w - 1) || c->size < w || addr > c->size - w) return 0;
      result = extend(c->private + addr, i->f3);
      break;
    case 0x23:
      if (addr & (w - 1) || c->size < w || addr > c->size - w) return 0;
      memcpy(c->private + addr, &q, w);
      writes = 0;
      break;
    case 0x13: result = computed(i, p, i->imm); break;
    case 0x33: result = computed(i, p, q); break;
    case 0x73: writes = 0; if (!call(c, side)) return 0; break;
  }
  if (i->use == TAKE) take(i->queue);
  if (i->use == PUSH) push(i->queue, result);
  else if (writes && i->rd) c->x[i->rd] = result;
  c->pc = next;
  return 1;
}

/* ---- memory */

static int overlap(Word x, Word wx, Word y, Word wy) { return x < y + wy && y < x + wx; }

static int can_fill(const Slot *s) {
  if (s->full) return 0;
  for (Word j = 0; j < store_count; j++) {
    Store *t = &stores[(store_head + j) % depth];
    if (t->number < s->stamp && overlap(s->addr, width_of(s->kind), t->addr, t->width)) return 0;
  }
  return 1;
}

static int fill(Word choice) {
  static Slot *found[2 * 65536];
  Word n = 0;
  for (int k = 1; k >= 0; k--) {
    Loads *l = k ? &al : &ld;
    for (Word j = 0; j < l->count; j++) {
      Slot *s = &l->slots[(l->head + j) % depth];
      if (can_fill(s)) found[n++] = s;
    }
  }
  if (!n) return 0;
  Slot *s = found[choice % n];
  s->value = extend(memory + s->addr, s->kind);
  s->full = 1;
  return 1;
}

static int drain(void) {
  if (!store_count || !sd.count) return 0;
  Store *t = &stores[store_head];
  for (int k = 0; k < 2; k++) {
    Loads *l = k ? &al : &ld;
    for (Word j = 0; j < l->count; j++) {
      Slot *s = &l->slots[(l->head + j) % depth];
      if (!s->full && s->stamp <= t->number && overlap(s->addr, width_of(s->kind), t->addr, t->width)) return 0;
    }
  }
  memcpy(memory + t->addr, &sd.words[sd.head], t->width);
  store_head = (store_head + 1) % depth; store_count--;
  sd.head = (sd.head + 1) % depth; sd.count--;
  return 1;
}

/* ---- turns */

enum Schedule { ROUND = -1, BY_SEED = 9 };
static int schedule;
static Word seed;

static int schedule_of(const char *name) {
  static const char *const fixed[] = { "a", "e", "fill", "drain" };
  for (int k = 0; k < 4; k++) if (!strcmp(name, fixed[k])) return k;
  if (!strncmp(name, "seed:", 5)) { seed = strtoul(name + 5, 0, 10); return BY_SEED; }
  return ROUND;
}

static Word next_word(Count turn) {
  if (schedule == ROUND) return (Word)turn;
  if (schedule == BY_SEED) { seed = seed * 1664525u + 1013904223u; return seed >> 16; }
  return schedule;
}

static int turn(Word word) {
  for (Word k = 0; k < 4; k++) {
    int done = 0;
    switch ((word + k) & 3) {
      case 0: done = step(0); break;
      case 1: done = step(1); break;
      case 2: done = fill(word >> 2); break;
      case 3: done = drain(); break;
    }
    if (done) return 1;
  }
  return 0;
}

/* ---- an image of version 1 or 2 (docs/MACHINE.md, "Images") */

static void open_image(const char *name) {
  FILE *file = fopen(name, "rb");
  if (!file) exit(66);
  fseek(file, 0, SEEK_END);
  long length = ftell(file);
  Word *image = calloc(length + 4, 1);
  rewind(file);
  if (fread(image, 1, length, file) != (size_t)length) exit(66);
  fclose(file);
  int second = image[1] == 2;
  copies = second && image[8];
  Word *field = image + 8 + second, *code = field + 11;
  size = field[0];
  for (int side = 0; side < 2; side++) {
    Core *c = &cores[side];
    c->size = field[2 + side]; c->pc = field[4 + side]; c->words = field[6 + side];
    c->code = calloc(c->words, sizeof(Inst));
    c->private = calloc(c->size + 4, 1);
    for (Word k = 0; k < c->words; k++) decode(&c->code[k], code[k], side);
    code += c->words;
  }
  memory = calloc(size, 1);
  memcpy(memory + 16, code, field[8]);
  ld.slots = calloc(depth, sizeof(Slot)); al.slots = calloc(depth, sizeof(Slot)); stores = calloc(depth, sizeof(Store));
  sd.words = calloc(depth, 4); ab.words = calloc(depth, 4); eb.words = calloc(depth, 4); cq.words = calloc(depth, 4);
}

int main(int argc, char **words) {
  if (argc != 5) return 64;
  Count most = strtoull(words[3], 0, 10), steps = 0;
  depth = atoi(words[2]);
  schedule = schedule_of(words[4]);
  open_image(words[1]);
  while (steps < most && turn(next_word(steps))) steps++;
  Core *e = &cores[1];
  int is_final = cores[0].halted && e->halted && !store_count && !sd.count;
  fprintf(stderr, "%s %d\nsteps %llu\n", !is_final ? "not final" : e->trapped ? "trapped" : "ended", (int)e->status, (unsigned long long)steps);
  return 0;
}
