/* A machine with a stack runs a program of numbered instructions, and tells each step. */
#include <stdio.h>
#include <stdlib.h>

enum code { PUSH, ADD, SUB, MUL, DUP, SWAP, JUMP, JUMP_IF, PRINT, STOP };

static const char *const names[] = {"push", "add", "sub", "mul", "dup", "swap", "jump", "jumpif", "print", "stop"};

struct instruction { enum code code; long value; };
struct program { long length; struct instruction at[32]; };
struct stack { long top; long values[32]; };
struct program *new_program(void);
struct stack *new_stack(void);

static void push(struct stack *s, long value) {
  if (s->top >= 32) {
    fputs("the stack is full\n", stderr);
    exit(1);
  }
  s->values[s->top++] = value;
}

static long pop(struct stack *s) {
  if (s->top <= 0) {
    fputs("the stack is empty\n", stderr);
    exit(1);
  }
  return s->values[--s->top];
}

static void emit(struct program *p, enum code code, long value) {
  if (p->length < 32) {
    p->at[p->length].code = code;
    p->at[p->length].value = value;
    p->length++;
  }
}

long run(struct program *p, int is_traced) {
  struct stack *s = new_stack();
  long at = 0, steps = 0, a, b;
  if (!s) return -1;
  while (at >= 0 && at < p->length && at < 32) {
    struct instruction i = p->at[at++];
    steps++;
    if (is_traced) printf("%4ld %s %ld\n", at - 1, names[i.code], i.value);
    switch (i.code) {
    case PUSH: push(s, i.value); break;
    case ADD: push(s, pop(s) + pop(s)); break;
    case SUB: b = pop(s); push(s, pop(s) - b); break;
    case MUL: push(s, pop(s) * pop(s)); break;
    case DUP: a = pop(s); push(s, a); push(s, a); break;
    case SWAP: b = pop(s); a = pop(s); push(s, b); push(s, a); break;
    case JUMP: at = i.value; break;
    case JUMP_IF: if (pop(s)) at = i.value; break;
    case PRINT: printf("%ld\n", pop(s)); break;
    case STOP: return steps;
    }
  }
  return steps;
}

int main(void) {
  struct program *p = new_program();
  if (!p) return 1;
  emit(p, PUSH, 5);
  emit(p, DUP, 0);
  emit(p, PRINT, 0);
  emit(p, PUSH, 1);
  emit(p, SUB, 0);
  emit(p, DUP, 0);
  emit(p, JUMP_IF, 1);
  emit(p, STOP, 0);
  printf("%ld steps\n", run(p, 1));
  return 0;
}
