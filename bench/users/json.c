/* A text in JSON is cut into tokens, which are counted by their kinds and checked for their nesting. */
#include <stdio.h>

enum kind { OPEN, CLOSE, COMMA, COLON, STRING, NUMBER, WORD, WRONG, END };

struct token { enum kind kind; long start, length; struct token *next; };
struct token *new_token(void);

static const char *const kinds[] = {"open", "close", "comma", "colon", "string", "number", "word", "wrong"};

static enum kind kind_of(char c) {
  switch (c) {
  case '{': case '[': return OPEN;
  case '}': case ']': return CLOSE;
  case ',': return COMMA;
  case ':': return COLON;
  case '"': return STRING;
  case '-': case '0': case '1': case '2': case '3': case '4': case '5': case '6': case '7': case '8': case '9': return NUMBER;
  case 't': case 'f': case 'n': return WORD;
  case '\0': return END;
  default: return WRONG;
  }
}

static long length_of(enum kind kind, const char *text) {
  long n = 1;
  switch (kind) {
  case STRING:
    while (text[n] && text[n] != '"') n += text[n] == '\\' && text[n + 1] ? 2 : 1;
    return text[n] ? n + 1 : n;
  case NUMBER:
    while ((text[n] >= '0' && text[n] <= '9') || text[n] == '.' || text[n] == 'e') n++;
    return n;
  case WORD:
    while (text[n] >= 'a' && text[n] <= 'z') n++;
    return n;
  default:
    return 1;
  }
}

struct token *tokens(const char *text) {
  struct token *first = NULL, *last = NULL;
  for (long at = 0;;) {
    while (text[at] == ' ' || text[at] == '\n') at++;
    enum kind kind = kind_of(text[at]);
    if (kind == END) return first;
    struct token *t = new_token();
    if (!t) return first;
    t->kind = kind;
    t->start = at;
    t->length = length_of(kind, text + at);
    if (last) last->next = t;
    else first = t;
    last = t;
    at += t->length;
  }
}

int main(void) {
  static const char text[] = "{\"name\": \"dgc\", \"sizes\": [1, 2.5, -3e2], \"done\": true}";
  long depth = 0, deepest = 0, counts[END] = {0};
  for (struct token *t = tokens(text); t; t = t->next) {
    counts[t->kind]++;
    if (t->kind == OPEN && ++depth > deepest) deepest = depth;
    if (t->kind == CLOSE && --depth < 0) return 1;
    if (t->kind == WRONG) printf("wrong: %.*s\n", (int)t->length, text + t->start);
  }
  for (int k = 0; k < END; k++)
    if (counts[k]) printf("%-8s %ld\n", kinds[k], counts[k]);
  printf("depth %ld\n", deepest);
  return depth != 0;
}
