/* Numbers are written as Roman numerals and in words, and read again. */
#include <stdio.h>

struct text { int length; char letters[60]; };
struct text *new_text(void);

static const struct { int value; const char *sign; } signs[] = {
  {1000, "M"}, {900, "CM"}, {500, "D"}, {400, "CD"}, {100, "C"}, {90, "XC"}, {50, "L"}, {40, "XL"}, {10, "X"}, {9, "IX"}, {5, "V"}, {4, "IV"}, {1, "I"},
};
static const char *const ones[] = {"zero", "one", "two", "three", "four", "five", "six", "seven", "eight", "nine", "ten", "eleven", "twelve",
  "thirteen", "fourteen", "fifteen", "sixteen", "seventeen", "eighteen", "nineteen"};
static const char *const tens[] = {"", "", "twenty", "thirty", "forty", "fifty", "sixty", "seventy", "eighty", "ninety"};

static void append(struct text *t, const char *s) {
  while (*s && t->length < 59) t->letters[t->length++] = *s++;
  t->letters[t->length] = '\0';
}

struct text *roman(int n) {
  struct text *t = new_text();
  if (!t) return NULL;
  for (unsigned i = 0; i < sizeof signs / sizeof signs[0]; i++)
    for (; n >= signs[i].value; n -= signs[i].value) append(t, signs[i].sign);
  return t;
}

static void spell(struct text *t, int n) {
  if (n >= 100) {
    append(t, ones[n / 100]);
    append(t, " hundred");
    if (n % 100 == 0) return;
    append(t, " and ");
    n %= 100;
  }
  if (n < 20) append(t, ones[n]);
  else {
    append(t, tens[n / 10]);
    if (n % 10) {
      append(t, "-");
      append(t, ones[n % 10]);
    }
  }
}

static int value(char c) {
  switch (c) {
  case 'I': return 1;
  case 'V': return 5;
  case 'X': return 10;
  case 'L': return 50;
  case 'C': return 100;
  case 'D': return 500;
  case 'M': return 1000;
  default: return 0;
  }
}

int number_of(struct text *t) {
  int sum = 0;
  for (int i = 0; i < t->length; i++) {
    int here = value(t->letters[i]);
    sum += i + 1 < t->length && here < value(t->letters[i + 1]) ? -here : here;
  }
  return sum;
}

int main(void) {
  for (int n = 1; n < 1000; n += 123) {
    struct text *r = roman(n), *w = new_text();
    if (!r || !w) return 1;
    spell(w, n);
    printf("%4d %-12s %s\n", number_of(r), r->letters, w->letters);
  }
  return 0;
}
