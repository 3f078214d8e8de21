/* Words in a tree by their letters: those with a prefix are counted and printed in order. */
#include <stdio.h>

struct branch { struct branch *to[26]; int ends; long words; };
struct branch *new_branch(void);

static struct branch *root;

static int insert(const char *word) {
  struct branch *b = root;
  b->words++;
  for (; *word; word++) {
    unsigned i = (unsigned)(*word - 'a');
    if (i >= 26) return 0;
    if (!b->to[i]) {
      struct branch *n = new_branch();
      if (!n) return 0;
      b->to[i] = n;
    }
    b = b->to[i];
    b->words++;
  }
  b->ends++;
  return 1;
}

static struct branch *reach(const char *prefix) {
  struct branch *b = root;
  for (; b && *prefix; prefix++) {
    unsigned i = (unsigned)(*prefix - 'a');
    b = i < 26 ? b->to[i] : NULL;
  }
  return b;
}

static void print(const struct branch *b, char *word, int length) {
  if (b->ends) printf("  %.*s (%d)\n", length, word, b->ends);
  if (length == 31) return;
  for (int i = 0; i < 26; i++)
    if (b->to[i]) {
      word[length] = (char)('a' + i);
      print(b->to[i], word, length + 1);
    }
}

int main(void) {
  static const char *const words[] = {"tree", "trie", "try", "trip", "ten", "to", "tea", "ted", "in", "inn", "tree"};
  char word[32];
  root = new_branch();
  if (!root) return 1;
  for (unsigned i = 0; i < sizeof words / sizeof *words; i++) insert(words[i]);
  struct branch *b = reach("tr");
  printf("%ld words begin with tr\n", b ? b->words : 0);
  print(root, word, 0);
  return 0;
}
