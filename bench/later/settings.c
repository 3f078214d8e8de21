/* A text of lines `name = value` is read into sections, and values are asked for. */
#include <ctype.h>
#include <stdio.h>
#include <string.h>

struct value { char name[16]; char text[32]; struct value *next; };
struct section { char name[16]; struct value *values; struct section *next; };
struct value *new_value(void);
struct section *new_section(void);

static struct section *sections;
static int line = 1;

static const char *spaces(const char *at) {
  while (*at == ' ' || *at == '\t') at++;
  return at;
}

static const char *word(const char *at, char *to, int room, char end) {
  int n = 0;
  while (*at && *at != '\n' && *at != end) {
    if (n < room - 1) to[n++] = *at;
    at++;
  }
  while (n > 0 && isspace((unsigned char)to[n - 1])) n--;
  to[n] = '\0';
  return at;
}

static void put(struct section *s, const char *name, const char *text) {
  struct value *v = new_value();
  if (!v) return;
  strncpy(v->name, name, sizeof v->name - 1);
  strncpy(v->text, text, sizeof v->text - 1);
  v->next = s->values;
  s->values = v;
}

static int read(const char *at) {
  char name[16], text[32];
  int faults = 0;
  for (; *at; at++, line++) {
    at = spaces(at);
    if (*at == '[') {
      struct section *s = new_section();
      if (!s) return -1;
      at = word(at + 1, s->name, sizeof s->name, ']');
      s->next = sections;
      sections = s;
      while (*at && *at != '\n') at++;
    } else if (*at != '\n' && *at != '#') {
      at = word(at, name, sizeof name, '=');
      if (*at != '=' || !sections) {
        printf("line %d: no value\n", line);
        faults++;
      } else {
        at = word(spaces(at + 1), text, sizeof text, '#');
        put(sections, name, text);
      }
    }
    while (*at && *at != '\n') at++;
    if (!*at) break;
  }
  return faults;
}

static const char *get(const char *section, const char *name) {
  for (struct section *s = sections; s; s = s->next)
    if (!strcmp(s->name, section))
      for (struct value *v = s->values; v; v = v->next)
        if (!strcmp(v->name, name)) return v->text;
  return "none";
}

int main(void) {
  int faults = read("[window]\nwidth = 640\nheight=480 # at most\nbold\n\n[file]\nname = notes.txt\n");
  printf("%d faults\n", faults);
  printf("%s x %s, %s\n", get("window", "width"), get("window", "height"), get("file", "name"));
  printf("%s\n", get("file", "size"));
  return 0;
}
