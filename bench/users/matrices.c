/* Square matrices of floating point numbers: product, transpose, determinant by elimination. */
#include <math.h>
#include <stdio.h>

#define N 4

struct matrix { double at[N][N]; };
struct matrix *new_matrix(void);

struct matrix *identity(void) {
  struct matrix *m = new_matrix();
  if (!m) return NULL;
  for (int i = 0; i < N; i++) m->at[i][i] = 1.0;
  return m;
}

struct matrix *product(struct matrix *a, struct matrix *b) {
  struct matrix *m = new_matrix();
  if (!m) return NULL;
  for (int i = 0; i < N; i++)
    for (int j = 0; j < N; j++) {
      double sum = 0.0;
      for (int k = 0; k < N; k++) sum += a->at[i][k] * b->at[k][j];
      m->at[i][j] = sum;
    }
  return m;
}

void transpose(struct matrix *m) {
  for (int i = 0; i < N; i++)
    for (int j = i + 1; j < N; j++) {
      double x = m->at[i][j];
      m->at[i][j] = m->at[j][i];
      m->at[j][i] = x;
    }
}

double determinant(struct matrix *m) {
  double d = 1.0;
  for (int i = 0; i < N; i++) {
    int best = i;
    for (int j = i + 1; j < N; j++)
      if (fabs(m->at[j][i]) > fabs(m->at[best][i])) best = j;
    if (m->at[best][i] == 0.0) return 0.0;
    for (int k = 0; k < N; k++) {
      double x = m->at[i][k];
      m->at[i][k] = m->at[best][k];
      m->at[best][k] = x;
    }
    if (best != i) d = -d;
    d *= m->at[i][i];
    for (int j = i + 1; j < N; j++) {
      double f = m->at[j][i] / m->at[i][i];
      for (int k = i; k < N; k++) m->at[j][k] -= f * m->at[i][k];
    }
  }
  return d;
}

void print(const char *name, struct matrix *m) {
  printf("%s =\n", name);
  for (int i = 0; i < N; i++) {
    for (int j = 0; j < N; j++) printf("%9.3f", m->at[i][j]);
    printf("\n");
  }
}

int main(void) {
  struct matrix *m = identity();
  if (!m) return 1;
  for (int i = 0; i < N; i++)
    for (int j = 0; j < N; j++) m->at[i][j] += 1.0 / (i + j + 1);
  print("m", m);
  print("m * m", product(m, m));
  printf("%g\n", determinant(m));
  return 0;
}
