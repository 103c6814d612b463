/* The deterministic check of one file in plain C, for a count of its instructions. */
#include "floor.h"

#include <stdio.h>
#include <stdlib.h>

int main(int words, char **word) {
  FILE *file = words == 2 ? fopen(word[1], "rb") : NULL;
  if (!file || fseek(file, 0, SEEK_END)) return 2;
  long length = ftell(file);
  uint8_t *bytes = malloc(length + 1);
  if (!bytes || fseek(file, 0, SEEK_SET) || fread(bytes, 1, length, file) != (size_t)length) return 2;
  return floor_strict(bytes, length) ? 0 : 1;
}
