/* Canonicalises or checks one file in plain C, for a count of its instructions: plain canon|strict FILE */
#include "floor.h"

#include <stdio.h>
#include <stdlib.h>
#include <string.h>

int main(int words, char **word) {
  FILE *file = words == 3 ? fopen(word[2], "rb") : NULL;
  if (!file || fseek(file, 0, SEEK_END)) return 2;
  long length = ftell(file);
  uint8_t *bytes = malloc(length + 1), *out = NULL;
  size_t out_length;
  if (!bytes || fseek(file, 0, SEEK_SET) || fread(bytes, 1, length, file) != (size_t)length) return 2;
  if (!strcmp(word[1], "strict")) return floor_strict(bytes, length) ? 0 : 1;
  return floor_canonicalise(bytes, length, &out, &out_length) ? 0 : 1;
}
