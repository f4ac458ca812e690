/* yaml NAME COUNT: reads bench/out/yaml/NAME.yaml so often with libyaml's document loader. It prints the nanoseconds that
   this took, and how many scalars and keys the document has. */
#include <stdio.h>
#include <stdlib.h>
#include <time.h>
#include <yaml.h>

static unsigned char *text;
static size_t size;

static int read_file(const char *name) {
  char path[256];
  snprintf(path, sizeof path, "bench/out/yaml/%s.yaml", name);
  FILE *file = fopen(path, "rb");
  if (!file) return 0;
  fseek(file, 0, SEEK_END);
  size = (size_t)ftell(file);
  rewind(file);
  text = malloc(size + 1);
  int ok = text && fread(text, 1, size, file) == size;
  fclose(file);
  return ok;
}

/* the scalars of the document; one that is missing altogether counts for one */
static long read_text(void) {
  yaml_parser_t parser;
  yaml_document_t document;
  long scalars = 0;
  if (!yaml_parser_initialize(&parser)) return -1;
  yaml_parser_set_input_string(&parser, text, size);
  if (!yaml_parser_load(&parser, &document)) {
    yaml_parser_delete(&parser);
    return -1;
  }
  for (yaml_node_t *node = document.nodes.start; node < document.nodes.top; node++) {
    if (node->type == YAML_SCALAR_NODE) scalars++;
  }
  if (document.nodes.start == document.nodes.top) scalars = 1;
  yaml_document_delete(&document);
  yaml_parser_delete(&parser);
  return scalars;
}

int main(int argc, char **argv) {
  if (argc != 3 || !read_file(argv[1])) return 2;
  struct timespec start, end;
  long scalars = 0;
  clock_gettime(CLOCK_MONOTONIC, &start);
  for (int i = 0; i < atoi(argv[2]); i++) scalars = read_text();
  clock_gettime(CLOCK_MONOTONIC, &end);
  if (scalars < 0) return 1;
  long long nanoseconds = (end.tv_sec - start.tv_sec) * 1000000000LL + (end.tv_nsec - start.tv_nsec);
  printf("%lld %ld\n", nanoseconds, scalars);
  return 0;
}
