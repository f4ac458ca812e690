/* trees FILE: writes a line for each of the texts in a file, between which the byte 30 stands: the tree that libyaml's
   composer makes of it, as crates/fisca_bench/src/trees.rt writes one, or `!` where it makes none. */
#include <stdio.h>
#include <stdlib.h>
#include <string.h>
#include <yaml.h>

static void write_text(const unsigned char *text, size_t length) {
  for (size_t i = 0; i < length; i++) {
    if (text[i] > 32 && text[i] < 127 && text[i] != '\\') putchar(text[i]);
    else printf("\\%d;", text[i]);
  }
}

static int is_null(const yaml_node_t *node) {
  static const char *words[] = {"", "~", "null", "Null", "NULL"};
  if (node->data.scalar.style != YAML_PLAIN_SCALAR_STYLE) return 0;
  for (size_t i = 0; i < 5; i++) {
    if (node->data.scalar.length == strlen(words[i]) && !memcmp(node->data.scalar.value, words[i], strlen(words[i]))) return 1;
  }
  return 0;
}

/* a text below `|` or `>` counts as an empty one in quotes */
static void write_scalar(const yaml_node_t *node) {
  if (is_null(node)) {
    putchar('~');
    return;
  }
  int style = node->data.scalar.style;
  int plain = style == YAML_PLAIN_SCALAR_STYLE;
  int block = style == YAML_LITERAL_SCALAR_STYLE || style == YAML_FOLDED_SCALAR_STYLE;
  if (!plain) putchar('\'');
  if (!block) write_text(node->data.scalar.value, node->data.scalar.length);
  if (!plain) putchar('\'');
  printf("@%zu", node->start_mark.line + 1);
}

static void write_node(yaml_document_t *document, int index, int depth) {
  yaml_node_t *node = yaml_document_get_node(document, index);
  if (!node || depth > 100) {
    putchar('?');
  } else if (node->type == YAML_SCALAR_NODE) {
    write_scalar(node);
  } else if (node->type == YAML_SEQUENCE_NODE) {
    putchar('[');
    for (yaml_node_item_t *item = node->data.sequence.items.start; item < node->data.sequence.items.top; item++) {
      write_node(document, *item, depth + 1);
      putchar(' ');
    }
    putchar(']');
  } else {
    putchar('{');
    for (yaml_node_pair_t *pair = node->data.mapping.pairs.start; pair < node->data.mapping.pairs.top; pair++) {
      yaml_node_t *key = yaml_document_get_node(document, pair->key);
      if (key->type == YAML_SCALAR_NODE) write_text(key->data.scalar.value, key->data.scalar.length);
      else putchar('?');
      printf("@%zu:", key->start_mark.line + 1);
      write_node(document, pair->value, depth + 1);
      putchar(' ');
    }
    putchar('}');
  }
}

/* the one document of a text */
static void write_tree(const unsigned char *text, size_t size) {
  yaml_parser_t parser;
  yaml_document_t document, more;
  if (!yaml_parser_initialize(&parser)) exit(1);
  yaml_parser_set_input_string(&parser, text, size);
  if (!yaml_parser_load(&parser, &document)) {
    puts("!");
  } else {
    int some = yaml_document_get_root_node(&document) != NULL;
    int read = !some || yaml_parser_load(&parser, &more);
    if (!read || (some && yaml_document_get_root_node(&more))) {
      puts("!");
    } else {
      if (some) write_node(&document, 1, 0);
      else putchar('~');
      putchar('\n');
    }
    if (some && read) yaml_document_delete(&more);
    yaml_document_delete(&document);
  }
  yaml_parser_delete(&parser);
}

int main(int argc, char **argv) {
  FILE *file = argc == 2 ? fopen(argv[1], "rb") : NULL;
  if (!file) return 2;
  fseek(file, 0, SEEK_END);
  size_t size = (size_t)ftell(file);
  rewind(file);
  unsigned char *text = malloc(size + 1);
  if (!text || fread(text, 1, size, file) != size) return 2;
  size_t start = 0;
  for (size_t at = 0; at <= size; at++) {
    if (at == size || text[at] == 30) {
      write_tree(text + start, at - start);
      start = at + 1;
    }
  }
  return 0;
}
