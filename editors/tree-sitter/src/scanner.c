// Comments: they nest, which no regular expression can say. Inside one the pairs `(*` and `*)` are read from left to right, and no
// character belongs to two of them, so `(*)` is still open. One that isn't closed goes to the end of the text.
#include "tree_sitter/parser.h"

enum Token { COMMENT };

void *tree_sitter_oberon0_external_scanner_create(void) { return NULL; }
void tree_sitter_oberon0_external_scanner_destroy(void *state) {}
unsigned tree_sitter_oberon0_external_scanner_serialize(void *state, char *buffer) { return 0; }
void tree_sitter_oberon0_external_scanner_deserialize(void *state, const char *buffer, unsigned length) {}

// Goes past the character here, and past the next one if that is `second`: whether it was.
static bool take_pair(TSLexer *lexer, int32_t second) {
  lexer->advance(lexer, false);
  if (lexer->eof(lexer) || lexer->lookahead != second) return false;
  lexer->advance(lexer, false);
  return true;
}

bool tree_sitter_oberon0_external_scanner_scan(void *state, TSLexer *lexer, const bool *valid) {
  if (!valid[COMMENT]) return false;
  while (lexer->lookahead == ' ' || lexer->lookahead == '\t' || lexer->lookahead == '\r' || lexer->lookahead == '\n') {
    lexer->advance(lexer, true);
  }
  if (lexer->lookahead != '(' || !take_pair(lexer, '*')) return false;
  for (unsigned depth = 1; depth > 0 && !lexer->eof(lexer);) {
    if (lexer->lookahead == '(') {
      if (take_pair(lexer, '*')) depth++;
    } else if (lexer->lookahead == '*') {
      if (take_pair(lexer, ')')) depth--;
    } else {
      lexer->advance(lexer, false);
    }
  }
  lexer->result_symbol = COMMENT;
  return true;
}
