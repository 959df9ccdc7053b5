/* Document 01's examples and every call once, through c/faroalder.h. It prints each case with what it got, and ends with
 * status 1 if something differs from what 01 expects. With -DTESTED the calls are those of the second family. */
#include "faroalder.h"

#include <stdio.h>
#include <stdlib.h>
#include <string.h>

#ifdef TESTED
#define CALL(name) faroalder_tested_##name
#else
#define CALL(name) faroalder_##name
#endif

static int differing = 0;

/* ---- What is lent ---- */

static const char RULE[] = "a b foo x";
static const char CHART[] = "Point m::Point Shape m::Shape Fits K";

enum { STRUCT_POINT, UNION_SHAPE, TRAIT_FITS, CONST_K, RECORDS };

static struct faroalder_name part(const char *text, uint32_t which, const char *word) {
  return (struct faroalder_name){which, (uint32_t)(strstr(text, word) - text), (uint32_t)strlen(word)};
}

static struct faroalder_name name(const char *word) { return part(RULE, 0, word); }
static struct faroalder_name defined(const char *word) { return part(CHART, 1, word); }

static uint32_t chart_words[64];

/* The chart, through records. */
static struct faroalder_rules rules(void) {
  struct faroalder_record records[RECORDS] = {
      [STRUCT_POINT] = {FAROALDER_SORT_STRUCT, defined("Point"), defined("m::Point"), 10, 0, 0},
      [UNION_SHAPE] = {FAROALDER_SORT_UNION, defined("Shape"), defined("m::Shape"), 11, 1, 0},
      [TRAIT_FITS] = {FAROALDER_SORT_TRAIT, defined("Fits"), defined("Fits"), 12, 0, 0},
      [CONST_K] = {FAROALDER_SORT_CONST, defined("K"), defined("K"), 13, 0, 0},
  };
  if (faroalder_load(records, RECORDS, chart_words, sizeof chart_words / sizeof *chart_words) != 0) abort();
  return (struct faroalder_rules){
      .chart = chart_words,
      .chart_len = faroalder_record_words(RECORDS),
      .fn_trait = FAROALDER_NONE,
      .rule = (const uint8_t *)RULE,
      .rule_len = strlen(RULE),
      .text = (const uint8_t *)CHART,
      .text_len = strlen(CHART),
  };
}

/* A store with room for so many nodes and children, opened. */
static struct faroalder_store opened(uint32_t nodes, uint32_t children) {
  struct faroalder_store s;
  s.h_len = faroalder_header_words();
  s.ws_len = faroalder_node_words(nodes);
  s.ks_len = faroalder_child_words(children);
  s.h = malloc(s.h_len * sizeof *s.h);
  s.ws = s.ws_len ? malloc(s.ws_len * sizeof *s.ws) : FAROALDER_EMPTY;
  s.ks = s.ks_len ? malloc(s.ks_len * sizeof *s.ks) : FAROALDER_EMPTY;
  if (!s.h || !s.ws || !s.ks) abort();
  if (faroalder_open(FAROALDER_STORE(&s), nodes, children) != 0) abort();
  return s;
}

static void closed(struct faroalder_store *s) {
  free(s->h);
  if (s->ws_len) free(s->ws);
  if (s->ks_len) free(s->ks);
}

/* The rules and the store that the cases use. */
static struct faroalder_rules r;
static struct faroalder_store s;

#define BOTH FAROALDER_RULES(&r), FAROALDER_STORE(&s)

/* A names buffer for a store of so many nodes and children, opened. */
struct names {
  uint32_t *bs;
  size_t len;
};

static struct names names_for(uint32_t nodes, uint32_t children) {
  struct names n = {NULL, faroalder_names_words(nodes, children)};
  n.bs = malloc(n.len * sizeof *n.bs);
  if (!n.bs) abort();
  memset(n.bs, 0xff, n.len * sizeof *n.bs);
  if (faroalder_open_names(n.bs, n.len, nodes, children) != 0) abort();
  return n;
}

#define NAMES(n) (n).bs, (n).len
#define NAME(word) (const uint8_t *)(word), strlen(word)

/* ---- Comparing ---- */

static const char *const RESULTS[] = {"Success", "Failure", "Indeterminate"};

static void title(const char *text) { printf("%s\n", text); }

static void number(const char *what, uint64_t got, uint64_t expected) {
  if (got >= FAROALDER_REFUSED) printf("  %s: refused %llu", what, (unsigned long long)(got - FAROALDER_REFUSED));
  else printf("  %s: %llu", what, (unsigned long long)got);
  if (got != expected) differing++, printf("  <- DIFFERS");
  printf("\n");
}

static void yes(const char *what, int holds) {
  printf("  %s%s\n", what, holds ? "" : "  <- DIFFERS");
  if (!holds) differing++;
}

static void refused(const char *what, uint64_t got, uint32_t n) { number(what, got, FAROALDER_REFUSED + n); }

/* ---- Calls that a case expects to be answered ---- */

static uint32_t type(uint64_t answer) {
  if (answer >= FAROALDER_REFUSED) {
    differing++;
    printf("  refused %llu  <- DIFFERS\n", (unsigned long long)(answer - FAROALDER_REFUSED));
    return 0;
  }
  return (uint32_t)answer;
}

static uint32_t inverse(uint32_t t) { return t ^ FAROALDER_INVERSE; }
static uint32_t var(uint32_t span) { return type(CALL(new_var)(BOTH, span)); }
static uint32_t nil(void) { return type(CALL(nil)(BOTH)); }

/* A kind over at most eight children, named or not. */
static uint64_t make(uint32_t code, uint32_t number, const char *own, size_t n, const uint32_t *kids,
                     const char *const *names) {
  struct faroalder_name o = {0, 0, 0};
  uint32_t entries[32] = {0};
  if (own) o = name(own);
  for (size_t i = 0; i < n; i++) {
    entries[4 * i] = kids[i];
    if (names && names[i]) {
      struct faroalder_name k = name(names[i]);
      entries[4 * i + 1] = k.text, entries[4 * i + 2] = k.start, entries[4 * i + 3] = k.len;
    }
  }
  return CALL(new)(BOTH, code, number, 0, o.text, o.start, o.len, entries, 4 * n);
}

static uint32_t bare(uint32_t code) { return type(make(code, 0, NULL, 0, NULL, NULL)); }
static uint32_t tuple1(uint32_t a) { return type(make(FAROALDER_TUPLE, 0, NULL, 1, &a, NULL)); }
static uint32_t tuple2(uint32_t a, uint32_t b) {
  return type(make(FAROALDER_TUPLE, 0, NULL, 2, (uint32_t[]){a, b}, NULL));
}

static void unify(uint32_t a, uint32_t b, uint64_t expected) {
  uint64_t got = CALL(unify)(BOTH, a, b);
  printf("  unify %s%u, %s%u: %s", FAROALDER_IS_INVERSE(a) ? "~" : "", FAROALDER_NODE(a),
         FAROALDER_IS_INVERSE(b) ? "~" : "", FAROALDER_NODE(b), got < 3 ? RESULTS[got] : "refused");
  if (got != expected) differing++, printf("  <- DIFFERS");
  printf("\n");
}

/* A node is a child of a type, or a root of a size. */
static void child_of(uint32_t node, uint32_t parent) {
  uint32_t out[12];
  uint64_t got = CALL(node)(BOTH, node, out);
  printf("  %u is a child of %s%u", node, FAROALDER_IS_INVERSE(parent) ? "~" : "", FAROALDER_NODE(parent));
  if (got != FAROALDER_CHILD || out[FAROALDER_AT_LINK] != parent) differing++, printf("  <- DIFFERS");
  printf("\n");
}

static void root_of(uint32_t node, uint64_t state, uint32_t size) {
  uint32_t out[12];
  uint64_t got = CALL(node)(BOTH, node, out);
  printf("  %u is a root of size %u", node, size);
  if (got != state || out[FAROALDER_AT_SIZE] != size) differing++, printf("  <- DIFFERS");
  printf("\n");
}

static void text(const char *what, const uint8_t *buf, uint64_t n, const char *expected) {
  if (n >= FAROALDER_REFUSED) n = 0;
  printf("  %s: %.*s", what, (int)n, (const char *)buf);
  if (n != strlen(expected) || memcmp(buf, expected, n) != 0) differing++, printf("  <- DIFFERS");
  printf("\n");
}

static void show(uint32_t t, const char *expected) {
  uint8_t buf[64];
  text("show", buf, CALL(show)(BOTH, t, buf, sizeof buf), expected);
}

/* ---- "Judged by example" ---- */

static void var_inverse(void) {
  title("var 0: unify 0, ~0: Failure");
  var(0);
  unify(0, inverse(0), FAROALDER_FAILURE);
}

static void nil_inverse(void) {
  title("nil 0: unify 0, ~0: Success");
  nil();
  unify(0, inverse(0), FAROALDER_SUCCESS);
}

static void occurs(void) {
  title("0 var, 1 = (0): unify 0, 1: Failure");
  tuple1(var(0));
  unify(0, 1, FAROALDER_FAILURE);
}

static void defaults(void) {
  title("Default 0 and 1: unify 0, ~1: Failure; 0, ~0: Success");
  bare(FAROALDER_DEFAULT), bare(FAROALDER_DEFAULT);
  unify(0, inverse(1), FAROALDER_FAILURE);
  unify(0, inverse(0), FAROALDER_SUCCESS);
}

static void error_never(void) {
  title("Error against Never: Indeterminate, no merge");
  bare(FAROALDER_ERROR), bare(FAROALDER_NEVER);
  unify(0, 1, FAROALDER_INDETERMINATE);
  root_of(0, FAROALDER_KNOWN, 1), root_of(1, FAROALDER_KNOWN, 1);
}

static void var_error(void) {
  title("var against Error: Success");
  var(0), bare(FAROALDER_ERROR);
  unify(0, 1, FAROALDER_SUCCESS);
}

static void three_vars(void) {
  uint32_t types[3];
  title("vars 0, 1, 2: unify 0, 1 then 1, 2: 0 and 2 are children of 1, size 3");
  number("new_vars", CALL(new_vars)(BOTH, 7, 3, types, 3), 0);
  yes("0, 1, 2", types[0] == 0 && types[1] == 1 && types[2] == 2);
  unify(0, 1, FAROALDER_SUCCESS);
  unify(1, 2, FAROALDER_SUCCESS);
  child_of(0, 1), child_of(2, 1), root_of(1, FAROALDER_UNKNOWN, 3);
}

static void failure_keeps(void) {
  title("0 var, 1 Never, 2 nil, 3 = (1, 0), 4 = (2, 1): unify 3, 4: Failure; 0 is now a child of 1");
  var(0), bare(FAROALDER_NEVER), nil(), tuple2(1, 0), tuple2(2, 1);
  unify(3, 4, FAROALDER_FAILURE);
  child_of(0, 1);
}

static void objects(void) {
  title("{a: 0} and {a: 1, b: 1} over vars: Failure; 0 is a child of 1");
  var(0), var(0);
  type(make(FAROALDER_OBJECT, 0, NULL, 1, (uint32_t[]){0}, (const char *const[]){"a"}));
  type(make(FAROALDER_OBJECT, 0, NULL, 2, (uint32_t[]){1, 1}, (const char *const[]){"a", "b"}));
  unify(2, 3, FAROALDER_FAILURE);
  child_of(0, 1);
}

static void forced(void) {
  uint32_t out[12];
  title("0 forced, then unify 0, 1: Unknown again, 1's span");
  var(5), var(9);
  number("force_kind", CALL(force_kind)(BOTH, 0, out), FAROALDER_UNKNOWN);
  number("its span", out[FAROALDER_AT_LINK], 5);
  number("force_kind again", CALL(force_kind)(BOTH, 0, out), FAROALDER_FAILED);
  unify(0, 1, FAROALDER_SUCCESS);
  number("node 1", CALL(node)(BOTH, 1, out), FAROALDER_UNKNOWN);
  number("its span", out[FAROALDER_AT_LINK], 9);
}

static void shown(void) {
  title("(0) over var 0 shows (?0,); inverted (~?0,)");
  tuple1(var(0));
  show(1, "(?0,)");
  show(inverse(1), "(~?0,)");
}

static void params(void) {
  uint32_t out[2], entries[3];
  struct faroalder_store source = s;
  title("Param 2: two entries: 6; three: the third");
  type(make(FAROALDER_PARAM, 2, "x", 0, NULL, NULL));
  type(make(FAROALDER_REF, 0, NULL, 1, (uint32_t[]){inverse(0)}, NULL));
  s = opened(8, 8);
  for (int i = 0; i < 3; i++) entries[i] = var(0);
  entries[2] = inverse(entries[2]);
  refused("import with two",
          CALL(import)(BOTH, FAROALDER_STORE(&source), (uint32_t[]){0, 1}, 2, 1, entries, 2, out, 2), FAROALDER_NO_ENTRY);
  number("import with three",
         CALL(import)(BOTH, FAROALDER_STORE(&source), (uint32_t[]){0, 1}, 2, 1, entries, 3, out, 2), 0);
  yes("the third, and a Ref of it", out[0] == inverse(2) && out[1] == 3);
  show(3, "&?2");
  closed(&source);
}

static void room(void) {
  struct faroalder_store small = s;
  uint64_t last = 0;
  title("The 4,096th node is made, the next: 10");
  s = opened(4096, 0);
  for (int i = 0; i < 4096; i++) last = CALL(new_var)(BOTH, 0);
  number("the 4,096th", last, 4095);
  refused("the next", CALL(new_var)(BOTH, 0), FAROALDER_NODES_FULL);
  closed(&s);
  s = small;
}

static void sheet(void) {
  title("sheet: var, var, tuple 0 ~1, tuple ~1 0, unify 2 3: Success; show ~2: (?1, ?1)");
  var(FAROALDER_NONE), var(FAROALDER_NONE), tuple2(0, inverse(1)), tuple2(inverse(1), 0);
  unify(2, 3, FAROALDER_SUCCESS);
  show(inverse(2), "(?1, ?1)");
}

/* ---- The other calls ---- */

static void kinds(void) {
  uint32_t out[12], one[1], named[3];
  title("kinds and what is read of them");
  var(3);
  number("new_struct", CALL(new_struct)(BOTH, STRUCT_POINT, (uint32_t[]){0, inverse(0)}, 2), 1);
  number("new_union", CALL(new_union)(BOTH, UNION_SHAPE, (uint32_t[]){0}, 1), 2);
  number("new, a Param", make(FAROALDER_PARAM, 6, "foo", 0, NULL, NULL), 3);
  number("new, an if const", make(FAROALDER_IF_CONST, CONST_K, NULL, 2, (uint32_t[]){0, 3}, NULL), 4);
  show(1, "Point[?0, ~?0]");
  show(inverse(1), "~Point[?0, ~?0]");
  show(inverse(2), "Shape[~?0]");
  show(3, "foo");
  number("node", CALL(node)(BOTH, inverse(1), out), FAROALDER_KNOWN);
  yes("its words", out[FAROALDER_AT_LINK] == 0 && out[FAROALDER_AT_SIZE] == 1 && out[FAROALDER_AT_INVERTED] == 0 &&
                       out[FAROALDER_AT_CODE] == FAROALDER_STRUCT && out[FAROALDER_AT_NUMBER] == STRUCT_POINT &&
                       out[FAROALDER_AT_DUAL] == 0 && out[FAROALDER_AT_COUNT] == 2);
  number("force_kind", CALL(force_kind)(BOTH, inverse(1), out), FAROALDER_KNOWN);
  yes("inverted", out[FAROALDER_AT_INVERTED] == 1 && out[FAROALDER_AT_SIZE] == 0);
  number("child 1", CALL(child)(BOTH, 1, 1, one), 1);
  yes("is ~0", one[0] == inverse(0));
  number("child 2", CALL(child)(BOTH, 1, 2, one), 0);
  number("name 0 of the Param", CALL(child_name)(BOTH, 3, 0, named), 1);
  yes("is foo", named[0] == 0 && named[1] == name("foo").start && named[2] == 3);
  number("name 0 of the struct", CALL(child_name)(BOTH, 1, 0, named), 0);
  number("get_mod of the struct", CALL(get_mod)(BOTH, 1, one), FAROALDER_MOD_DEF);
  number("its def", one[0], 10);
  number("get_mod of the variable", CALL(get_mod)(BOTH, 0, one), FAROALDER_MOD_NONE);
  number("find", CALL(find)(BOTH, inverse(1)), inverse(1));
  number("find_mut", CALL(find_mut)(BOTH, 2), 2);
  number("is_nil", CALL(is_nil)(BOTH, 1), 0);
  number("self_inverse", CALL(self_inverse)(BOTH, 3), 0);
  number("self_inverse_param", CALL(self_inverse_param)(BOTH, 3, 1), 1);
}

static void lists(void) {
  uint32_t a[2] = {0, 1}, b[2] = {2, 3};
  uint8_t buf[64];
  title("lists, signatures and impl types");
  for (int i = 0; i < 8; i++) var((uint32_t)i);
  number("unify_types", CALL(unify_types)(BOTH, a, 2, b, 2, 1), FAROALDER_SUCCESS);
  child_of(0, inverse(2));
  number("unify_types of two lengths", CALL(unify_types)(BOTH, a, 2, b, 1, 0), FAROALDER_FAILURE);
  struct faroalder_name x = name("a");
  uint32_t entry[4] = {4, x.text, x.start, x.len}, other[4] = {5, x.text, x.start, x.len};
  number("unify_objects", CALL(unify_objects)(BOTH, entry, 4, other, 4, 0), FAROALDER_SUCCESS);
  child_of(4, 5);
  number("unify_fn_sig", CALL(unify_fn_sig)(BOTH, FAROALDER_EMPTY, 0, 6, FAROALDER_EMPTY, 0, 7), FAROALDER_SUCCESS);
  child_of(6, 7);
  number("unify_impl_type", CALL(unify_impl_type)(BOTH, TRAIT_FITS, a, 1, TRAIT_FITS, a, 1), FAROALDER_SUCCESS);
  number("approx_eq", CALL(approx_eq)(BOTH, TRAIT_FITS, a, 1, TRAIT_FITS, b, 2), 1);
  number("approx_eq, an error", CALL(approx_eq)(BOTH, TRAIT_FITS, a, 1, FAROALDER_NONE, FAROALDER_EMPTY, 0), 0);
  text("show_impl_type", buf,
       CALL(show_impl_type)(BOTH, TRAIT_FITS, (uint32_t[]){5, inverse(7)}, 2, buf, sizeof buf), "Fits[?5, ~?7]");
  text("show_impl_type, an error", buf,
       CALL(show_impl_type)(BOTH, FAROALDER_NONE, FAROALDER_EMPTY, 0, buf, sizeof buf), "??");
}

/* Two types, each of a pair of the one below it: without a memory each call would compare 2^30 pairs. */
static void remembering(void) {
  size_t n = faroalder_memory_words(64);
  uint32_t *memory = malloc(n * sizeof *memory);
  struct faroalder_store small = s;
  struct faroalder_name x = name("a");
  title("types that are shared and differ at the bottom, with a memory");
  if (!memory) abort();
  s = opened(64, 128);
  uint32_t a = bare(FAROALDER_NEVER), b = nil();
  for (int i = 0; i < 30; i++) a = tuple2(a, a), b = tuple2(b, b);
  uint32_t as[4] = {a, x.text, x.start, x.len}, bs[4] = {b, x.text, x.start, x.len};
  number("unify", CALL(unify_recalling)(BOTH, a, b, memory, n), FAROALDER_FAILURE);
  number("unify_types", CALL(unify_types_recalling)(BOTH, as, 1, bs, 1, 0, memory, n), FAROALDER_FAILURE);
  number("unify_objects", CALL(unify_objects_recalling)(BOTH, as, 4, bs, 4, 0, memory, n), FAROALDER_FAILURE);
  number("unify_fn_sig", CALL(unify_fn_sig_recalling)(BOTH, as, 1, a, bs, 1, b, memory, n), FAROALDER_FAILURE);
  number("unify_impl_type", CALL(unify_impl_type_recalling)(BOTH, TRAIT_FITS, as, 1, TRAIT_FITS, bs, 1, memory, n),
         FAROALDER_FAILURE);
  number("a memory of nothing", CALL(unify_recalling)(BOTH, var(0), a, FAROALDER_EMPTY, 0), FAROALDER_SUCCESS);
  number("words for 4,097 nodes", faroalder_memory_words(4097), 0);
  closed(&s);
  s = small;
  free(memory);
}

static void finishing(void) {
  uint8_t marks[4] = {0};
  uint32_t out[12];
  title("marks, finishing, figures and reset");
  var(0), var(0), tuple1(0), nil();
  number("find_related", CALL(find_related)(BOTH, marks, 4, 2), 0);
  yes("the tuple and what is in it", marks[0] == 1 && marks[1] == 0 && marks[2] == 1 && marks[3] == 0);
  number("finish_inference_where", CALL(finish_inference_where)(BOTH, (const uint8_t[]){0, 1}, 2), 0);
  show(0, "?0"), show(1, "_");
  number("finish_inference", CALL(finish_inference)(BOTH), 0);
  show(2, "(_,)");
  number("error", CALL(error)(BOTH), 4);
  number("nil again", CALL(nil)(BOTH), 3);
  number("figures", CALL(figures)(BOTH, out), 0);
  const uint32_t expected[12] = {5, 1, 16, 32, 1, 4, 1, 3, 0, 0, 0, 0};
  yes("its words", memcmp(out, expected, sizeof out) == 0);
  struct names n = names_for(16, 32);
  number("reset", CALL(reset)(BOTH, NAMES(n)), 0);
  free(n.bs);
  number("figures", CALL(figures)(BOTH, out), 0);
  yes("no node", out[FAROALDER_AT_NODES] == 0 && out[FAROALDER_AT_HAS_NIL] == 0);
}

static void exporting(void) {
  uint32_t out[2], figures[12];
  struct faroalder_store from = s, fresh = opened(8, 8);
  title("an exported store returns the error and nil types carried over, error first");
  nil(), type(CALL(error)(BOTH)), var(3);
  unify(0, inverse(2), FAROALDER_SUCCESS);
  number("export", CALL(export)(BOTH, FAROALDER_STORE(&fresh), 8, 8, (uint32_t[]){1, 2}, 2, out, 2), 0);
  yes("0 and 1", out[0] == 0 && out[1] == 1);
  s = fresh;
  number("figures", CALL(figures)(BOTH, figures), 0);
  yes("error 0, nil ~1", figures[FAROALDER_AT_ERROR] == 0 && figures[FAROALDER_AT_NIL] == inverse(1));
  closed(&from);
}

/* ---- Named states ---- */

/* All words of the store in hand, and of a names buffer. */
static uint32_t *copied(struct names n, size_t *len) {
  *len = s.h_len + s.ws_len + s.ks_len + n.len;
  uint32_t *all = malloc(*len * sizeof *all), *p = all;
  if (!all) abort();
  memcpy(p, s.h, s.h_len * sizeof *p), p += s.h_len;
  memcpy(p, s.ws, s.ws_len * sizeof *p), p += s.ws_len;
  memcpy(p, s.ks, s.ks_len * sizeof *p), p += s.ks_len;
  memcpy(p, n.bs, n.len * sizeof *p);
  return all;
}

/* An answer is a refusal, and every word is as `before` has it. */
static void turned(const char *what, uint64_t got, uint32_t number, uint32_t *before, struct names n) {
  size_t len;
  uint32_t *now = copied(n, &len);
  refused(what, got, number);
  yes("  and every word is as found", memcmp(before, now, len * sizeof *now) == 0);
  free(now);
}

static void returning(void) {
  uint32_t out[12];
  struct names n = names_for(16, 32);
  title("a rule fails, and the planner returns to the state before it");
  var(5), bare(FAROALDER_NEVER), nil(), tuple2(1, 0), tuple2(2, 1);
  number("name_state", CALL(name_state)(BOTH, NAMES(n), NAME("before")), 0);
  unify(3, 4, FAROALDER_FAILURE);
  child_of(0, 1);
  type(CALL(error)(BOTH)), var(6);
  number("force_kind", CALL(force_kind)(BOTH, 6, out), FAROALDER_UNKNOWN);
  number("return_to", CALL(return_to)(BOTH, NAMES(n), NAME("before")), 0);
  root_of(0, FAROALDER_UNKNOWN, 1);
  number("figures", CALL(figures)(BOTH, out), 0);
  const uint32_t expected[12] = {5, 4, 16, 32, 0, 0, 1, 2, 1, 0, 0, 0};
  yes("five nodes, no error type, nil again, and the report stays", memcmp(out, expected, sizeof out) == 0);
  refused("3: a node that was made since", CALL(find)(BOTH, 5), FAROALDER_OUTSIDE);
  number("the next node", var(7), 5);
  number("return_to, a second time", CALL(return_to)(BOTH, NAMES(n), NAME("before")), 0);
  refused("3: that node too", CALL(find)(BOTH, 5), FAROALDER_OUTSIDE);
  number("its test", faroalder_names_refusal(BOTH, NAMES(n)), 0);
  free(n.bs);
}

static void eight(void) {
  size_t len;
  uint8_t longest[256];
  char word[2] = "a";
  struct names n = names_for(16, 32);
  title("eight names, a ninth, a held one again, dropping, reset");
  memset(longest, 'x', sizeof longest);
  for (int i = 0; i < 7; i++, word[0]++) {
    var((uint32_t)i);
    number(word, CALL(name_state)(BOTH, NAMES(n), NAME(word)), 0);
  }
  var(7);
  number("a name of 255 bytes", CALL(name_state)(BOTH, NAMES(n), longest, 255), 0);
  uint32_t *before = copied(n, &len);
  turned("13: a ninth", CALL(name_state)(BOTH, NAMES(n), NAME("i")), FAROALDER_NO_PLACE, before, n);
  turned("12: a name of 256 bytes", CALL(name_state)(BOTH, NAMES(n), longest, 256), FAROALDER_UNHELD, before, n);
  turned("12: a name of nothing", CALL(name_state)(BOTH, NAMES(n), FAROALDER_EMPTY, 0), FAROALDER_UNHELD, before, n);
  turned("12: returning to none", CALL(return_to)(BOTH, NAMES(n), NAME("i")), FAROALDER_UNHELD, before, n);
  turned("12: to a name's first byte", CALL(return_to)(BOTH, NAMES(n), longest, 1), FAROALDER_UNHELD, before, n);
  turned("12: to 256 bytes", CALL(return_to)(BOTH, NAMES(n), longest, 256), FAROALDER_UNHELD, before, n);
  turned("12: dropping none", CALL(drop_name)(BOTH, NAMES(n), NAME("i")), FAROALDER_UNHELD, before, n);
  turned("12: nothing", CALL(drop_name)(BOTH, NAMES(n), FAROALDER_EMPTY, 0), FAROALDER_UNHELD, before, n);
  free(before);
  number("a held name again, with eight held", CALL(name_state)(BOTH, NAMES(n), NAME("c")), 0);
  number("return_to a", CALL(return_to)(BOTH, NAMES(n), NAME("a")), 0);
  refused("3: node 1", CALL(find)(BOTH, 1), FAROALDER_OUTSIDE);
  number("return_to c", CALL(return_to)(BOTH, NAMES(n), NAME("c")), 0);
  number("find 7", CALL(find)(BOTH, 7), 7);
  number("drop_name b", CALL(drop_name)(BOTH, NAMES(n), NAME("b")), 0);
  refused("12: return_to b", CALL(return_to)(BOTH, NAMES(n), NAME("b")), FAROALDER_UNHELD);
  refused("12: drop_name b again", CALL(drop_name)(BOTH, NAMES(n), NAME("b")), FAROALDER_UNHELD);
  number("the ninth name", CALL(name_state)(BOTH, NAMES(n), NAME("i")), 0);
  refused("13: a tenth", CALL(name_state)(BOTH, NAMES(n), NAME("b")), FAROALDER_NO_PLACE);
  number("reset", CALL(reset)(BOTH, NAMES(n)), 0);
  refused("12: return_to a", CALL(return_to)(BOTH, NAMES(n), NAME("a")), FAROALDER_UNHELD);
  refused("12: drop_name i", CALL(drop_name)(BOTH, NAMES(n), NAME("i")), FAROALDER_UNHELD);
  number("b once more", CALL(name_state)(BOTH, NAMES(n), NAME("b")), 0);
  refused("1: 4,097 nodes", faroalder_open_names(NAMES(n), 4097, 0), FAROALDER_UNOPENABLE);
  refused("1: 16,385 children", faroalder_open_names(NAMES(n), 0, 16385), FAROALDER_UNOPENABLE);
  refused("1: a word too short", faroalder_open_names(n.bs, n.len - 1, 16, 32), FAROALDER_UNOPENABLE);
  number("return_to b", CALL(return_to)(BOTH, NAMES(n), NAME("b")), 0);
  free(n.bs);
}

#ifndef TESTED
/* Each of the four calls refuses the names buffer with 8, and leaves every word as found. */
static void unsound(const char *what, struct names n) {
  size_t len;
  uint32_t *before = copied(n, &len);
  printf("  8: %s\n", what);
  turned("name_state", faroalder_name_state(BOTH, NAMES(n), NAME("new")), FAROALDER_UNSOUND, before, n);
  turned("return_to", faroalder_return_to(BOTH, NAMES(n), NAME("a")), FAROALDER_UNSOUND, before, n);
  turned("drop_name", faroalder_drop_name(BOTH, NAMES(n), NAME("a")), FAROALDER_UNSOUND, before, n);
  turned("reset", faroalder_reset(BOTH, NAMES(n)), FAROALDER_UNSOUND, before, n);
  number("faroalder_names_refusal", faroalder_names_refusal(BOTH, NAMES(n)), FAROALDER_UNSOUND);
  free(before);
}

static void names_by_hand(void) {
  struct names n = names_for(16, 32);
  size_t place = (n.len - 2) / 8, state = 2 + 256, nodes = state + faroalder_header_words();
  uint32_t out[12];
  title("names buffers changed by hand");
  memset(n.bs, 0, n.len * sizeof *n.bs); /* zeros behind what a state uses */
  if (faroalder_open_names(NAMES(n), 16, 32) != 0) abort();
  tuple1(var(0)), nil();
  number("a", faroalder_name_state(BOTH, NAMES(n), NAME("a")), 0);
  number("bc", faroalder_name_state(BOTH, NAMES(n), NAME("bc")), 0);
  struct { const char *what; size_t at; uint32_t word; } changes[] = {
      {"a capacity for nodes", 0, 15},        {"a capacity for children", 1, 33},
      {"a name of 256 bytes", 2, 256},        {"a byte of 256", 3, 256},
      {"an unused byte", 4, 1},               {"a count of nodes", state, 2},
      {"a state's nodes' room", state + 2, 16}, {"a state's children's room", state + 3, 32},
      {"a node's tag", nodes, 9},
  };
  for (size_t i = 0; i < sizeof changes / sizeof *changes; i++) {
    uint32_t was = n.bs[changes[i].at];
    n.bs[changes[i].at] = changes[i].word;
    unsound(changes[i].what, n);
    n.bs[changes[i].at] = was;
  }
  n.bs[2 + place] = 1, n.bs[3 + place] = 'a', n.bs[4 + place] = 0;
  unsound("one name twice", n);
  n.bs[2 + place] = 2, n.bs[3 + place] = 'b', n.bs[4 + place] = 'c';
  unsound("a word too short", (struct names){n.bs, n.len - 1});
  unsound("nothing", (struct names){FAROALDER_EMPTY, 0});
  n.bs[2 + 2 * place + 1] = 999, n.bs[2 + 2 * place + 300] = 999, n.bs[2 + place - 1] = 999;
  number("words that are no part of it", faroalder_names_refusal(BOTH, NAMES(n)), 0);
  struct faroalder_rules bad = r;
  bad.chart_len -= 1;
  refused("2: before 8",
          faroalder_name_state(FAROALDER_RULES(&bad), FAROALDER_STORE(&s), FAROALDER_EMPTY, 0, NAME("a")),
          FAROALDER_BAD_CHART);
  refused("8: before 12", faroalder_return_to(BOTH, FAROALDER_EMPTY, 0, NAME("z")), FAROALDER_UNSOUND);
  number("return_to", faroalder_return_to(BOTH, NAMES(n), NAME("bc")), 0);
  number("figures", faroalder_figures(BOTH, out), 0);
  free(n.bs);
}
#endif

/* ---- Refusals ---- */

static void turned_back(void) {
  uint32_t out[1] = {77}, words[9];
  uint8_t buf[3];
  title("refusals");
  tuple1(var(0));
  refused("1: a store of 4,097 nodes", faroalder_open(FAROALDER_STORE(&s), 4097, 0), FAROALDER_UNOPENABLE);
  refused("3: node 9", CALL(child)(BOTH, 9, 0, out), FAROALDER_OUTSIDE);
  yes("and out is as found", out[0] == 77);
  refused("4: a Ref of nothing", make(FAROALDER_REF, 0, NULL, 0, NULL, NULL), FAROALDER_UNMAKEABLE);
  refused("5: definition 9", CALL(new_struct)(BOTH, 9, FAROALDER_EMPTY, 0), FAROALDER_UNDEFINED);
  refused("7: a buffer of 3 bytes", CALL(show)(BOTH, 1, buf, 3), FAROALDER_SHORT);
  yes("filled with (?0", memcmp(buf, "(?0", 3) == 0);
  struct faroalder_record record = {0, {0, 0, 1}, {0, 0, 1}, 0, 0, 0};
  number("7: too little room for a chart", faroalder_load(&record, 1, words, 9), 7);
  refused("11: 33 children", CALL(new_struct)(BOTH, STRUCT_POINT, (uint32_t[33]){0}, 33), FAROALDER_CHILDREN_FULL);
#ifndef TESTED
  struct faroalder_rules bad = r;
  bad.chart_len -= 1;
  refused("2: a chart cut short", faroalder_new_var(FAROALDER_RULES(&bad), FAROALDER_STORE(&s), 0), FAROALDER_BAD_CHART);
  number("faroalder_refusal of it", faroalder_refusal(FAROALDER_RULES(&bad), FAROALDER_STORE(&s)), 2);
  struct faroalder_store other = opened(4, 4);
  other.h[0] = 1; /* a node that is none */
  refused("9: a source changed by hand",
          faroalder_import(BOTH, FAROALDER_STORE(&other), FAROALDER_EMPTY, 0, 0, FAROALDER_EMPTY, 0, FAROALDER_EMPTY, 0),
          FAROALDER_SOURCE_UNSOUND);
  closed(&other);
  s.ws[1] = 5; /* node 0's span may be any number; its tag may not */
  number("a span changed by hand", faroalder_refusal(BOTH), 0);
  s.ws[0] = 9;
  refused("8: a tag changed by hand", faroalder_find(BOTH, 0), FAROALDER_UNSOUND);
  number("faroalder_refusal of it", faroalder_refusal(BOTH), 8);
#endif
}

/* ---- Lean forms ---- */

#define LEAN s.h, s.h_len, s.ws, s.ws_len
#define LEAN_OVER r.chart, r.chart_len, FAROALDER_STORE(&s)

/* They answer as the others do. */
static void lean(void) {
  title("lean forms");
  uint32_t a = type(faroalder_lean_new_var(LEAN, 7));
  number("find", faroalder_lean_find(LEAN, inverse(a)), inverse(a));
  number("find_mut", faroalder_lean_find_mut(LEAN, a), a);
  refused("find outside", faroalder_lean_find(LEAN, 9), FAROALDER_OUTSIDE);
  uint32_t nil = type(faroalder_lean_nil(LEAN));
  number("nil again", CALL(nil)(BOTH), nil);
  uint32_t error = type(faroalder_lean_error(LEAN));
  number("error again", CALL(error)(BOTH), error);
  uint32_t pair[] = {a, inverse(a)};
  uint32_t two = type(faroalder_lean_new_over(LEAN_OVER, FAROALDER_TUPLE, 0, pair, 2));
  yes("a tuple is sound", faroalder_refusal(BOTH) == 0);
  number("and its own root", CALL(find)(BOTH, two), two);
  refused("an object", faroalder_lean_new_over(LEAN_OVER, FAROALDER_OBJECT, 0, pair, 2), FAROALDER_UNMAKEABLE);
  refused("a const's struct", faroalder_lean_new_over(LEAN_OVER, FAROALDER_STRUCT, CONST_K, pair, 2), FAROALDER_UNDEFINED);
}

int main(void) {
  void (*cases[])(void) = {var_inverse, nil_inverse,   occurs,  defaults, error_never, var_error, three_vars,
                           failure_keeps, objects,     forced,  shown,    params,      room,      sheet,
                           kinds,       lists,         remembering, finishing, exporting, returning, eight, turned_back, lean,
#ifndef TESTED
                           names_by_hand,
#endif
  };
  r = rules();
  for (size_t i = 0; i < sizeof cases / sizeof *cases; i++) {
    s = opened(16, 32);
    if (faroalder_refusal(BOTH) != 0) abort();
    cases[i]();
    closed(&s);
  }
  printf("%d differing\n", differing);
  return differing != 0;
}
