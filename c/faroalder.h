/* The verified type store, for C. Every function here is proved to meet its contract (crates/library); this page says
 * what the contracts say. "01" is the blender's scope paper; docs/DIFFERENCES.md has what differs from the Rust.
 *
 * In short
 *   A chart lists the definitions. Two texts hold the bytes of all names. A store holds nodes, each a type, and lies in
 *   three buffers of yours. A call takes chart, texts and store, and answers one number.
 *
 *     struct faroalder_rules r = { .. };
 *     struct faroalder_store s = { h, faroalder_header_words(), ws, faroalder_node_words(64), ks,
 *                                  faroalder_child_words(256) };
 *     faroalder_open(FAROALDER_STORE(&s), 64, 256);
 *     uint64_t a = faroalder_new_var(FAROALDER_RULES(&r), FAROALDER_STORE(&s), span);
 *     if (a >= FAROALDER_REFUSED) return (int)(a - FAROALDER_REFUSED);    (a refusal's number)
 *     uint32_t t = (uint32_t)a;                                           (a type)
 *
 *   examples.c runs 01's examples this way.
 *
 * Answers
 *   A number below FAROALDER_REFUSED is the value: a type, a length, 0 for "done", 0 or 1 for no or yes.
 *   FAROALDER_REFUSED + n is refusal n. An answer of more than one number goes to `out`, the last argument, an array of
 *   fixed size: all of it is written, with 0 for what does not apply; on a refusal it is as found. `faroalder_refusal`
 *   and `faroalder_load` answer the refusal's number itself, 0 for none.
 *   A refusal leaves every buffer as found, but that 7 from a printer fills its buffer with the text's first bytes, and
 *   that nothing is promised of what a memory holds (see Remembering).
 *   Whatever numbers are lent, a call of the first family ends, and answers or refuses: it asks nothing of what the
 *   buffers hold.
 *
 * Pointers: what is asked of the caller, and tested by nobody
 *   - Each pointer that has a length points to so many elements; `sigils` to 12 words; `out` to as many as it says.
 *   - It is not null and is aligned for its element type, with length 0 too: FAROALDER_EMPTY is such a pointer.
 *   - What a call writes (what is not const) overlaps nothing else that is lent to the same call. What is only read may
 *     overlap. So an import's source is not its destination.
 *   - Nobody else writes what is lent, or reads what is written, until the call returns.
 *   The library keeps nothing between calls and has no memory of its own, so calls on different stores may run at the
 *   same time. A call may need 3 MB of stack, where a store of 4,096 nodes is one chain.
 *
 * Limits
 *   4,096 nodes and 16,384 children a store, both chosen when it is opened; 255 children a kind; 255 listed types or
 *   parameters; texts of 65,535 bytes; 1,024 records; names and paths of 1 to 255 bytes; eight named states, under
 *   names of 1 to 255 bytes.
 */
#ifndef FAROALDER_H
#define FAROALDER_H

#include <stddef.h>
#include <stdint.h>

#ifdef __cplusplus
extern "C" {
#endif

/* Refusal n is answered as FAROALDER_REFUSED + n. They are tested in the order 1, 2, 8, 9, 3, 4, 5, 12,
 * 13, 6, 10, 11, 7. */
#define FAROALDER_REFUSED UINT64_C(4294967296)

enum faroalder_refusal_number {
  FAROALDER_UNOPENABLE = 1,     /* opening: capacity above the limit, or buffers too short */
  FAROALDER_BAD_CHART = 2,      /* chart or texts break a limit, sort, flag or range */
  FAROALDER_OUTSIDE = 3,        /* a type's node isn't in the store */
  FAROALDER_UNMAKEABLE = 4,     /* a kind can't be made: bad code or name, over 255 children, object names not strictly
                                   ascending; over 255 listed types or parameters */
  FAROALDER_UNDEFINED = 5,      /* a definition is absent or of another sort */
  FAROALDER_NO_ENTRY = 6,       /* an import with a parameter list reaches a Param with no entry */
  FAROALDER_SHORT = 7,          /* the answer's buffer is too short */
  FAROALDER_UNSOUND = 8,        /* the store is unsound; a names buffer is unsound, too short or for other capacities */
  FAROALDER_SOURCE_UNSOUND = 9, /* import's source is unsound */
  FAROALDER_NODES_FULL = 10,    /* nodes made plus those needed exceed the capacity */
  FAROALDER_CHILDREN_FULL = 11, /* the same for children */
  FAROALDER_UNHELD = 12,        /* a name isn't held, or isn't 1 to 255 bytes long */
  FAROALDER_NO_PLACE = 13       /* a ninth name: it isn't held, and eight others are */
};

/* A type is a node's number, from 0, and an inversion bit. */
#define FAROALDER_INVERSE UINT32_C(0x80000000)
#define FAROALDER_NODE(t) ((t) & ~FAROALDER_INVERSE)
#define FAROALDER_IS_INVERSE(t) (((t) & FAROALDER_INVERSE) != 0)

/* No span; no builtin fn trait; the error impl type. */
#define FAROALDER_NONE UINT32_C(4294967295)

/* The sort of a definition. */
enum faroalder_sort {
  FAROALDER_SORT_OPAQUE, FAROALDER_SORT_STRUCT, FAROALDER_SORT_ENUM, FAROALDER_SORT_UNION, FAROALDER_SORT_CONCRETE_FN,
  FAROALDER_SORT_CONST, FAROALDER_SORT_TRAIT, FAROALDER_SORT_TRAIT_FN
};

/* A kind's code, and what it has: a number (a definition's, or any), its own name, flex, children. */
enum faroalder_kind {
  FAROALDER_PARAM,    /* any number; its own name */
  FAROALDER_TUPLE,    /* a run of children */
  FAROALDER_OBJECT,   /* a run of children, each with a name, strictly ascending as bytes */
  FAROALDER_OPAQUE,   /* a definition; a run of children */
  FAROALDER_STRUCT,   /* a definition; a run of children */
  FAROALDER_ENUM,     /* a definition; a run of children */
  FAROALDER_UNION,    /* a definition; a run of children */
  FAROALDER_FN,       /* a definition: a concrete fn or a trait fn */
  FAROALDER_CLOSURE,  /* any number; flex; its parameters, each with a name or none, then its return */
  FAROALDER_REF,      /* one child */
  FAROALDER_KEY,      /* its own name */
  FAROALDER_IF_CONST, /* a definition: a const; two children */
  FAROALDER_NEVER,
  FAROALDER_DEFAULT,
  FAROALDER_ERROR
};

/* What `unify` and its family answer. Failure outranks Indeterminate, which outranks Success. */
enum faroalder_result { FAROALDER_SUCCESS, FAROALDER_FAILURE, FAROALDER_INDETERMINATE };

/* What `node` and `force_kind` answer. */
enum faroalder_state { FAROALDER_CHILD, FAROALDER_UNKNOWN, FAROALDER_FAILED, FAROALDER_KNOWN };

/* What `get_mod` answers. */
enum faroalder_mod { FAROALDER_MOD_NONE, FAROALDER_MOD_DEF, FAROALDER_MOD_ERROR };

/* Where the numbers of a node stand in its `out`. */
enum faroalder_node_out {
  FAROALDER_AT_LINK,       /* a child: its parent, a type. Unknown or reported: its span */
  FAROALDER_AT_SIZE,       /* a root: how many nodes are in its tree */
  FAROALDER_AT_INVERTED,   /* Known, from here on: 0 or 1 */
  FAROALDER_AT_CODE,       /* the kind's code */
  FAROALDER_AT_NUMBER,     /* its number, 0 where it has none */
  FAROALDER_AT_DUAL,       /* its self-dual flag, 0 or 1 */
  FAROALDER_AT_FLEX,       /* a closure's flex, 0 to 3 */
  FAROALDER_AT_NAME_TEXT,  /* its own name; zeros for none */
  FAROALDER_AT_NAME_START,
  FAROALDER_AT_NAME_LEN,
  FAROALDER_AT_FIRST,      /* where its children lie among the store's, and how many there are: ask `child` for them; */
  FAROALDER_AT_COUNT       /* child i is the four words of `ks` from 4 * (first + i) on, its type and its name */
};

/* Where the figures stand in theirs. */
enum faroalder_figures_out {
  FAROALDER_AT_NODES, FAROALDER_AT_CHILDREN, FAROALDER_AT_NODE_ROOM, FAROALDER_AT_CHILD_ROOM,
  FAROALDER_AT_HAS_ERROR, FAROALDER_AT_ERROR, /* 0 or 1, and the type that `error` returns again */
  FAROALDER_AT_HAS_NIL, FAROALDER_AT_NIL,     /* the same of `nil` */
  FAROALDER_AT_REPORTS_LOW, FAROALDER_AT_REPORTS_HIGH /* how many variables were forced: low and high half of a u64 */
};

/* A name: a part of the rule text (0) or of the chart text (1). Where there may be none, zeros say so. */
struct faroalder_name {
  uint32_t text, start, len;
};

/* A definition. Its number is its place in the chart, from 0. A flag (0 or 1; a struct or a union has one) or a trait
 * (the number of a trait fn's trait) that its sort lacks is 0. */
struct faroalder_record {
  uint32_t sort;
  struct faroalder_name name, path;
  uint32_t def, dual, trait_number;
};

/* What every call reads: the chart's words (`faroalder_load` writes them), the number of the builtin fn trait or
 * FAROALDER_NONE, the four sigils of flex 0 to 3 (three words each, as a name; they alone may be empty), the rule
 * text and the chart text. */
struct faroalder_rules {
  const uint32_t *chart;
  size_t chart_len;
  uint32_t fn_trait;
  uint32_t sigils[12];
  const uint8_t *rule;
  size_t rule_len;
  const uint8_t *text;
  size_t text_len;
};

/* A store: header, nodes and children. Longer buffers do no harm; words past the store are as found. */
struct faroalder_store {
  uint32_t *h;
  size_t h_len;
  uint32_t *ws;
  size_t ws_len;
  uint32_t *ks;
  size_t ks_len;
};

/* The arguments that these two stand for. */
#define FAROALDER_RULES(r) \
  (r)->chart, (r)->chart_len, (r)->fn_trait, (r)->sigils, (r)->rule, (r)->rule_len, (r)->text, (r)->text_len
#define FAROALDER_STORE(s) (s)->h, (s)->h_len, (s)->ws, (s)->ws_len, (s)->ks, (s)->ks_len

/* A pointer for a length of 0. */
static const uint64_t faroalder_nothing = 0;
#define FAROALDER_EMPTY ((void *)(uintptr_t)&faroalder_nothing)

/* Below, the parameters that go with FAROALDER_RULES and FAROALDER_STORE; the latter by what a call writes. */
#define FAROALDER_THE_RULES \
  const uint32_t *chart, size_t chart_len, uint32_t fn_trait, const uint32_t sigils[12], const uint8_t *rule, \
      size_t rule_len, const uint8_t *text, size_t text_len
#define FAROALDER_READ_STORE \
  const uint32_t *h, size_t h_len, const uint32_t *ws, size_t ws_len, const uint32_t *ks, size_t ks_len
#define FAROALDER_NODES_OF_STORE \
  const uint32_t *h, size_t h_len, uint32_t *ws, size_t ws_len, const uint32_t *ks, size_t ks_len
#define FAROALDER_HEAD_AND_NODES \
  uint32_t *h, size_t h_len, uint32_t *ws, size_t ws_len, const uint32_t *ks, size_t ks_len
#define FAROALDER_WHOLE_STORE uint32_t *h, size_t h_len, uint32_t *ws, size_t ws_len, uint32_t *ks, size_t ks_len

/* Two families, with the same arguments and the same answers. Some calls of the second have a third form that is lent
 * less, at the end of this file.
 *
 * faroalder_X tests everything: the chart, the texts and the whole store, each time. On 4,096 nodes that takes some
 * 50 to 80 microseconds, and up to 1.7 milliseconds where the runs of children overlap.
 *
 * faroalder_tested_X tests its own arguments and nothing else. It is for rules and a store that were tested once,
 * and that only this library has written since:
 *   - `faroalder_refusal` has answered 0 for these rules and this store (a store that was just opened is sound,
 *     so there it is the rules that are tested);
 *   - since then the rules are the same words and bytes, and nothing but calls of this library, all with these
 *     rules, has written the store's buffers.
 * Every call leaves a store of which this is still true, whatever it answers (that is a theorem: crates/theorem).
 * For an import or an export it must be true of both stores, of an export's destination nothing. Where it is not
 * true, nothing is promised: such a call may read or write anywhere. */
#define FAROALDER_CALL(name, ...) \
  uint64_t faroalder_##name(__VA_ARGS__); \
  uint64_t faroalder_tested_##name(__VA_ARGS__)

/* ---- Sizes: how many words each buffer has to hold ---- */

size_t faroalder_header_words(void);
size_t faroalder_node_words(uint32_t nodes);
size_t faroalder_child_words(uint32_t children);
size_t faroalder_record_words(uint32_t records); /* a chart */
size_t faroalder_names_words(uint32_t nodes, uint32_t children); /* a names buffer: see Named states */
size_t faroalder_memory_words(uint32_t nodes);   /* a memory with a place for every pair of types: see Remembering */

/* ---- The chart ---- */

/* Writes the chart's words, ten a record, at the front of `words`; words past them are as found. Answers 0, or 7 if
 * there is too little room. What the records say is not tested here: the calls refuse a bad chart with 2. */
uint32_t faroalder_load(const struct faroalder_record *records, size_t records_len, uint32_t *words, size_t words_len);

/* ---- Opening and testing ---- */

/* A store without nodes, with room for so many nodes and children, whatever the buffers held. Done (0). Refusal 1. */
uint64_t faroalder_open(FAROALDER_WHOLE_STORE, uint32_t nodes, uint32_t children);

/* The test alone: 2 if chart or texts are bad, 8 if the store is unsound, else 0. */
uint32_t faroalder_refusal(FAROALDER_THE_RULES, FAROALDER_READ_STORE);

/* ---- Named states, and emptying ----
 *
 * A names buffer is one more buffer of yours, `bs`, beside a store. It holds up to eight states of the store, each
 * under a name of your choice: 1 to 255 bytes, any bytes, compared as bytes. Name the present state before you try
 * something; if it fails, return to it:
 *
 *     uint32_t *bs = ..;                               (faroalder_names_words(64, 256) words)
 *     faroalder_open_names(bs, bs_len, 64, 256);       (the capacities that the store was opened with)
 *     faroalder_name_state(FAROALDER_RULES(&r), FAROALDER_STORE(&s), bs, bs_len, (const uint8_t *)"before", 6);
 *     ..                                               (a unify that fails has bound some variables)
 *     faroalder_return_to(FAROALDER_RULES(&r), FAROALDER_STORE(&s), bs, bs_len, (const uint8_t *)"before", 6);
 *
 * What it holds: two words, the capacities; then eight places of one size, each a name's length (0: the place is
 * free), 255 words for the name's bytes (a byte each, unused ones 0), and the words of a state: header, nodes,
 * children, as much of each as was in use. Words of a free place behind its length, words behind what a state uses, and
 * words past the last place are no part of it. A longer buffer does no harm.
 *
 * Refusal 8 meets a names buffer that is too short, that was opened for other capacities than the store has, a word of
 * which is out of range, that holds one name twice, or a held state of which is unsound under the present rules: every
 * held state is tested, not only the one asked for. So the rules must stay those under which its states were named.
 *
 * The second family asks for what it asks for elsewhere, and in the same way of the names buffer: either it was opened
 * for this store's capacities or `faroalder_names_refusal` has answered 0 for it, and since then nothing but calls of
 * this library, with these rules and this store, has written it. */
#define FAROALDER_READ_NAMES const uint32_t *bs, size_t bs_len
#define FAROALDER_WRITE_NAMES uint32_t *bs, size_t bs_len

/* A names buffer without a name, for a store of so many nodes and children, whatever it held. Done (0). Refusal 1. */
uint64_t faroalder_open_names(FAROALDER_WRITE_NAMES, uint32_t nodes, uint32_t children);

/* The test alone: 2 if chart or texts are bad, 8 if the store or the names buffer is unsound, else 0. */
uint32_t faroalder_names_refusal(FAROALDER_THE_RULES, FAROALDER_READ_STORE, FAROALDER_READ_NAMES);

/* Holds the present state under a name. A name that is held already then holds this state in place of its old one, also
 * where eight are held. The store is only read. Done (0). Refusals 2, 8, 12 (a wrong length), 13. */
FAROALDER_CALL(name_state, FAROALDER_THE_RULES, FAROALDER_READ_STORE, FAROALDER_WRITE_NAMES, const uint8_t *name,
               size_t name_len);

/* The store is again as it was when it was named: every node and child, the remembered error and nil types, the counts.
 * Types made since are no longer in it. The count of reports stays as it is. The name stays held; the names buffer is
 * only read. Done (0). Refusals 2, 8, 12. */
FAROALDER_CALL(return_to, FAROALDER_THE_RULES, FAROALDER_WHOLE_STORE, FAROALDER_READ_NAMES, const uint8_t *name,
               size_t name_len);

/* The name is no longer held, and its place is free. The store is only read. Done (0). Refusals 2, 8, 12. */
FAROALDER_CALL(drop_name, FAROALDER_THE_RULES, FAROALDER_READ_STORE, FAROALDER_WRITE_NAMES, const uint8_t *name,
               size_t name_len);

/* Empties a store and drops all its names; its count of reports stays. Done (0). Refusals 2, 8. */
FAROALDER_CALL(reset, FAROALDER_THE_RULES, FAROALDER_WHOLE_STORE, FAROALDER_WRITE_NAMES);

/* ---- Making types: each answers a type. Refusals 2, 8, then as said ---- */

/* A type without a kind, with its span. 10. */
FAROALDER_CALL(new_var, FAROALDER_THE_RULES, FAROALDER_HEAD_AND_NODES, uint32_t span);

/* `count` of them, written at the front of `types`. Done (0). 10, 7. */
FAROALDER_CALL(new_vars, FAROALDER_THE_RULES, FAROALDER_HEAD_AND_NODES, uint32_t span, uint32_t count, uint32_t *types,
               size_t types_len);

/* The error type and the empty tuple: each is made once and then returned until `reset`. 10. */
FAROALDER_CALL(error, FAROALDER_THE_RULES, FAROALDER_HEAD_AND_NODES);
FAROALDER_CALL(nil, FAROALDER_THE_RULES, FAROALDER_HEAD_AND_NODES);

/* A kind over children. `entries` has four words for each child: its type, and its name's text, start and length,
 * zeros where it has no name. `entries_len` counts words. number, flex and name are 0 where the kind has none. 3, 4,
 * 5, 10, 11. */
FAROALDER_CALL(new, FAROALDER_THE_RULES, FAROALDER_WHOLE_STORE, uint32_t code, uint32_t number, uint32_t flex,
               uint32_t name_text, uint32_t name_start, uint32_t name_len, const uint32_t *entries, size_t entries_len);

/* A Struct or a Union over a definition and a plain list of types. 3, 4, 5, 10, 11. */
FAROALDER_CALL(new_struct, FAROALDER_THE_RULES, FAROALDER_WHOLE_STORE, uint32_t number, const uint32_t *types,
               size_t types_len);
FAROALDER_CALL(new_union, FAROALDER_THE_RULES, FAROALDER_WHOLE_STORE, uint32_t number, const uint32_t *types,
               size_t types_len);

/* ---- Finding and reading. Refusals 2, 8, 3 ---- */

/* A type's root, as a type. `find_mut` also points every node on the way straight at it. */
FAROALDER_CALL(find, FAROALDER_THE_RULES, FAROALDER_READ_STORE, uint32_t type);
FAROALDER_CALL(find_mut, FAROALDER_THE_RULES, FAROALDER_NODES_OF_STORE, uint32_t type);

/* A type's node as it stands: FAROALDER_CHILD, UNKNOWN, FAILED or KNOWN; `out` by enum faroalder_node_out. */
FAROALDER_CALL(node, FAROALDER_THE_RULES, FAROALDER_READ_STORE, uint32_t type, uint32_t out[12]);

/* Child i of a type's node: 1 and its type in out[0], or 0 where there is none. */
FAROALDER_CALL(child, FAROALDER_THE_RULES, FAROALDER_READ_STORE, uint32_t type, uint32_t i, uint32_t out[1]);

/* Name i of a type's node (a Param's or Key's own is name 0): 1 and its text, start and length in `out`, or 0 where
 * there is none. */
FAROALDER_CALL(child_name, FAROALDER_THE_RULES, FAROALDER_READ_STORE, uint32_t type, uint32_t i, uint32_t out[3]);

/* What of a store is no node: 0, and `out` by enum faroalder_figures_out. Refusals 2, 8. */
FAROALDER_CALL(figures, FAROALDER_THE_RULES, FAROALDER_READ_STORE, uint32_t out[12]);

/* ---- Asking. Refusals 2, 8, 3 ---- */

/* Is the root a tuple of nothing? 0 or 1. */
FAROALDER_CALL(is_nil, FAROALDER_THE_RULES, FAROALDER_READ_STORE, uint32_t type);

/* Is a type its own inverse? 0 or 1. The second counts every Param as `param` says (0 is no, any other number yes). */
FAROALDER_CALL(self_inverse, FAROALDER_THE_RULES, FAROALDER_READ_STORE, uint32_t type);
FAROALDER_CALL(self_inverse_param, FAROALDER_THE_RULES, FAROALDER_READ_STORE, uint32_t type, uint32_t param);

/* Whose module has a type's methods, through Refs: by enum faroalder_mod; a definition's def number in out[0]. */
FAROALDER_CALL(get_mod, FAROALDER_THE_RULES, FAROALDER_READ_STORE, uint32_t type, uint32_t out[1]);

/* Adds a type's root and those of everything in it to a set: `marks` has a byte for each node, nonzero means that it
 * is in the set already, and 1 is written for each root that is added. Done (0). 3, 7 (fewer marks than nodes). */
FAROALDER_CALL(find_related, FAROALDER_THE_RULES, FAROALDER_READ_STORE, uint8_t *marks, size_t marks_len,
               uint32_t type);

/* ---- Unifying: by enum faroalder_result. Refusals 2, 8, 3, then as said ---- */

FAROALDER_CALL(unify, FAROALDER_THE_RULES, FAROALDER_NODES_OF_STORE, uint32_t a, uint32_t b);

/* Two lists of types; the second's are inverted if `inverted` is not 0. 4. */
FAROALDER_CALL(unify_types, FAROALDER_THE_RULES, FAROALDER_NODES_OF_STORE, const uint32_t *as, size_t as_len,
               const uint32_t *bs, size_t bs_len, uint32_t inverted);

/* Two objects, as entries of four words each (see `new`); lengths count words. 4. */
FAROALDER_CALL(unify_objects, FAROALDER_THE_RULES, FAROALDER_NODES_OF_STORE, const uint32_t *as, size_t as_len,
               const uint32_t *bs, size_t bs_len, uint32_t inverted);

/* Two signatures: parameters and a return each. 4. */
FAROALDER_CALL(unify_fn_sig, FAROALDER_THE_RULES, FAROALDER_NODES_OF_STORE, const uint32_t *as, size_t as_len,
               uint32_t a_return, const uint32_t *bs, size_t bs_len, uint32_t b_return);

/* Two impl types: a trait's number over a list of types, or FAROALDER_NONE for the error impl type, whose list is not
 * looked at. 4, 5. `approx_eq` compares the traits alone and answers 0 or 1. */
FAROALDER_CALL(unify_impl_type, FAROALDER_THE_RULES, FAROALDER_NODES_OF_STORE, uint32_t a_trait, const uint32_t *as,
               size_t as_len, uint32_t b_trait, const uint32_t *bs, size_t bs_len);
FAROALDER_CALL(approx_eq, FAROALDER_THE_RULES, FAROALDER_READ_STORE, uint32_t a_trait, const uint32_t *as,
               size_t as_len, uint32_t b_trait, const uint32_t *bs, size_t bs_len);

/* ---- Remembering ----
 * Each of these is the call above with a memory of yours: words that may hold anything, of any length, 0 too. Answers,
 * refusals and nodes are the same. What it is for: where a type is shared many times over and unifying fails deep down,
 * the pairs that were compared before are not compared again. Every pair has a place in `faroalder_memory_words(nodes)`
 * words; that is 4 words for each of 4 * nodes * nodes pairs and 2 more, much for a large store, and in fewer, pairs
 * share places and some are compared again. Ordinary calls pay nothing: a call remembers from its 4,096th visit on.
 * What a memory holds afterwards means nothing, so any store may use it next. Of more than 4,096 nodes
 * `faroalder_memory_words` answers 0. */

FAROALDER_CALL(unify_recalling, FAROALDER_THE_RULES, FAROALDER_NODES_OF_STORE, uint32_t a, uint32_t b, uint32_t *memory,
               size_t memory_len);
FAROALDER_CALL(unify_types_recalling, FAROALDER_THE_RULES, FAROALDER_NODES_OF_STORE, const uint32_t *as, size_t as_len,
               const uint32_t *bs, size_t bs_len, uint32_t inverted, uint32_t *memory, size_t memory_len);
FAROALDER_CALL(unify_objects_recalling, FAROALDER_THE_RULES, FAROALDER_NODES_OF_STORE, const uint32_t *as,
               size_t as_len, const uint32_t *bs, size_t bs_len, uint32_t inverted, uint32_t *memory,
               size_t memory_len);
FAROALDER_CALL(unify_fn_sig_recalling, FAROALDER_THE_RULES, FAROALDER_NODES_OF_STORE, const uint32_t *as, size_t as_len,
               uint32_t a_return, const uint32_t *bs, size_t bs_len, uint32_t b_return, uint32_t *memory,
               size_t memory_len);
FAROALDER_CALL(unify_impl_type_recalling, FAROALDER_THE_RULES, FAROALDER_NODES_OF_STORE, uint32_t a_trait,
               const uint32_t *as, size_t as_len, uint32_t b_trait, const uint32_t *bs, size_t bs_len, uint32_t *memory,
               size_t memory_len);

/* ---- Forcing and finishing. Refusals 2, 8 ---- */

/* A type's kind: FAROALDER_KNOWN, with `out` as `node` has it but for the size. Where it has none it is now failed:
 * FAROALDER_UNKNOWN the first time, its span in out[FAROALDER_AT_LINK] and one report more; FAROALDER_FAILED after
 * that. Both count as the error type. 3. */
FAROALDER_CALL(force_kind, FAROALDER_THE_RULES, FAROALDER_HEAD_AND_NODES, uint32_t type, uint32_t out[12]);

/* Every root without a kind becomes Default. The second does so where a lent byte says so: one for each node, nonzero
 * chooses, and no byte means no. Done (0). */
FAROALDER_CALL(finish_inference, FAROALDER_THE_RULES, FAROALDER_NODES_OF_STORE);
FAROALDER_CALL(finish_inference_where, FAROALDER_THE_RULES, FAROALDER_NODES_OF_STORE, const uint8_t *chosen,
               size_t chosen_len);

/* ---- Between stores, which read the same rules. Done (0), and what the types became at the front of `out` ---- */

/* Types of a source store into this one. With `listed` not 0, `params` is a parameter list: a Param becomes the
 * entry of its number. With 0 `params` is not looked at. Refusals 2, 8, 9, 3, 4, 6, 10, 11, 7. */
FAROALDER_CALL(import, FAROALDER_THE_RULES, FAROALDER_WHOLE_STORE, const uint32_t *source_h, size_t source_h_len,
               const uint32_t *source_ws, size_t source_ws_len, const uint32_t *source_ks, size_t source_ks_len,
               const uint32_t *types, size_t types_len, uint32_t listed, const uint32_t *params, size_t params_len,
               uint32_t *out, size_t out_len);

/* Types of this store into a fresh one, which the call opens in `to_h`, `to_ws`, `to_ks` with room for so many nodes
 * and children, whatever they held. Refusals 1, 2, 8, 3, 4, 10, 11, 7. */
FAROALDER_CALL(export, FAROALDER_THE_RULES, FAROALDER_READ_STORE, uint32_t *to_h, size_t to_h_len, uint32_t *to_ws,
               size_t to_ws_len, uint32_t *to_ks, size_t to_ks_len, uint32_t nodes, uint32_t children,
               const uint32_t *types, size_t types_len, uint32_t *out, size_t out_len);

/* ---- Printing: the text goes to the front of `buf`, and its length is the answer. Refusals 2, 8, 3, (4, 5,) 7 ----
 * 01's second forms hand back the written part: that is the front of `buf` of the length answered, all of `buf` on
 * 7, and nothing on another refusal. There is no 0 byte at the end. A buffer counts as at most 4,294,967,295 bytes
 * long. */

FAROALDER_CALL(show, FAROALDER_THE_RULES, FAROALDER_READ_STORE, uint32_t type, uint8_t *buf, size_t buf_len);
FAROALDER_CALL(show_impl_type, FAROALDER_THE_RULES, FAROALDER_READ_STORE, uint32_t trait, const uint32_t *types,
               size_t types_len, uint8_t *buf, size_t buf_len);

/* ---- Lean forms ----
 *
 * Calls of the second family, with the same answers, that are lent no more of a tested store than they look at: for
 * callers to whom a call's arguments are much of its time. What the second family asks is asked here too, of the
 * rules and the store that these words are of. */

uint64_t faroalder_lean_new_var(uint32_t *h, size_t h_len, uint32_t *ws, size_t ws_len, uint32_t span);
uint64_t faroalder_lean_error(uint32_t *h, size_t h_len, uint32_t *ws, size_t ws_len);
uint64_t faroalder_lean_nil(uint32_t *h, size_t h_len, uint32_t *ws, size_t ws_len);
uint64_t faroalder_lean_find(const uint32_t *h, size_t h_len, const uint32_t *ws, size_t ws_len, uint32_t type);
uint64_t faroalder_lean_find_mut(const uint32_t *h, size_t h_len, uint32_t *ws, size_t ws_len, uint32_t type);

/* `new` of a kind without names over a plain list of types, as a Tuple, a Struct or a Ref. A kind that has names is
 * turned back with 4. 3, 4, 5, 10, 11. */
uint64_t faroalder_lean_new_over(const uint32_t *chart, size_t chart_len, FAROALDER_WHOLE_STORE, uint32_t code,
                                 uint32_t number, const uint32_t *types, size_t types_len);

#ifdef __cplusplus
}
#endif

#endif
