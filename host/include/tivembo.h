/* The proved calls, for C and C++. Written by tools/declarations from the Rattle sources in crates/; not to be
   changed by hand.

   No call requires anything of the numbers that it is given: what 01 does not know is refused, and a refused call
   leaves everything that was lent as it was. Only this is asked, which C cannot check: a pointer to one struct is
   valid; a pointer to a list, with its length in the parameter after it, is valid for so many entries, and not null
   even for none; and what is written, a pointer without const, does not overlap with anything else that is lent to
   the same call.

   A list of uint64_t for rules, actions, data entries or the journal has so many numbers for each record as
   TIVEMBO_WIDTH_.. says, in the order of the fields of the struct: an array of these structs may be lent. Numbers
   after the last whole record are not looked at.

   How to compile and link is in host/README.md. */
#ifndef TIVEMBO_H
#define TIVEMBO_H

#include <stdbool.h>
#include <stddef.h>
#include <stdint.h>

#ifdef __cplusplus
#define TIVEMBO_ASSERT(claim) static_assert(claim, #claim)
extern "C" {
#else
#define TIVEMBO_ASSERT(claim) _Static_assert(claim, #claim)
#endif

/* Numbers have the size that the library has them in: it is made for 64 bits. */
TIVEMBO_ASSERT(sizeof(size_t) == 8);
TIVEMBO_ASSERT(sizeof(bool) == 1);

/* 01: "more than 512 rules, 4,096 actions, 256 markers or 65,536 text bytes", "more than 256 ranges, more than 64
   targets". The definitions name the same numbers (specs/Limits.antt); where a contract cites one of those, another
   number here is refused. */
#define TIVEMBO_LIMIT_RULES 512
#define TIVEMBO_LIMIT_ACTIONS 4096
#define TIVEMBO_LIMIT_MARKERS 256
#define TIVEMBO_LIMIT_TEXT_BYTES 65536
#define TIVEMBO_LIMIT_RANGES 256
#define TIVEMBO_LIMIT_TARGETS 64

/* How many numbers stand for one record in its lent list. */
#define TIVEMBO_WIDTH_RULE 5
#define TIVEMBO_WIDTH_ACTION 6
#define TIVEMBO_WIDTH_MARKER 3
#define TIVEMBO_WIDTH_DATA_ENTRY 4
#define TIVEMBO_WIDTH_JOURNAL_ENTRY 2

/* 01's numbers of the kinds of actions. */
#define TIVEMBO_KIND_OTHER UINT64_C(0)
#define TIVEMBO_KIND_DENY UINT64_C(1)
#define TIVEMBO_KIND_BLOCK UINT64_C(2)
#define TIVEMBO_KIND_PASS UINT64_C(3)
#define TIVEMBO_KIND_ALLOW UINT64_C(4)
#define TIVEMBO_KIND_REDIRECT UINT64_C(5)
#define TIVEMBO_KIND_DROP UINT64_C(6)
#define TIVEMBO_KIND_CHAIN UINT64_C(7)
#define TIVEMBO_KIND_SKIP UINT64_C(8)
#define TIVEMBO_KIND_SKIP_AFTER UINT64_C(9)
#define TIVEMBO_KIND_MULTI_MATCH UINT64_C(10)
#define TIVEMBO_KIND_ID UINT64_C(11)
#define TIVEMBO_KIND_MSG UINT64_C(12)
#define TIVEMBO_KIND_LOGDATA UINT64_C(13)
#define TIVEMBO_KIND_REV UINT64_C(14)
#define TIVEMBO_KIND_VER UINT64_C(15)
#define TIVEMBO_KIND_SEVERITY UINT64_C(16)
#define TIVEMBO_KIND_MATURITY UINT64_C(17)
#define TIVEMBO_KIND_ACCURACY UINT64_C(18)
#define TIVEMBO_KIND_CTL UINT64_C(19)
#define TIVEMBO_KIND_STATUS UINT64_C(20)

/* 01: "0 (On), 1 (DetectionOnly) or 2 (Off)" */
#define TIVEMBO_MODE_ON UINT64_C(0)
#define TIVEMBO_MODE_DETECTION_ONLY UINT64_C(1)
#define TIVEMBO_MODE_OFF UINT64_C(2)

/* 01: "verdict, 0 missed, 1 matched, 2 removed, 3 error" */
#define TIVEMBO_VERDICT_MISSED UINT64_C(0)
#define TIVEMBO_VERDICT_MATCHED UINT64_C(1)
#define TIVEMBO_VERDICT_REMOVED UINT64_C(2)
#define TIVEMBO_VERDICT_ERROR UINT64_C(3)

/* 02: "mode value, id list, target form, body access value, processor, audit, unrecognised, numbered 1 to 7" */
#define TIVEMBO_REASON_MODE_VALUE UINT64_C(1)
#define TIVEMBO_REASON_ID_LIST UINT64_C(2)
#define TIVEMBO_REASON_TARGET_FORM UINT64_C(3)
#define TIVEMBO_REASON_BODY_ACCESS_VALUE UINT64_C(4)
#define TIVEMBO_REASON_PROCESSOR UINT64_C(5)
#define TIVEMBO_REASON_AUDIT UINT64_C(6)
#define TIVEMBO_REASON_UNRECOGNISED UINT64_C(7)

/* 01: "Number and order agree", from 1, an unknown phase or mode, to 9, too many targets */
#define TIVEMBO_REFUSAL_SETTINGS UINT64_C(1)
#define TIVEMBO_REFUSAL_TOO_LARGE UINT64_C(2)
#define TIVEMBO_REFUSAL_COUNTS UINT64_C(3)
#define TIVEMBO_REFUSAL_OUTCOMES UINT64_C(4)
#define TIVEMBO_REFUSAL_RECORD UINT64_C(5)
#define TIVEMBO_REFUSAL_HIGH_BYTE UINT64_C(6)
#define TIVEMBO_REFUSAL_NO_ROOM UINT64_C(7)
#define TIVEMBO_REFUSAL_RANGES UINT64_C(8)
#define TIVEMBO_REFUSAL_TARGETS UINT64_C(9)

/* The papers give no number to the cases below; these are ours (docs/DECISIONS.md, D12). */
#define TIVEMBO_ACCESS_ON UINT64_C(0)
#define TIVEMBO_ACCESS_OFF UINT64_C(1)

#define TIVEMBO_PROCESSOR_URLENCODED UINT64_C(0)
#define TIVEMBO_PROCESSOR_MULTIPART UINT64_C(1)
#define TIVEMBO_PROCESSOR_JSON UINT64_C(2)
#define TIVEMBO_PROCESSOR_XML UINT64_C(3)

/* a setting: 0 where it is not set, else one more than the value's number */
#define TIVEMBO_MODE_SETTING_UNSET UINT64_C(0)
#define TIVEMBO_MODE_SETTING_ON UINT64_C(1)
#define TIVEMBO_MODE_SETTING_DETECTION_ONLY UINT64_C(2)
#define TIVEMBO_MODE_SETTING_OFF UINT64_C(3)

#define TIVEMBO_ACCESS_SETTING_UNSET UINT64_C(0)
#define TIVEMBO_ACCESS_SETTING_ON UINT64_C(1)
#define TIVEMBO_ACCESS_SETTING_OFF UINT64_C(2)

#define TIVEMBO_PROCESSOR_SETTING_UNSET UINT64_C(0)
#define TIVEMBO_PROCESSOR_SETTING_URLENCODED UINT64_C(1)
#define TIVEMBO_PROCESSOR_SETTING_MULTIPART UINT64_C(2)
#define TIVEMBO_PROCESSOR_SETTING_JSON UINT64_C(3)
#define TIVEMBO_PROCESSOR_SETTING_XML UINT64_C(4)

/* a directive's form */
#define TIVEMBO_DIRECTIVE_UNSUPPORTED UINT64_C(0)
#define TIVEMBO_DIRECTIVE_RULE_ENGINE UINT64_C(1)
#define TIVEMBO_DIRECTIVE_RULE_REMOVE_BY_ID UINT64_C(2)
#define TIVEMBO_DIRECTIVE_RULE_REMOVE_TARGET_BY_ID UINT64_C(3)
#define TIVEMBO_DIRECTIVE_REQUEST_BODY_ACCESS UINT64_C(4)
#define TIVEMBO_DIRECTIVE_REQUEST_BODY_PROCESSOR UINT64_C(5)

/* a number or none: whether there is one, and the number */
#define TIVEMBO_PRESENT_NONE UINT64_C(0)
#define TIVEMBO_PRESENT_SOME UINT64_C(1)

/* A rule's record. `present` is 1 where the rule has an id and 0 where it has none, `link` is `is_chain`, and its
   actions are the `count` from `first` on. */
typedef struct TivemboRule {
    /* 1 where it has an id, else 0. */
    uint64_t present;
    uint64_t id;
    /* 1 where it is a link, else 0. */
    uint64_t link;
    /* Its first action. */
    uint64_t first;
    /* How many actions it has. */
    uint64_t count;
} TivemboRule;
TIVEMBO_ASSERT(sizeof(TivemboRule) == 40);

/* A part of a lent text. */
typedef struct TivemboPart {
    /* Its first byte. */
    uint64_t start;
    /* How many bytes it has. */
    uint64_t len;
} TivemboPart;
TIVEMBO_ASSERT(sizeof(TivemboPart) == 16);

/* An action's record: its kind, its number, and two parts of the lent text. */
typedef struct TivemboAction {
    /* 01's number of the kind. */
    uint64_t kind;
    /* The number of a kind that has one. */
    uint64_t number;
    /* The text of a kind that has one, and the directive of a ctl. */
    TivemboPart text;
    /* The value of a ctl. */
    TivemboPart value;
} TivemboAction;
TIVEMBO_ASSERT(sizeof(TivemboAction) == 48);

/* A marker's record: its name, and the number of the phase's rules before it. */
typedef struct TivemboMarker {
    /* Where its name stands. */
    TivemboPart name;
    /* The number of the phase's rules before it. */
    uint64_t position;
} TivemboMarker;
TIVEMBO_ASSERT(sizeof(TivemboMarker) == 24);

/* An entry of the list of matched data. `present` is 1 where it has an id. */
typedef struct TivemboDataEntry {
    /* 1 where it has an id, else 0. */
    uint64_t present;
    /* The id, or 0. */
    uint64_t id;
    uint64_t phase;
    /* The index of the rule that matched with a variable. */
    uint64_t index;
} TivemboDataEntry;
TIVEMBO_ASSERT(sizeof(TivemboDataEntry) == 32);

/* An entry of the journal: a visited rule's index and the number of the verdict. */
typedef struct TivemboJournalEntry {
    /* The rule's index. */
    uint64_t index;
    /* 0 missed, 1 matched, 2 removed, 3 error. */
    uint64_t verdict;
} TivemboJournalEntry;
TIVEMBO_ASSERT(sizeof(TivemboJournalEntry) == 16);

/* What the reader answers, the number of the directive's form, and its value. */
typedef struct TivemboReadRecord {
    /* 0 or a refusal's number. */
    uint64_t answer;
    /* 0 unsupported, 1 ruleEngine, 2 ruleRemoveById, 3 ruleRemoveTargetById, 4 requestBodyAccess, 5
       requestBodyProcessor; 0 too where nothing was read. */
    uint64_t form;
    /* The number of a reason (1 to 7), a mode, an access or a processor, how many ranges, or where a target is cut;
       0 where nothing was read. */
    uint64_t value;
} TivemboReadRecord;
TIVEMBO_ASSERT(sizeof(TivemboReadRecord) == 24);

/* What the question answers: 0, or the number of a refusal; 1 and the position where there is a marker of the name,
   else twice 0. */
typedef struct TivemboHostMarker {
    /* 0 or a refusal's number. */
    uint64_t answer;
    /* 1 where there is a marker of the name, else 0. */
    uint64_t present;
    /* The position of the latest such marker, else 0. */
    uint64_t position;
} TivemboHostMarker;
TIVEMBO_ASSERT(sizeof(TivemboHostMarker) == 24);

/* The settings by number, 0 where one is not set, and the arrays with how many of their places are in use. */
typedef struct TivemboHostControls {
    /* 0 not set, 1 On, 2 DetectionOnly, 3 Off. */
    uint64_t mode;
    /* 0 not set, 1 On, 2 Off. */
    uint64_t access;
    /* 0 not set, 1 URLENCODED, 2 MULTIPART, 3 JSON, 4 XML. */
    uint64_t processor;
    /* How many ranges are held, merged. */
    uint64_t ranges;
    /* How many targets are held. */
    uint64_t targets;
    /* Where the ranges start: rising, each at least two above the end before it. */
    uint64_t starts[TIVEMBO_LIMIT_RANGES];
    /* Where the ranges end; both ends are removed. */
    uint64_t ends[TIVEMBO_LIMIT_RANGES];
    /* The phases of the targets' places. */
    uint64_t phases[TIVEMBO_LIMIT_TARGETS];
    /* The positions of the targets' places. */
    uint64_t positions[TIVEMBO_LIMIT_TARGETS];
} TivemboHostControls;
TIVEMBO_ASSERT(sizeof(TivemboHostControls) == 5160);

/* A place or none. */
typedef struct TivemboHostPlace {
    /* 1 where there is a place, else 0. */
    uint64_t present;
    uint64_t phase;
    /* In that phase's whole action list. */
    uint64_t position;
} TivemboHostPlace;
TIVEMBO_ASSERT(sizeof(TivemboHostPlace) == 24);

/* A number or none: `present` is 1 or 0. */
typedef struct TivemboHostNumber {
    /* 1 where there is a number, else 0. */
    uint64_t present;
    uint64_t value;
} TivemboHostNumber;
TIVEMBO_ASSERT(sizeof(TivemboHostNumber) == 16);

/* The metadata of the rule that started the unit: the last action of each kind. */
typedef struct TivemboHostMetadata {
    TivemboHostNumber id;
    TivemboHostPlace msg;
    TivemboHostPlace logdata;
    TivemboHostPlace rev;
    TivemboHostPlace ver;
    TivemboHostNumber severity;
    TivemboHostNumber maturity;
    TivemboHostNumber accuracy;
} TivemboHostMetadata;
TIVEMBO_ASSERT(sizeof(TivemboHostMetadata) == 160);

/* An intervention or none. */
typedef struct TivemboHostIntervention {
    /* 1 where there is an intervention, else 0. */
    uint64_t present;
    uint64_t status;
    /* Where a redirect leads. */
    TivemboHostPlace url;
    /* The log text, the starter's msg. */
    TivemboHostPlace log;
    /* The closing rule's id. */
    TivemboHostNumber closing;
    /* The starter's metadata id, where it is another. */
    TivemboHostNumber starter;
    /* The phase in which it came about. */
    uint64_t phase;
    /* 1 where the connection is dropped, else 0. */
    uint64_t drop;
    /* The starter's metadata. */
    TivemboHostMetadata metadata;
} TivemboHostIntervention;
TIVEMBO_ASSERT(sizeof(TivemboHostIntervention) == 272);

/* A transaction as a host lends it. */
typedef struct TivemboHostTransaction {
    /* What directives have set. */
    TivemboHostControls controls;
    /* 1 where the request is allowed, else 0. */
    uint64_t allowed;
    /* What stops the request. */
    TivemboHostIntervention intervention;
    /* How many matched ids are in use. */
    uint64_t ids;
    /* How many data entries are in use. */
    uint64_t entries;
} TivemboHostTransaction;
TIVEMBO_ASSERT(sizeof(TivemboHostTransaction) == 5456);

/* The numbers that a call is given: the phase, the rule set's mode, and the caller's default status, which a block
   has. */
typedef struct TivemboCallSettings {
    /* 1 to 5. */
    uint64_t phase;
    /* 0 On, 1 DetectionOnly, 2 Off. */
    uint64_t mode;
    /* The status that a block stands for. */
    uint64_t default_status;
} TivemboCallSettings;
TIVEMBO_ASSERT(sizeof(TivemboCallSettings) == 24);

/* An unsupported directive that a phase passed over: the rule that has it, and why. Both are 0 where there is none. */
typedef struct TivemboUnsupportedAt {
    /* The index of the rule that has it. */
    uint64_t index;
    /* 1 mode value, 2 id list, 3 target form, 4 body access value, 5 processor, 6 audit, 7 unrecognised; 0 where
       there is none. */
    uint64_t reason;
} TivemboUnsupportedAt;
TIVEMBO_ASSERT(sizeof(TivemboUnsupportedAt) == 16);

/* What a phase tells besides: how many of its visits found each verdict, and the first unsupported directive of its
   closed units. */
typedef struct TivemboReport {
    /* How many visits missed. */
    uint64_t missed;
    /* How many matched. */
    uint64_t matched;
    /* How many found their rule removed. */
    uint64_t removed;
    /* How many met a rule error: one, with answer 10, or none. */
    uint64_t errors;
    /* The first unsupported directive of its closed units. */
    TivemboUnsupportedAt unsupported;
} TivemboReport;
TIVEMBO_ASSERT(sizeof(TivemboReport) == 48);

/* What a phase call answers, the same from the walk to a host: 0, 10, or the number of a refusal; the index of the
   rule that had the error, with 10; how many entries the journal holds; and what is told besides. */
typedef struct TivemboAnswer {
    /* 0, 10 or a refusal's number. */
    uint64_t answer;
    /* With 10, the index of the rule in error, else 0. */
    uint64_t error;
    /* How many entries the journal holds. */
    uint64_t visits;
    /* What is told besides. */
    TivemboReport report;
} TivemboAnswer;
TIVEMBO_ASSERT(sizeof(TivemboAnswer) == 72);

/* The answer to a question: 0 and the number of a value, or the number of a refusal and 0. */
typedef struct TivemboHostQueryAnswer {
    /* 0 or a refusal's number. */
    uint64_t answer;
    /* The value, 0 after a refusal. */
    uint64_t value;
} TivemboHostQueryAnswer;
TIVEMBO_ASSERT(sizeof(TivemboHostQueryAnswer) == 16);

/* The same where the value is a target. */
typedef struct TivemboHostTarget {
    /* 0 or a refusal's number. */
    uint64_t answer;
    /* The target's place. */
    TivemboHostPlace target;
} TivemboHostTarget;
TIVEMBO_ASSERT(sizeof(TivemboHostTarget) == 32);

/* The record after an addition, with its answer. */
typedef struct TivemboHostChangeAnswer {
    /* 0 or a refusal's number. */
    uint64_t answer;
    /* The controls after the addition, as given after a refusal. */
    TivemboHostControls controls;
} TivemboHostChangeAnswer;
TIVEMBO_ASSERT(sizeof(TivemboHostChangeAnswer) == 5168);

/* Reads a directive. The ranges of a ruleRemoveById go to the start of the two lists. */
TivemboReadRecord tivembo_read_directive(
    const uint8_t *name, size_t name_len,
    const uint8_t *value, size_t value_len,
    uint64_t *starts, size_t starts_len,
    uint64_t *ends, size_t ends_len);

/* Where the latest marker of a name leads, asked of a phase's marker records. `rules` is how many rules the phase
   has. */
TivemboHostMarker tivembo_marker_position(
    const TivemboMarker *markers, size_t markers_len,
    uint64_t rules,
    const uint8_t *text, size_t text_len,
    const uint8_t *name, size_t name_len);

/* The phase call, on a transaction and marker records that the host lends. */
TivemboAnswer tivembo_run_phase(
    TivemboHostTransaction *t,
    TivemboCallSettings call,
    const uint64_t *rules, size_t rules_len,
    const uint64_t *actions, size_t actions_len,
    const TivemboMarker *markers, size_t markers_len,
    const uint8_t *text, size_t text_len,
    const uint8_t *outcomes, size_t outcomes_len,
    uint64_t *ids, size_t ids_len,
    uint64_t *entries, size_t entries_len,
    uint64_t *journal, size_t journal_len);

/* How many targets are removed. */
TivemboHostQueryAnswer tivembo_target_count(TivemboHostControls c);

/* The target at a place of the list, counted from 0, or none after its end. */
TivemboHostTarget tivembo_target_at(TivemboHostControls c, uint64_t at);

/* The mode set last, else the rule set's: 0, 1 or 2. */
TivemboHostQueryAnswer tivembo_engine_mode(TivemboHostControls c, uint64_t ruleset_mode);

/* Whether a rule of this id, or of none, is removed: 1 or 0. */
TivemboHostQueryAnswer tivembo_is_rule_removed(TivemboHostControls c, TivemboHostNumber id);

/* Whether the request body is read: 0 On, 1 Off. */
TivemboHostQueryAnswer tivembo_request_body_access(TivemboHostControls c);

/* The body processor: 0 where none is set, else one more than its number. */
TivemboHostQueryAnswer tivembo_request_body_processor(TivemboHostControls c);

/* Adds a range of removed ids, merged with those held, which may then be fewer. After 3 and an unknown number: 5
   where the start is above the end, 8 where 256 are held, also where it would merge. */
TivemboHostChangeAnswer tivembo_remove_range(TivemboHostControls c, uint64_t start, uint64_t end);

/* Adds the place of a removed target at the end. After 3 and an unknown number: 9 where 64 are held. */
TivemboHostChangeAnswer tivembo_remove_target(
    TivemboHostControls c,
    uint64_t phase,
    uint64_t position);

#undef TIVEMBO_ASSERT

#ifdef __cplusplus
}
#endif

#endif
