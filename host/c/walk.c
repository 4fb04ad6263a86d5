/* Walks 01's cases C2 and C8 through the library, as a gateway in C does, and prints what they give. Then a chain whose second rule has
   a directive that is passed over, and directives by themselves. Last, the controls by value: a range is added and two ids are
   asked for, a second range touches the first and is merged, and one that is held apart from it is refused. host/c/test compares what is printed with walk.expected. */
#include <inttypes.h>
#include <stdio.h>
#include <string.h>

#include "tivembo.h"

/* 01: "2 matched with one", a variable. */
#define MATCHED_WITH_A_VARIABLE 2

#define MOST_RULES 2
#define COUNT(list) (sizeof(list) / sizeof((list)[0]))

/* The rules of a phase. A list is never null, so one without an entry is some list and the length 0. */
typedef struct Rules {
    const TivemboRule *rules;
    size_t rules_len;
    const TivemboAction *actions;
    size_t actions_len;
    const TivemboMarker *markers;
    size_t markers_len;
    const uint8_t *text;
    size_t text_len;
} Rules;

/* What a call writes. */
typedef struct Lists {
    uint64_t ids[MOST_RULES];
    TivemboDataEntry entries[MOST_RULES];
    TivemboJournalEntry journal[MOST_RULES];
} Lists;

static const uint8_t OUTCOMES[MOST_RULES] = {MATCHED_WITH_A_VARIABLE, MATCHED_WITH_A_VARIABLE};
static const TivemboMarker A_AT_1[] = {{.name = {.start = 0, .len = 1}, .position = 1}};
static const uint8_t TEXT[] = {'A'};

/* Phase 2 of a request, in mode On, where block stands for 403. */
static TivemboAnswer run(TivemboHostTransaction *transaction, const Rules *given, Lists *lists) {
    return tivembo_run_phase(
        transaction,
        (TivemboCallSettings){.phase = 2, .mode = TIVEMBO_MODE_ON, .default_status = 403},
        (const uint64_t *)given->rules, given->rules_len * TIVEMBO_WIDTH_RULE,
        (const uint64_t *)given->actions, given->actions_len * TIVEMBO_WIDTH_ACTION,
        given->markers, given->markers_len,
        given->text, given->text_len,
        OUTCOMES, given->rules_len,
        lists->ids, COUNT(lists->ids),
        (uint64_t *)lists->entries, COUNT(lists->entries) * TIVEMBO_WIDTH_DATA_ENTRY,
        (uint64_t *)lists->journal, COUNT(lists->journal) * TIVEMBO_WIDTH_JOURNAL_ENTRY);
}

static void print_number(TivemboHostNumber number) {
    if (number.present == TIVEMBO_PRESENT_SOME) {
        printf(" %" PRIu64, number.value);
    }
}

static void print_intervention(const TivemboHostIntervention *found) {
    printf("intervention");
    if (found->present == TIVEMBO_PRESENT_SOME) {
        printf(" status %" PRIu64 " ids", found->status);
        print_number(found->closing);
        print_number(found->starter);
    } else {
        printf(" none");
    }
    printf("\n");
}

/* 02's words for the number of a reason. */
static const char *reason_name(uint64_t reason) {
    switch (reason) {
    case TIVEMBO_REASON_MODE_VALUE: return "mode value";
    case TIVEMBO_REASON_ID_LIST: return "id list";
    case TIVEMBO_REASON_TARGET_FORM: return "target form";
    case TIVEMBO_REASON_BODY_ACCESS_VALUE: return "body access value";
    case TIVEMBO_REASON_PROCESSOR: return "processor";
    case TIVEMBO_REASON_AUDIT: return "audit";
    case TIVEMBO_REASON_UNRECOGNISED: return "unrecognised";
    default: return "none";
    }
}

/* The first directive that the phase passed over, as a gateway's log has it. */
static void print_unsupported(TivemboUnsupportedAt first) {
    if (first.reason == 0) {
        printf("unsupported none\n");
    } else {
        printf("unsupported at %" PRIu64 " reason %" PRIu64 ", %s\n", first.index, first.reason, reason_name(first.reason));
    }
}

static void walk(const char *name, const Rules *given) {
    static const char *const verdicts[] = {"missed", "matched", "removed", "error"};
    TivemboHostTransaction transaction = {0};
    Lists lists = {0};
    TivemboAnswer answer = run(&transaction, given, &lists);

    printf("%s\nanswer %" PRIu64 "\nvisits", name, answer.answer);
    for (uint64_t at = 0; at < answer.visits; at++) {
        printf(" %" PRIu64 ":%s", lists.journal[at].index, verdicts[lists.journal[at].verdict]);
    }
    printf("\nids");
    for (uint64_t at = 0; at < transaction.ids; at++) {
        printf(" %" PRIu64, lists.ids[at]);
    }
    printf("\ndata");
    for (uint64_t at = 0; at < transaction.entries; at++) {
        printf(" %" PRIu64 "@%" PRIu64, lists.entries[at].id, lists.entries[at].index);
    }
    printf("\n");
    print_intervention(&transaction.intervention);
    print_unsupported(answer.report.unsupported);
}

/* 10 deny. */
static void c2(void) {
    static const TivemboRule rules[] = {{.present = 1, .id = 10, .first = 0, .count = 2}};
    static const TivemboAction actions[] = {{.kind = TIVEMBO_KIND_ID, .number = 10}, {.kind = TIVEMBO_KIND_DENY}};
    const Rules given = {rules, COUNT(rules), actions, COUNT(actions), A_AT_1, 0, TEXT, 0};
    walk("C2", &given);
}

/* 30 skipAfter A; 31 deny; A at 1. */
static void c8(void) {
    static const TivemboRule rules[] = {
        {.present = 1, .id = 30, .first = 0, .count = 2},
        {.present = 1, .id = 31, .first = 2, .count = 2},
    };
    static const TivemboAction actions[] = {
        {.kind = TIVEMBO_KIND_ID, .number = 30},
        {.kind = TIVEMBO_KIND_SKIP_AFTER, .text = {.start = 0, .len = 1}},
        {.kind = TIVEMBO_KIND_ID, .number = 31},
        {.kind = TIVEMBO_KIND_DENY},
    };
    const Rules given = {rules, COUNT(rules), actions, COUNT(actions), A_AT_1, COUNT(A_AT_1), TEXT, COUNT(TEXT)};
    walk("C8", &given);

    TivemboHostMarker found =
        tivembo_marker_position(A_AT_1, COUNT(A_AT_1), COUNT(rules), TEXT, COUNT(TEXT), TEXT, COUNT(TEXT));
    printf("marker A answer %" PRIu64 " present %" PRIu64 " position %" PRIu64 "\n", found.answer, found.present, found.position);
}

/* 1 link; 2 with ctl:foo=1. The index is that of the rule that has the directive. */
static void passed_over(void) {
    static const uint8_t text[] = {'f', 'o', 'o', '1'};
    static const TivemboRule rules[] = {
        {.present = 1, .id = 1, .link = 1},
        {.present = 1, .id = 2, .first = 0, .count = 1},
    };
    static const TivemboAction actions[] = {
        {.kind = TIVEMBO_KIND_CTL, .text = {.start = 0, .len = 3}, .value = {.start = 3, .len = 1}},
    };
    const Rules given = {rules, COUNT(rules), actions, COUNT(actions), A_AT_1, 0, text, COUNT(text)};
    walk("passed over", &given);
}

/* Reads a directive, and prints the reason where it is unsupported. */
static void print_read(const char *name, const char *value) {
    uint64_t starts[1] = {0}, ends[1] = {0};
    TivemboReadRecord found = tivembo_read_directive(
        (const uint8_t *)name, strlen(name), (const uint8_t *)value, strlen(value),
        starts, COUNT(starts), ends, COUNT(ends));
    printf("%s=%s answer %" PRIu64 " form %" PRIu64 " value %" PRIu64, name, value, found.answer, found.form, found.value);
    if (found.answer == 0 && found.form == TIVEMBO_DIRECTIVE_UNSUPPORTED) {
        printf(": %s", reason_name(found.value));
    }
    printf("\n");
}

/* One for each reason; then one that is supported, and one that is refused, so that nothing was read. */
static void directives(void) {
    printf("directives\n");
    print_read("ruleEngine", "Of");
    print_read("ruleRemoveById", "1,5-4");
    print_read("ruleRemoveTargetById", "942100");
    print_read("requestBodyAccess", "yes");
    print_read("requestBodyProcessor", "YAML");
    print_read("auditEngine", "On");
    print_read("ruleRemoveByTag", "x");
    print_read("ruleRemoveById", "43");
    print_read("ruleRemoveById", "43,44");
}

static void print_ranges(TivemboHostChangeAnswer changed) {
    printf("answer %" PRIu64 " ranges", changed.answer);
    for (uint64_t i = 0; i < changed.controls.ranges; i++) {
        printf(" %" PRIu64 "-%" PRIu64, changed.controls.starts[i], changed.controls.ends[i]);
    }
    printf("\n");
}

/* A range from 942100 to 942999 is removed, both ends too. One that touches it makes one of both. */
static void controls(void) {
    TivemboHostControls none = {0};
    printf("controls\n");
    TivemboHostChangeAnswer changed = tivembo_remove_range(none, 942100, 942999);
    print_ranges(changed);
    for (uint64_t id = 942999; id <= 943000; id++) {
        TivemboHostNumber asked = {.present = TIVEMBO_PRESENT_SOME, .value = id};
        TivemboHostQueryAnswer answer = tivembo_is_rule_removed(changed.controls, asked);
        printf("removed %" PRIu64 " answer %" PRIu64 " value %" PRIu64 "\n", id, answer.answer, answer.value);
    }
    print_ranges(tivembo_remove_range(changed.controls, 943000, 943099));
    TivemboHostControls apart = {.ranges = 2, .starts = {942100, 943000}, .ends = {942999, 943099}};
    print_ranges(tivembo_remove_range(apart, 7, 7));
}

int main(void) {
    c2();
    c8();
    passed_over();
    directives();
    controls();
    return 0;
}
