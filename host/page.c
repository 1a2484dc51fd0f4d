/* The result as a page: one file, nothing from outside, fit for a small screen and for being read aloud. */
#include "result.h"

#include "assurance.h"

static const char head[] = PAGE_START RESULT_FORM
    " -->\n<html lang=\"en\">\n<head>\n<meta charset=\"utf-8\">\n"
    "<meta name=\"viewport\" content=\"width=device-width, initial-scale=1\">\n"
    "<meta http-equiv=\"Content-Security-Policy\" content=\"default-src 'none'; style-src 'unsafe-inline'\">\n"
    "<title>Result of the election</title>\n<style>\n"
    ":root { color-scheme: light dark; }\n"
    "body { font: 1.05rem/1.5 system-ui, sans-serif; max-width: 40rem; margin: 0 auto; padding: 1rem; }\n"
    "table { border-collapse: collapse; width: 100%; margin: 1.5rem 0; }\n"
    "caption { text-align: left; font-weight: bold; font-size: 1.2rem; padding-bottom: .3rem; }\n"
    "th, td { text-align: left; vertical-align: top; padding: .4rem .6rem .4rem 0; border-bottom: 1px solid GrayText; }\n"
    "th[scope=row] { font-weight: normal; overflow-wrap: anywhere; min-width: 6rem; }\n"
    ".number { text-align: right; font-variant-numeric: tabular-nums; padding-right: 0; }\n"
    "code { overflow-wrap: anywhere; }\n"
    ".condition { border-left: .3rem solid; padding-left: .8rem; }\n"
    "</style>\n</head>\n<body>\n<main>\n<h1>Result of the election</h1>\n";

/* A name with what a page would read as its own signs written out. */
static void add_plain(struct text *text, const char *name) {
    for (; *name; name++) {
        switch (*name) {
        case '&': text_add(text, "&amp;"); break;
        case '<': text_add(text, "&lt;"); break;
        case '>': text_add(text, "&gt;"); break;
        case '"': text_add(text, "&quot;"); break;
        case '\'': text_add(text, "&#39;"); break;
        default: text_add(text, "%c", *name);
        }
    }
}

static void table_start(struct text *text, const char *caption, const char *left, const char *right, const char *kind) {
    text_add(text, "<table>\n<caption>%s</caption>\n<thead><tr><th scope=\"col\">%s</th>", caption, left);
    text_add(text, "<th scope=\"col\"%s>%s</th></tr></thead>\n<tbody>\n", kind, right);
}

static void number_row(struct text *text, const char *name, unsigned long long value) {
    text_add(text, "<tr><th scope=\"row\">");
    add_plain(text, name);
    text_add(text, "</th><td class=\"number\">%llu</td></tr>\n", value);
}

static void page_votes(const struct result *result, struct text *text) {
    table_start(text, "Votes", "List", "Votes", " class=\"number\"");
    const struct lists *lists = &result->transcript->paper.lists;
    for (size_t i = 0; i < lists->count; i++) number_row(text, lists->names[i], result->votes[i]);
    if (result->elsewhere) number_row(text, "Marks for no list", result->elsewhere);
    text_add(text, "</tbody>\n</table>\n");
}

static void page_turnout(const struct result *result, struct text *text) {
    const struct paper *paper = &result->transcript->paper;
    const struct account *account = &result->transcript->account;
    struct account_list lists[ACCOUNT_LISTS];
    size_t count = account_lists(account, lists);
    table_start(text, "Turnout", "What", "Number", " class=\"number\"");
    number_row(text, "Enrolled", paper->enrolment.number);
    number_row(text, "Ballots counted", result->counted);
    number_row(text, "Ballots withdrawn", account->withdrawn);
    for (size_t i = 0; i < count; i++) number_row(text, lists[i].words, lists[i].marks->count);
    number_row(text, "Turnout per thousand enrolled", paper->turnout);
    text_add(text, "</tbody>\n</table>\n");
}

/* The marks of the ballot account, where it has any to tell. */
static void page_marks(const struct account *account, struct text *text) {
    struct account_list lists[ACCOUNT_LISTS];
    size_t count = account_lists(account, lists);
    if (!count) return;
    table_start(text, "Withdrawals ahead of their ballots", "What", "Marks", "");
    for (size_t i = 0; i < count; i++) {
        text_add(text, "<tr><th scope=\"row\">%s</th><td>\n", lists[i].words);
        text_add_marks(text, lists[i].marks);
        text_add(text, "</td></tr>\n");
    }
    text_add(text, "</tbody>\n</table>\n");
}

/* How the count was shown, and how far that holds. */
static void page_assurance(const struct numbers *numbers, struct text *text) {
    char words[WORDS_ROOM];
    chance_in_words(numbers, words);
    text_add(text, "<h2>How it was checked</h2>\n<p>The count was shown in <strong>%zu %s</strong> of %zu %s. ", numbers->rounds,
             numbers->rounds == 1 ? "round" : "rounds", numbers->repeats, numbers->repeats == 1 ? "repetition" : "repetitions each");
    text_add(text, "<strong>All rounds were accepted.</strong></p>\n");
    text_add(text, "<p class=\"condition\"><strong>%s</strong> %s</p>\n", condition_sentence, condition_reason);
    text_add(text, "<p>The chance that a false result passes is at most <strong>%s</strong>.</p>\n", words);
    if (is_for_trying(numbers->ring, numbers->rounds, words))
        text_add(text, "<p class=\"condition\"><strong>For trying only:</strong> %s.</p>\n", words);
}

static void groups_row(struct text *text, const char *name, const uint8_t *digest) {
    text_add(text, "<tr><th scope=\"row\">%s</th><td><code>", name);
    text_add_groups(text, digest);
    text_add(text, "</code></td></tr>\n");
}

static void page_names(const struct result *result, struct text *text) {
    text_add(text,
             "<p>The fingerprint names this election. Whoever checks it on another machine and sees the same fingerprint sees the same "
             "election: ");
    text_add(text, "read it to each other.</p>\n");
    table_start(text, "What names this election", "What", "Digits", "");
    groups_row(text, "Fingerprint", result->transcript->fingerprint);
    groups_row(text, "Commitment", result->transcript->commitment);
    groups_row(text, "Seed", election_seed(&result->transcript->election));
    text_add(text, "</tbody>\n</table>\n");
}

static void page_digests(const struct result *result, struct text *text) {
    struct result_digest digests[MOST_RESULT_DIGESTS];
    size_t count = result_digests(result, digests);
    table_start(text, "What the commitment covers (SHA3-256)", "Of", "Digest", "");
    for (size_t i = 0; i < count; i++) {
        text_add(text, "<tr><th scope=\"row\">%s</th><td><code>", digests[i].name);
        text_add_hex(text, digests[i].digest, DIGEST);
        text_add(text, "</code></td></tr>\n");
    }
    text_add(text, "</tbody>\n</table>\n");
}

void result_page(const struct result *result, struct text *text) {
    text_add(text, "%s", head);
    text_add(text, "<p>Turnout: <strong>%llu per thousand</strong> of those enrolled.</p>\n",
             (unsigned long long)result->transcript->paper.turnout);
    page_votes(result, text);
    page_turnout(result, text);
    page_marks(&result->transcript->account, text);
    page_assurance(&result->transcript->election.numbers, text);
    page_names(result, text);
    page_digests(result, text);
    text_add(text, "</main>\n</body>\n</html>\n");
}
