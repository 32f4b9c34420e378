/* draw.c: pachallu draw: a drawing in text becomes a rule file. */
#include <stdlib.h>

#include "command.h"
#include "drawing.h"
#include "words.h"

/* Where the drawing has what the library refuses. */
static size_t line_of_refusal(const struct drawing *drawing, const pachallu_made *made) {
    switch (made->refusal) {
    case 7: return drawing->pair_line[0];
    case 8: return drawing->row_line[made->a];
    case 9: return drawing->start_line;
    default: return 0;
    }
}

/* The rule file of a drawing with no complaints; what is wrong with the rule is told. */
static enum status to_rule(const char *file, const struct drawing *drawing, bool with_names, struct loaded *loaded) {
    char words[REFUSAL_WORDS];
    size_t note;
    loaded->file = file;
    loaded->len = rule_to_file(&drawing->rule, with_names, loaded->bytes, &note);
    if (loaded->len == 0) {
        tell(file, 0, "the names take %zu bytes of the rule's note%s, and %d are the most: make them shorter, or draw --no-names",
             note - drawing->rule.note_len, drawing->rule.note_len ? " beside the note lines" : "", NOTE_MOST);
        return ANSWER_NO;
    }
    judge(loaded);
    if (loaded->made.refusal == 0) return DONE;
    loaded->rule.names = drawing->rule.names;
    refusal_words(loaded, words);
    tell(file, line_of_refusal(drawing, &loaded->made), "%s", words);
    return ANSWER_NO;
}

static enum status draw_text(const struct arguments *arguments, const uint8_t *text, size_t len) {
    static struct drawing drawing;
    static struct loaded loaded;
    const char *file = arguments->file[0], *const sources[] = {file, NULL};
    drawing_read(text, len, &drawing);
    const struct complaints *complaints = &drawing.complaints;
    for (size_t i = 0; i < complaints->count; i++) tell(file, complaints->list[i].line, "%s", complaints->list[i].words);
    enum status status = complaints->count > 0 ? ANSWER_NO : to_rule(file, &drawing, !arguments->no_names, &loaded);
    complaints_free(&drawing.complaints);
    return status == DONE ? write_file(arguments->output, sources, loaded.bytes, loaded.len) : status;
}

/* A rule file in place of a drawing: no drawing could be one. */
static bool is_rule_file(const uint8_t *bytes, size_t len) {
    uint8_t sheet[PACHALLU_SHEET_MAX];
    return pachallu_make(bytes, len, sheet, sizeof sheet).refusal == 0;
}

enum status command_draw(const struct arguments *arguments) {
    uint8_t *text = room_for(NULL, DRAWING_MOST + 1);
    size_t len;
    enum status status = read_file(arguments->file[0], text, DRAWING_MOST + 1, &len);
    if (status == DONE && len > DRAWING_MOST) {
        tell(arguments->file[0], 0, "is longer than %d bytes: that is no drawing", DRAWING_MOST);
        status = ANSWER_NO;
    } else if (status == DONE && is_rule_file(text, len)) {
        tell(arguments->file[0], 0, "is a rule file, and no drawing in text: pachallu text writes its drawing");
        status = ANSWER_NO;
    } else if (status == DONE) {
        status = draw_text(arguments, text, len);
    }
    free(text);
    return status;
}
