/*
 * Doarpezwim: the quarter account of what stacks and outfalls emit, by document 01 with requests A1 to A3, the import
 * of the historian's text export, by request A5, and the check of what a plant has filed, by request A6.
 *
 * The five functions are proved. For every input that keeps to the rules below they end, read and write nothing but
 * what they are lent, and answer what the document says. They keep no state, allocate nothing and may be called from
 * several threads at once, each with slices of its own. They are compiled for Linux on x86-64, in libdoarpezwim.a.
 *
 * Rules for the caller: a pointer is never null, also with a length of 0; it is aligned for its type; a length counts
 * elements, not bytes; what is written to overlaps no other argument.
 */
#ifndef DOARPEZWIM_H
#define DOARPEZWIM_H

#include <stddef.h>
#include <stdint.h>

#ifdef __cplusplus
extern "C" {
#endif

#define DOARPEZWIM_VERSION_MAJOR 0
#define DOARPEZWIM_VERSION_MINOR 6
#define DOARPEZWIM_VERSION_PATCH 0
#define DOARPEZWIM_VERSION "0.6.0"

/* Cells that each work slice has to have: the hours of 92 days, also for a file of outfalls. */
#define DOARPEZWIM_WORK_CELLS 2208
/* Cells of a row, as enum doarpezwim_row_cell names them. */
#define DOARPEZWIM_ROW_CELLS 7
/* Lines that a file may hold; a line gives a row. */
#define DOARPEZWIM_MOST_LINES 48
/* Cells of an answer, as enum doarpezwim_answer_cell names them. */
#define DOARPEZWIM_ANSWER_CELLS 8
/* Bytes of a survey record. */
#define DOARPEZWIM_SURVEY_BYTES 14
/* Bytes of a day record, and days that a text export may hold. */
#define DOARPEZWIM_DAY_BYTES 205
#define DOARPEZWIM_MOST_DAYS 92
/* Cells of an import's answer, as enum doarpezwim_import_cell names them. */
#define DOARPEZWIM_IMPORT_CELLS 3
/* Totals that are filed, one for each pollutant. */
#define DOARPEZWIM_TOTALS 5
/* Cells of a check's answer, as enum doarpezwim_check_cell names them. */
#define DOARPEZWIM_CHECK_CELLS 3

/*
 * Bytes of stack that a call needs: doarpezwim_check takes 23,248, of which 17,664 are its work cells, and the walk that it
 * calls 29,200 more, 52,448 in all; doarpezwim_account takes 5,616 and the same, 34,816; the import takes 312, the
 * panel's and the survey's calls less than 100. Measured, not proved: read off the machine code of libdoarpezwim.a, and
 * seen on a stack that was painted. The number below is what an earlier archive needed, 1,168 more. Where memset and memcpy
 * of the C library are bound at their first call, the loader takes some more for itself.
 */
#define DOARPEZWIM_STACK_BYTES 53616

/* The numbers that are answered; docs/REFUSALS.md says more of each, and what to do. 3 is no longer one of them. */
enum doarpezwim_refusal {
    DOARPEZWIM_ACCEPTED = 0,
    DOARPEZWIM_CUT_OR_UNKNOWN = 1,
    DOARPEZWIM_OUT_OF_PLACE = 2,
    DOARPEZWIM_BAD_READING = 4,
    DOARPEZWIM_STOPPED_SURVEY = 5,
    DOARPEZWIM_NO_BATCH = 6,
    DOARPEZWIM_NO_ENTRY = 7,
    DOARPEZWIM_FEW_ROW_CELLS = 8,
    DOARPEZWIM_FEW_WORK_CELLS = 9,
    DOARPEZWIM_PANEL_OVER = 10,
    DOARPEZWIM_PANEL_FULL = 11,
    DOARPEZWIM_PANEL_UNLAWFUL = 12,
    /* Of the program `account` alone: the library takes files of any length. */
    DOARPEZWIM_INPUT_TOO_LONG = 13,
    DOARPEZWIM_HEAD_FIELD = 14,
    /* Of an outfall the state of a day. */
    DOARPEZWIM_MASK = 15,
    DOARPEZWIM_FUEL_FIELD = 16,
    /* Of an outfall a survey's day. */
    DOARPEZWIM_SURVEY_HOUR = 17,
    DOARPEZWIM_NO_METHOD = 18,
    /* 19 to 21 are of doarpezwim_import, and name a line of its text. The program `checker` gives 19 and 20 as well. */
    DOARPEZWIM_TEXT_LINE = 19,
    DOARPEZWIM_TEXT_RANGE = 20,
    DOARPEZWIM_FEW_RECORD_BYTES = 21,
    /* Of doarpezwim_check. */
    DOARPEZWIM_ROW_COUNT = 22,
    /* Of doarpezwim_panel_hour, a wrong state: the kind of hour does not exist. The number is a mask's. */
    DOARPEZWIM_UNKNOWN_KIND = 15
};

/* What is wrong, in words without a place; for a number that is never answered, that it is unknown. */
static inline const char *doarpezwim_refusal_text(uint32_t number)
{
    switch (number) {
    case 0: return "accepted";
    case 1: return "a record is cut short, of an unknown kind, or not of its kind's length";
    case 2: return "a record is out of place or one too many, or the file ends inside a line";
    case 4: return "a reading is not allowed or over its limit, or an unmeasured hour or day is not zero";
    case 5: return "a survey names an hour or day in which the stack or outfall was stopped";
    case 6: return "a line goes by fuel and has no batch";
    case 7: return "a line goes by fuel and the tables have no entry for its boiler";
    case 8: return "fewer than 7 cells a line were lent for rows";
    case 9: return "a work slice has under 2208 cells";
    case 10: return "the panel's total would pass 2^53";
    case 11: return "the panel holds 2208 hours already";
    case 12: return "the panel's state is not lawful";
    case 13: return "the input is over 65536 bytes, which is the program's limit";
    case 14: return "a field of a head is out of range";
    case 15: return "a mask has bits past hour 23, a measured hour does not run, or a state is none of 0, 1, 2";
    case 16: return "a field of a fuel batch is out of range, or takes the line's fuel over 10000000000 kg";
    case 17: return "a survey's hour or day is past the period";
    case 18: return "no method is left: a day of the outfall is missing, and there is no survey";
    case 19: return "a line is malformed or not the hour that is due, or the last day is not finished";
    case 20: return "a concentration is over 10000, a flow is over 5000000, or a day is past 91";
    case 21: return "fewer than 205 bytes a day were lent for records";
    case 22: return "the filed row cells are not 7 for each line of the file";
    default: return "an unknown refusal";
    }
}

/* The cells of an answer: totals are grams, over all rows; 0 for a pollutant that no row has. */
enum doarpezwim_answer_cell {
    DOARPEZWIM_ANSWER_NUMBER = 0,
    DOARPEZWIM_ANSWER_PLACE = 1,
    DOARPEZWIM_ANSWER_ROWS = 2,
    DOARPEZWIM_ANSWER_SULPHUR_DIOXIDE = 3,
    DOARPEZWIM_ANSWER_NITROGEN_OXIDES = 4,
    DOARPEZWIM_ANSWER_DUST = 5,
    DOARPEZWIM_ANSWER_CHEMICAL_OXYGEN_DEMAND = 6,
    DOARPEZWIM_ANSWER_AMMONIA_NITROGEN = 7
};

/* The cells of a row. With pollutant 4 or 5 it is an outfall's and counts days, else a stack's and counts hours. */
enum doarpezwim_row_cell {
    DOARPEZWIM_ROW_STACK = 0,
    DOARPEZWIM_ROW_OUTFALL = 0,
    /* 1 sulphur dioxide, 2 nitrogen oxides, 3 dust, 4 chemical oxygen demand, 5 ammonia nitrogen. */
    DOARPEZWIM_ROW_POLLUTANT = 1,
    /* 1 automatic, 2 manual, 3 mass balance, 4 coefficient; of an outfall 1 or 2. */
    DOARPEZWIM_ROW_METHOD = 2,
    DOARPEZWIM_ROW_GRAMS = 3,
    DOARPEZWIM_ROW_RUNNING_HOURS = 4,
    DOARPEZWIM_ROW_RUNNING_DAYS = 4,
    /* Those of them for which neither the monitor nor a survey has data. */
    DOARPEZWIM_ROW_MISSING_HOURS = 5,
    DOARPEZWIM_ROW_MISSING_DAYS = 5,
    /* Counted from 1 through the period; 0 if none is missing. */
    DOARPEZWIM_ROW_FIRST_MISSING_PLUS_1 = 6
};

/*
 * States the account of a record file of any length.
 *
 * answer: number, place, row count, and the grams of sulphur dioxide, nitrogen oxides, dust, chemical oxygen demand and
 * ammonia nitrogen. The number is returned as well. It is 0 if the file is accepted, and so is the place. Else it is 1,
 * 2, 4 to 9 or 14 to 18, and row count and grams are 0. The place is a byte offset in the file: for 4 and 14 to 17 that
 * of the first wrong field or reading, for 1, 2, 5, 6, 7 and 18 that of the record at fault (the file's length if the
 * file ends inside a line), for 8 and 9 it is 0.
 *
 * rows: accepted rows stand at its start in line order, seven cells each; the cells past them, and all cells after a
 * refusal, stay as they were. 7 x 48 cells are always enough.
 *
 * concentration, flow: work slices. After acceptance the first 2,208 cells of each hold the last line's hours, in
 * hundredths of mg/m3 and in m3/h; a surveyed hour has the survey's values, also where the monitor missed it. If the
 * last line is an outfall's they hold its days, cell d day d, in hundredths of mg/L and in m3 per day, and zero behind.
 * After a refusal they are zero, but 9 leaves both slices alone. Cells past 2,208 are never written.
 */
uint32_t doarpezwim_account(const uint8_t *file, size_t file_len, uint64_t *rows, size_t rows_len,
                            uint32_t *concentration, size_t concentration_len, uint32_t *flow, size_t flow_len,
                            uint64_t answer[DOARPEZWIM_ANSWER_CELLS]);

/* Kinds of hour. */
enum doarpezwim_hour { DOARPEZWIM_STOPPED = 0, DOARPEZWIM_MISSING = 1, DOARPEZWIM_MEASURED = 2 };

/*
 * Takes one hour of a stack into a panel and returns 0, or returns a refusal number and leaves the panel as it was.
 *
 * A new panel is all zero. The total is the sum of c x l (hundredths of mg/m3 times m3/h), exact up to 2^53. The
 * readings, in mg/m3 and m3/h, are looked at for a measured hour only.
 *
 * A kind that is none of enum doarpezwim_hour is answered DOARPEZWIM_UNKNOWN_KIND before the state is looked at. Then,
 * in this order: 12 state not lawful, 11 it holds 2,208 hours, 4 a reading is not allowed or over its limit, 10 the
 * total would pass 2^53.
 */
uint32_t doarpezwim_panel_hour(double *total, uint32_t *hours, uint32_t *missing, uint32_t kind, float concentration,
                               float flow);

/*
 * Finds the survey that governs an hour: the first 14-byte block of that hour in the enforcement slice that starts with
 * length 12 and kind 3, else the first in the plant slice with length 12 and kind 4. A tail under 14 bytes is ignored,
 * so are surveys of an outfall, and readings are not judged. Copies the block to part and returns 14, or leaves part
 * alone and returns 0.
 */
uint32_t doarpezwim_governing_survey(const uint8_t *enforcement, size_t enforcement_len, const uint8_t *plant,
                                     size_t plant_len, uint16_t hour, uint8_t part[DOARPEZWIM_SURVEY_BYTES]);

/* The cells of an import's answer. */
enum doarpezwim_import_cell {
    DOARPEZWIM_IMPORT_NUMBER = 0,
    /* Counted from 1; 0 if the text is accepted. */
    DOARPEZWIM_IMPORT_LINE = 1,
    /* Bytes of records that were written, 205 a day; 0 if the text is refused. */
    DOARPEZWIM_IMPORT_COUNT = 2
};

/*
 * Writes the day records of a historian's text export, which stand in a record file between a head and its end.
 *
 * text: lines of day, hour, state, concentration and flow with a comma between two, such as 17,5,R,41.25,1003417.
 * States are R measured, M missing and S stopped; both readings are empty unless R. A number is one digit or more, and
 * leading zeros are allowed. A concentration, in mg/m3 and at most 10,000, may have a point with one or two digits
 * behind it; a flow, in m3/h and at most 5,000,000, has none. Each line ends with LF, and with nothing before it. All
 * 24 hours of each day stand in order, from day 0, at most 92 days. Each reading becomes the nearest binary32. An empty
 * text is accepted and writes nothing.
 *
 * records: accepted records stand at its start, 205 bytes each; the bytes past them stay as they were. After a refusal
 * all records_len bytes are zero. 205 x 92 bytes are always enough.
 *
 * answer: number, line, and the bytes that were written. The number is returned as well. It is 0 if the text is
 * accepted, and so is the line. Else the count is 0, and the first line at fault is named, in this order: 19 it is
 * malformed, not of the hour that is due, does not end, or is the last one of a day that is not finished; 20 a reading
 * is over its limit, or the day is 92; 21 there is no room for the record of the day that it begins.
 */
uint32_t doarpezwim_import(const uint8_t *text, size_t text_len, uint8_t *records, size_t records_len,
                           uint64_t answer[DOARPEZWIM_IMPORT_CELLS]);

/* What a check finds. */
enum doarpezwim_check_outcome { DOARPEZWIM_AGREES = 0, DOARPEZWIM_WRONG = 1, DOARPEZWIM_REFUSED = 2 };

/* The cells of a check's answer; the second and the third are 0 if the filing agrees. */
enum doarpezwim_check_cell {
    /* One of enum doarpezwim_check_outcome. */
    DOARPEZWIM_CHECK_OUTCOME = 0,
    /* Of a wrong cell, both counted from 0: the totals are the row after the last. */
    DOARPEZWIM_CHECK_ROW = 1,
    DOARPEZWIM_CHECK_FIELD = 2,
    /* Of a refusal. */
    DOARPEZWIM_CHECK_NUMBER = 1,
    DOARPEZWIM_CHECK_PLACE = 2
};

/* A field by its row and place, where the file has lines lines: of a row its cell, of the totals the pollutant. */
static inline const char *doarpezwim_field_text(uint64_t lines, uint64_t row, uint64_t field)
{
    static const char *const of_row[DOARPEZWIM_ROW_CELLS] = {
        "stack or outfall", "pollutant", "method", "grams", "running", "missing", "first missing"
    };
    static const char *const of_totals[DOARPEZWIM_TOTALS] = {
        "sulphur dioxide", "nitrogen oxides", "dust", "chemical oxygen demand", "ammonia nitrogen"
    };
    if (row < lines && field < DOARPEZWIM_ROW_CELLS) {
        return of_row[field];
    }
    return row == lines && field < DOARPEZWIM_TOTALS ? of_totals[field] : "no field";
}

/*
 * Checks the rows and totals that a plant has filed for a record file of any length. Nothing is lent but the answer.
 *
 * rows: what was filed as rows, seven cells for each line of the file, in the file's order, as enum doarpezwim_row_cell
 * names them. totals: the grams filed of sulphur dioxide, nitrogen oxides, dust, chemical oxygen demand and ammonia
 * nitrogen. Any number may stand in any cell.
 *
 * answer: the outcome, which is returned as well, and two cells more. It is DOARPEZWIM_AGREES, with 0 and 0, exactly
 * when the rows and totals are those that doarpezwim_account states. It is DOARPEZWIM_WRONG with the row and the field
 * of the first wrong cell, by row and then by field. It is DOARPEZWIM_REFUSED with number and place: those that
 * doarpezwim_account refuses the file with, but never 8 or 9; else 22 with place 0 if rows_len is not 7 for each line.
 */
uint32_t doarpezwim_check(const uint8_t *file, size_t file_len, const uint64_t *rows, size_t rows_len,
                          const uint64_t totals[DOARPEZWIM_TOTALS], uint64_t answer[DOARPEZWIM_CHECK_CELLS]);

#ifdef __cplusplus
}
#endif

#endif
