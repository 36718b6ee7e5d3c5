/* A judge of Standard Reporting Format (SRF 2.0.1) files, for C99 and C++.
 *
 * Link target/staticlib/libjudge.a (x86-64), which ./build-library writes:
 *
 *     cc -I include CLIENT.c target/staticlib/libjudge.a
 *
 * A whole use, for a file and a code book that stand in memory:
 *
 *     uint8_t *report = malloc(SRF_REPORT_SIZE(file_size));
 *     uint64_t answer = srf_judge(file, file_size, book, book_size, report, SRF_REPORT_SIZE(file_size));
 *     if (answer != 0)
 *         refuse(SRF_REASON(answer), SRF_RECORD(answer));
 *     else
 *         for (size_t row = 1; row <= srf_report_number(report, 0, SRF_HEAD_BATCHES); row++)
 *             if (srf_report_number(report, row, SRF_BATCH_REASON) != SRF_SOUND)
 *                 reject(srf_report_number(report, row, SRF_BATCH_FIRST));
 *
 * With the rules that need today's date, the answer comes from
 *
 *     uint8_t today[SRF_TODAY_SIZE];
 *     srf_today(today, 2024, 2, 29);
 *     uint64_t answer = srf_judge_with(file, file_size, book, book_size, today, sizeof today, report, SRF_REPORT_SIZE(file_size));
 *
 * "01" below is the bureau's paper with the rules, as the requests in docs/changes/ have it, "004" the published format with its fields and
 * their numbers.
 */
#ifndef SRF_JUDGE_H
#define SRF_JUDGE_H

#include <stddef.h>
#include <stdint.h>

#ifdef __cplusplus
extern "C" {
#endif

/* Judge a file with a code book. srf_judge is srf_judge_with where no bytes are lent as today.
 *
 * Lent: the file, the book, today and the report, each by its first byte and its size in bytes. Any bytes of any size pass, and none has
 * to be aligned: a file too long, a damaged book, a today that is no day or a report too small draws an answer and does no harm. No pointer
 * may be null: an empty space, also a today that is not lent, is passed as any pointer that is not null, with size 0. The report may not
 * overlap the file, the book or today; these three may overlap. Nobody may write to the file, the book or today during the call, or read
 * or write the report.
 *
 * Today: eight EBCDIC digits YYYYMMDD of a real day (srf_today writes them), years 0001 to 9999, also where the file is ASCII; or no bytes,
 * and nothing is tested that needs today. With a day, check batches (BC) have to keep these limits too, each inclusive: the creation date
 * (field 17) is not after today; the accounting month (20; years 00 to 99 mean 2000 to 2099) has its first day at most 31 days ahead, its
 * last day at most 180 days back, and a year not above today's, except January when today is in December; the issue date of each payment
 * (59) lies in the accounting month, is at most 180 days old and at most 30 days ahead.
 *
 * Code page: the file is EBCDIC or ASCII. One whose first two bytes are hex 46 48 (FH) is ASCII throughout: its bytes 20 to 7E count as
 * the matching bytes of code page 037, all others as hex 3F, and the answer and the report are those of the file so translated; the lent
 * bytes stay as they are. Any other file is taken as it is, also one of fewer than two bytes. The book and today are EBCDIC for both, and
 * the report is the same for both.
 *
 * Justification: a value may stand anywhere in its field, and counts as if it stood where it belongs: a number (one run of digits, with
 * blanks before or after it) padded with zeros on the left, field 7 moved right and padded with zeros, any other field and the codes of the
 * book moved left. Dates and record codes are taken as they stand, and a field that is all blank stays so. A blank is hex 40, in ASCII 20.
 *
 * Returned: 0 where the file is accepted, else reason * 100,000 + record (SRF_REASON, SRF_RECORD).
 *
 * Written: on 0, the head and then a row for each batch in file order, from the report's start; the bytes past the last row stay as they
 * were. On any other answer the whole report stays as it was.
 *
 * Threads: nothing is kept between calls and there is no global state. Any number of threads may call at once, also with one file and
 * one book, if their reports do not overlap.
 *
 * Space: no heap, no system calls, at most 12 KB of stack (under 11 KB where numbers rise). Of the C library it needs memcpy and memset. In threads with little stack
 * have them bound when the program starts (-Wl,-z,now): bound at first use, the dynamic linker takes some 3 KB of stack more.
 *
 * Time: two passes over the file. Schedule numbers that rise in file order, and Payment IDs that climb in their batch, cost one comparison
 * each. Others cost more, and whatever they are no more than this: 52 comparisons a batch for the file's schedule numbers (13 in each of
 * at most 4 blocks of 4,096); 8 hashes and 120 comparisons a payment for a batch's Payment IDs (16 in walks, 13 in each of at most 8
 * blocks); to enter a number into a block, 4,095 moves of two bytes. Each pass, walk and block reads the code of a record at most once. A
 * batch of more than 1,000 DT takes one pass more: 10 comparisons a DT, and 1,000 moves of two bytes for each kind of TAS/BETC up to the
 * 1,001st. A batch in which a Payment ID repeats, or with too many kinds, is walked twice.
 */
uint64_t srf_judge(const uint8_t *file, size_t file_size, const uint8_t *book, size_t book_size, uint8_t *report, size_t report_size);
uint64_t srf_judge_with(const uint8_t *file, size_t file_size, const uint8_t *book, size_t book_size, const uint8_t *today,
                        size_t today_size, uint8_t *report, size_t report_size);

/* Why a file is refused (01 File answers). The tests are made in this order, and the first that applies is given. In brackets: the record
 * that the answer names, counted from 1; 0 where none is meant. */
enum srf_file_reason {
    SRF_ACCEPTED = 0,           /* accepted [0] */
    SRF_FILE_EMPTY = 1,         /* length 0 [0] */
    SRF_FILE_LENGTH = 2,        /* length no multiple of 850 [0] */
    SRF_FILE_TOO_LONG = 3,      /* more than 65,535 records [0] */
    SRF_BOOK_UNSOUND = 4,       /* code book unsound [0] */
    SRF_TODAY_NO_DAY = 14,      /* today lent, but no real day in eight EBCDIC digits YYYYMMDD [0] */
    SRF_NESTING = 5,            /* nesting [the first that begins no legal file, or last + 1] */
    SRF_REPORT_TOO_SHORT = 6,   /* report shorter than 64 * (1 + batches) bytes [0] */
    SRF_LOW_BYTE = 7,           /* a byte below hex 40 outside fillers; in ASCII, one outside 20 to 7E [the first with one] */
    SRF_INPUT_SYSTEM = 8,       /* InputSystem blank or not in the book [1] */
    SRF_VERSION = 9,            /* version not 201 [1] */
    SRF_TRAILER_NON_DIGIT = 10, /* a number in FT that is not one run of digits [last] */
    SRF_TRAILER_RECORDS = 11,   /* TotalCount_Records is not the record count [last] */
    SRF_TRAILER_PAYMENTS = 12,  /* TotalCount is not the detail count [last] */
    SRF_TRAILER_AMOUNT = 13     /* TotalAmount is not the sum of details [last] */
};

#define SRF_REASON(answer) ((answer) / 100000)
#define SRF_RECORD(answer) ((answer) % 100000)

/* Why a batch is rejected (01 Batch reasons). The row names the record and the 004 field at fault. */
enum srf_batch_reason {
    SRF_SOUND = 0,
    SRF_BLANK = 1,              /* required, but all blank */
    SRF_BADLY_SHAPED = 2,       /* badly shaped: no run of digits, or a blank inside field 7 */
    SRF_NOT_LISTED = 3,         /* not a listed value */
    SRF_NOT_IN_BOOK = 4,        /* not in the code book */
    SRF_NOT_A_DATE = 5,         /* not a date */
    SRF_REPEATED = 6,           /* repeats an earlier batch number in the file, or Payment ID in the batch */
    SRF_MISMATCH = 7,           /* does not match check symbol or serial */
    SRF_OUT_OF_RANGE = 8,       /* amount or symbol outside its range */
    SRF_ACCOUNT_SUM = 9,        /* TAS/BETC sum differs; the detail's record, field 87 */
    SRF_PROCUREMENT_SUM = 10,   /* procurement sum differs; the detail's record, field 96 */
    SRF_ACCOUNT_MISSING = 11,   /* CARS Reporter, payment without DT; the detail's record, field 76 */
    SRF_TOO_MANY_ACCOUNTS = 12, /* more than 1,000 different TAS/BETC (positions 23 to 54 of DT) in the batch; the header's record, field 76 */
    SRF_COUNT_DIFFERS = 13,     /* count differs */
    SRF_AMOUNT_DIFFERS = 14,    /* amount differs */
    SRF_DATE_OUT_OF_RANGE = 15  /* today lent: too old or too far ahead, or not in the accounting month */
};

/* The report (01 Report) is rows of eight 8-byte little-endian numbers. Row 0 is the head; its columns 0, 1 and 7 hold 0. A total is
 * div * 10^10 + mod cents and may pass 64 bits. Rejected batches count in the head. */
enum srf_head_column {
    SRF_HEAD_RECORDS = 2,
    SRF_HEAD_PAYMENTS = 3,
    SRF_HEAD_TOTAL_DIV = 4,
    SRF_HEAD_TOTAL_MOD = 5,
    SRF_HEAD_BATCHES = 6
};

/* Row n, from 1 on, is the file's n-th batch. Its last three columns hold 0 where the batch is sound. */
enum srf_batch_column {
    SRF_BATCH_FIRST = 0, /* the number of its first record */
    SRF_BATCH_RECORDS = 1,
    SRF_BATCH_PAYMENTS = 2,
    SRF_BATCH_TOTAL_DIV = 3,
    SRF_BATCH_TOTAL_MOD = 4,
    SRF_BATCH_REASON = 5,
    SRF_BATCH_FAULT_RECORD = 6,
    SRF_BATCH_FAULT_FIELD = 7
};

#define SRF_RECORD_SIZE 850
#define SRF_MOST_RECORDS 65535
#define SRF_ROW_SIZE 64
#define SRF_TODAY_SIZE 8

/* A report size that is enough for every file of this size: at most 1,048,576 bytes. A batch has four records or more (01 Nesting: header,
 * detail, DX, BT), and a file of more than 65,535 records is refused. The argument is evaluated twice. */
#define SRF_REPORT_SIZE(file_size) \
    ((size_t)SRF_ROW_SIZE * \
     (1 + ((file_size) / SRF_RECORD_SIZE < SRF_MOST_RECORDS ? (file_size) / SRF_RECORD_SIZE : SRF_MOST_RECORDS) / 4))

/* Writes a day as today is lent, in SRF_TODAY_SIZE bytes. 0xF0, since what '0' is is up to the compiler. Numbers that are no day of the
 * years 1 to 9999 become digits that are none either, eight zeros where one is too wide, and draw SRF_TODAY_NO_DAY. */
static inline void srf_today(uint8_t *today, unsigned year, unsigned month, unsigned day)
{
    uint32_t number = year > 9999 || month > 99 || day > 99 ? 0 : (uint32_t)year * 10000 + month * 100 + day;
    int i;
    for (i = SRF_TODAY_SIZE - 1; i >= 0; i--) {
        today[i] = (uint8_t)(0xF0 + number % 10);
        number /= 10;
    }
}

/* A number of the report of an accepted file. */
static inline uint64_t srf_report_number(const uint8_t *report, size_t row, unsigned column)
{
    const uint8_t *low = report + row * SRF_ROW_SIZE + column * 8;
    uint64_t number = 0;
    int i;
    for (i = 7; i >= 0; i--)
        number = number << 8 | low[i];
    return number;
}

#ifdef __cplusplus
}
#endif

#endif
