/* The intake as a client of the judge: intake [--today YYYYMMDD] BOOK FILE says in words what the judge answers to a file, EBCDIC or ASCII.
 * Without --today no rule is tested that needs today's date.
 *
 * Exit status: 0 accepted and every batch sound, 1 accepted with rejected batches, 2 refused, 3 no judgement.
 */
#include "lend.h"
#include "srf_judge.h"

#include <errno.h>
#include <inttypes.h>
#include <stdbool.h>
#include <stdio.h>
#include <stdlib.h>
#include <string.h>

enum status { ALL_SOUND = 0, SOME_REJECTED = 1, REFUSED = 2, NOT_JUDGED = 3 };

/* 01 File answers. */
static const char *const FILE_REASONS[] = {
    [SRF_FILE_EMPTY] = "length 0",
    [SRF_FILE_LENGTH] = "length no multiple of 850",
    [SRF_FILE_TOO_LONG] = "more than 65,535 records",
    [SRF_BOOK_UNSOUND] = "code book unsound",
    [SRF_TODAY_NO_DAY] = "today is no real day",
    [SRF_NESTING] = "nesting",
    [SRF_REPORT_TOO_SHORT] = "report shorter than 64 * (1 + batches) bytes",
    [SRF_LOW_BYTE] = "a byte below 40 outside fillers",
    [SRF_INPUT_SYSTEM] = "InputSystem blank or not in kind 1",
    [SRF_VERSION] = "version not 201",
    [SRF_TRAILER_NON_DIGIT] = "a number in FT with a non-digit",
    [SRF_TRAILER_RECORDS] = "TotalCount_Records is not the record count",
    [SRF_TRAILER_PAYMENTS] = "TotalCount is not the detail count",
    [SRF_TRAILER_AMOUNT] = "TotalAmount is not the sum of details",
};

/* 01 Batch reasons. */
static const char *const BATCH_REASONS[] = {
    [SRF_SOUND] = "sound",
    [SRF_BLANK] = "required, but all blank",
    [SRF_BADLY_SHAPED] = "badly shaped (a non-digit, or a blank in field 7)",
    [SRF_NOT_LISTED] = "not a listed value",
    [SRF_NOT_IN_BOOK] = "not in the code book",
    [SRF_NOT_A_DATE] = "not a date",
    [SRF_REPEATED] = "repeats an earlier batch number in the file, or Payment ID in the batch",
    [SRF_MISMATCH] = "does not match check symbol or serial",
    [SRF_OUT_OF_RANGE] = "amount or symbol outside its range",
    [SRF_ACCOUNT_SUM] = "TAS/BETC sum differs",
    [SRF_PROCUREMENT_SUM] = "procurement sum differs",
    [SRF_ACCOUNT_MISSING] = "CARS Reporter, payment without DT",
    [SRF_TOO_MANY_ACCOUNTS] = "more than 1,000 different TAS/BETC in the batch",
    [SRF_COUNT_DIFFERS] = "count differs",
    [SRF_AMOUNT_DIFFERS] = "amount differs",
    [SRF_DATE_OUT_OF_RANGE] = "too old or too far ahead today, or not in the accounting month",
};

/* 004 chapter 2. */
static const char *const FIELDS[] = {
    [1] = "Record Code",
    [2] = "InputSystem",
    [3] = "Version Identifier",
    [4] = "Filler",
    [5] = "Record Code",
    [6] = "Schedule Number",
    [7] = "Summary Number",
    [8] = "Summary Date",
    [9] = "Summary Total Amount",
    [10] = "Voucher Form Code",
    [11] = "FILLER",
    [12] = "Originating DI",
    [13] = "OriginatingDFI",
    [14] = "AgencyLocationCode",
    [15] = "Disbursing Office Symbol",
    [16] = "IsCourtesy Check?",
    [17] = "Check Batch Creation Date",
    [18] = "CheckSymbolNumber",
    [19] = "Check First Serial Number",
    [20] = "Check Accounting Month And Year",
    [21] = "Filler",
    [22] = "Record Code",
    [23] = "PaymentID",
    [24] = "Amount",
    [25] = "IsVoided Check?",
    [26] = "PayeeName",
    [27] = "PayeeIdentifier",
    [28] = "PaymentTypeCode",
    [29] = "AgencyLocationCode",
    [30] = "PayeeAddressLine1",
    [31] = "PayeeAddressLine2",
    [32] = "PayeeAddressLine3",
    [33] = "PayeeAddressLine4",
    [34] = "CityName",
    [35] = "StateCode",
    [36] = "PostalCode",
    [37] = "PostalCodeExtension",
    [38] = "CountryCode",
    [39] = "RegionName",
    [40] = "ConsularCode",
    [41] = "ForeignPostalCode",
    [42] = "ReceivingDI",
    [43] = "ReceivingDFI",
    [44] = "Business Function Code",
    [45] = "IMAD",
    [46] = "OMAD",
    [47] = "ACH_TraceNumber",
    [48] = "ACH_Transaction Code",
    [49] = "ACH_OriginalTraceNumber",
    [50] = "ACH_Return Reason Code",
    [51] = "Payer Mechanism",
    [52] = "Original Currency Code",
    [53] = "BusinessIdentifierCode",
    [54] = "Original Schedule Number",
    [55] = "Original PaymentID",
    [56] = "Original Summary Date",
    [57] = "DFI_AccountNumber",
    [58] = "Check Serial Number",
    [59] = "Check Issue Date",
    [60] = "AgencyPaymentTypeCode",
    [61] = "DisbursementStatusReasonCode",
    [62] = "StandardEntryClassCode",
    [63] = "Filler",
    [64] = "Record Code",
    [65] = "PaymentID",
    [66] = "PartyName",
    [67] = "IsRepresentativePayee?",
    [68] = "FirstName",
    [69] = "MiddleName",
    [70] = "SurName",
    [71] = "NameSuffix",
    [72] = "TIN",
    [73] = "TIN_Code",
    [74] = "DUNS_Number",
    [75] = "Filler",
    [76] = "Record Code",
    [77] = "PaymentID",
    [78] = "Sub-levelPrefixCode",
    [79] = "AllocationTransfer AgencyIdentifier",
    [80] = "AgencyIdentifier",
    [81] = "BeginningPeriodOfAvailability",
    [82] = "EndingPeriodOfAvailability",
    [83] = "AvailabilityTypeCode",
    [84] = "MainAccountCode",
    [85] = "Sub-accountCode",
    [86] = "BusinessEvent TypeCode",
    [87] = "Amount",
    [88] = "IsCredit?",
    [89] = "Filler",
    [90] = "Record Code",
    [91] = "PaymentID",
    [92] = "ProcurementInstrumentIdentifier",
    [93] = "ProcurementAgencyIdentifier",
    [94] = "IDV_ProcurementInstrumentIdentifier",
    [95] = "IDV_ProcurementAgencyIdentifier",
    [96] = "Amount",
    [97] = "Filler",
    [98] = "Record Code",
    [99] = "TotalCount",
    [100] = "TotalAmount",
    [101] = "Filler",
    [102] = "Record Code",
    [103] = "TotalCount_Records",
    [104] = "TotalCount",
    [105] = "TotalAmount",
    [106] = "Filler",
};

#define WORDS(table, number) words(table, sizeof(table) / sizeof(table)[0], number)

/* The library may be a later one, with numbers that these tables do not have. */
static const char *words(const char *const *table, size_t count, uint64_t number)
{
    return number < count && table[number] != NULL ? table[number] : "(no words for this number)";
}

/* div * 10^10 + mod cents, as dollars. The total may pass 64 bits, so that its digits are joined instead. */
static void print_money(uint64_t div, uint64_t mod)
{
    char dollars[48];
    int digits = div == 0 ? snprintf(dollars, sizeof dollars, "%" PRIu64, mod / 100)
                          : snprintf(dollars, sizeof dollars, "%" PRIu64 "%08" PRIu64, div, mod / 100);

    putchar('$');
    for (int i = 0; i < digits; i++) {
        if (i > 0 && (digits - i) % 3 == 0)
            putchar(',');
        putchar(dollars[i]);
    }
    printf(".%02" PRIu64, mod % 100);
}

static uint64_t count_rejected(const uint8_t *report, uint64_t batches)
{
    uint64_t rejected = 0;

    for (uint64_t row = 1; row <= batches; row++)
        rejected += srf_report_number(report, row, SRF_BATCH_REASON) != SRF_SOUND;
    return rejected;
}

static void print_head(const uint8_t *report, uint64_t batches, uint64_t rejected)
{
    printf("accepted: records %" PRIu64 ", payments %" PRIu64 ", total ", srf_report_number(report, 0, SRF_HEAD_RECORDS),
           srf_report_number(report, 0, SRF_HEAD_PAYMENTS));
    print_money(srf_report_number(report, 0, SRF_HEAD_TOTAL_DIV), srf_report_number(report, 0, SRF_HEAD_TOTAL_MOD));
    printf(", batches %" PRIu64 ", rejected %" PRIu64 "\n", batches, rejected);
}

static void print_finding(const uint8_t *report, uint64_t row)
{
    uint64_t reason = srf_report_number(report, row, SRF_BATCH_REASON);
    uint64_t field = srf_report_number(report, row, SRF_BATCH_FAULT_FIELD);

    if (reason == SRF_SOUND) {
        puts(BATCH_REASONS[SRF_SOUND]);
        return;
    }
    printf("rejected: %s: field %" PRIu64 " %s, record %" PRIu64 "\n", WORDS(BATCH_REASONS, reason), field, WORDS(FIELDS, field),
           srf_report_number(report, row, SRF_BATCH_FAULT_RECORD));
}

static void print_batch(const uint8_t *report, uint64_t row)
{
    uint64_t first = srf_report_number(report, row, SRF_BATCH_FIRST);
    uint64_t last = first + srf_report_number(report, row, SRF_BATCH_RECORDS) - 1;

    printf("batch %" PRIu64 ", records %" PRIu64 " to %" PRIu64 ": payments %" PRIu64 ", total ", row, first, last,
           srf_report_number(report, row, SRF_BATCH_PAYMENTS));
    print_money(srf_report_number(report, row, SRF_BATCH_TOTAL_DIV), srf_report_number(report, row, SRF_BATCH_TOTAL_MOD));
    fputs(": ", stdout);
    print_finding(report, row);
}

static enum status print_report(const uint8_t *report)
{
    uint64_t batches = srf_report_number(report, 0, SRF_HEAD_BATCHES);
    uint64_t rejected = count_rejected(report, batches);

    print_head(report, batches, rejected);
    for (uint64_t row = 1; row <= batches; row++)
        print_batch(report, row);
    return rejected == 0 ? ALL_SOUND : SOME_REJECTED;
}

static enum status print_refusal(uint64_t answer, size_t records)
{
    printf("refused: %s", WORDS(FILE_REASONS, SRF_REASON(answer)));
    if (SRF_RECORD(answer) != 0)
        printf(", record %" PRIu64, SRF_RECORD(answer));
    if (SRF_RECORD(answer) > records)
        fputs(" (last + 1)", stdout);
    putchar('\n');
    return REFUSED;
}

static enum status fail(const char *what, const char *fault)
{
    fprintf(stderr, "intake: %s: %s\n", what, fault);
    return NOT_JUDGED;
}

/* As the judge tells it (02 W2). Numbers, since what 'F' and 'H' are is up to the compiler. */
static bool is_ascii(struct space file)
{
    return file.size >= 2 && file.bytes[0] == 0x46 && file.bytes[1] == 0x48;
}

/* A today of size 0 is not lent. */
static uint64_t answer_to(struct space file, struct space book, struct space today, uint8_t *report, size_t size)
{
    if (today.size == 0)
        return srf_judge(file.bytes, file.size, book.bytes, book.size, report, size);
    return srf_judge_with(file.bytes, file.size, book.bytes, book.size, today.bytes, today.size, report, size);
}

static enum status judge(struct space book, struct space file, struct space today)
{
    size_t size = SRF_REPORT_SIZE(file.size);
    uint8_t *report = malloc(size);
    enum status status;

    if (report == NULL)
        return fail("report", strerror(errno));
    uint64_t answer = answer_to(file, book, today, report, size);
    /* A line of its own: the others are the same for a file in either code. */
    if (is_ascii(file))
        puts("ASCII file");
    status = answer == 0 ? print_report(report) : print_refusal(answer, file.size / SRF_RECORD_SIZE);
    free(report);
    return status;
}

int main(int argc, char **argv)
{
    struct space book, file, today = { NULL, 0 };
    bool dated = argc > 2 && strcmp(argv[1], "--today") == 0;
    int first = dated ? 3 : 1;
    const char *fault;

    if (argc != first + 2) {
        fputs("usage: intake [--today YYYYMMDD] BOOK FILE\n", stderr);
        return NOT_JUDGED;
    }
    if (dated && (fault = lend_today(argv[2], &today)) != NULL) {
        fprintf(stderr, "intake: --today %s: %s\n", argv[2], fault);
        return NOT_JUDGED;
    }
    if ((fault = lend(argv[first], &book)) != NULL)
        return fail(argv[first], fault);
    if ((fault = lend(argv[first + 1], &file)) != NULL)
        return fail(argv[first + 1], fault);
    enum status status = judge(book, file, today);
    /* A status may not speak for words that nobody got. */
    if (fflush(stdout) != 0 || ferror(stdout))
        return fail("stdout", "what was said could not be written");
    return status;
}
