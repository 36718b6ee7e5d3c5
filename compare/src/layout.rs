//! 004 chapter 2 as one table: every field's number, record, name, start position (from 1) and length.

#[derive(Clone, Copy, PartialEq, Eq, Debug)]
pub enum Kind {
    FileHeader,
    BatchHeader,
    Detail,
    Party,
    TasBetc,
    Procurement,
    BatchTrailer,
    FileTrailer,
}

#[derive(Clone, Copy, Debug)]
pub struct Field {
    pub number: u64,
    pub kind: Kind,
    pub name: &'static str,
    /// 004's start position, counted from 1.
    pub start: usize,
    pub length: usize,
}

const fn row(number: u64, kind: Kind, name: &'static str, start: usize, length: usize) -> Field {
    Field {
        number,
        kind,
        name,
        start,
        length,
    }
}

use Kind::*;

/// The field with number `n` stands at `FIELDS[n - 1]`.
#[rustfmt::skip]
pub const FIELDS: [Field; 106] = [
    row(1, FileHeader, "Record Code", 1, 2),
    row(2, FileHeader, "InputSystem", 3, 40),
    row(3, FileHeader, "Version Identifier", 43, 3),
    row(4, FileHeader, "Filler", 46, 805),
    row(5, BatchHeader, "Record Code", 1, 2),
    row(6, BatchHeader, "Schedule Number", 3, 14),
    row(7, BatchHeader, "Summary Number", 17, 6),
    row(8, BatchHeader, "Summary Date", 23, 10),
    row(9, BatchHeader, "Summary Total Amount", 33, 20),
    row(10, BatchHeader, "Voucher Form Code", 53, 4),
    row(11, BatchHeader, "FILLER", 57, 3),
    row(12, BatchHeader, "Originating DI", 60, 9),
    row(13, BatchHeader, "OriginatingDFI", 69, 9),
    row(14, BatchHeader, "AgencyLocationCode", 78, 8),
    row(15, BatchHeader, "Disbursing Office Symbol", 86, 4),
    row(16, BatchHeader, "IsCourtesy Check?", 90, 1),
    row(17, BatchHeader, "Check Batch Creation Date", 91, 8),
    row(18, BatchHeader, "CheckSymbolNumber", 99, 4),
    row(19, BatchHeader, "Check First Serial Number", 103, 8),
    row(20, BatchHeader, "Check Accounting Month And Year", 111, 4),
    row(21, BatchHeader, "Filler", 115, 736),
    row(22, Detail, "Record Code", 1, 2),
    row(23, Detail, "PaymentID", 3, 20),
    row(24, Detail, "Amount", 23, 20),
    row(25, Detail, "IsVoided Check?", 43, 1),
    row(26, Detail, "PayeeName", 44, 47),
    row(27, Detail, "PayeeIdentifier", 91, 16),
    row(28, Detail, "PaymentTypeCode", 107, 25),
    row(29, Detail, "AgencyLocationCode", 132, 8),
    row(30, Detail, "PayeeAddressLine1", 140, 40),
    row(31, Detail, "PayeeAddressLine2", 180, 40),
    row(32, Detail, "PayeeAddressLine3", 220, 40),
    row(33, Detail, "PayeeAddressLine4", 260, 40),
    row(34, Detail, "CityName", 300, 50),
    row(35, Detail, "StateCode", 350, 2),
    row(36, Detail, "PostalCode", 352, 5),
    row(37, Detail, "PostalCodeExtension", 357, 4),
    row(38, Detail, "CountryCode", 361, 2),
    row(39, Detail, "RegionName", 363, 50),
    row(40, Detail, "ConsularCode", 413, 3),
    row(41, Detail, "ForeignPostalCode", 416, 10),
    row(42, Detail, "ReceivingDI", 426, 9),
    row(43, Detail, "ReceivingDFI", 435, 9),
    row(44, Detail, "Business Function Code", 444, 3),
    row(45, Detail, "IMAD", 447, 22),
    row(46, Detail, "OMAD", 469, 22),
    row(47, Detail, "ACH_TraceNumber", 491, 15),
    row(48, Detail, "ACH_Transaction Code", 506, 2),
    row(49, Detail, "ACH_OriginalTraceNumber", 508, 15),
    row(50, Detail, "ACH_Return Reason Code", 523, 3),
    row(51, Detail, "Payer Mechanism", 526, 20),
    row(52, Detail, "Original Currency Code", 546, 3),
    row(53, Detail, "BusinessIdentifierCode", 549, 11),
    row(54, Detail, "Original Schedule Number", 560, 14),
    row(55, Detail, "Original PaymentID", 574, 20),
    row(56, Detail, "Original Summary Date", 594, 10),
    row(57, Detail, "DFI_AccountNumber", 604, 50),
    row(58, Detail, "Check Serial Number", 654, 8),
    row(59, Detail, "Check Issue Date", 662, 8),
    row(60, Detail, "AgencyPaymentTypeCode", 670, 1),
    row(61, Detail, "DisbursementStatusReasonCode", 671, 3),
    row(62, Detail, "StandardEntryClassCode", 674, 3),
    row(63, Detail, "Filler", 677, 174),
    row(64, Party, "Record Code", 1, 2),
    row(65, Party, "PaymentID", 3, 20),
    row(66, Party, "PartyName", 23, 150),
    row(67, Party, "IsRepresentativePayee?", 173, 1),
    row(68, Party, "FirstName", 174, 50),
    row(69, Party, "MiddleName", 224, 50),
    row(70, Party, "SurName", 274, 50),
    row(71, Party, "NameSuffix", 324, 5),
    row(72, Party, "TIN", 329, 9),
    row(73, Party, "TIN_Code", 338, 4),
    row(74, Party, "DUNS_Number", 342, 9),
    row(75, Party, "Filler", 351, 500),
    row(76, TasBetc, "Record Code", 1, 2),
    row(77, TasBetc, "PaymentID", 3, 20),
    row(78, TasBetc, "Sub-levelPrefixCode", 23, 2),
    row(79, TasBetc, "AllocationTransfer AgencyIdentifier", 25, 3),
    row(80, TasBetc, "AgencyIdentifier", 28, 3),
    row(81, TasBetc, "BeginningPeriodOfAvailability", 31, 4),
    row(82, TasBetc, "EndingPeriodOfAvailability", 35, 4),
    row(83, TasBetc, "AvailabilityTypeCode", 39, 1),
    row(84, TasBetc, "MainAccountCode", 40, 4),
    row(85, TasBetc, "Sub-accountCode", 44, 3),
    row(86, TasBetc, "BusinessEvent TypeCode", 47, 8),
    row(87, TasBetc, "Amount", 55, 20),
    row(88, TasBetc, "IsCredit?", 75, 1),
    row(89, TasBetc, "Filler", 76, 775),
    row(90, Procurement, "Record Code", 1, 2),
    row(91, Procurement, "PaymentID", 3, 20),
    row(92, Procurement, "ProcurementInstrumentIdentifier", 23, 50),
    row(93, Procurement, "ProcurementAgencyIdentifier", 73, 4),
    row(94, Procurement, "IDV_ProcurementInstrumentIdentifier", 77, 50),
    row(95, Procurement, "IDV_ProcurementAgencyIdentifier", 127, 4),
    row(96, Procurement, "Amount", 131, 20),
    row(97, Procurement, "Filler", 151, 700),
    row(98, BatchTrailer, "Record Code", 1, 2),
    row(99, BatchTrailer, "TotalCount", 3, 8),
    row(100, BatchTrailer, "TotalAmount", 11, 20),
    row(101, BatchTrailer, "Filler", 31, 820),
    row(102, FileTrailer, "Record Code", 1, 2),
    row(103, FileTrailer, "TotalCount_Records", 3, 18),
    row(104, FileTrailer, "TotalCount", 21, 18),
    row(105, FileTrailer, "TotalAmount", 39, 20),
    row(106, FileTrailer, "Filler", 59, 792),
];

/// 01 Bytes: the fillers, which are never looked at.
pub const FILLERS: [u64; 9] = [4, 11, 21, 63, 75, 89, 97, 101, 106];

pub const RECORD: usize = 850;

/// The bytes of a field in a record.
pub const fn place(number: u64) -> std::ops::Range<usize> {
    let field = FIELDS[number as usize - 1];
    field.start - 1..field.start - 1 + field.length
}

pub fn of(record: &[u8], number: u64) -> &[u8] {
    &record[place(number)]
}
