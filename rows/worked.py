"""The worked examples among the rows: what they are told is the same beside any number of workers, to the letter."""

NAMES = [
    "no-operations",
    "message-passing",
    "message-passing-out-of-order",
    "journal-of-the-first-script",
    "reason-of-the-first-script",
    "store-buffering",
    "coherence-of-reads",
    "store-buffering-at-its-budget",
    "store-buffering-below-its-budget",
    "a-mark-within-a-budget-that-is-too-small",
    "an-inconsistent-mark-within-its-budget",
    "a-return-changes-what-can-be-read",
    "numbers-of-marks-after-a-return",
    "test-and-set-lock",
    "fetch-and-add-wraps",
    "minimum-at-the-sign-bit",
    "stores-that-fit",
    "independent-reads",
]
